#!/usr/bin/env python3
"""make_sender_list.py ORACLE [--all FOLDER]: writes crates/check_sender/stdin and stdout, or FOLDER/stdin and stdout.

A list of units with the table and the hash that the oracle's `--hash` gives for their labels: the words of the unit
(kind, a, b, c, d), the table, and hash >> 11, in hexadecimal, and the label. The labels are made here; that of a V6 group by
Python's ipaddress, whose compressed form is RFC 5952's. The expected output says how many lines the list has. The first line of
the output, on the published vectors, is given by their number in the program. With --all the V6 groups are all those with a
field of zero, and a million others.
"""
import ipaddress
import os
import random
import subprocess
import sys

VECTORS = 12
EDGES = [0, 1, 127, 128, 255, 256, 257, 4095, 32767, 32768, 65279, 65280, 65534, 65535]
V6_EDGES = [65536, 0x20010000, 0x20010db8, 2**31 - 1, 2**31, 2**32 - 2, 2**32 - 1]


def key(n):
    return f'key:{n:064x}', [0] + [n >> 64 * k & 2**64 - 1 for k in (3, 2, 1, 0)]


def v4(n):
    return f'v4:{n >> 8}.{n & 255}.0.0/16', [1, n, 0, 0, 0]


def v6(n):
    return f'v6:{ipaddress.IPv6Address(n << 96).compressed}/32', [2, n, 0, 0, 0]


def prefixes(r, is_all):
    """Prefixes with one field of zero, and any."""
    if is_all:
        return list(range(65536)) + [n << 16 for n in range(65536)] + [r.randrange(2**32) for _ in range(10**6)]
    zero = [n << k for k in (0, 16) for n in list(range(256)) + r.sample(range(256, 65536), 600)]
    return zero + [r.randrange(2**32) for _ in range(1600)]


def units(is_all):
    r = random.Random(9923)
    made = [('no-address', [3, 0, 0, 0, 0]), ('overflow', [4, 0, 0, 0, 0])]
    made += [v4(n) for n in EDGES + r.sample(range(65536), 700)]
    made += [v6(n) for n in EDGES + V6_EDGES + r.sample(range(2**32), 800)]
    # each byte of a key alone, at 1 and at 255, so that no two places can be mistaken for each other
    edges = [0, 2**256 - 1, int(bytes(range(32)).hex(), 16)] + [b << 8 * k for k in range(32) for b in (1, 255)]
    made += [key(n) for n in edges + [r.getrandbits(256) for _ in range(1200)]]
    return made + [v6(n) for n in prefixes(r, is_all)]


def main():
    oracle, is_all = sys.argv[1], '--all' in sys.argv
    folder = sys.argv[3] if is_all else os.path.join(os.path.dirname(os.path.dirname(os.path.abspath(__file__))), 'crates', 'check_sender')
    listed = units(is_all)
    answer = subprocess.run([oracle, '--hash'], input=''.join(label + '\n' for label, _ in listed), capture_output=True,
                            text=True, check=True).stdout.splitlines()
    assert len(answer) == len(listed)
    with open(os.path.join(folder, 'stdin'), 'w') as out:
        for (label, words), line in zip(listed, answer):
            table, high = line.split()
            out.write(' '.join(f'{n:x}' for n in words + [int(table), int(high, 16)]) + f' {label}\n')
    with open(os.path.join(folder, 'stdout'), 'w') as out:
        out.write(f'{VECTORS} of {VECTORS} vectors agree\n{len(listed)} of {len(listed)} units agree\n')


main()
