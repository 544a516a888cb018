#!/usr/bin/env python3
"""Writes the tables of the crate fade, src/tables.rt.

Usage: gen.py [ENTRIES_OF_B]     700 if none is given; `long` of specs/Fade.antt has to say the same number.
Nothing here is trusted: the check computes that each entry is the double that the definition gives, and that it is the nearest one.
"""
import os
import struct
import sys

CRATE = os.path.join(os.path.dirname(os.path.abspath(__file__)), '..', 'crates', 'fade')
STEP = 2000  # WINDOW_MS of src/lib.rt: the entries of A, and the milliseconds of one entry of B
ROW = 8  # the entries of a line


def nearest(p, q):
    """The bit pattern of the double nearest exp(-p / q), by the sums of specs/Exp.antt. Python's int / int rounds to the nearest."""
    top = bot = power = 1
    for k in range(1, p * 2 // q + 31):
        power *= p
        top = top * q * k + power
        bot *= q * k
    return struct.unpack('<Q', struct.pack('<d', bot / (top + power)))[0]


def table(name, q, size, length, what):
    """A table of the doubles nearest exp(-p / q). `size` is how the Rattle text says its length."""
    entries = ['0x%016x' % nearest(p, q) for p in range(length)]
    rows = ''.join('    %s,\n' % ', '.join(entries[i:i + ROW]) for i in range(0, length, ROW))
    return '// Entry p is the double nearest %s.\n#[rattlefmt::skip]\npub static %s: [u64; %s] = [\n%s];\n' % (what, name, size, rows)


def tables(long):
    return ('// The tables of the fade. Each entry is the bit pattern of a double. Written by tools/gen.py; the check computes that each is the nearest double.\n\n'
            '// How many entries B has.\nconst LONG: u64 = %d;\n\n'
            '// The tables end at these milliseconds.\npub const END: u64 = super::WINDOW_MS * LONG;\n\n' % long
            + table('A', STEP, '%d' % STEP, STEP, 'exp(-p / %d)' % STEP) + '\n'
            + table('B', 1, '%d' % long, long, 'exp(-p)'))


def main():
    long = int(sys.argv[1]) if len(sys.argv) > 1 else 700
    with open(os.path.join(CRATE, 'src', 'tables.rt'), 'w', encoding='utf-8') as f:
        f.write(tables(long))


if __name__ == '__main__':
    main()
