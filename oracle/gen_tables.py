#!/usr/bin/env python3
"""Writes tables.rs of the oracle: the fade's tables A and B and the thresholds of the buckets, as bit patterns of doubles.

usage: gen_tables.py FOLDER
A and B are the doubles nearest to exp(-r/2000) and exp(-q), from decimal's exp at 80 digits; threshold b is the least double
w with w^16 >= 2^b, found with whole numbers. Made another way than the tables of crates/fade (tools/gen.py).
"""
import math
import os
import struct
import sys
from decimal import Decimal, getcontext

getcontext().prec = 80


def nearest(x):
    """The double nearest to x, which lies on no middle of two."""
    f = float(x)
    assert all(abs(Decimal(f) - x) < abs(Decimal(math.nextafter(f, side)) - x) for side in (0, 2))
    return f


def reaches(w, b):
    n, d = w.as_integer_ratio()
    return n ** 16 >= (d ** 16) << b


def threshold(b):
    w = 2.0 ** (b / 16)
    while reaches(w, b):
        w = math.nextafter(w, 0)
    while not reaches(w, b):
        w = math.nextafter(w, math.inf)
    return w


TABLES = {
    'A': [nearest((Decimal(-r) / 2000).exp()) for r in range(2000)],
    'B': [nearest(Decimal(-q).exp()) for q in range(700)],
    'T': [threshold(b) for b in range(768)],
}
with open(os.path.join(sys.argv[1], 'tables.rs'), 'w') as f:
    for name, table in TABLES.items():
        f.write(f'pub static {name}: [u64; {len(table)}] = [\n')
        for x in table:
            f.write(f'    {struct.unpack("<Q", struct.pack("<d", x))[0]:#018x},\n')
        f.write('];\n')
