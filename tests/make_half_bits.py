#!/usr/bin/env python3
"""Writes what crates/half_bits must print, from the paper's words: bit n of a half is bit 31 - n mod 32 of its 32-bit little-endian word n / 32.

Usage: python3 tests/make_half_bits.py [FILE]        (default: crates/half_bits/stdout)
"""
import os
import sys

PRIME = 4294967291


def mark(half):
    value = 1
    for n in range(8 * len(half)):
        word = int.from_bytes(half[n // 32 * 4:n // 32 * 4 + 4], 'little')
        value = (value * 2 + (word >> (31 - n % 32) & 1)) % PRIME
    return value


def main():
    here = os.path.dirname(os.path.abspath(__file__))
    path = sys.argv[1] if len(sys.argv) > 1 else os.path.join(here, '..', 'crates', 'half_bits', 'stdout')
    half = bytes((y * 7 + y // 256) % 256 for y in range(0x20000))
    with open(path, 'w') as out:
        for length in (4, 0x20000):
            out.write(f'{length} bytes {mark(half[:length])}\n')


main()
