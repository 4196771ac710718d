"""blank_images.py PROGRAM [--all]: holds the images that `PROGRAM KIND BLOCKS` writes to a reading of 02, W12 by itself, byte for byte; some sizes, or all."""
import collections
import hashlib
import struct
import subprocess
import sys

MOST = 4096


def up(x, unit):
    return -(-x // unit)


def sha256(data):
    return hashlib.sha256(data).digest()


def numbers(*values):
    return struct.pack(f'<{len(values)}Q', *values)


def digests(level, unit):
    """Of a level's blocks, the last one padded with zeros."""
    blocks = (level[at:at + unit] for at in range(0, len(level), unit))
    return b''.join(sha256(block.ljust(unit, b'\0')) for block in blocks)


def header(kind, partition_size, table):
    tables, partition = numbers(0x200, 0x330, 0x12C), numbers(0x1000, partition_size)
    if kind == 0:
        return b'DISA\0\0\4\0' + numbers(1) + tables + numbers(0, 0x12C, 0, 0) + partition + numbers(0, 0) + bytes(4) + sha256(table)
    return b'DIFF\0\0\3\0' + tables + partition + bytes(4) + sha256(table)


# The sizes of IVFC levels 1 to 3, level 4's place, the sizes of DPFS levels 1 to 3, and level 3's place.
Layout = collections.namedtuple('Layout', 'h1 h2 h3 place4 size1 size2 size3 place3')


def layout(n):
    h3 = 32 * n
    h2 = 32 * up(h3, 0x1000)
    h1 = 32 * up(h2, 0x200)
    place4 = 0x1000 * up(h1 + h2 + h3, 0x1000)
    size3 = place4 + 0x1000 * n
    size2 = 0x80 * up(up(size3, 0x1000), 8 * 0x80)
    size1 = 4 * up(up(size2, 0x80), 8 * 4)
    place3 = 0x1000 * up(2 * size1 + 2 * size2, 0x1000)
    return Layout(h1, h2, h3, place4, size1, size2, size3, place3)


def blank(kind, n):
    level3 = sha256(bytes(0x1000)) * n
    level2 = digests(level3, 0x1000)
    level1 = digests(level2, 0x200)
    h1, h2, h3, place4, size1, size2, size3, place3 = layout(n)
    table = b''.join([
        b'DIFI\0\0\1\0', numbers(0x44, 0x78, 0xBC, 0x50, 0x10C, 0x20), bytes(12),
        b'IVFC\0\0\2\0', numbers(0x20, 0, h1, 9, h1, h2, 9, h1 + h2, h3, 12, place4, 0x1000 * n, 12, 0x78),
        b'DPFS\0\0\1\0', numbers(0, size1, 0, 2 * size1, size2, 7, place3, size3, 12),
        digests(level1, 0x200)])
    image = bytearray(0x1000 + place3 + 2 * size3)
    for at, part in [(0x100, header(kind, place3 + 2 * size3, table)), (0x330, table), (0x1000 + place3, level1 + level2 + level3)]:
        image[at:at + len(part)] = part
    return bytes(image)


def last_before_growth(field):
    """The numbers of blocks with which the field has a value for the last time: the next block makes it grow."""
    values = [getattr(layout(n), field) for n in range(1, MOST + 1)]
    return [n for n in range(1, MOST) if values[n - 1] != values[n]]


def some():
    """The least and the most, and both sides of the first four borders of each field that is rounded up. (DPFS level 1 and level 3's place are too, but
    they are the same for every number of blocks.)"""
    borders = [n for field in ('h1', 'h2', 'place4', 'size2') for n in last_before_growth(field)[:4]]
    return sorted({1, 2, 3, MOST - 1, MOST, *borders, *(n + 1 for n in borders)})


def main(program, which=None):
    sizes = range(1, MOST + 1) if which == '--all' else some()
    wrong = 0
    for n in sizes:
        for kind in (0, 1):
            made = subprocess.run([program, str(kind), str(n)], capture_output=True, check=True).stdout
            if made != blank(kind, n):
                wrong += 1
                print(f'blank: kind {kind}, {n} blocks: another image')
    print(f'blank: {2 * len(sizes)} images, {wrong} wrong')
    return wrong > 0


sys.exit(main(*sys.argv[1:]))
