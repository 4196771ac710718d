#!/usr/bin/env python3
"""Writes small images for opening, each with the answer that the papers demand.

Usage: python3 tests/make_layout_images.py [FOLDER]        (default: crates/layout_images)

FOLDER/stdin   for each image 4 bytes of length (little-endian) and the image's bytes; at the end ff ff ff ff
FOLDER/stdout  for each image one line: the number of the refusal, or `0 KIND COUNT FLAG` for an accepted image

Every case is a valid image with some fields set to other values; which number that gives is written down
next to the case by hand, from the papers. Nothing here computes an answer.
"""
import hashlib
import os
import sys

LARGEST = 2**64 - 1
# A table is at most so long (02, W2). A header may claim more, but more is never made.
LARGEST_TABLE = 0x2000
# The images stay small, since the program that opens them takes in all of them at once and has a limit for that.
LONGEST_IMAGE = 8192
HEADER = 0x100
HEADER_FIELDS = {  # name: (offset within the header, length in bytes)
    "DISA": {
        "opening": (0x00, 8), "count": (0x08, 4), "secondary": (0x10, 8), "primary": (0x18, 8), "table.size": (0x20, 8),
        "A.descriptor.offset": (0x28, 8), "A.descriptor.size": (0x30, 8),
        "B.descriptor.offset": (0x38, 8), "B.descriptor.size": (0x40, 8),
        "A.offset": (0x48, 8), "A.size": (0x50, 8), "B.offset": (0x58, 8), "B.size": (0x60, 8),
        "flag": (0x68, 1), "hash": (0x6C, 32),
    },
    "DIFF": {
        "opening": (0x00, 8), "secondary": (0x08, 8), "primary": (0x10, 8), "table.size": (0x18, 8),
        "A.offset": (0x20, 8), "A.size": (0x28, 8), "flag": (0x30, 4), "hash": (0x34, 32),
    },
}
DIFI_FIELDS = {
    "opening": (0x00, 8), "ivfc.offset": (0x08, 8), "ivfc.size": (0x10, 8), "dpfs.offset": (0x18, 8), "dpfs.size": (0x20, 8),
    "master.offset": (0x28, 8), "master.size": (0x30, 8), "external": (0x38, 1), "selector": (0x39, 1), "external.offset": (0x3C, 8),
}
IVFC_FIELDS = {"opening": (0x00, 8), "master.size": (0x08, 8)}
for level, start in ((1, 0x10), (2, 0x28), (3, 0x40), (4, 0x58)):
    IVFC_FIELDS.update({f"{level}.offset": (start, 8), f"{level}.size": (start + 8, 8), f"{level}.log": (start + 16, 8)})
DPFS_FIELDS = {"opening": (0x00, 8)}
for level, start in ((1, 0x08), (2, 0x20), (3, 0x38)):
    DPFS_FIELDS.update({f"{level}.offset": (start, 8), f"{level}.size": (start + 8, 8), f"{level}.log": (start + 16, 8)})

# The sound partition that every case starts from: four levels of hashes and data packed without gaps, the last block short.
SOUND_PARTITION = {
    "opening": b"DIFI\0\0\1\0", "ivfc.offset": 0x44, "ivfc.size": 0x78, "dpfs.offset": 0xBC, "dpfs.size": 0x50,
    "master.offset": 0x10C, "master.size": 0x20, "external": 0, "selector": 1, "external.offset": LARGEST,
    "ivfc/opening": b"IVFC\0\0\2\0", "ivfc/master.size": 0x20,
    "ivfc/1.offset": 0, "ivfc/1.size": 32, "ivfc/1.log": 5,
    "ivfc/2.offset": 32, "ivfc/2.size": 32, "ivfc/2.log": 5,
    "ivfc/3.offset": 64, "ivfc/3.size": 32, "ivfc/3.log": 5,
    "ivfc/4.offset": 96, "ivfc/4.size": 33, "ivfc/4.log": 6,
    "dpfs/opening": b"DPFS\0\0\1\0",
    "dpfs/1.offset": 0, "dpfs/1.size": 4, "dpfs/1.log": LARGEST,
    "dpfs/2.offset": 8, "dpfs/2.size": 4, "dpfs/2.log": 2,
    "dpfs/3.offset": 16, "dpfs/3.size": 129, "dpfs/3.log": 5,
}
DESCRIPTOR = 0x12C
PARTITION = 16 + 2 * 129
# B's fields in a sound image of two partitions; where there is no B they are zero.
PLACES_OF_B = {"B.descriptor.offset": DESCRIPTOR, "B.descriptor.size": DESCRIPTOR, "B.offset": 0x200 + 4 * DESCRIPTOR + PARTITION, "B.size": PARTITION}


def noise(length, label):
    """Bytes that mean nothing, the same at each run."""
    out = b""
    while len(out) < length:
        out += hashlib.sha256(f"{label} {len(out)}".encode()).digest()
    return out[:length]


def put(target, place, length, value):
    """Lays a number or bytes over `target`; what lies past its end is dropped."""
    data = value if isinstance(value, bytes) else value.to_bytes(length, "little")
    for index, byte in enumerate(data):
        if place + index < len(target):
            target[place + index] = byte


def descriptor(fields):
    """One partition descriptor; a piece that its own fields place outside is written as far as it fits."""
    out = bytearray(noise(DESCRIPTOR, "descriptor"))
    for name, (place, length) in DIFI_FIELDS.items():
        put(out, place, length, fields[name])
    for piece, table in (("ivfc", IVFC_FIELDS), ("dpfs", DPFS_FIELDS)):
        for name, (place, length) in table.items():
            put(out, fields[piece + ".offset"] + place, length, fields[f"{piece}/{name}"])
    return bytes(out)


def image(kind, header=None, a=None, b=None, count=1, flag=1, length=None):
    """A sound image with the given fields changed. The table's hash fits whatever the table holds."""
    tables = count if kind == "DISA" else 1
    size = DESCRIPTOR * tables
    fields = {
        "opening": b"DISA\0\0\4\0" if kind == "DISA" else b"DIFF\0\0\3\0",
        "count": count, "flag": flag, "secondary": 0x200, "primary": 0x200 + size, "table.size": size,
        "A.descriptor.offset": 0, "A.descriptor.size": DESCRIPTOR, "A.offset": 0x200 + 2 * size, "A.size": PARTITION,
        **(PLACES_OF_B if tables == 2 else dict.fromkeys(PLACES_OF_B, 0)),
    }
    sound_end = 0x200 + 2 * size + PARTITION * tables
    fields.update(header or {})
    out = bytearray(noise(sound_end if length is None else length, kind))
    table = bytearray(noise(min(fields["table.size"], LARGEST_TABLE), "table"))
    put(table, fields["A.descriptor.offset"] if kind == "DISA" else 0, 0, descriptor({**SOUND_PARTITION, **(a or {})}))
    if tables == 2:
        put(table, fields["B.descriptor.offset"], 0, descriptor({**SOUND_PARTITION, **(b or {})}))
    fields.setdefault("hash", hashlib.sha256(table).digest())
    put(out, fields["primary"] if fields["flag"] == 0 else fields["secondary"], 0, bytes(table))
    for name, (place, width) in HEADER_FIELDS[kind].items():
        put(out, HEADER + place, width, fields[name])
    return bytes(out)


def flipped(data, place):
    """The same bytes with one bit changed."""
    return data[:place] + bytes([data[place] ^ 1]) + data[place + 1:]


TABLE2 = 2 * DESCRIPTOR
OUTSIDE_FIRST = {"A.offset": 0x200 + PARTITION + 3, "B.offset": 0x203, "primary": 0x200 + 2 * PARTITION + 8,
                 "secondary": 0x200 + 2 * PARTITION + 8 + TABLE2 + 1, "A.descriptor.offset": DESCRIPTOR, "B.descriptor.offset": 0}
EXTERNAL = {"external": 7, "ivfc/4.offset": LARGEST, "dpfs/3.size": 96, "external.offset": 16 + 192, "ivfc/4.size": PARTITION - 16 - 192,
            "ivfc/4.log": 7}
# Level 3 of DPFS has 33 blocks, one more than a level 2 half of 4 bytes has bits.
MANY_BLOCKS = {"dpfs/3.size": 32 * 32 + 1, "dpfs/2.size": 8, "dpfs/3.offset": 24}
MANY_BLOCKS_PARTITION = 24 + 2 * (32 * 32 + 1)
# Level 2 of DPFS has 33 blocks, one more than a level 1 half of 4 bytes has bits.
MANY_WORDS = {"dpfs/2.size": 4 * 33, "dpfs/3.offset": 8 + 8 * 33}
MANY_WORDS_PARTITION = 8 + 8 * 33 + 2 * 129
# Level 4 has two blocks, so that level 3 needs two entries.
TWO_BLOCKS = {"ivfc/4.log": 5, "ivfc/3.size": 64, "ivfc/3.log": 6, "ivfc/4.offset": 128, "dpfs/3.size": 161}
TWO_BLOCKS_PARTITION = 16 + 2 * 161
# A master hash of two entries, at the end of a table of its own length.
TWO_ENTRIES = {"master.size": 0x40, "ivfc/master.size": 0x40}
TWO_ENTRIES_TABLE = DESCRIPTOR + 0x20
TWO_ENTRIES_HEADER = {"table.size": TWO_ENTRIES_TABLE, "primary": 0x200 + TWO_ENTRIES_TABLE, "A.offset": 0x200 + 2 * TWO_ENTRIES_TABLE}


def diff(changes, size=PARTITION):
    """A DIFF image with changed fields of its descriptor, in a partition of the given size."""
    return image("DIFF", {"A.size": size}, changes, length=0x200 + TABLE2 + size)


CASES = [
    # Sound images.
    ("0 DISA 1 1", image("DISA")),
    ("0 DISA 2 0", image("DISA", count=2, flag=0)),
    ("0 DIFF 1 0", image("DIFF", flag=0)),
    ("0 DIFF 1 1", diff(EXTERNAL)),
    ("0 DISA 1 0", image("DISA", flag=0)),
    ("0 DISA 2 1", image("DISA", OUTSIDE_FIRST, count=2, length=0x203 + 2 * PARTITION + 8 + 2 * TABLE2)),
    ("0 DIFF 1 1", flipped(image("DIFF"), 0x200 + DESCRIPTOR)),  # the inactive table may hold anything
    ("0 DIFF 1 1", diff(MANY_BLOCKS, MANY_BLOCKS_PARTITION)),
    ("0 DIFF 1 1", diff(TWO_BLOCKS, TWO_BLOCKS_PARTITION)),
    ("0 DIFF 1 1", diff({"ivfc/1.log": 2**32 + 5, "ivfc/4.log": LARGEST - 2**32 + 7, "dpfs/2.log": 2**63 + 2, "dpfs/3.log": 2**40 + 5})),  # leftovers after logarithms
    ("0 DIFF 1 1", image("DIFF", TWO_ENTRIES_HEADER, TWO_ENTRIES, length=0x200 + 2 * TWO_ENTRIES_TABLE + PARTITION)),
    # 1: the length.
    ("1", b""),
    ("1", image("DISA")[:0x1FF]),
    # 2: the first eight header bytes.
    ("2", bytes(0x200)),
    ("2", image("DISA", {"opening": b"DISA\0\0\3\0"})),
    ("2", image("DIFF", {"opening": b"DIFF\0\0\4\0"})),
    # 3: count and flag, compared whole, and fields of B where there is no B.
    ("3", image("DISA", {"count": 0})),
    ("3", image("DISA", {"count": 3})),
    ("3", image("DISA", {"count": 0x101})),
    ("3", image("DISA", {"flag": 2})),
    ("3", image("DIFF", {"flag": 0x100})),
    ("3", image("DISA", {"B.descriptor.offset": 1})),
    ("3", image("DISA", {"B.descriptor.size": 2**63})),
    ("3", image("DISA", {"B.offset": 2**32})),
    ("3", image("DISA", {"B.size": 0x100}, flag=0)),
    ("3", image("DISA", dict.fromkeys(PLACES_OF_B, LARGEST))),
    ("3", image("DISA", {"count": 1}, count=2)),  # both partitions are there
    ("3", image("DISA", {"B.size": 1, "table.size": 0})),  # 3 comes before 4
    # 4: the header's places and sizes.
    ("4", image("DISA", {"table.size": 0})),
    ("4", image("DISA", {"secondary": 0x1FF})),
    ("4", image("DIFF", {"primary": LARGEST})),
    ("4", image("DIFF", {"A.size": PARTITION + 1})),
    ("4", image("DIFF", {"primary": 0x200 + DESCRIPTOR - 1})),
    ("4", image("DISA", {"A.descriptor.offset": 1})),
    ("4", image("DISA", {"B.descriptor.offset": DESCRIPTOR - 1}, count=2)),
    ("4", image("DISA", {"B.size": 0}, count=2)),
    # 5: the hash of the active table.
    ("5", flipped(image("DISA"), 0x200 + DESCRIPTOR - 1)),
    ("5", flipped(image("DIFF", a={"selector": 2}), HEADER + 0x34)),  # 5 comes before 6
    # 6: opening bytes, piece sizes, selector, logarithms, level sizes.
    ("6", diff({"opening": b"DIFI\0\0\2\0"})),
    ("6", diff({"ivfc/opening": b"IVFC\0\0\1\0"})),
    ("6", diff({"dpfs/opening": b"DPFS\0\1\1\0"})),
    ("6", diff({"ivfc.size": 0x79, "ivfc.offset": LARGEST})),  # outside, and yet its size is judged
    ("6", diff({"master.size": 0, "ivfc/master.size": 0})),
    ("6", diff({"master.size": 0x1F, "ivfc/master.size": 0x1F})),
    ("6", diff({"master.size": 0x21, "ivfc/master.size": 0x21})),
    ("6", diff({"master.size": 0x820, "ivfc/master.size": 0x820})),
    ("6", diff({"ivfc/master.size": 0x40})),
    ("6", diff({"selector": 2})),
    ("6", diff({"ivfc/4.log": 17})),
    ("6", diff({"ivfc/1.log": 2**32 + 4})),  # four bytes are read: 4, whatever follows
    ("6", diff({"dpfs/2.log": 1})),
    ("6", diff({"dpfs/1.size": 6})),
    ("6", diff({"ivfc/3.size": 48})),
    ("6", image("DISA", b={"ivfc/4.size": 0}, count=2)),
    # 7: places, disjointness, enough entries.
    ("7", image("DISA", {"A.descriptor.size": 0x43}, a={"opening": bytes(8)})),  # DIFI itself is outside
    ("7", diff({"dpfs.offset": 0xDD, "dpfs/opening": bytes(8), "master.offset": 0xBC})),  # outside, so not read
    ("7", diff({"master.offset": 0x10B})),
    ("7", diff(TWO_ENTRIES)),  # an allowed size, and no room for it
    ("7", diff({}, PARTITION - 1)),
    ("7", diff({"dpfs/2.offset": 7})),
    ("7", diff({**EXTERNAL, "external.offset": 16 + 191})),
    ("7", diff({"ivfc/4.offset": 97})),  # one byte past ONE half of DPFS level 3
    ("7", diff({"ivfc/2.offset": 31})),
    ("7", diff({**MANY_BLOCKS, "dpfs/2.size": 4}, MANY_BLOCKS_PARTITION)),
    ("7", diff(MANY_WORDS, MANY_WORDS_PARTITION)),
    ("7", diff({**TWO_BLOCKS, "ivfc/3.size": 32}, TWO_BLOCKS_PARTITION)),
    ("7", diff({**TWO_BLOCKS, "ivfc/1.offset": 161, "ivfc/1.size": 64, "dpfs/3.size": 225}, TWO_BLOCKS_PARTITION + 128)),
    ("7", image("DISA", a={"ivfc/2.offset": 31}, b={"selector": 2}, count=2)),  # A's 7 comes before B's 6
    ("7", image("DISA", b={"dpfs/3.offset": LARGEST}, count=2)),
]


def main():
    folder = sys.argv[1] if len(sys.argv) > 1 else os.path.join(os.path.dirname(os.path.abspath(__file__)), "..", "crates", "layout_images")
    os.makedirs(folder, exist_ok=True)
    with open(os.path.join(folder, "stdin"), "wb") as images, open(os.path.join(folder, "stdout"), "w") as answers:
        for answer, data in CASES:
            assert len(data) <= LONGEST_IMAGE, f"an image of {len(data)} bytes is too long"
            images.write(len(data).to_bytes(4, "little") + data)
            answers.write(answer + "\n")
        images.write(b"\xff" * 4)
    print(f"{len(CASES)} images")


if __name__ == "__main__":
    main()
