"""Sectors at the edges of the rules, and what the decoder says of them: a part of the program `xa_sectors`.

    python3 -B reference/xa_edges.py cases > FILE       makes the file that the program reads
    python3 -B reference/xa_edges.py answers > FILE     what it prints of them

The file is records of 2,310 bytes, numbers low byte first:

    1 byte          bit 0 stereo, bit 1 8-bit
    2 bytes         the sector's length n
    2 bytes         the output's length
    2,305 bytes     of which the first n are the sector

The histories are zero before the first record, and each record begins with those that the one before it left.  Of each
record the program prints its number and the histories, in decimal, then the samples or what became of the output:

    NUMBER LEFT-OLD LEFT-OLDER RIGHT-OLD RIGHT-OLDER MONO-OLD MONO-OLDER
    SAMPLE ..       18 lines of 224, if the number is 0
    kept            else; `changed`, if the output is not as it was

Left, right and mono each meet every header byte.  An outside decoder does not know the edges: it takes shifts 13 to 15
and header bits 6 and 7 otherwise, and does not compare header copies.
"""
import collections
import random
import struct
import sys

import xa
from xa_cases import DATA, sector_of

RECORD = struct.Struct("<BHH2305s")
Record = collections.namedtuple("Record", "stereo eight_bit length room bytes")


# ---- Good sectors

def channel(rng, quarter, units):
    """Header bytes of one channel.  The first unit is quiet and has filter 2 or 3, so that it shows the history that
    it begins with; the last is loud, and leaves the next sector a high one."""
    first, last = rng.choice((0x2B, 0x3B, 0x2C, 0x3C)), rng.choice((0x12, 0x22, 0x33))
    between = [*quarter, *rng.choices(range(256), k=units - 2 - len(quarter))]
    rng.shuffle(between)
    return [first, *between, last]


def good_sectors(rng):
    """Four stereo sectors and four mono ones, by turns."""
    every = [rng.sample(range(256), 256) for _ in range(3)]
    for k in range(0, 256, 64):
        left, right, mono = (channel(rng, header[k:k + 64], units) for header, units in zip(every, (72, 72, 144)))
        both = [header for pair in zip(left, right) for header in pair]
        yield sector_of(bytes(both), rng.randbytes(DATA))
        yield sector_of(bytes(mono), rng.randbytes(DATA))


# ---- Records

def record(sector, stereo, eight_bit=False, length=2304, room=4032, flip=None):
    """The sector, its length, with a bit flipped: a group, a byte in it and a mask."""
    held = bytearray(sector + sector[:1])
    if flip:
        g, place, mask = flip
        held[128 * g + place] ^= mask
    return Record(stereo, eight_bit, length, room, bytes(held))


def records():
    s1, m1, s2, m2, s3, m3, s4, m4 = good_sectors(random.Random(104))
    return [
        record(s1, True),
        record(m1, False, length=2303),
        record(m1, False),
        record(s2, True, length=2305),
        record(s2, True, room=4031),
        record(s2, True),
        record(m2, False, flip=(0, 0, 0x80)),                   # bit 7 alone, in the first group
        record(s3, True, flip=(0, 13, 0x40)),                   # bit 6 alone
        record(m2, False),
        record(s3, True, eight_bit=True),
        record(m3, False, eight_bit=True, flip=(5, 1, 0x01)),
        record(s3, True),
        record(m3, False, flip=(17, 15, 0x01)),                 # the last copy
        record(s4, True, flip=(17, 2, 0x40)),
        record(m3, False),
        record(s4, True, eight_bit=True, length=2303, flip=(0, 3, 0x10)),
        record(m4, False, eight_bit=True, room=4031, flip=(17, 12, 0x80)),
        record(s4, True, room=4033),
        record(s4, True),
        record(m4, False, length=0),
        record(m4, False, room=0),
        record(m4, False),
    ]


def packed(given):
    return RECORD.pack(given.stereo | given.eight_bit << 1, given.length, given.room, given.bytes)


def answers(reference, given):
    """Of each record what the decoder returns, the output before it and the output after it."""
    histories = reference.Histories()
    for stereo, eight_bit, length, room, held in given:
        before = [0x5A5A] * room
        decoded, after = reference.decode(held[:length], stereo, eight_bit, histories, before)
        yield decoded, before, after
        histories = decoded.histories


def lines(given):
    for decoded, before, after in answers(xa, given):
        yield " ".join(map(str, (decoded.number, *(sample for history in decoded.histories for sample in history))))
        if decoded.number == xa.DONE:
            for first in range(0, xa.SAMPLES, 224):
                yield " ".join(map(str, after[first:first + 224]))
        else:
            yield "kept" if after == before else "changed"


def main():
    if sys.argv[1:] == ["cases"]:
        sys.stdout.buffer.write(b"".join(map(packed, records())))
    elif sys.argv[1:] == ["answers"]:
        print("\n".join(lines(records())))
    else:
        sys.exit("usage: xa_edges.py cases | answers")


if __name__ == "__main__":
    main()
