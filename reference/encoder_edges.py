"""Sounds of which the program `encoder_cases` says what the check finds: an outside decoder's, and the rules' edges.

    python3 -B reference/encoder_edges.py outside > FILE    makes the outside decoder's sound, data/outside.bin
    python3 -B reference/encoder_edges.py cases > FILE      makes the edges, data/cases.bin
    python3 -B reference/encoder_edges.py answers > FILE    what the program prints of them

The outside sound is 8,064 originals of 2 bytes, and 288 blocks.  The blocks are those of `adpcm_vectors`, with the end
flag in the last; no filter among them is 5 to 7.  The originals are the samples that the outside decoder gave of them.
The edges are records of 438 bytes, numbers low byte first:

    2 bytes         E
    2 bytes         the number n of originals
    2 bytes         the number m of encoded bytes
    336 bytes       of which the first 2n are the originals
    96 bytes        of which the first m are the encoded ones

The rest of a record is A5h, which as a block has the end flag.  The program prints a line for each check:

    yes
    23
    no BLOCK [unpaired] [sample SAMPLE] [end_flag] [filter]

The first four are of the outside sound: as it is with E 0; with original 4,000 changed by 1, with E 0 and E 1; and the
first 100 blocks of that with E 0.
"""
import os
import random
import struct
import sys

import encoder
from encoder_cases import Case, Sound, begin_with, ended_anew

VECTORS = os.path.join(os.path.dirname(os.path.abspath(__file__)), os.pardir, "crates", "adpcm_vectors")
ROOM, BYTES = 168, 96                   # the most originals of a record, and the most encoded bytes
CHANGED = 4000                          # the original that is changed


# ---- The outside sound

def outside():
    with open(os.path.join(VECTORS, "data", "spu-adpcm.spu"), "rb") as file:
        blocks = [bytearray(block) for block in encoder.parts(file.read(), 16)]
    with open(os.path.join(VECTORS, "stdout"), encoding="ascii") as file:
        originals = [int(sample) for sample in file.read().split()]
    for block in blocks:
        block[1] &= 0xFE
    blocks[-1][1] |= 1
    return originals, b"".join(blocks)


def outside_cases():
    originals, blocks = outside()
    changed = list(originals)
    changed[CHANGED] += -1 if changed[CHANGED] == 32767 else 1
    return [Case("outside", 0, originals, blocks), Case("outside", 0, changed, blocks),
            Case("outside", 1, changed, blocks), Case("outside", 0, changed[:2800], blocks[:1600])]


# ---- Changes of a good sound

def at(b, place, distance):
    """An original that is so far above its sample, or below."""
    def change(sound):
        sound.originals[28 * b + place] = sound.samples[28 * b + place] + distance
    return change


def all_at(distance):
    """Every original is that far above or, where there is no room, below; the other way round if it is negative."""
    def change(sound):
        sound.originals = [sample + (distance if -32768 <= sample + distance <= 32767 else -distance)
                           for sample in sound.samples]
    return change


def exact(sound):
    sound.originals = list(sound.samples)


def high(b):
    """Samples 2 to 27 of block b are 32,767."""
    return lambda sound: sound.loud(b, True)


def low(b):
    """Samples 2 to 27 of block b are -32,768."""
    return lambda sound: sound.loud(b, False)


def begun(b, start):
    """The originals of block b begin with a wrong history: the right one is -8192 and then 12288."""
    return lambda sound: begin_with(sound, b, start, -2, 3)


def headers(*bytes_of):
    """Header bytes of the first blocks, with the originals that they give."""
    def change(sound):
        for block, byte in zip(sound.blocks, bytes_of):
            block[0] = byte
        sound.hear()
    return change


def flags(*bytes_of):
    """Flag bytes of the first blocks."""
    def change(sound):
        for block, byte in zip(sound.blocks, bytes_of):
            block[1] = byte
    return change


def order(*numbers):
    """These of the blocks, whose first samples are 0, 4096, 8192 and so on, with the end flag in the last."""
    def change(sound):
        for b, block in enumerate(sound.blocks):
            block[0], block[2] = 0x00, block[2] & 0xF0 | b
        sound.hear()
        ended_anew(sound, [sound.blocks[b] for b in numbers])
    return change


def groups(count):
    """Another number of groups of originals: cut, or continued by silence."""
    def change(sound):
        sound.originals = (sound.originals + [0] * ROOM)[:28 * count]
    return change


def cut(originals, encoded):
    """These lengths: cut, or continued by silence."""
    def change(sound):
        sound.originals = (sound.originals + [0] * ROOM)[:originals]
        sound.blocks = [(b"".join(sound.blocks) + bytes(BYTES))[:encoded]]
    return change


# ---- The edges: the line, the number of blocks, E, and what is changed

EDGES = (
    # Good sounds
    ("yes", 1, 0),
    ("yes", 6, 0),
    ("yes", 6, 1),
    ("yes", 6, 32767),
    ("yes", 6, 65535),
    ("yes", 4, 9, headers(0x14, 0x13, 0x12, 0x11)),
    ("yes", 4, 9, headers(0x24, 0x23, 0x22, 0x21)),
    ("yes", 4, 9, headers(0x34, 0x33, 0x32, 0x31)),
    ("yes", 4, 9, headers(0x44, 0x43, 0x42, 0x41)),
    ("yes", 5, 0, headers(0x0C, 0x9C, 0xA0, 0xBC, 0xCC)),
    ("yes", 6, 0, headers(0x00, 0x0D, 0x1E, 0x2F, 0x3D, 0x4E)),
    ("yes", 6, 0, headers(0x8F, 0x9E, 0xAD, 0xBF, 0xCE, 0x4D)),
    ("yes", 3, 0, flags(0xFE, 0xFE, 0xFF)),
    ("yes", 3, 0, flags(0x00, 0x00, 0x01)),
    ("yes", 4, 0, flags(0x02, 0x04, 0x80, 0x03)),
    ("yes", 1, 0, flags(0x07)),

    # Distances
    ("yes", 4, 7, all_at(7)),
    ("no 0 sample 0", 4, 6, all_at(-7)),
    ("yes", 3, 1, exact, at(1, 13, 1)),
    ("yes", 3, 1, exact, at(1, 13, -1)),
    ("no 1 sample 13", 3, 0, at(1, 13, 1)),
    ("no 1 sample 13", 3, 0, at(1, 13, -1)),
    ("no 0 sample 0", 3, 5, headers(0x0C), at(0, 0, 6)),
    ("no 2 sample 27", 3, 5, headers(0x09, 0x0A, 0x0B), at(2, 27, -6)),
    ("no 1 sample 5", 3, 5, headers(0x09, 0x0A, 0x0B), at(1, 20, 6), at(1, 5, -6)),
    ("no 1 sample 20", 4, 5, headers(0x09, 0x0A, 0x0B, 0x0C), at(3, 2, 6), at(1, 20, 600)),
    ("no 1 sample 1", 3, 255, headers(0x0C, 0x0C, 0x0C), at(1, 1, 256)),

    # Distances that 16 bits do not hold
    ("yes", 3, 65535, high(1), at(1, 5, -65535)),
    ("yes", 3, 65535, low(1), at(1, 5, 65535)),
    ("no 1 sample 5", 3, 65534, high(1), at(1, 5, -65535)),
    ("no 1 sample 5", 3, 65534, low(1), at(1, 5, 65535)),
    ("yes", 3, 65534, high(1), at(1, 27, -65534)),
    ("no 1 sample 27", 3, 65533, high(1), at(1, 27, -65534)),
    ("no 2 sample 2", 3, 0, exact, high(2), at(2, 2, -65535)),
    ("no 2 sample 2", 3, 1, low(2), at(2, 2, 65535)),
    ("no 0 sample 3", 2, 100, high(0), at(0, 3, -65500)),
    ("yes", 2, 32768, high(0), at(0, 3, -32768)),
    ("yes", 2, 32768, low(0), at(0, 3, 32768)),
    ("no 0 sample 3", 2, 32767, high(0), at(0, 3, -32768)),
    ("no 0 sample 3", 2, 32767, low(0), at(0, 3, 32768)),
    ("no 0 sample 4", 2, 32768, high(0), at(0, 4, -32769)),

    # Filters
    ("no 0 filter", 3, 0, headers(0x50)),
    ("no 1 filter", 3, 0, headers(0x49, 0x6C)),
    ("no 2 filter", 3, 0, headers(0x49, 0x4C, 0x7F)),
    ("no 1 filter", 3, 0, headers(0xCB, 0xD3)),
    ("no 0 filter", 1, 65535, headers(0xF0)),
    ("no 1 filter", 5, 0, headers(0x40, 0x51, 0x62, 0x73, 0x54)),

    # End flags
    ("no 0 end_flag", 4, 0, flags(0x01)),
    ("no 1 end_flag", 4, 0, flags(0x00, 0x03)),
    ("no 2 end_flag", 4, 0, flags(0x02, 0x04, 0xFF)),
    ("no 3 end_flag", 4, 0, flags(0x02, 0x04, 0x06, 0x00)),
    ("no 3 end_flag", 4, 0, flags(0x00, 0x00, 0x00, 0xFE)),
    ("no 2 end_flag", 4, 0, flags(0x00, 0x00, 0x01, 0x00)),
    ("no 0 end_flag", 4, 0, flags(0x01, 0x01, 0x01, 0x01)),
    ("no 0 end_flag", 1, 65535, flags(0x06)),

    # Several rules, several blocks
    ("no 2 sample 9 end_flag filter", 4, 50, headers(0x0C, 0x0C, 0x5C), flags(0, 0, 1), at(2, 9, 51)),
    ("no 2 sample 9 end_flag", 4, 50, headers(0x0C, 0x0C, 0x0C), flags(0, 0, 1), at(2, 9, -51)),
    ("no 2 sample 9 filter", 4, 50, headers(0x0C, 0x0C, 0x6C), at(2, 9, 51)),
    ("no 2 end_flag filter", 4, 50, headers(0x0C, 0x0C, 0x7C), flags(0, 0, 1)),
    ("no 3 sample 0 end_flag filter", 4, 50, headers(0, 0, 0, 0x5C), flags(0, 0, 0, 0), at(3, 0, 51)),
    ("no 0 filter", 4, 50, headers(0x5C, 0x0C, 0x0C), flags(0, 1), at(2, 9, 51)),
    ("no 1 end_flag", 4, 50, headers(0x0C, 0x0C, 0x5C), flags(0, 1), at(2, 9, 51)),
    ("no 1 sample 9", 4, 50, headers(0x0C, 0x0C, 0x5C), flags(0, 0, 1), at(1, 9, 51)),

    # Histories
    ("no 2 sample 0", 4, 3000, begun(2, "zero history")),
    ("no 1 sample 0", 4, 0, begun(1, "old alone")),
    ("no 3 sample 0", 4, 3000, begun(3, "old and older exchanged")),
    ("no 2 sample 0", 4, 3000, begun(2, "old twice")),
    ("no 1 sample 0", 4, 2047, order(0, 2, 3, 3)),
    ("no 2 sample 0", 4, 2047, order(0, 1, 1, 2)),

    # Counts
    ("no 3 unpaired", 4, 0, groups(3)),
    ("no 1 unpaired", 6, 0, groups(1)),
    ("no 3 unpaired", 3, 0, groups(4)),
    ("no 1 unpaired", 1, 65535, groups(6)),
    ("no 3 unpaired", 4, 0, headers(0, 0, 0, 0x70), groups(3)),
    ("no 3 unpaired", 5, 0, flags(0, 0, 0, 1, 0), groups(3)),
    ("no 2 end_flag", 4, 0, flags(0, 0, 1, 0), groups(3)),
    ("no 2 end_flag", 4, 0, flags(0, 0, 1, 1), groups(3)),
    ("no 2 end_flag", 3, 0, flags(0, 0, 0), groups(4)),
    ("no 1 sample 4", 4, 0, at(1, 4, 1), groups(3)),
    ("no 2 sample 27", 3, 0, headers(0x0C, 0x0C, 0x0C), at(2, 27, -1), groups(4)),
    ("no 0 filter", 5, 0, headers(0x60), groups(2)),

    # Nothing
    ("no 0 unpaired", 1, 0, cut(0, 0)),
    ("no 0 unpaired", 1, 65535, cut(0, 0)),
    ("no 0 unpaired", 1, 0, groups(0)),
    ("no 0 unpaired", 6, 65535, headers(0x70), flags(1), groups(0)),
    ("no 0 unpaired", 1, 0, cut(28, 0)),
    ("no 0 unpaired", 1, 65535, cut(168, 0)),

    # Lengths
    ("23", 1, 65535, cut(27, 16)),
    ("23", 1, 65535, cut(29, 16)),
    ("23", 1, 65535, cut(28, 15)),
    ("23", 1, 65535, cut(28, 17)),
    ("23", 1, 0, cut(1, 0)),
    ("23", 1, 0, cut(0, 1)),
    ("23", 6, 65535, cut(167, 96)),
    ("23", 6, 65535, cut(168, 95)),
    ("23", 3, 0, headers(0x70), cut(98, 48)),
    ("23", 3, 0, flags(1), cut(84, 40)),
    ("23", 3, 0, cut(88, 48)),
    ("23", 3, 0, cut(91, 48)),
    ("23", 3, 0, cut(84, 52)),
)


def case_of(number, count, largest, *changes):
    sound = Sound(random.Random(113 + number), count, largest)
    for change in changes:
        change(sound)
    return sound.case()


def cases():
    return [case_of(number, *edge) for number, (_, *edge) in enumerate(EDGES)]


# ---- Files and lines

def halfwords(samples):
    return struct.pack("<%dh" % len(samples), *samples)


def packed(case):
    return (struct.pack("<HHH", case.largest, len(case.originals), len(case.encoded)) +
            halfwords(case.originals).ljust(2 * ROOM, b"\xA5") + case.encoded.ljust(BYTES, b"\xA5"))


def answers(reference, given):
    return [reference.check(case.originals, case.encoded, case.largest) for case in given]


def line(verdict):
    if verdict.number != encoder.DONE:
        return str(verdict.number)
    if verdict.yes:
        return "yes"
    sample = "sample %d" % verdict.sample if verdict.sample < 28 else ""
    rules = ("unpaired" * verdict.unpaired, sample, "end_flag" * verdict.end_flag, "filter" * verdict.filter)
    return " ".join(("no %d" % verdict.block, *filter(None, rules)))


def main():
    if sys.argv[1:] == ["outside"]:
        originals, blocks = outside()
        sys.stdout.buffer.write(halfwords(originals) + blocks)
    elif sys.argv[1:] == ["cases"]:
        sys.stdout.buffer.write(b"".join(map(packed, cases())))
    elif sys.argv[1:] == ["answers"]:
        print("\n".join(map(line, answers(encoder, outside_cases() + cases()))))
    else:
        sys.exit("usage: encoder_edges.py outside | cases | answers")


if __name__ == "__main__":
    main()
