"""XA speech, written rule by rule from the paper, in unbounded integers.

Sentences in quotation marks are those of request M-104 that the code under them carries; where a place could be read
otherwise, docs/DECISIONS.md says how it is read.
"""
import collections

import spu

SECTOR_BYTES, GROUP_BYTES, SAMPLES = 2304, 128, 4032
DONE, COPIES, EIGHT_BIT, LENGTH = 0, 12, 13, 14
LEFT, RIGHT, MONO = range(3)

# "Left, right and mono each keep a history, zero when made": the last two samples.
History = collections.namedtuple("History", "old older", defaults=(0, 0))
Histories = collections.namedtuple("Histories", "left right mono", defaults=3 * (History(),))
Decoded = collections.namedtuple("Decoded", "number histories")


# ---- The layout

def groups(sector):
    """"sound groups of 128 bytes, 18 to a sector's 2,304" """
    return [sector[first:first + GROUP_BYTES] for first in range(0, SECTOR_BYTES, GROUP_BYTES)]


def copies_differ(group):
    """"bytes 0..3 repeat 4..7, 12..15 repeat 8..11" """
    return group[0:4] != group[4:8] or group[12:16] != group[8:12]


def header(group, unit):
    """"headers in bytes 4..11"; "filter in bits 4-5", so bits 6 and 7 are dropped """
    return group[4 + unit] & 0x3F


def nibbles(group, unit):
    """"data byte 16 + 4*j + k carrying sample j of unit 2k in its low nibble and of unit 2k+1 in its high one" """
    data = group[16 + unit // 2::4]
    return [byte >> 4 for byte in data] if unit % 2 else [byte & 15 for byte in data]


def channel_of(unit, stereo):
    """"In stereo the even units are left" """
    return (LEFT, RIGHT)[unit % 2] if stereo else MONO


def places(g, unit, stereo):
    """"left and right alternate in the output; mono units follow in order": where the samples of group g's unit go """
    if stereo:
        first = 224 * g + 56 * (unit // 2) + unit % 2
        return slice(first, first + 56, 2)
    first = 224 * g + 28 * unit
    return slice(first, first + 28)


# ---- The samples

def decode_unit(group, unit, history):
    """"The sample formula is the one in 01": the unit becomes a block of the chip, whose low nibble comes first."""
    t = nibbles(group, unit)
    block = bytes([header(group, unit), 0, *(first | second << 4 for first, second in zip(t[::2], t[1::2]))])
    return spu.decode(block, history.old, history.older)


# ---- The call

def refusal(sector, eight_bit, out):
    """"given in the order 14, 13, 12" """
    if len(sector) != SECTOR_BYTES or len(out) != SAMPLES:
        return LENGTH                           # "14 sector not 2,304 bytes or output not 4,032 halfwords"
    if eight_bit:
        return EIGHT_BIT                        # "13 8-bit asked for"
    if any(copies_differ(group) for group in groups(sector)):
        return COPIES                           # "12 header copies differ"
    return DONE


def decode(sector, stereo, eight_bit, histories, out):
    """What is returned, and the output after it.  Refused: "the output and history stay as they were" """
    number = refusal(sector, eight_bit, out)
    if number != DONE:
        return Decoded(number, histories), out
    kept, out = list(histories), list(out)
    for g, group in enumerate(groups(sector)):
        for unit in range(8):
            channel = channel_of(unit, stereo)
            samples = decode_unit(group, unit, kept[channel])
            out[places(g, unit, stereo)] = samples
            kept[channel] = History(samples[27], samples[26])
    return Decoded(DONE, Histories(*kept)), out     # "a history .. that carries across groups and sectors"
