"""The check of encoders, written rule by rule from the paper, in unbounded integers.

Sentences in quotation marks are those of request M-113 that the code under them carries; where a place could be read
otherwise, docs/DECISIONS.md says how it is read.
"""
import collections

import spu

GROUP_SAMPLES, BLOCK_BYTES = 28, 16
DONE, LENGTH = 0, 23

# What is wrong with a block: the rules that it breaks, and its first sample too far from the original.
Faults = collections.namedtuple("Faults", "unpaired end_flag filter sample")
NO_FAULT, UNPAIRED = Faults(False, False, False, 28), Faults(True, False, False, 28)

Verdict = collections.namedtuple("Verdict", "number yes unpaired end_flag filter block sample",
                                 defaults=(False, False, False, False, 0, 0))


# ---- The rules

def parts(given, size):
    return [given[first:first + size] for first in range(0, len(given), size)]


def decoded(blocks):
    """"decoded by 01's formula from zero history" """
    old, older = 0, 0
    for block in blocks:
        samples = spu.decode(block, old, older)
        yield samples
        old, older = samples[27], samples[26]


def too_far(sample, original, largest):
    """"each sample .. lies within E of its original" """
    return abs(sample - original) > largest


def first_too_far(samples, group, largest):
    far = [place for place, pair in enumerate(zip(samples, group)) if too_far(*pair, largest)]
    return far[0] if far else 28


def breaks_end_flag(block, last):
    """"the last encoded block, and no other, has the end flag" """
    return (block[1] & 1 == 1) != last


def breaks_filter(block):
    """"no filter is 5..7" """
    return block[0] >> 4 & 7 in (5, 6, 7)


# ---- The call

def faults(groups, blocks, largest):
    """What is wrong with each block, in order."""
    for b, (group, block, samples) in enumerate(zip(groups, blocks, decoded(blocks))):
        last, sample = b == len(blocks) - 1, first_too_far(samples, group, largest)
        yield Faults(False, breaks_end_flag(block, last), breaks_filter(block), sample)
    if len(groups) != len(blocks):
        yield UNPAIRED                          # "the first block without a partner counts as at fault"
    elif len(blocks) == 0:
        yield UNPAIRED                          # "An empty sound is a no at block 0."


def check(originals, encoded, largest):
    if len(originals) % GROUP_SAMPLES != 0 or len(encoded) % BLOCK_BYTES != 0:
        return Verdict(LENGTH)                  # "before anything is decoded"
    groups, blocks = parts(originals, GROUP_SAMPLES), parts(encoded, BLOCK_BYTES)
    for b, found in enumerate(faults(groups, blocks, largest)):
        if found != NO_FAULT:                   # "A no names the first block at fault"
            return Verdict(DONE, False, found.unpaired, found.end_flag, found.filter, b, found.sample)
    return Verdict(DONE, True)
