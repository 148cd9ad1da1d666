"""Wrong references of the check of encoders, each of which the cases of the fuzz tell apart.

    python3 -B reference/encoder_mutants.py

Each entry is the reference with one rule misread: a name, and texts of encoder.py or of the sample formula in spu.py,
old and new by turns.  An old text stands in one of the two files, exactly once.

Each wrong one checks the first cases of the fuzz up to a different verdict, and the edges of encoder_edges.py too:
`NAME: case N, edge M`.  The edges are short, so the few that misread a long sound are beyond them.  The last line is
`N told apart, M not`.  The status is 0 exactly when the cases tell all of them apart.
"""
import os
import sys
import types

import encoder
import encoder_edges
from encoder_cases import RECIPES, make_case
from encoder_fuzz import answer

HERE = os.path.dirname(os.path.abspath(__file__))
CASES = 6 * len(RECIPES)


def text_of(name):
    with open(os.path.join(HERE, name + ".py"), encoding="utf-8") as file:
        return file.read()


TEXTS = {name: text_of(name) for name in ("encoder", "spu")}

# Texts that several wrong references change.
ZERO = "    old, older = 0, 0\n    for block in blocks:"
CARRIED = "old, older = samples[27], samples[26]"
FAR = "return abs(sample - original) > largest"
PAIRS = "enumerate(zip(samples, group))"
COMPARED = "if too_far(*pair, largest)"
PLACE = "return far[0] if far else 28"
END_FLAG = "return (block[1] & 1 == 1) != last"
FILTER = "return block[0] >> 4 & 7 in (5, 6, 7)"
LAST = "b == len(blocks) - 1"
FAULTS = "yield Faults(False, breaks_end_flag(block, last), breaks_filter(block), sample)"
COUNTS = "if len(groups) != len(blocks):"
EMPTY = "elif len(blocks) == 0:"
LENGTHS = "if len(originals) % GROUP_SAMPLES != 0 or len(encoded) % BLOCK_BYTES != 0:"
REFUSED = "return Verdict(LENGTH)"
SPLIT = "    groups, blocks = parts(originals, GROUP_SAMPLES), parts(encoded, BLOCK_BYTES)\n"
EACH = "enumerate(faults(groups, blocks, largest))"
NO = "return Verdict(DONE, False, found.unpaired, found.end_flag, found.filter, b, found.sample)"
YES = "return Verdict(DONE, True)"
UNPAIRED = "Faults(True, False, False, 28)"
SHIFT = "    if shift > 12:\n        shift = 9"
PREDICTED = "(old * k0 + older * k1 + 32) // 64"
FILTER_4 = "(122, -60)"

WHOLE = "range(0, len(given), size)", "range(0, len(given) - size + 1, size)"   # what is left over is left out


def first_with(condition):
    """Looks first at the blocks of which the condition holds."""
    return EACH, "sorted(%s, key=lambda item: not (%s))" % (EACH, condition.replace("found", "item[1]"))


def hidden(rule, condition):
    """A rule is not named where the condition holds."""
    shown = "28 if %s else %s" if rule == "found.sample" else "not (%s) and %s"
    return NO, NO.replace(rule, shown % (condition, rule))


def refused(originals="len(originals) % GROUP_SAMPLES != 0", encoded="len(encoded) % BLOCK_BYTES != 0"):
    return LENGTHS, "if %s or %s:" % (originals, encoded)


def no_before_23(condition):
    return LENGTHS, "if %s:\n        return Verdict(DONE, False, True, sample=28)\n    %s" % (condition, LENGTHS)


def filters(condition):
    return FILTER, "return " + condition.replace("filter", "(block[0] >> 4 & 7)")


def places(condition):
    """Samples are compared where the condition holds."""
    return COMPARED, "if %s and %s" % (condition, COMPARED[3:])


def looked_at(rule, condition):
    """A rule is looked at where the condition holds."""
    return FAULTS, FAULTS.replace(rule, "%s and %s" % (condition, rule))


WRONG_DISTANCES = (
    ("a distance of E is too far", FAR, FAR.replace(">", ">=")),
    ("a distance of E + 1 is near enough", FAR, FAR.replace("largest", "largest + 1")),
    ("differences wrap", FAR, FAR.replace("sample - original", "spu.s16(sample - original)")),
    ("differences saturate", FAR, FAR.replace("sample - original", "spu.saturate(sample - original)")),
    ("distances wrap", FAR, "return spu.s16(abs(sample - original)) > largest"),
    ("distances saturate", FAR, "return spu.saturate(abs(sample - original)) > largest"),
    ("differences in unsigned 16 bits", FAR, "return (sample - original) & 0xFFFF > largest"),
    ("a sample may lie as far below as it likes", FAR, "return sample - original > largest"),
    ("a sample may lie as far above as it likes", FAR, "return original - sample > largest"),
    ("sizes are compared, not samples", FAR, "return abs(abs(sample) - abs(original)) > largest"),
    ("originals are unsigned", FAR, FAR.replace("original)", "(original & 0xFFFF))")),
    ("E is signed", FAR, FAR.replace("largest", "spu.s16(largest)")),
    ("E in 15 bits", FAR, FAR.replace("largest", "(largest & 0x7FFF)")),
    ("E in 8 bits", FAR, FAR.replace("largest", "(largest & 0xFF)")),
    ("E 0 sets no limit", FAR, "return 0 < largest < abs(sample - original)"),
    ("E 0 lets 1 pass", FAR, FAR.replace("largest", "max(1, largest)")),
    ("E above 32767 sets no limit", FAR, FAR + " and largest < 0x8000"),
    ("E is not looked at", FAR, "return sample != original"),
    ("samples are not compared", FAR, "return False"),
    ("the block's mean distance counts", PLACE,
     PLACE.replace("if far", "if sum(abs(a - b) for a, b in zip(samples, group)) > 28 * largest")),
    ("sample 0 is not compared", *places("place > 0")),
    ("sample 27 is not compared", *places("place < 27")),
    ("sample 0 alone is compared", *places("place == 0")),
    ("sample 27 alone is compared", *places("place == 27")),
    ("even samples alone are compared", *places("place % 2 == 0")),
    ("samples are compared with the originals one before", PAIRS, PAIRS.replace("group", "[0, *group]")),
    ("samples are numbered from 1", PLACE, "return far[0] + 1 if far else 28"),
    ("samples are numbered from 27 down", PLACE, "return 27 - far[0] if far else 28"),
    ("samples are numbered from the sound's beginning", NO,
     NO.replace("found.sample", "found.sample if found.sample == 28 else 28 * b + found.sample")),
    ("the last sample too far is named", PLACE, PLACE.replace("far[0]", "far[-1]")),
    ("the farthest sample is named", PLACE,
     PLACE.replace("far[0]", "max(far, key=lambda place: abs(samples[place] - group[place]))")),
    ("the number of samples too far is named", PLACE, "return len(far) if far else 28"),
    ("no sample too far is 0", NO, NO.replace("found.sample", "found.sample % 28")),
)

WRONG_SAMPLES = (
    ("every block begins with zero", CARRIED, "old, older = 0, 0"),
    ("every block begins with older zero", CARRIED, "old, older = samples[27], 0"),
    ("every block begins with old zero", CARRIED, "old, older = 0, samples[26]"),
    ("old and older exchanged", CARRIED, "older, old = samples[27], samples[26]"),
    ("older is the last sample too", CARRIED, "old, older = samples[27], samples[27]"),
    ("the history is the originals'", "def decoded(blocks):", "def decoded(blocks, groups):",
     "    for block in blocks:", "    for block, group in zip(blocks, groups):",
     CARRIED, "old, older = group[27], group[26]", "decoded(blocks))", "decoded(blocks, groups))"),
    ("the history is zero after a block of filter 0", CARRIED,
     CARRIED + "\n        old, older = (old, older) if block[0] & 0x70 else (0, 0)"),
    ("the history begins with old 1", ZERO, ZERO.replace("0, 0", "1, 0")),
    ("the history begins with older 100", ZERO, ZERO.replace("0, 0", "0, 100")),
    ("the high nibble comes first", "(byte & 15, byte >> 4)", "(byte >> 4, byte & 15)"),
    ("data from byte 1 on", "block[2:16]", "block[1:15]"),
    ("shifts 13 to 15 act as 12", SHIFT, SHIFT.replace("9", "12")),
    ("shifts 13 to 15 act as 8", SHIFT, SHIFT.replace("9", "8")),
    ("shift 12 acts as 9", SHIFT, SHIFT.replace("> 12", "> 11")),
    ("rounded toward zero", PREDICTED, "int((old * k0 + older * k1 + 32) / 64)"),
    ("without 32", PREDICTED, "(old * k0 + older * k1) // 64"),
    ("sums wrap", "new = saturate(", "new = s16("),
    ("filter 4 is 121", FILTER_4, "(121, -60)"),
    ("filter 4 is -59", FILTER_4, "(122, -59)"),
    ("filter 4 acts as 0", FILTER_4, "(0, 0)"),
    ("filter in bits 4-5", "FILTERS[block[0] >> 4 & 7]", "FILTERS[block[0] >> 4 & 3]"),
    ("filter in bits 4-7, 5 to 15 act as 0", "FILTERS[block[0] >> 4 & 7]", "FILTERS[min(5, block[0] >> 4)]"),
)

WRONG_END_FLAGS = (
    ("end flags are not looked at", END_FLAG, "return False"),
    ("the last block may lack the end flag", END_FLAG, END_FLAG + " and not last"),
    ("any block may have the end flag", END_FLAG, END_FLAG + " and last"),
    ("the end flag of the first block alone is looked at", *looked_at("breaks_end_flag(block, last)", "b == 0")),
    ("the end flag of the first block is not looked at", *looked_at("breaks_end_flag(block, last)", "b > 0")),
    ("the end flag of the last block but one is not looked at",
     *looked_at("breaks_end_flag(block, last)", "b != len(blocks) - 2")),
    ("the end flag of a sound of one block is not looked at",
     *looked_at("breaks_end_flag(block, last)", "len(blocks) > 1")),
    ("every block must have the end flag", END_FLAG, "return block[1] & 1 == 0"),
    ("no block may have the end flag", END_FLAG, "return block[1] & 1 == 1"),
    ("the first block must have the end flag", LAST, "b == 0"),
    *(("the end flag is bit %d" % bit, END_FLAG, END_FLAG.replace("block[1] & 1", "block[1] >> %d & 1" % bit))
      for bit in (1, 2, 7)),
    ("the end flag is bit 0 of byte 0", END_FLAG, END_FLAG.replace("block[1]", "block[0]")),
    ("any bit of byte 1 is the end flag", END_FLAG, "return (block[1] != 0) != last"),
    ("byte 1 must be 1 for the end flag", END_FLAG, "return (block[1] == 1) != last"),
    ("byte 1 must be 0 or 1", END_FLAG, "return block[1] != last"),
    ("the end flag is bits 0 and 1", END_FLAG, "return (block[1] & 3 == 3) != last"),
    ("the end flag does not count if bit 1 is set", END_FLAG, "return (block[1] & 3 == 1) != last"),
    ("the last block is that of the originals", LAST, "b == len(groups) - 1"),
    ("the last block is the last with a partner", LAST, "b == min(len(groups), len(blocks)) - 1"),
    ("a sound ends at its first end flag", SPLIT, SPLIT +
     "    ends = [b for b, block in enumerate(blocks) if block[1] & 1]\n"
     "    blocks = blocks[:ends[0] + 1] if ends else blocks\n"),
    ("nothing is looked at after an end flag", SPLIT, SPLIT +
     "    ends = [b for b, block in enumerate(blocks) if block[1] & 1]\n"
     "    groups, blocks = (groups[:ends[0] + 1], blocks[:ends[0] + 1]) if ends else (groups, blocks)\n"),
    ("the block after an early end flag is at fault", NO,
     NO.replace(" b,", " b + (found.end_flag and b < len(blocks) - 1),")),
)

WRONG_FILTERS = (
    ("filters are not looked at", *filters("False")),
    ("filter 4 is a fault", *filters("filter > 3")),
    ("filter 5 is good", *filters("filter > 5")),
    ("filter 6 is good", *filters("filter in (5, 7)")),
    ("filter 7 is good", *filters("filter in (5, 6)")),
    ("filter 7 alone is a fault", *filters("filter == 7")),
    ("a filter has bit 7", FILTER, "return block[0] >> 4 > 4"),
    ("bit 7 is a fault", FILTER, FILTER + " or block[0] > 127"),
    ("bit 7 makes every filter good", FILTER, FILTER + " and block[0] < 128"),
    ("a filter of 5 to 7 in the low nibble", FILTER, "return block[0] & 7 in (5, 6, 7)"),
    ("shifts 13 to 15 are a fault", FILTER, FILTER + " or block[0] & 15 > 12"),
    ("the filter of a block with good samples is not looked at",
     *looked_at("breaks_filter(block)", "sample < 28")),
    ("the filter of the first block is not looked at", *looked_at("breaks_filter(block)", "b > 0")),
    ("the filter of the first block alone is looked at", *looked_at("breaks_filter(block)", "b == 0")),
    ("the filter of the last block is not looked at", *looked_at("breaks_filter(block)", "not last")),
    ("the filter of the last block alone is looked at", *looked_at("breaks_filter(block)", "last")),
)

WRONG_COUNTS = (
    ("counts are not compared", COUNTS, "if False:"),
    ("more blocks are good", COUNTS, "if len(groups) > len(blocks):"),
    ("more originals are good", COUNTS, "if len(groups) < len(blocks):"),
    ("a block too many is good", COUNTS, "if len(groups) not in (len(blocks), len(blocks) - 1):"),
    ("a block too few is good", COUNTS, "if len(groups) not in (len(blocks), len(blocks) + 1):"),
    ("an empty sound is good", EMPTY, "elif False:"),
    ("no blocks are good", COUNTS, "if len(groups) != len(blocks) > 0:", EMPTY, "elif False:"),
    ("no originals are good", COUNTS, "if len(blocks) != len(groups) > 0:", EMPTY, "elif False:"),
    ("an empty sound is refused", SPLIT, SPLIT + "    if not groups and not blocks:\n        return Verdict(LENGTH)\n"),
    ("no blocks are refused", SPLIT, SPLIT + "    if not blocks:\n        return Verdict(LENGTH)\n"),
    ("no originals are refused", SPLIT, SPLIT + "    if not groups:\n        return Verdict(LENGTH)\n"),
    ("an empty sound is a no at block 1", NO, NO.replace(" b,", " 1 if not groups and not blocks else b,")),
    ("an empty sound is not unpaired", NO,
     NO.replace("found.unpaired", "found.unpaired and len(groups) != len(blocks)")),
    ("counts are compared first", *first_with("found.unpaired")),
    ("the last pair is named where the counts differ", NO, NO.replace(" b,", " max(0, b - found.unpaired),")),
    ("the last block is named where the counts differ", NO,
     NO.replace(" b,", " max(len(groups), len(blocks), 1) - 1 if found.unpaired else b,")),
    ("the number of blocks is named where the counts differ", NO,
     NO.replace(" b,", " len(blocks) if found.unpaired else b,")),
    ("the number of groups is named where the counts differ", NO,
     NO.replace(" b,", " len(groups) if found.unpaired else b,")),
    ("block 0 is named where the counts differ", NO, NO.replace(" b,", " 0 if found.unpaired else b,")),
    ("unpaired is not said", NO, NO.replace("found.unpaired", "False")),
    ("an unpaired block lacks the end flag", UNPAIRED, "Faults(True, True, False, 28)"),
    ("an unpaired block has a wrong filter", UNPAIRED, "Faults(True, False, True, 28)"),
    ("an unpaired block's sample 0 is too far", UNPAIRED, "Faults(True, False, False, 0)"),
    ("an unpaired block's own rules are named", NO, NO.replace("found.end_flag, found.filter", (
        "*((breaks_end_flag(blocks[b], b == len(blocks) - 1), breaks_filter(blocks[b]))"
        " if found.unpaired and b < len(blocks) else (found.end_flag, found.filter))"))),
    ("a block's number in 8 bits", NO, NO.replace(" b,", " b & 255,")),
)

WRONG_ORDERS = (
    ("the last block at fault is named", EACH, "reversed(list(%s))" % EACH),
    ("samples are looked at first", *first_with("found.sample < 28")),
    ("end flags are looked at first", *first_with("found.end_flag")),
    ("filters are looked at first", *first_with("found.filter")),
    ("samples are looked at last", *first_with("found.end_flag or found.filter")),
    ("a sample too far hides the end flag", *hidden("found.end_flag", "found.sample < 28")),
    ("a sample too far hides the filter", *hidden("found.filter", "found.sample < 28")),
    ("the end flag hides the filter", *hidden("found.filter", "found.end_flag")),
    ("the end flag hides a sample too far", *hidden("found.sample", "found.end_flag")),
    ("the filter hides the end flag", *hidden("found.end_flag", "found.filter")),
    ("the filter hides a sample too far", *hidden("found.sample", "found.filter")),
    ("blocks are numbered from 1", NO, NO.replace(" b,", " b + 1,")),
    ("a no says yes too", NO, NO.replace("False", "True")),
    ("a yes names block and sample", YES, "return Verdict(DONE, True, block=len(blocks), sample=28)"),
    ("a yes names sample 28", YES, "return Verdict(DONE, True, sample=28)"),
)

WRONG_REFUSALS = (
    ("22 for 23", "DONE, LENGTH = 0, 23", "DONE, LENGTH = 0, 22"),
    ("24 for 23", "DONE, LENGTH = 0, 23", "DONE, LENGTH = 0, 24"),
    ("a refusal says yes", REFUSED, "return Verdict(LENGTH, True)"),
    ("a refusal names sample 28", REFUSED, "return Verdict(LENGTH, sample=28)"),
    ("a refusal says unpaired", REFUSED, "return Verdict(LENGTH, unpaired=True)"),
    ("23 for neither length", LENGTHS, "if False:", *WHOLE),
    ("23 if both lengths are wrong", LENGTHS, LENGTHS.replace(" or ", " and "), *WHOLE),
    ("23 for encoded bytes alone", *refused(originals="False"), *WHOLE),
    ("23 for originals alone", *refused(encoded="False"), *WHOLE),
    ("originals left over are a group", *refused(originals="False")),
    *(("originals in multiples of %d" % size, *refused(originals="len(originals) %% %d != 0" % size), *WHOLE)
      for size in (2, 4, 7, 14)),
    ("originals not of 56", *refused(originals="len(originals) % 56 != 0")),
    *(("encoded bytes in multiples of %d" % size, *refused(encoded="len(encoded) %% %d != 0" % size), *WHOLE)
      for size in (2, 4, 8)),
    ("encoded bytes not of 32", *refused(encoded="len(encoded) % 32 != 0")),
    ("originals not of 16", *refused(originals="len(originals) % 16 != 0"), *WHOLE),
    ("encoded bytes not of 28", *refused(encoded="len(encoded) % 28 != 0"), *WHOLE),
    ("an original too many is left out", *refused(originals="len(originals) % 28 not in (0, 1)"), *WHOLE),
    ("an original too few is borne", *refused(originals="len(originals) % 28 not in (0, 27)")),
    ("a byte too many is left out", *refused(encoded="len(encoded) % 16 not in (0, 1)"), *WHOLE),
    ("a byte too few is borne", *refused(encoded="len(encoded) % 16 not in (0, 15)")),
    ("23 after the empty sound", *no_before_23("len(originals) < 28 and len(encoded) < 16")),
    ("23 after no blocks", *no_before_23("len(encoded) == 0")),
    ("23 after no originals", *no_before_23("len(originals) == 0")),
    ("23 after less than a group", *no_before_23("len(originals) < 28")),
    ("23 after less than a block", *no_before_23("len(encoded) < 16")),
    ("23 after counts that differ", LENGTHS,
     "if len(originals) // 28 == len(encoded) // 16 and (%s):" % LENGTHS[3:-1], *WHOLE),
    ("23 after a block at fault", *WHOLE, LENGTHS, "if False:", YES,
     "return Verdict(LENGTH) if len(originals) % 28 or len(encoded) % 16 else Verdict(DONE, True)"),
    ("a number of originals in 16 bits", LENGTHS, "originals = originals[:len(originals) % 65536]\n    " + LENGTHS),
    ("a number of encoded bytes in 16 bits", LENGTHS, "encoded = encoded[:len(encoded) % 65536]\n    " + LENGTHS),
)
WRONG = (WRONG_DISTANCES + WRONG_SAMPLES + WRONG_END_FLAGS + WRONG_FILTERS + WRONG_COUNTS + WRONG_ORDERS +
         WRONG_REFUSALS)

# Those that misread long sounds alone.
BEYOND_EDGES = (
    "a block's number in 8 bits", "a number of originals in 16 bits", "a number of encoded bytes in 16 bits")


def load(changes=()):
    """The module encoder, and spu under it, with texts replaced, (old, new) each."""
    texts = dict(TEXTS)
    for old, new in changes:
        holding = [name for name, text in texts.items() for _ in range(text.count(old))]
        if len(holding) != 1:
            raise ValueError("to be replaced once, found %d times: %s" % (len(holding), old))
        texts[holding[0]] = texts[holding[0]].replace(old, new)
    module = types.ModuleType("wrong encoder")
    exec(compile(texts["encoder"], "wrong encoder.py", "exec"), module.__dict__)
    if texts["spu"] != TEXTS["spu"]:
        module.spu = types.ModuleType("wrong spu")
        exec(compile(texts["spu"], "wrong spu.py", "exec"), module.spu.__dict__)
    return module


def first_difference(reference, cases, wanted):
    """The place of the first case that it answers otherwise, or None."""
    return next((place for place, case in enumerate(cases) if answer(reference, case) != wanted[place]), None)


def told_apart():
    """Of each wrong reference its name, and the first case and the first edge that it answers otherwise, or None.  One
    that raises an error is a mistake in the list."""
    lists = [make_case(1, number)[0] for number in range(CASES)], encoder_edges.cases()
    wanted = [[answer(encoder, case) for case in cases] for cases in lists]
    for name, *texts in WRONG:
        wrong = load(zip(texts[::2], texts[1::2]))
        yield (name, *(first_difference(wrong, *pair) for pair in zip(lists, wanted)))


def main():
    missed = 0
    for name, case, edge in told_apart():
        missed += case is None
        print("%s: %s, %s" % (name, "not told apart" if case is None else "case %d" % case,
                              "no edge" if edge is None else "edge %d" % edge), flush=True)
    print("%d told apart, %d not" % (len(WRONG) - missed, missed))
    sys.exit(1 if missed else 0)


if __name__ == "__main__":
    main()
