"""Wrong references of XA speech, each of which the cases of the fuzz tell apart.

    python3 -B reference/xa_mutants.py

Each entry is the reference with one rule misread: a name, and texts of xa.py or of the sample formula in spu.py, old
and new by turns.  An old text stands in one of the two files, exactly once.

Each wrong one plays the first cases of the fuzz up to a different answer, and the records of xa_edges.py too:
`NAME: case N, record M`.  Few records are refused, so some wrong refusals are beyond them.  The last line is
`N told apart, M not`.  The status is 0 exactly when the cases tell all of them apart.
"""
import os
import sys
import types

import xa
import xa_edges
from xa_cases import COPIED, make_case
from xa_fuzz import answers

HERE = os.path.dirname(os.path.abspath(__file__))
CASES = 500


def text_of(name):
    with open(os.path.join(HERE, name + ".py"), encoding="utf-8") as file:
        return file.read()


TEXTS = {name: text_of(name) for name in ("xa", "spu")}

# Texts that several wrong references change.
NUMBERS = "DONE, COPIES, EIGHT_BIT, LENGTH = 0, 12, 13, 14"
GROUPS = "return [sector[first:first + GROUP_BYTES] for first in range(0, SECTOR_BYTES, GROUP_BYTES)]"
COPIES = "return group[0:4] != group[4:8] or group[12:16] != group[8:12]"
ANY_GROUP = "if any(copies_differ(group) for group in groups(sector)):"
HEADER = "return group[4 + unit] & 0x3F"
DATA = "data = group[16 + unit // 2::4]"
NIBBLES = "return [byte >> 4 for byte in data] if unit % 2 else [byte & 15 for byte in data]"
CHANNEL = "return (LEFT, RIGHT)[unit % 2] if stereo else MONO"
STEREO_PLACES = ("first = 224 * g + 56 * (unit // 2) + unit % 2\n"
                 "        return slice(first, first + 56, 2)")
LENGTHS = "if len(sector) != SECTOR_BYTES or len(out) != SAMPLES:"
EIGHT_BIT = "if eight_bit:\n"
REFUSED = "return Decoded(number, histories), out"
KEPT = "    kept, out = list(histories), list(out)\n"
GROUP_BEGINS = "    for g, group in enumerate(groups(sector)):\n"
UNIT_BEGINS = "samples = decode_unit(group, unit, kept[channel])"
UNIT_ENDS = "kept[channel] = History(samples[27], samples[26])"
DECODED = "return Decoded(DONE, Histories(*kept)), out "
SHIFT = "    if shift > 12:\n        shift = 9"
RESIDUE = "(t << (12 - shift))"
PREDICTED = "(old * k0 + older * k1 + 32) // 64"
SATURATED = "new = saturate("
FILTERS = "FILTERS = ((0, 0), (60, 0), (115, -52), (98, -55),"

TEST_13 = "if eight_bit:\n        return EIGHT_BIT\n    "
TEST_12 = ANY_GROUP + "\n        return COPIES\n    "

# A sector is continued by zeros; an output that is not of 4,032 samples takes as many as it has room for.
FILLED_UP = GROUPS, GROUPS.replace("sector[", "(sector + bytes(SECTOR_BYTES))[")
FILLED = (KEPT, "    room, kept, out = len(out), list(histories), list(out) + [0] * SAMPLES\n",
          DECODED, "return Decoded(DONE, Histories(*kept)), out[:room] ")


def filter_0(condition, mask=0x3F):
    """Filter 0 where the condition holds of the header byte."""
    return "byte = group[4 + unit]\n    return byte & (0x0F if %s else %d)" % (condition, mask)


def sector_taken(refused):
    return LENGTHS.replace("len(sector) != SECTOR_BYTES", refused)


def output_taken(refused):
    return LENGTHS.replace("len(out) != SAMPLES", refused)


def compared(places, mask=0xFF):
    """Copies at these places, and these bits of them."""
    return "return any((group[place] ^ group[place ^ 4]) & %d for place in %s)" % (mask, tuple(places))


def of_groups(part):
    return ANY_GROUP.replace("groups(sector)", "groups(sector)" + part)


def or_header(condition):
    """A header byte of which the condition holds is refused, too."""
    return ANY_GROUP.replace(" for group", " or any(%s for byte in group[4:12]) for group" % condition)


def of_copies(function):
    return "return {0}(group[0:4]) != {0}(group[4:8]) or {0}(group[12:16]) != {0}(group[8:12])".format(function)


WRONG_SAMPLES = (
    # ---- The layout
    ("groups begin every 112 bytes", GROUPS, "return [sector[112 * g:112 * g + 128] for g in range(18)]"),
    ("the last group comes first", GROUPS, GROUPS + "[::-1]"),
    ("17 groups", "enumerate(groups(sector))", "enumerate(groups(sector)[:17])"),
    ("headers in bytes 0 to 7", HEADER, "return group[unit] & 0x3F"),
    ("headers in bytes 8 to 15", HEADER, "return group[8 + unit] & 0x3F"),
    ("headers of units 4 to 7 come first", HEADER, "return group[4 + (unit ^ 4)] & 0x3F"),
    ("headers of two units exchanged", HEADER, "return group[4 + (unit ^ 1)] & 0x3F"),
    ("headers of the even units, then of the odd ones", HEADER, "return group[4 + unit // 2 + unit % 2 * 4] & 0x3F"),
    ("one header for two units", HEADER, "return group[4 + (unit & 6)] & 0x3F"),
    ("one header for the group", HEADER, "return group[4] & 0x3F"),
    ("filter in bits 4-6, 5 to 7 act as 0", HEADER, "return group[4 + unit] & 0x7F"),
    ("filter in bits 4-6, 4 to 7 act as 0", HEADER, filter_0("byte & 0x40")),
    ("filter in bits 4-7, 4 to 15 act as 0", HEADER, filter_0("byte > 0x3F")),
    ("filter in bits 4-7, 5 to 15 act as 0", HEADER, filter_0("byte > 0x4F", 0x7F)),
    ("filter in bits 4-7, 4 to 15 act as 3", HEADER, HEADER + " | (0x30 if group[4 + unit] > 0x3F else 0)"),
    ("bit 7 makes filter 0", HEADER, filter_0("byte & 0x80")),
    ("filter in bits 5-6", HEADER, "return group[4 + unit] & 15 | group[4 + unit] >> 1 & 0x30"),
    ("filter in bits 6-7", HEADER, "return group[4 + unit] & 15 | group[4 + unit] >> 2 & 0x30"),
    ("filter in bit 4", HEADER, "return group[4 + unit] & 0x1F"),
    ("filter in bit 5 and bit 7", HEADER, "return group[4 + unit] & 0x2F | group[4 + unit] >> 3 & 0x10"),
    ("shift in the high nibble", HEADER, "return group[4 + unit] >> 4 | (group[4 + unit] & 3) << 4"),
    ("shift in bits 0-2", HEADER, "return group[4 + unit] & 0x37"),
    ("the low nibble is of unit 2k+1", NIBBLES, NIBBLES.replace("if unit % 2", "if unit % 2 == 0")),
    ("a byte holds units k and k+4", DATA, "data = group[16 + unit % 4::4]",
     NIBBLES, NIBBLES.replace("unit % 2", "unit > 3")),
    ("a unit's bytes follow each other", DATA, "data = group[16 + unit // 2 * 28:][:28]"),
    ("a unit's nibbles follow each other", DATA, "data = group[16 + 14 * unit:30 + 14 * unit]",
     NIBBLES, "return [nibble for byte in data for nibble in (byte & 15, byte >> 4)]"),
    ("data from byte 12 on", DATA, "data = group[12 + unit // 2:124:4]"),
    ("the last sample comes first", DATA, "data = group[16 + unit // 2::4][::-1]"),
    ("two samples exchanged", "zip(t[::2], t[1::2])", "zip(t[1::2], t[::2])"),
    ("stereo is not interleaved", "    if stereo:\n", "    if False:\n"),
    ("mono is interleaved", "    if stereo:\n", "    if True:\n"),
    ("right comes first", STEREO_PLACES, STEREO_PLACES.replace("+ unit % 2", "+ 1 - unit % 2")),
    ("left and right are halves of a group", STEREO_PLACES,
     "first = 224 * g + 112 * (unit % 2) + 28 * (unit // 2)\n        return slice(first, first + 28)"),
    ("left and right are halves of the output", STEREO_PLACES,
     "first = 2016 * (unit % 2) + 112 * g + 28 * (unit // 2)\n        return slice(first, first + 28)"),
    ("units 0 to 3 are left", STEREO_PLACES,
     "first = 224 * g + 56 * (unit % 4) + unit // 4\n        return slice(first, first + 56, 2)",
     CHANNEL, CHANNEL.replace("unit % 2", "unit // 4")),

    # ---- The samples
    ("shifts 13 to 15 act as 12", SHIFT, SHIFT.replace("9", "12")),
    ("shifts 13 to 15 act as 10", SHIFT, SHIFT.replace("9", "10")),
    ("shifts 13 to 15 act as 8", SHIFT, SHIFT.replace("9", "8")),
    ("shifts 13 to 15 act as 0", SHIFT, SHIFT.replace("9", "0")),
    ("shifts 13 to 15 shift on", SHIFT, SHIFT.replace("9", "shift"), RESIDUE, "(t << 12 >> shift)"),
    ("shifts 13 to 15 are taken modulo 4", SHIFT, SHIFT.replace("9", "shift % 4")),
    ("shift 12 acts as 9", SHIFT, SHIFT.replace("> 12", "> 11")),
    ("shift 13 acts as 12", SHIFT, SHIFT.replace("shift = 9", "shift = 12 if shift == 13 else 9")),
    ("shift 14 acts as 12", SHIFT, SHIFT.replace("shift = 9", "shift = 12 if shift == 14 else 9")),
    ("shift 15 acts as 12", SHIFT, SHIFT.replace("shift = 9", "shift = 12 if shift == 15 else 9")),
    ("the shift is from 13", RESIDUE, "(t << 13 >> shift)"),
    ("nibbles are unsigned", "t = (nibble ^ 8) - 8", "t = nibble"),
    ("rounded toward zero", PREDICTED, "int((old * k0 + older * k1 + 32) / 64)"),
    ("rounded toward zero, without 32", PREDICTED, "int((old * k0 + older * k1) / 64)"),
    ("without 32", PREDICTED, "(old * k0 + older * k1) // 64"),
    ("31 for 32", PREDICTED, PREDICTED.replace("32", "31")),
    ("33 for 32", PREDICTED, PREDICTED.replace("32", "33")),
    ("each product rounded", PREDICTED, "((old * k0 + 32) // 64 + older * k1 // 64)"),
    ("old and older exchanged in the formula", PREDICTED, "(older * k0 + old * k1 + 32) // 64"),
    ("the prediction is saturated by itself", PREDICTED, "saturate((old * k0 + older * k1 + 32) // 64)"),
    ("sums wrap", SATURATED, "new = s16("),
    ("the history is not saturated", "old, older = new, old",
     "old, older = (t << (12 - shift)) + (old * k0 + older * k1 + 32) // 64, old"),
    ("saturated at -7FFFh", SATURATED, "new = max(-0x7FFF, saturate(", "+ 32) // 64)", "+ 32) // 64))"),
    ("saturated at 7FFEh", SATURATED, "new = min(0x7FFE, saturate(", "+ 32) // 64)", "+ 32) // 64))"),
    ("filters 2 and 3 exchanged", FILTERS, "FILTERS = ((0, 0), (60, 0), (98, -55), (115, -52),"),
    ("filter 1 is 61", FILTERS, FILTERS.replace("60", "61")),
    ("filter 1 has a second weight", FILTERS, FILTERS.replace("(60, 0)", "(60, -1)")),
    ("filter 2 is 116", FILTERS, FILTERS.replace("115", "116")),
    ("filter 2 is -51", FILTERS, FILTERS.replace("-52", "-51")),
    ("filter 3 is 97", FILTERS, FILTERS.replace("98", "97")),
    ("filter 3 is -56", FILTERS, FILTERS.replace("-55", "-56")),

    # ---- Histories
    ("fresh histories are not zero", '"old older", defaults=(0, 0)', '"old older", defaults=(0, 1)'),
    ("histories of left and right exchanged", CHANNEL, CHANNEL.replace("(LEFT, RIGHT)", "(RIGHT, LEFT)")),
    ("left and right share a history", CHANNEL, CHANNEL.replace("(LEFT, RIGHT)", "(LEFT, LEFT)")),
    ("mono has left's history", CHANNEL, CHANNEL.replace("MONO", "LEFT")),
    ("mono has right's history", CHANNEL, CHANNEL.replace("MONO", "RIGHT")),
    ("left has mono's history", CHANNEL, CHANNEL.replace("(LEFT, RIGHT)", "(MONO, RIGHT)")),
    ("mono's even units have left's history, its odd ones right's", CHANNEL, "return (LEFT, RIGHT)[unit % 2]"),
    ("old and older exchanged", UNIT_ENDS, "kept[channel] = History(samples[26], samples[27])"),
    ("older stays", UNIT_ENDS, "kept[channel] = History(samples[27], kept[channel].older)"),
    ("older is the last sample too", UNIT_ENDS, "kept[channel] = History(samples[27], samples[27])"),
    ("every unit begins with zero", UNIT_BEGINS, "samples = decode_unit(group, unit, History())"),
    ("every group begins with zero", GROUP_BEGINS, GROUP_BEGINS +
     "        for used in (LEFT, RIGHT) if stereo else (MONO,):\n            kept[used] = History()\n"),
    ("every group begins with the sector's histories", GROUP_BEGINS, GROUP_BEGINS + "        kept = list(histories)\n"),
    ("every sector begins with zero", KEPT, KEPT +
     "    for used in (LEFT, RIGHT) if stereo else (MONO,):\n        kept[used] = History()\n"),
    ("every sector begins with older zero", KEPT, KEPT +
     "    for used in (LEFT, RIGHT) if stereo else (MONO,):\n        kept[used] = History(kept[used].old, 0)\n"),
    ("the histories are given back as they were", DECODED, "return Decoded(DONE, histories), out "),
    ("a mono sector clears left and right", DECODED,
     "return Decoded(DONE, Histories(*kept) if stereo else Histories(mono=kept[MONO])), out "),
    ("a stereo sector clears mono", DECODED,
     "return Decoded(DONE, Histories(*kept[:2]) if stereo else Histories(*kept)), out "),
    ("a mono sector sets left and right too", DECODED,
     "return Decoded(DONE, Histories(*kept) if stereo else Histories(*3 * (kept[MONO],))), out "),
    ("a stereo sector sets mono to left", DECODED,
     "return Decoded(DONE, Histories(*kept)._replace(mono=kept[LEFT if stereo else MONO])), out "),
)

WRONG_REFUSALS = (
    ("14 and 13 exchanged", NUMBERS, "DONE, COPIES, EIGHT_BIT, LENGTH = 0, 12, 14, 13"),
    ("13 and 12 exchanged", NUMBERS, "DONE, COPIES, EIGHT_BIT, LENGTH = 0, 13, 12, 14"),
    ("order 14, 12, 13", EIGHT_BIT, TEST_12 + EIGHT_BIT),
    ("order 13, 14, 12", LENGTHS, TEST_13 + LENGTHS),
    ("order 13, 12, 14", LENGTHS, TEST_13 + TEST_12 + LENGTHS),
    ("order 12, 14, 13", LENGTHS, TEST_12 + LENGTHS),
    ("order 12, 13, 14", LENGTHS, TEST_12 + TEST_13 + LENGTHS),
    ("an output's length is tested after 13", LENGTHS, output_taken("len(out) != SAMPLES and not eight_bit")),
    ("a sector's length is tested after 13", LENGTHS, sector_taken("len(sector) != SECTOR_BYTES and not eight_bit")),
    ("8-bit is decoded as 4-bit", EIGHT_BIT, "if False:\n"),
    ("a sector's length does not matter", LENGTHS, sector_taken("False"), *FILLED_UP),
    ("a longer sector is taken", LENGTHS, sector_taken("len(sector) < SECTOR_BYTES")),
    *(("a sector of %d bytes is taken" % length, LENGTHS, sector_taken("len(sector) not in (2304, %d)" % length))
      for length in (2305, 2324, 2328, 2336, 2352)),
    ("sectors in whole numbers are taken", LENGTHS, sector_taken("len(sector) % SECTOR_BYTES"), *FILLED_UP),
    ("a sector's length in 16 bits", LENGTHS, sector_taken("len(sector) % 65536 != SECTOR_BYTES")),
    ("a shorter sector is filled up", LENGTHS, sector_taken("len(sector) > SECTOR_BYTES"), *FILLED_UP),
    ("a sector's last byte may be missing", LENGTHS, sector_taken("len(sector) not in (2303, 2304)"), *FILLED_UP),
    ("an empty sector is taken", LENGTHS, sector_taken("len(sector) not in (0, 2304)"), *FILLED_UP),
    ("an output's length does not matter", LENGTHS, output_taken("False"), *FILLED),
    ("a longer output is taken", LENGTHS, output_taken("len(out) < SAMPLES")),
    ("an output of 4,033 is taken", LENGTHS, output_taken("len(out) not in (4032, 4033)")),
    ("an output of 8,064 is taken", LENGTHS, output_taken("len(out) not in (4032, 8064)")),
    ("an output's length in 16 bits", LENGTHS, output_taken("len(out) % 65536 != SAMPLES")),
    ("a shorter output is filled", LENGTHS, output_taken("len(out) > SAMPLES"), *FILLED),
    ("an output of 4,031 is filled", LENGTHS, output_taken("len(out) not in (4031, 4032)"), *FILLED),
    ("an empty output is taken", LENGTHS, output_taken("len(out) not in (0, 4032)"), *FILLED),
    ("copies are not compared", COPIES, "return False"),
    ("copies 0 to 3 are compared alone", COPIES, "return group[0:4] != group[4:8]"),
    ("copies 12 to 15 are compared alone", COPIES, "return group[12:16] != group[8:12]"),
    *(("byte %d is not compared" % left_out, COPIES, compared([place for place in COPIED if place != left_out]))
      for left_out in COPIED),
    ("low nibbles of copies are compared", COPIES, compared(COPIED, 0x0F)),
    ("high nibbles of copies are compared", COPIES, compared(COPIED, 0xF0)),
    ("bits 0-5 of copies are compared", COPIES, compared(COPIED, 0x3F)),
    ("bits 0-6 of copies are compared", COPIES, compared(COPIED, 0x7F)),
    ("bit 6 of copies is not compared", COPIES, compared(COPIED, 0xBF)),
    ("all copies must differ", COPIES, COPIES.replace(" or ", " and ")),
    ("copies at each other's place", COPIES, "return group[0:4] != group[8:12] or group[12:16] != group[4:8]"),
    ("copies may be exchanged", COPIES,
     "return (group[0:4], group[12:16]) not in ((group[4:8], group[8:12]), (group[8:12], group[4:8]))"),
    ("copies in any order", COPIES, of_copies("sorted")),
    ("copies are compared by their sum", COPIES, of_copies("sum")),
    ("copies of the next group will do", ANY_GROUP,
     "if any(copies_differ(group) and copies_differ(group[:4] + after[4:12] + group[12:])\n"
     "           for group, after in zip(groups(sector), groups(sector)[1:] + [bytes(128)])):"),
    ("copies of the first group alone are compared", ANY_GROUP, of_groups("[:1]")),
    ("copies of the last group alone are compared", ANY_GROUP, of_groups("[17:]")),
    ("copies of the first group are not compared", ANY_GROUP, of_groups("[1:]")),
    ("copies of the last group are not compared", ANY_GROUP, of_groups("[:17]")),
    ("copies must differ in all groups", ANY_GROUP, ANY_GROUP.replace("any", "all")),
    ("a header with bit 6 is refused", ANY_GROUP, or_header("byte & 0x40")),
    ("a header with bit 7 is refused", ANY_GROUP, or_header("byte & 0x80")),
    ("shifts 13 to 15 are refused", ANY_GROUP, or_header("byte & 15 > 12")),
    ("groups before a damaged one are written", ANY_GROUP, "if False:", GROUP_BEGINS, GROUP_BEGINS +
     "        if copies_differ(group):\n            return Decoded(COPIES, histories), out\n"),
    ("groups before a damaged one move the histories", ANY_GROUP, "if False:",
     KEPT, KEPT.replace("kept, out", "was, kept, out").replace("= ", "= out, "), GROUP_BEGINS, GROUP_BEGINS +
     "        if copies_differ(group):\n            return Decoded(COPIES, Histories(*kept)), was\n"),
    ("a refusal clears the histories", REFUSED, "return Decoded(number, Histories()), out"),
    ("a refusal for a length clears the histories", REFUSED,
     "return Decoded(number, Histories() if number == LENGTH else histories), out"),
    ("a refusal for 8-bit clears the histories", REFUSED,
     "return Decoded(number, Histories() if number == EIGHT_BIT else histories), out"),
    ("a refusal for copies clears the histories", REFUSED,
     "return Decoded(number, Histories() if number == COPIES else histories), out"),
    ("a refused output is cleared", REFUSED, "return Decoded(number, histories), [0] * len(out)"),
    ("8-bit clears the output", REFUSED,
     "return Decoded(number, histories), [0] * len(out) if number == EIGHT_BIT else out"),
    ("a refused output's first sample is cleared", REFUSED,
     "return Decoded(number, histories), [0, *out[1:]][:len(out)]"),
)
WRONG = WRONG_SAMPLES + WRONG_REFUSALS


def load(changes=()):
    """The module xa, and spu under it, with texts replaced, (old, new) each."""
    texts = dict(TEXTS)
    for old, new in changes:
        holding = [name for name, text in texts.items() for _ in range(text.count(old))]
        if len(holding) != 1:
            raise ValueError("to be replaced once, found %d times: %s" % (len(holding), old))
        texts[holding[0]] = texts[holding[0]].replace(old, new)
    module = types.ModuleType("wrong xa")
    exec(compile(texts["xa"], "wrong xa.py", "exec"), module.__dict__)
    if texts["spu"] != TEXTS["spu"]:
        module.spu = types.ModuleType("wrong spu")
        exec(compile(texts["spu"], "wrong spu.py", "exec"), module.spu.__dict__)
    return module


def first_difference(found, wanted):
    """The place of the first answer that is not the wanted one, or None."""
    return next((place for place, pair in enumerate(zip(found, wanted)) if pair[0] != pair[1]), None)


def play(reference, cases, records):
    """Its answers to the cases, and to the records."""
    return (list(answers(reference, case)) for case in cases), xa_edges.answers(reference, records)


def told_apart():
    """Of each wrong reference its name, and the first case and the first record that it answers otherwise, or None.
    One that raises an error is a mistake in the list."""
    cases, records = [make_case(1, number)[0] for number in range(CASES)], xa_edges.records()
    wanted = list(map(list, play(xa, cases, records)))
    for name, *texts in WRONG:
        yield (name, *map(first_difference, play(load(zip(texts[::2], texts[1::2])), cases, records), wanted))


def main():
    missed = 0
    for name, case, record in told_apart():
        missed += case is None
        print("%s: %s, %s" % (name, "not told apart" if case is None else "case %d" % case,
                              "no record" if record is None else "record %d" % record), flush=True)
    print("%d told apart, %d not" % (len(WRONG) - missed, missed))
    sys.exit(1 if missed else 0)


if __name__ == "__main__":
    main()
