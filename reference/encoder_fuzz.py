"""Encoded sounds through the C interface and through the reference, compared field by field.

    python3 -B reference/encoder_fuzz.py [--cases 20000] [--first 0] [--seed 1] PROGRAM ..

PROGRAM is the built host/c/encoder.c, with a checker before it if one is wanted.  Each case of encoder_cases.py checks
one sound; every field of the verdict is compared, and the lent originals and blocks must stay.  The first difference
ends the run: the case is saved beside, and the two results are shown.
"""
import argparse
import collections
import struct
import subprocess
import sys
import time

import encoder
from encoder_cases import encoded, make_case

BATCH_BYTES = 1 << 21                   # of cases
BATCH_SECONDS = 60                      # more is taken for a program that does not end
ANSWER = struct.Struct("<6B2Q")         # number to filter, what changed of the lent parts, block, sample


# ---- Answers

def answer(reference, case):
    return reference.check(case.originals, case.encoded, case.largest)


def packed(verdict):
    return ANSWER.pack(*verdict[:5], 0, *verdict[5:])


def in_words(given):
    if len(given) < ANSWER.size:
        return "(nothing)"
    number, yes, unpaired, end_flag, wrong_filter, changed, block, sample = ANSWER.unpack(given)
    return "number %d, yes %d, block %d, unpaired %d, sample %d, end_flag %d, filter %d%s" % (
        number, yes, block, unpaired, sample, end_flag, wrong_filter,
        ("", ", the originals changed", ", the blocks changed", ", originals and blocks changed")[changed & 3])


def difference(case, verdict, given):
    return "%d originals, %d bytes, E %d\n  program   %s\n  reference %s" % (
        len(case.originals), len(case.encoded), case.largest, in_words(given), in_words(packed(verdict)))


# ---- The run

def run(program, batch):
    """What the program answers, and how it ends."""
    cases = b"".join(encoded(case) for _, case, _ in batch)
    try:
        ran = subprocess.run(program, input=cases, stdout=subprocess.PIPE, timeout=BATCH_SECONDS)
        return ran.stdout, "status %d" % ran.returncode
    except subprocess.TimeoutExpired as late:
        return late.stdout or b"", "no end after %d s" % BATCH_SECONDS


def rules_of(verdict):
    """The rules that the named block breaks, in words."""
    broken = [name for name in ("unpaired", "end_flag", "filter") if getattr(verdict, name)]
    return " and ".join(broken + ["sample"] if verdict.sample < 28 else broken)


def count(tally, case, verdict):
    refused = verdict.number != encoder.DONE
    tally["verdict", verdict.number if refused else "yes" if verdict.yes else "no"] += 1
    if not refused:
        tally["E", "0" if case.largest == 0 else "above 32767" if case.largest > 32767 else "1 to 32767"] += 1
    if not refused and not verdict.yes:
        tally["at fault", rules_of(verdict)] += 1
        tally["place", "block 0" if verdict.block == 0 else "block 1 or later"] += 1


def compare(program, batch, tally):
    """The first case of a batch that differs, and how; or the whole batch, if the program ends in an error."""
    ours, end = run(program, batch)
    for k, (number, case, verdict) in enumerate(batch):
        given = ours[k * ANSWER.size:(k + 1) * ANSWER.size]
        if given != packed(verdict):
            return [batch[k]], difference(case, verdict, given) + "\n  " + end
        count(tally, case, verdict)
    more = len(ours) - len(batch) * ANSWER.size
    if more > 0 or end != "status 0":
        return batch, "every answer agrees, but %d bytes follow, and the end is %s" % (more, end)
    return None


def batches(seed, first, cases):
    batch, size = [], 0
    for number in range(first, first + cases):
        case, said = make_case(seed, number)
        verdict = answer(encoder, case)
        if (verdict.number, verdict.yes, verdict.block) != said:
            sys.exit("case %d of seed %d (%s): made to give %s, for the reference it gives %s" % (
                number, seed, case.recipe, "number %d, yes %d, block %d" % said, in_words(packed(verdict))))
        batch.append((number, case, verdict))
        size += 2 * len(case.originals) + len(case.encoded)
        if size > BATCH_BYTES:
            yield batch
            batch, size = [], 0
    if batch:
        yield batch


def report(seed, batch, words):
    first, last = batch[0][0], batch[-1][0]
    which = "cases %d to %d" % (first, last) if last > first else "case %d (%s)" % (first, batch[0][1].recipe)
    name = "encoder-fuzz-%d-%d.bin" % (seed, first)
    with open(name, "wb") as saved:
        saved.write(b"".join(encoded(case) for _, case, _ in batch))
    sys.exit("%s, saved as %s: %s\nagain: --seed %d --first %d --cases %d" % (
        which, name, words, seed, first, len(batch)))


def main():
    options = argparse.ArgumentParser()
    options.add_argument("program", nargs="+")
    for name, default in (("cases", 20000), ("first", 0), ("seed", 1)):
        options.add_argument("--" + name, type=int, default=default)
    given = options.parse_args()
    began = shown = time.time()
    done, tally = 0, collections.Counter()
    for batch in batches(given.seed, given.first, given.cases):
        found = compare(given.program, batch, tally)
        if found:
            report(given.seed, *found)
        done += len(batch)
        if time.time() - shown > 5:
            shown = time.time()
            print("%d of %d cases, %.0f s" % (done, given.cases, shown - began), file=sys.stderr, flush=True)
    print("%d cases agree" % done)
    for kind in ("verdict", "at fault", "place", "E"):
        keys = sorted((key for key in tally if key[0] == kind), key=str)
        print(kind + ": " + ", ".join("%d times %s" % (tally[key], key[1]) for key in keys))


if __name__ == "__main__":
    main()
