"""XA sectors through the C interface and through the reference, compared sample by sample.

    python3 -B reference/xa_fuzz.py [--cases 20000] [--first 0] [--seed 1] PROGRAM ..

PROGRAM is the built host/c/xa.c, with a checker before it if one is wanted.  Each case of xa_cases.py decodes a sector
or several in turn; number, histories and the whole output are compared, and the lent sector must stay.  The first
difference ends the run: the case is saved beside, and the two results are shown.
"""
import argparse
import collections
import struct
import subprocess
import sys
import time

import xa
from xa_cases import CARRIED, FRESH, encoded, make_case

BATCH_BYTES = 1 << 23                   # of answers
BATCH_SECONDS = 60                      # more is taken for a program that does not end
BEFORE = -0x5A5B                        # A5A5h, each sample of the output before the call
ANSWER = struct.Struct("<B6hB")         # number, histories, whether the sector changed


# ---- Answers

def begin_of(reference, call, carried):
    if call.begin == CARRIED:
        return carried
    if call.begin == FRESH:
        return reference.Histories()
    return reference.Histories(*map(reference.History, call.begin[::2], call.begin[1::2]))


def answers(reference, case):
    """What the program must answer to each call: the result, and the output."""
    carried = None
    for call in case.calls:
        decoded, out = reference.decode(call.sector, call.stereo, call.eight_bit, begin_of(reference, call, carried),
                                        [BEFORE] * call.room)
        yield decoded, out
        carried = decoded.histories


def packed(decoded, out):
    left, right, mono = decoded.histories
    return ANSWER.pack(decoded.number, *left, *right, *mono, 0) + struct.pack("<%dh" % len(out), *out)


def in_words(answer):
    if len(answer) < ANSWER.size:
        return "(nothing)"
    number, *histories, changed = ANSWER.unpack(answer[:ANSWER.size])
    return "number %d, left %d %d, right %d %d, mono %d %d%s" % (
        number, *histories, ", the sector changed" if changed else "")


def samples(answer):
    return [sample for sample, in struct.iter_unpack("<h", answer[ANSWER.size:len(answer) & ~1])]


def first_difference(case, results, ours):
    """The first call that the program answers otherwise, in words."""
    for k, (call, result) in enumerate(zip(case.calls, results), 1):
        wanted = packed(*result)
        given, ours = ours[:len(wanted)], ours[len(wanted):]
        if given != wanted:
            differing = [place for place, pair in enumerate(zip(samples(given), result[1])) if pair[0] != pair[1]]
            first = "" if not differing else "\n  %d samples differ; sample %d: program %d, reference %d" % (
                len(differing), differing[0], samples(given)[differing[0]], result[1][differing[0]])
            return "call %d of %d, %s, %s%d bytes for %d samples\n  program   %s\n  reference %s%s" % (
                k, len(case.calls), "stereo" if call.stereo else "mono", "8-bit, " if call.eight_bit else "",
                len(call.sector), call.room, in_words(given), in_words(wanted), first)


# ---- The run

def run(program, batch):
    """What the program answers, and how it ends."""
    cases = b"".join(encoded(case) for _, case in batch)
    try:
        ran = subprocess.run(program, input=cases, stdout=subprocess.PIPE, timeout=BATCH_SECONDS)
        return ran.stdout, "status %d" % ran.returncode
    except subprocess.TimeoutExpired as late:
        return late.stdout or b"", "no end after %d s" % BATCH_SECONDS


def count(tally, case, results):
    number = xa.DONE
    for call, (decoded, out) in zip(case.calls, results):
        begin = call.begin if call.begin in (FRESH, CARRIED) else "given"
        tally["histories", begin if number == xa.DONE else begin + " after a refusal"] += 1
        number = decoded.number
        tally["number", number] += 1
        if number == xa.DONE:
            tally["decoded", "stereo" if call.stereo else "mono"] += 1
            for end in (-32768, 32767):
                tally["sample", end] += out.count(end)


def compare(program, batch, tally):
    """The first case of a batch that differs, and how; or the whole batch, if the program ends in an error."""
    ours, end = run(program, batch)
    at = 0
    for number, case in batch:
        results = list(answers(xa, case))
        wanted = b"".join(packed(*result) for result in results)
        if not ours.startswith(wanted, at):
            return [(number, case)], first_difference(case, results, ours[at:at + len(wanted)]) + "\n  " + end
        at += len(wanted)
        count(tally, case, results)
    if len(ours) > at or end != "status 0":
        return batch, "every answer agrees, but %d bytes follow, and the end is %s" % (len(ours) - at, end)
    return None


def batches(seed, first, cases):
    batch, size = [], 0
    for number in range(first, first + cases):
        case, numbers = make_case(seed, number)
        said = tuple(xa.refusal(call.sector, call.eight_bit, range(call.room)) for call in case.calls)
        if said != numbers:
            sys.exit("case %d of seed %d (%s): made to give %s, for the reference it gives %s" % (
                number, seed, case.recipe, numbers, said))
        batch.append((number, case))
        size += sum(len(call.sector) + 2 * call.room for call in case.calls)
        if size > BATCH_BYTES:
            yield batch
            batch, size = [], 0
    if batch:
        yield batch


def report(seed, batch, words):
    first, last = batch[0][0], batch[-1][0]
    which = "cases %d to %d" % (first, last) if last > first else "case %d (%s)" % (first, batch[0][1].recipe)
    name = "xa-fuzz-%d-%d.bin" % (seed, first)
    with open(name, "wb") as saved:
        saved.write(b"".join(encoded(case) for _, case in batch))
    sys.exit("%s, saved as %s: %s\nagain: --seed %d --first %d --cases %d" % (
        which, name, words, seed, first, len(batch)))


def main():
    options = argparse.ArgumentParser()
    options.add_argument("program", nargs="+")
    for name, default in (("cases", 20000), ("first", 0), ("seed", 1)):
        options.add_argument("--" + name, type=int, default=default)
    given = options.parse_args()
    began = shown = time.time()
    done, tally = 0, collections.Counter()
    for batch in batches(given.seed, given.first, given.cases):
        difference = compare(given.program, batch, tally)
        if difference:
            report(given.seed, *difference)
        done += len(batch)
        if time.time() - shown > 5:
            shown = time.time()
            print("%d of %d cases, %.0f s" % (done, given.cases, shown - began), file=sys.stderr, flush=True)
    print("%d cases agree, %d sectors" % (done, sum(tally[key] for key in tally if key[0] == "number")))
    for kind in ("number", "decoded", "sample", "histories"):
        print(kind + ": " + ", ".join("%d times %s" % (tally[key], key[1]) for key in sorted(tally) if key[0] == kind))


if __name__ == "__main__":
    main()
