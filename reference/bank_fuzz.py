"""Sound banks through the C interface and through the reference, compared byte by byte.

    python3 -B reference/bank_fuzz.py [--cases 60000] [--first 0] [--seed 1] PROGRAM ..

PROGRAM is the built host/c/banks.c, with a checker before it if one is wanted.  In each case of bank_cases.py both
banks are checked, entries are read, numbers are looked up, and a bank is written and read back.  The first difference
ends the run: the case is saved beside, and the two results are shown.
"""
import argparse
import collections
import struct
import subprocess
import sys
import time

import bank
from bank_cases import encoded, make_case

BATCH_BYTES = 1 << 21
BATCH_SECONDS = 60                      # more is taken for a program that does not end
Changes = collections.namedtuple("Changes", "lists")

# Each result as host/c/banks.c answers it.
PACKED = {"Checked": struct.Struct("<BBI"), "Fields": struct.Struct("<BHII"), "Found": struct.Struct("<BBIQQ"),
          "Written": struct.Struct("<BQ"), "Changes": struct.Struct("<B")}


# ---- Answers


def answers_of_bank(reference, name, file, numbers):
    yield ("check", name), reference.check(file), b""
    for number in numbers:
        yield ("entry", number, name), reference.read(file, number), b""


def answers_of_pair(reference, name, title, house, numbers):
    yield from answers_of_bank(reference, name, title, numbers)
    for number in numbers:
        found, sound = reference.find(title, house, number), reference.lookup(title, house, number)
        yield ("find", number, name, "house"), found, sound + b"\1"


def answers(reference, case):
    """What the program must answer: the call, its result, and the bytes after it."""
    yield from answers_of_bank(reference, "house", case.house, case.numbers)
    yield from answers_of_pair(reference, "title", case.title, case.house, case.numbers)
    written, buffer = reference.write(*case[4:])
    yield ("write",), written, buffer
    if written.number == 0:
        yield from answers_of_pair(reference, "written part", buffer[:written.length], case.house, case.numbers)
        yield from answers_of_pair(reference, "whole buffer", buffer, case.house, case.numbers)
    yield ("lent lists that changed",), Changes(0), b""


def packed(result, after):
    return PACKED[type(result).__name__].pack(*result) + after


def first_difference(results, ours):
    """The first call that the program answers otherwise, in words."""
    for call, result, after in results:
        wanted, form = packed(result, after), PACKED[type(result).__name__]
        given, ours = ours[:len(wanted)], ours[len(wanted):]
        if given != wanted:
            shown = type(result)._make(form.unpack(given[:form.size])) if len(given) >= form.size else "(nothing)"
            return "%s\n  program   %s %s\n  reference %s %s" % (
                " ".join(map(str, call)), shown, given[form.size:].hex(), result, after.hex())


# ---- The run

def run(program, batch):
    """What the program answers, and how it ends."""
    cases = b"".join(encoded(case) for _, case in batch)
    try:
        ran = subprocess.run(program, input=cases, stdout=subprocess.PIPE, timeout=BATCH_SECONDS)
        return ran.stdout, "status %d" % ran.returncode
    except subprocess.TimeoutExpired as late:
        return late.stdout or b"", "no end after %d s" % BATCH_SECONDS


def compare(program, batch, tally):
    """The first case of a batch that differs, and how; or the whole batch, if the program ends in an error."""
    ours, end = run(program, batch)
    at = 0
    for number, case in batch:
        results = list(answers(bank, case))
        wanted = b"".join(packed(result, after) for _, result, after in results)
        if not ours.startswith(wanted, at):
            return [(number, case)], first_difference(results, ours[at:]) + "\n  " + end
        at += len(wanted)
        tally.update((call[0], result[0]) for call, result, _ in results)
    if len(ours) > at or end != "status 0":
        return batch, "every answer agrees, but %d bytes follow, and the end is %s" % (len(ours) - at, end)
    return None


def batches(seed, first, cases):
    batch, size = [], 0
    for number in range(first, first + cases):
        case, made, damage = make_case(seed, number)
        if damage is not None and bank.damage(made) != damage:
            sys.exit("case %d of seed %d (%s): made to be %s, for the reference it is %s" % (
                number, seed, case.recipe, bank.Damage(*damage), bank.damage(made)))
        batch.append((number, case))
        size += len(case.title) + len(case.house) + len(case.buffer)
        if size > BATCH_BYTES:
            yield batch
            batch, size = [], 0
    if batch:
        yield batch


def report(seed, batch, words):
    first, last = batch[0][0], batch[-1][0]
    which = "cases %d to %d" % (first, last) if last > first else "case %d (%s)" % (first, batch[0][1].recipe)
    name = "bank-fuzz-%d-%d.bin" % (seed, first)
    with open(name, "wb") as saved:
        saved.write(b"".join(encoded(case) for _, case in batch))
    sys.exit("%s, saved as %s: %s\nagain: --seed %d --first %d --cases %d" % (
        which, name, words, seed, first, len(batch)))


def main():
    options = argparse.ArgumentParser()
    options.add_argument("program", nargs="+")
    for name, default in (("cases", 60000), ("first", 0), ("seed", 1)):
        options.add_argument("--" + name, type=int, default=default)
    given = options.parse_args()
    began = shown = time.time()
    done, tally = 0, collections.Counter()
    for batch in batches(given.seed, given.first, given.cases):
        difference = compare(given.program, batch, tally)
        if difference:
            report(given.seed, *difference)
        done += len(batch)
        if time.time() - shown > 5:
            shown = time.time()
            print("%d of %d cases, %.0f s" % (done, given.cases, shown - began), file=sys.stderr, flush=True)
    print("%d cases agree, %d banks and %d that were written" % (done, 2 * done, tally["write", 0]))
    for call in ("check", "entry", "find", "write"):
        print(call + ": " + ", ".join("%d times %d" % (tally[key], key[1]) for key in sorted(tally) if key[0] == call))


if __name__ == "__main__":
    main()
