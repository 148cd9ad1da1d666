"""Two banks, and what each call says of them: the expected output of the program `banks`.

    python3 -B reference/banks.py           writes it
    python3 -B reference/banks.py FOLDER    makes the two files that the program reads

All fields are decimal but the bytes of a sound:

    NAME LENGTH PLACE ENTRY             a bank, and where it is damaged
    entry N NUMBER KIND OFFSET COUNT    up to the first number without an entry
    find N NUMBER HOUSE ENTRY OFFSET LENGTH
    lookup N LENGTH BYTE ..
    write NUMBER LENGTH SAME CHANGED    whether the buffer begins with the bank, and how many bytes past LENGTH changed
"""
import os
import sys

import bank
from bank import ALIAS, SOUND

ROOM = 512                              # the length of the buffer that is written into


def made(length, step, *entries):
    """A bank of that length. No two bytes of its data are alike, so each says where it stands."""
    places = range(bank.header_end(len(entries)), length)
    return bank.bank_of(*zip(*entries), bytes((step * place + 1) % 256 for place in places))


# The header ends at 62, two bytes before the first sound.
TITLE = made(
    197, 7,
    (SOUND, 96, 2),
    (ALIAS, 0, 0),
    (SOUND, 64, 1),
    (ALIAS, 1, 0),
    (SOUND, 112, 2),                    # its first block is the second of entry 0
    (SOUND, 176, 1))                    # bytes of no sound before and after it

# The header ends at 112, where entry 0 begins. Entry 8 ends where the file does.
HOUSE = made(
    240, 11,
    (SOUND, 112, 1),
    (ALIAS, 0, 0),
    (SOUND, 176, 2),
    (SOUND, 128, 2),
    (ALIAS, 2, 0),
    (ALIAS, 4, 0),
    (SOUND, 144, 1),                    # the second block of entry 3
    (ALIAS, 5, 0),                      # to 4, to 2
    (SOUND, 224, 1),
    (ALIAS, 7, 0),                      # to 5, to 4, to 2
    (ALIAS, 0, 0))

# Entry 9 leads to itself.
CHANGED = bank.header_end(9) + 2
DAMAGED = HOUSE[:CHANGED] + b"\x09" + HOUSE[CHANGED + 1:]


def print_bank(name, file):
    print(name, len(file), *bank.damage(file))
    k, number = 0, bank.DONE
    while number == bank.DONE:
        number, *fields = bank.read(file, k)
        print("entry", k, number, *fields)
        k += 1


def print_sound(title, house, n):
    number, in_house, *found = bank.find(title, house, n)
    sound = bank.lookup(title, house, n)
    print("find", n, number, int(in_house), *found)
    print("lookup", n, len(sound), *("%02x" % byte for byte in sound))


def print_written(entries, file, room):
    """These entries and the file's data, written into the first bytes of a buffer."""
    before = bytes(place % 251 for place in range(ROOM))
    data = file[bank.header_end(len(entries)):]
    written, part = bank.write(*zip(*entries), data, before[:room])
    after = part + before[room:]
    changed = sum(after[place] != before[place] for place in range(written.length, ROOM))
    print("write", *written, int(after.startswith(file)), changed)


def main():
    print_bank("title", TITLE)
    print_bank("house", HOUSE)
    for n in (*range(13), 1 << 16, 1 << 31, (1 << 32) - 1):
        print_sound(TITLE, HOUSE, n)
    entries = list(bank.entries(TITLE))
    print_written(entries, TITLE, ROOM)
    print_written(entries, TITLE, len(TITLE) - 1)
    entries[3] = ALIAS, 3, 0
    print_written(entries, TITLE, ROOM)
    print_bank("damaged", DAMAGED)
    for n in (0, 6):
        print_sound(TITLE, DAMAGED, n)


def make(folder):
    for name, file in (("title.bank", TITLE), ("house.bank", HOUSE)):
        with open(os.path.join(folder, name), "wb") as out:
            out.write(file)


if __name__ == "__main__":
    if len(sys.argv) > 1:
        make(sys.argv[1])
    else:
        main()
