"""Wrong references of sound banks, each of which the cases of the fuzz tell apart (test_bank.py plays them).

Each entry is the reference with one rule misread: a name, and texts of bank.py, old and new by turns.  An old text
stands there exactly once.
"""
import os
import types

HERE = os.path.dirname(os.path.abspath(__file__))
INSIDE = "entry.offset + 16 * entry.count <= length"
AFTER_HEADER = "entry.offset >= header_end(n)"
LOWER = "entry.offset < k"
COUNT_0 = "entry.count == 0"
JUDGED = "if damage(title).place != GOOD or damage(house).place != GOOD:"
IN_HOUSE = "    in_house = number >= len(entries(title))\n"
LISTED = "    listed = entries(house if in_house else title)\n"
LISTS = "if not len(kinds) == len(offsets) == len(counts) <= MOST_ENTRIES:"
BROKEN = 'return Written(DAMAGED), buffer         # "also'
NO_ROOM = 'return Written(ROOM), buffer '
TOO_SHORT = "if len(buffer) < len(bank):"
ACCEPTED = "return Written(DONE, len(bank)), bank + buffer[len(bank):]"

WRONG = (
    # ---- The layout
    ("the count is one byte", "n = bank[0] + 256 * bank[1]", "n = bank[0]"),
    ("the count's high byte comes first", "n = bank[0] + 256 * bank[1]", "n = 256 * bank[0] + bank[1]"),
    ("high bytes come first in an entry", 'struct.Struct("<HII")', 'struct.Struct(">HII")'),
    ("the block count comes before the offset", 'Entry", "kind offset count"', 'Entry", "kind count offset"'),
    ("1,025 entries are taken", "MOST_ENTRIES = 1024", "MOST_ENTRIES = 1025"),
    ("1,024 entries are too many", "MOST_ENTRIES = 1024", "MOST_ENTRIES = 1023"),
    ("a file of one byte has no entries", "< 2:\n        return None", "< 2:\n        return () if bank else None"),
    ("a file of no byte has no entries", "< 2:\n        return None", "< 2:\n        return None if bank else ()"),
    ("a header a byte longer than the file is good", "header_end(n) > len(bank)", "header_end(n) > len(bank) + 1",
     "bank[2:header_end(n)]", '(bank + b"\\0")[2:header_end(n)]'),
    ("a header as long as the file is too long", "header_end(n) > len(bank)", "header_end(n) >= len(bank)"),

    # ---- Damage
    ("a sound at the header's end is in it", AFTER_HEADER, "entry.offset > header_end(n)"),
    ("a sound in the header's last entry is after it", AFTER_HEADER, "entry.offset >= header_end(n) - 10"),
    ("a sound in the header is good", AFTER_HEADER, "True"),
    ("a sound at the file's end is too long", INSIDE, "entry.offset + 16 * entry.count < length"),
    ("a sound ends in the block that the file ends in", INSIDE, "entry.offset + 16 * entry.count < length + 16"),
    ("a sound begins in the file", INSIDE, "entry.offset < length"),
    ("a sound's end in 32 bits", INSIDE, "(entry.offset + 16 * entry.count) % 2**32 <= length"),
    ("a sound's end in 36 bits", INSIDE, "(entry.offset + 16 * entry.count) % 2**36 <= length"),
    ("a sound's bytes in 32 bits", INSIDE, "entry.offset + 16 * entry.count % 2**32 <= length"),
    ("a sound's end is signed", INSIDE, "((entry.offset + 16 * entry.count + 2**31) % 2**32) - 2**31 <= length"),
    ("offsets are multiples of 8", "entry.offset % 16", "entry.offset % 8"),
    ("offsets are multiples of 32", "entry.offset % 16", "entry.offset % 32"),
    ("offsets count from the header's end", "entry.offset % 16", "(entry.offset - header_end(n)) % 16"),
    ("a sound may have no block", "entry.count >= 1", "entry.count >= 0"),
    ("a sound has two blocks at least", "entry.count >= 1", "entry.count >= 2"),
    ("kind 2 is a sound", "entry.kind == SOUND", "entry.kind in (SOUND, 2)"),
    ("a sound's kind is a byte", "entry.kind == SOUND", "entry.kind % 256 == SOUND"),
    ("all that is no alias is a sound", "entry.kind == SOUND", "entry.kind != ALIAS"),
    ("an alias's kind is a byte", "entry.kind == ALIAS and", "entry.kind % 256 == ALIAS and"),
    ("an alias leads to itself", LOWER, "entry.offset <= k"),
    ("an alias leads anywhere", LOWER, "entry.offset < MOST_ENTRIES"),
    ("entry 0 is an alias of itself", LOWER, "entry.offset < max(k, 1)"),
    ("an alias leads to a sound of higher number than 0", LOWER, "0 < entry.offset < k"),
    ("an alias's offset in 16 bits", LOWER, "entry.offset % 65536 < k"),
    ("an alias's offset is signed", LOWER, "(entry.offset ^ 2**31) - 2**31 < k"),
    ("an alias's count may be anything", COUNT_0, "True"),
    ("an alias's count in 16 bits", COUNT_0, "entry.count % 65536 == 0"),
    ("the last damaged entry is named", "in enumerate(listed):", "in reversed(tuple(enumerate(listed))):"),
    ("damaged entries count from 1", "Damage(AT_ENTRY, k)", "Damage(AT_ENTRY, k + 1)"),

    # ---- Check, entry, find
    ("a damaged header has no number", "DONE if where.place == GOOD", "DONE if where.place != AT_ENTRY"),
    ("entries of a damaged bank are not read", "if listed is None:\n        return Fields",
     "if damage(bank).place != GOOD:\n        return Fields"),
    ("an entry's number in 16 bits", "def read(bank, k):\n", "def read(bank, k):\n    k %= 65536\n"),
    ("the house is not judged", JUDGED, "if damage(title).place != GOOD or entries(house) is None:"),
    ("the house is not judged where the title has the number", JUDGED,
     "if damage(title).place != GOOD or damage(house).place != GOOD and number >= len(entries(title)):"),
    ("the house is found first", IN_HOUSE, "    in_house = number < len(entries(house))\n"),
    ("the house is never found", IN_HOUSE, "    in_house = False\n"),
    ("a number in 16 bits", IN_HOUSE, "    number %= 65536\n" + IN_HOUSE),
    ("the house's numbers follow the title's", LISTED,
     LISTED + "    number -= len(entries(title)) if in_house else 0\n"),
    ("a title's alias leads into the house", "k = sound_of(listed, number)",
     "k = sound_of(entries(house) if number < len(entries(house)) else listed, number)"),
    ("an alias leads one step", "while listed[k].kind == ALIAS:", "if listed[k].kind == ALIAS:"),
    ("the entry asked for is named", "Found(DONE, in_house, k,", "Found(DONE, in_house, number,"),
    ("a length is blocks", "16 * listed[k].count)", "listed[k].count)"),
    ("an offset is of the data", "k, listed[k].offset,", "k, listed[k].offset - header_end(len(listed)),"),

    # ---- Write
    ("lists may have different lengths", LISTS, "if not len(kinds) <= MOST_ENTRIES:"),
    ("the number of entries in 16 bits", LISTS, "if not len(kinds) == len(offsets) == len(counts):",
     'struct.pack("<H", len(kinds))', 'struct.pack("<H", len(kinds) % 65536)'),
    ("24 before 9", "    bank = bank_of(", "    if len(buffer) < header_end(len(kinds)) + len(data):\n"
     "        return Written(ROOM), buffer\n    bank = bank_of("),
    ("entries are judged against the buffer", "    if damage(bank).place != GOOD:\n",
     "    if damage(bank + buffer[len(bank):]).place != GOOD:\n"),
    ("entries are not judged", "    if damage(bank).place != GOOD:\n", "    if False:\n"),
    ("a buffer just long enough is too short", TOO_SHORT, "if len(buffer) <= len(bank):"),
    ("a buffer a byte too short is enough", TOO_SHORT, "if len(buffer) < len(bank) - 1:"),
    ("a refused write begins", NO_ROOM, "return Written(ROOM), bank[:len(buffer)] "),
    ("a damaged bank is written", BROKEN, 'return Written(DAMAGED), bank[:len(buffer)] + buffer[len(bank):]  # "also'),
    ("a refused write names the length", NO_ROOM, "return Written(ROOM, len(bank)), buffer "),
    ("bytes past the bank are cleared", ACCEPTED,
     "return Written(DONE, len(bank)), bank + bytes(len(buffer) - len(bank))"),
    ("the buffer ends with the bank", ACCEPTED, "return Written(DONE, len(bank)), bank"),
    ("the length is the buffer's", ACCEPTED, "return Written(DONE, len(buffer)), bank + buffer[len(bank):]"),
    ("data is padded to a block", "counts)) + data", "counts)) + bytes(-header_end(len(kinds)) % 16) + data"),
    ("data begins a byte later", "counts)) + data", 'counts)) + b"\\0" + data[:-1]'),
)


def load(changes=()):
    """The module bank with texts replaced, (old, new) each."""
    with open(os.path.join(HERE, "bank.py"), encoding="utf-8") as file:
        text = file.read()
    for old, new in changes:
        if text.count(old) != 1:
            raise ValueError("bank.py: to be replaced once, found %d times: %s" % (text.count(old), old))
        text = text.replace(old, new)
    module = types.ModuleType("wrong bank")
    exec(compile(text, "wrong bank.py", "exec"), module.__dict__)
    return module
