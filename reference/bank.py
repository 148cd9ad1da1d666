"""Sound banks, written rule by rule from the paper, in unbounded integers.

A bank is the bytes of a file.  Sentences in quotation marks are those of request M-100 that the code under them
carries; where a place could be read otherwise, docs/DECISIONS.md says how it is read.
"""
import collections
import functools
import struct

MOST_ENTRIES = 1024
SOUND, ALIAS = 0, 1                     # "a kind (16 bits: 0 sound, 1 alias)"
GOOD, IN_HEADER, AT_ENTRY = range(3)    # where a bank is damaged
DONE, DAMAGED, NO_ENTRY, ROOM = 0, 9, 10, 24

# "per entry a kind (16 bits ..), an offset and a block count (32 bits each), all low byte first"
ENTRY = struct.Struct("<HII")

Entry = collections.namedtuple("Entry", "kind offset count")
Damage = collections.namedtuple("Damage", "place entry", defaults=(0,))
Checked = collections.namedtuple("Checked", "number place entry")
Fields = collections.namedtuple("Fields", "number kind offset count", defaults=(0, 0, 0))
Found = collections.namedtuple("Found", "number house entry offset length", defaults=(False, 0, 0, 0))
Written = collections.namedtuple("Written", "number length", defaults=(0,))


# ---- The layout

def header_end(n):
    """"The header ends with its last entry." """
    return 2 + 10 * n


@functools.lru_cache(maxsize=8)
def entries(bank):
    """"a header with the entry count (16 bits, at most 1,024), then per entry ..": None if the header is damaged """
    if len(bank) < 2:
        return None
    n = bank[0] + 256 * bank[1]
    if n > MOST_ENTRIES or header_end(n) > len(bank):
        return None
    return tuple(Entry(*fields) for fields in ENTRY.iter_unpack(bank[2:header_end(n)]))


# ---- Damage

def is_sound(entry, n, length):
    """"Every sound lies after it, inside the file, at an offset from the file's start that is a multiple of 16, with
    at least one block." """
    return (entry.kind == SOUND and entry.offset >= header_end(n) and entry.offset + 16 * entry.count <= length
            and entry.offset % 16 == 0 and entry.count >= 1)


def is_alias(entry, k):
    """"An alias's offset is an entry number (from 0) lower than its own and its count is 0" """
    return entry.kind == ALIAS and entry.offset < k and entry.count == 0


@functools.lru_cache(maxsize=8)
def damage(bank):
    """"A short header, any other kind, or an offset or count against these rules is damage." """
    listed = entries(bank)
    if listed is None:
        return Damage(IN_HEADER)
    for k, entry in enumerate(listed):
        if not is_sound(entry, len(listed), len(bank)) and not is_alias(entry, k):
            return Damage(AT_ENTRY, k)
    return Damage(GOOD)


# ---- The calls

def check(bank):
    """"9 .. damaged": the number, and where the bank is damaged first """
    where = damage(bank)
    return Checked(DONE if where.place == GOOD else DAMAGED, *where)


def read(bank, k):
    """Entry k as it stands in the file, good or not, unless the header is damaged."""
    listed = entries(bank)
    if listed is None:
        return Fields(DAMAGED)
    return Fields(DONE, *listed[k]) if k < len(listed) else Fields(NO_ENTRY)


def sound_of(listed, k):
    """"aliases may lead to aliases" """
    while listed[k].kind == ALIAS:
        k = listed[k].offset
    return k


def find(title, house, number):
    """"from the title's bank or, where the title lacks that number, from the house's bank" """
    if damage(title).place != GOOD or damage(house).place != GOOD:
        return Found(DAMAGED)                   # "9 either bank damaged"
    in_house = number >= len(entries(title))
    listed = entries(house if in_house else title)
    if number >= len(listed):
        return Found(NO_ENTRY)                  # "10 no such entry in either"
    k = sound_of(listed, number)
    return Found(DONE, in_house, k, listed[k].offset, 16 * listed[k].count)


def lookup(title, house, number):
    """"the found sample is the caller's own bytes": none if refused"""
    found = find(title, house, number)
    return (house if found.house else title)[found.offset:found.offset + found.length]


def bank_of(kinds, offsets, counts, data):
    """The bank to be written: "entries, then the data as handed in" """
    return struct.pack("<H", len(kinds)) + b"".join(map(ENTRY.pack, kinds, offsets, counts)) + data


def write(kinds, offsets, counts, data, buffer):
    """"Writing a bank .. into a lent buffer": what is returned, and the buffer after it """
    if not len(kinds) == len(offsets) == len(counts) <= MOST_ENTRIES:
        return Written(DAMAGED), buffer
    bank = bank_of(kinds, offsets, counts, data)
    if damage(bank).place != GOOD:
        return Written(DAMAGED), buffer         # "also entries handed to the writer that break the rules"
    if len(buffer) < len(bank):
        return Written(ROOM), buffer            # "24 buffer shorter than the bank to be written"
    return Written(DONE, len(bank)), bank + buffer[len(bank):]
