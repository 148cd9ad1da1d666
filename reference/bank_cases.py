"""Cases of sound banks for the fuzz.  Each is made from a seed and its number alone.

A case lends two banks: one is made by a recipe, and the other is nearly always good.  Most recipes break exactly one
rule.  Numbers to look up go with them, and what the writer takes: entries and data of a bank, and a random buffer.
"""
import collections
import random
import struct

ENTRY = struct.Struct("<HII")
GOOD, HEADER, FIRST = (0, 0), (1, 0), (2, 0)    # damaged nowhere, in the header, at entry 0

Case = collections.namedtuple("Case", "recipe title house numbers kinds offsets counts data buffer")


# ---- Good banks

def up(x):
    """The lowest multiple of 16 that is not below x."""
    return -(-x // 16) * 16


class Draft:
    """A good bank of n entries, to be broken or made."""
    def __init__(self, rng, n, aliases=0.4):
        self.rng = rng
        self.end = 2 + 10 * n                   # of the header
        self.first = up(self.end)               # the lowest offset of a sound
        self.blocks = rng.choice((1, 2, 3, 5, 8, 20))
        self.entries = [self.alias(k) if k > 0 and rng.random() < aliases else self.sound() for k in range(n)]
        self.needed = self.first + 16 * self.blocks if n > 0 else self.end
        self.length = self.needed + rng.choice((0, 0, 0, 1, 15, 16, 40))
        if n > 0:
            self.stretch(rng.choice([k for k in range(n) if self.entries[k][0] == 0]))

    def sound(self):
        at = self.rng.randrange(self.blocks)
        return 0, self.first + 16 * at, self.rng.randint(1, self.blocks - at)

    def alias(self, k):
        return 1, self.rng.choice((k - 1, 0, self.rng.randrange(k))), 0

    def stretch(self, k):
        """Lets sound k end where the file may end."""
        offset = self.entries[k][1]
        self.entries[k] = 0, offset, (self.needed - offset) // 16

    def make(self):
        header = struct.pack("<H", len(self.entries)) + b"".join(ENTRY.pack(*entry) for entry in self.entries)
        return header + self.rng.randbytes(self.length - self.end)


def some_size(rng, least=1):
    """Mostly small.  A header of 3, 11, 19, .. entries ends at a multiple of 16."""
    chance = rng.random()
    if chance < 0.01:
        return rng.choice((1019, 1023, 1024))
    if chance < 0.1:
        return rng.randint(13, 120)
    return max(least, rng.choice((1, 2, 3, 3, 4, 5, 6, 8, 11, 11, 12)))


def good(rng):
    return Draft(rng, some_size(rng)).make(), GOOD


def sound_at_header_end(rng):
    draft = Draft(rng, rng.choice((3, 3, 3, 11, 11, 19, 1019)))
    count = draft.sound()[2]
    draft.entries[rng.randrange(len(draft.entries))] = 0, draft.end, count
    draft.length = max(draft.length, draft.end + 16 * count)
    return draft.make(), GOOD


def long_sound(rng):
    draft = Draft(rng, some_size(rng))
    count = rng.randint(100, 1500)
    draft.entries[rng.randrange(len(draft.entries))] = 0, draft.first, count
    draft.length = draft.first + 16 * count + rng.choice((0, 16))
    return draft.make(), GOOD


def chain(rng, n):
    """Every entry after the first is an alias of the one before it."""
    draft = Draft(rng, n)
    draft.entries[1:] = [(1, k - 1, 0) for k in range(1, n)]
    draft.stretch(0)
    return draft.make(), GOOD


# ---- One entry against one rule

def shifted(draft, by):
    """A sound inside the file, off a multiple of 16."""
    _, offset, count = draft.sound()
    draft.length = max(draft.length, offset + by + 16 * count)
    return 0, offset + by, count


def wrapped_blocks(draft):
    """Cut to 32 bits, 16 times the count is that of a good sound."""
    _, offset, count = draft.sound()
    return 0, offset, draft.rng.randint(1, 15) << 28 | count


def wrapped_end(draft, limit):
    """Cut down at the limit, the sound's end lies inside the file."""
    offset = draft.sound()[1]
    end = 16 * draft.rng.randrange(offset // 16)
    return 0, offset, (limit + end - offset) // 16


# The entry, from a draft and the entry's number k.
WRONG_SOUNDS = {
    "kind 2": lambda draft, k: (2, *draft.sound()[1:]),
    "kind 256": lambda draft, k: (256, *draft.sound()[1:]),
    "kind 65535": lambda draft, k: (65535, *draft.sound()[1:]),
    "any other kind": lambda draft, k: (draft.rng.randint(2, 65535), *draft.sound()[1:]),
    "offset 1 past a multiple of 16": lambda draft, k: shifted(draft, 1),
    "offset 8 past a multiple of 16": lambda draft, k: shifted(draft, 8),
    "offset 1 before a multiple of 16": lambda draft, k: shifted(draft, 15),
    "offset no multiple of 16": lambda draft, k: shifted(draft, draft.rng.randint(1, 15)),
    "offset one block too low": lambda draft, k: (0, draft.first - 16, draft.rng.randint(1, 2)),
    "offset in the header": lambda draft, k: (0, 16 * draft.rng.randrange(draft.first // 16), 1),
    "offset 0": lambda draft, k: (0, 0, 1),
    "no block": lambda draft, k: (*draft.sound()[:2], 0),
    "a block too many": lambda draft, k: (0, draft.first, (draft.length - draft.first) // 16 + 1),
    "offset after the file": lambda draft, k: (0, up(draft.length), 1),
    "a high bit of the offset": lambda draft, k: (0, draft.first + (1 << draft.rng.randint(17, 31)), 1),
    "offset FFFFFFF0h": lambda draft, k: (0, 0xFFFFFFF0, draft.rng.randint(1, 3)),
    "offset FFFFFFF0h, many blocks": lambda draft, k: (0, 0xFFFFFFF0, 0x10000000 + draft.rng.randint(0, 3)),
    "count 10000000h": lambda draft, k: (*draft.sound()[:2], 0x10000000),
    "count 80000000h": lambda draft, k: (*draft.sound()[:2], 0x80000000),
    "count FFFFFFFFh": lambda draft, k: (*draft.sound()[:2], 0xFFFFFFFF),
    "blocks wrap in 32 bits": lambda draft, k: wrapped_blocks(draft),
    "the end wraps in 32 bits": lambda draft, k: wrapped_end(draft, 1 << 32),
    "the end wraps in 36 bits": lambda draft, k: wrapped_end(draft, 1 << 36),
}
WRONG_ALIASES = {                               # k from 1 on
    "kind 2, else an alias": lambda draft, k: (2, *draft.alias(k)[1:]),
    "kind 257": lambda draft, k: (257, *draft.alias(k)[1:]),
    "alias to itself": lambda draft, k: (1, k, 0),
    "alias to the next": lambda draft, k: (1, k + 1, 0),
    "alias to a higher number": lambda draft, k: (1, k + draft.rng.randint(1, 1100), 0),
    "alias to 65536 and a lower number": lambda draft, k: (1, 65536 + draft.rng.randrange(k), 0),
    "alias to 2^31 and a lower number": lambda draft, k: (1, (1 << 31) + draft.rng.randrange(k), 0),
    "a high bit of the alias": lambda draft, k: (1, draft.rng.randrange(k) + (1 << draft.rng.randint(11, 31)), 0),
    "alias to FFFFFFFFh": lambda draft, k: (1, 0xFFFFFFFF, 0),
    "alias with a block": lambda draft, k: (*draft.alias(k)[:2], 1),
    "a high bit of an alias's count": lambda draft, k: (*draft.alias(k)[:2], 1 << draft.rng.randint(8, 31)),
}


def broken(rng, wrong, least):
    """A bank with one wrong entry, from the least number on."""
    draft = Draft(rng, some_size(rng, least + 1))
    last = len(draft.entries) - 1
    k = rng.choice((least, last, rng.randint(least, last)))
    draft.entries[k] = wrong(draft, k)
    return draft.make(), (2, k)


def first_an_alias(rng):
    draft = Draft(rng, some_size(rng))
    draft.entries[0] = 1, 0, 0
    return draft.make(), FIRST


# ---- A file too short, a count too high

def last_byte_missing(rng):
    """A sound or more ends a byte after the file."""
    draft = Draft(rng, some_size(rng))
    draft.length = draft.needed - 1
    ends = [offset + 16 * count if kind == 0 else 0 for kind, offset, count in draft.entries]
    return draft.make(), (2, ends.index(draft.needed))


def header_alone(rng):
    draft = Draft(rng, some_size(rng))
    return draft.make()[:draft.end], FIRST


def header_cut(rng, most):
    """Up to so many bytes of the entries are missing."""
    draft = Draft(rng, some_size(rng))
    return draft.make()[:draft.end - rng.randint(1, min(most, draft.end - 2))], HEADER


def too_many(rng):
    """More than 1,024 entries that are good but for their number; mostly in a file that is too short, too."""
    n = rng.choice((1025, 1025, 1026, 1280, 2048, 32768, 65535))
    header = struct.pack("<H", n) + ENTRY.pack(0, up(2 + 10 * n), 1) + ENTRY.pack(1, 0, 0) * (n - 1)
    whole = header + rng.randbytes(32)
    return whole if n < 1100 or rng.random() < 0.1 else whole[:rng.randint(2, 300)], HEADER


# ---- Banks of which no more is known than what the reference says

def edge_fields(rng):
    draft = Draft(rng, some_size(rng))
    n = len(draft.entries)
    edges = (0, 1, 2, n - 1, n, n + 1, 16, draft.first, draft.first - 16, draft.length // 16 * 16, draft.length // 16,
             0xFFFF, 0x10000, 0x7FFFFFFF, 0x80000000, 0x10000000, 0xFFFFFFF0, 0xFFFFFFFF)
    for _ in range(rng.randint(1, 3)):
        k, value = rng.randrange(n), rng.choice(edges)
        kind, offset, count = draft.entries[k]
        draft.entries[k] = rng.choice(((value & 0xFFFF, offset, count), (kind, value, count), (kind, offset, value)))
    return draft.make(), None


def several_wrong(rng):
    draft = Draft(rng, some_size(rng, 3))
    for wrong in rng.sample((*WRONG_SOUNDS.values(), *WRONG_ALIASES.values()), rng.randint(2, 3)):
        k = rng.randrange(1, len(draft.entries))
        draft.entries[k] = wrong(draft, k)
    return draft.make(), None


def bit_flipped(rng):
    draft = Draft(rng, some_size(rng))
    made = bytearray(draft.make())
    made[rng.randrange(draft.end)] ^= 1 << rng.randrange(8)
    return bytes(made), None


def low_bytes(rng):
    """A low count, then bytes that often make an entry."""
    n = rng.randrange(6)
    likely = rng.choices((0, 1, 2, 16, 32, 48, 64), (30, 5, 1, 1, 3, 3, 3), k=10 * n + rng.randrange(120))
    return bytes([n, 0, *likely]), None


# ---- Recipes: a name, and what makes a bank and says where it is damaged (None: the reference says it)

RECIPES = [
    *((name, lambda rng, wrong=wrong: broken(rng, wrong, 0)) for name, wrong in WRONG_SOUNDS.items()),
    *((name, lambda rng, wrong=wrong: broken(rng, wrong, 1)) for name, wrong in WRONG_ALIASES.items()),
    ("entry 0 an alias", first_an_alias),
    ("no byte", lambda rng: (b"", HEADER)),
    ("one byte", lambda rng: (rng.choice((b"\0", rng.randbytes(1))), HEADER)),
    ("two bytes, not 0", lambda rng: (struct.pack("<H", rng.choice((1, 2, 256, 1024, 1025, 65535))), HEADER)),
    ("the header's last byte missing", lambda rng: header_cut(rng, 1)),
    ("bytes of the header missing", lambda rng: header_cut(rng, 10240)),
    ("the header alone", header_alone),
    ("the last byte missing", last_byte_missing),
    ("1,025 entries", lambda rng: (Draft(rng, 1025).make(), HEADER)),
    ("more than 1,024 entries", too_many),
    ("edges in fields", edge_fields),
    ("several wrong entries", several_wrong),
    ("a bit flipped", bit_flipped),
    ("low bytes", low_bytes),
    ("random bytes", lambda rng: (rng.randbytes(rng.randrange(200)), None)),
    ("random bytes, a low count", lambda rng: (bytes([rng.randrange(8), 0]) + rng.randbytes(rng.randrange(200)), None)),
    ("no entries", lambda rng: (b"\0\0", GOOD)),
    ("no entries, then bytes", lambda rng: (b"\0\0" + rng.randbytes(rng.randint(1, 60)), GOOD)),
    ("a chain of 1,023 aliases", lambda rng: chain(rng, 1024)),
    ("a chain of aliases", lambda rng: chain(rng, rng.randint(2, 100))),
    ("1,024 sounds", lambda rng: (Draft(rng, 1024, aliases=0).make(), GOOD)),
    ("1,024 entries", lambda rng: (Draft(rng, 1024).make(), GOOD)),
    ("a long sound", long_sound),
    *4 * [("a sound at the header's end", sound_at_header_end)],
    *20 * [("a good bank", good)],
]


# ---- Cases

def count_of(file):
    return int.from_bytes(file[:2], "little")


def some_numbers(rng, title, house):
    numbers = {0, 1023, 1024, 65535, 65536 + rng.randrange(4), 1 << 31, (1 << 31) + rng.randrange(4), (1 << 32) - 1}
    for n in (count_of(title), count_of(house)):
        numbers |= {max(n, 1) - 1, n, n + 1, rng.randrange(n + 1), 65536 + rng.randrange(n + 1)}
    return sorted(numbers)


def handed_in(rng, file):
    """Kinds, offsets, counts and data for the writer: those of the file, mostly as they stand."""
    end = 2 + 10 * count_of(file)
    entries, data = list(ENTRY.iter_unpack(file[2:end])), file[end:]
    chance = rng.random()
    if chance < 0.01:
        entries, data = [(0, up(2 + 10 * 1025), 1)] + [(1, 0, 0)] * 1024, rng.randbytes(64)
    elif chance < 0.015:
        entries += [(1, 0, 0)] * 65536          # in 16 bits, as many as before
    elif chance < 0.05:
        data = rng.choice((data[:-1], data + b"\0", b"", data[1:]))
    lists = [[entry[field] for entry in entries] for field in range(3)]
    if 0.05 <= chance < 0.15:
        one = rng.randrange(3)
        lists[one] = rng.choice(([], lists[one] + [0], lists[one][:-1], 2 * lists[one]))
    return (*lists, data)


def some_buffer(rng, n, data):
    """As long as a bank of n entries with so many bytes of data needs, longer, or too short."""
    needed = 2 + 10 * n + data
    if rng.random() < 0.6:
        return rng.randbytes(needed + rng.choice((0, 0, 0, 1, 16, rng.randrange(200))))
    return rng.randbytes(rng.choice((needed - 1, needed - 1, 0, 1, 2, 2 + 10 * n, data, rng.randrange(needed))))


def make_case(seed, number):
    """A case, its bank that the recipe made, and where that one is damaged."""
    rng = random.Random(seed * 1000003 + number)
    recipe, make = RECIPES[number % len(RECIPES)]
    made, damage = make(rng)
    other = (rng.choice(RECIPES)[1] if rng.random() < 0.05 else good)(rng)[0]
    title, house = rng.choice(((made, other), (other, made)))
    written = rng.choice((made, made, other))
    if len(written) < 2 or count_of(written) > 1024 or 2 + 10 * count_of(written) > len(written):
        written = good(rng)[0]
    kinds, offsets, counts, data = handed_in(rng, written)
    buffer, numbers = some_buffer(rng, len(kinds), len(data)), some_numbers(rng, title, house)
    return Case(recipe, title, house, numbers, kinds, offsets, counts, data, buffer), made, damage


def encoded(case):
    """As host/c/banks.c takes it: of each list the count and the elements."""
    lists = []
    for width, values in zip("BBIHIIBB", case[1:]):
        lists.append(struct.pack("<Q", len(values)))
        lists.append(values if width == "B" else struct.pack("<%d%s" % (len(values), width), *values))
    return b"".join(lists)
