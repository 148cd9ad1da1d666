"""Cases of XA sectors for the fuzz.  Each is made from a seed and its number alone.

A case is one call or several.  Its first call begins with fresh histories or with given ones, so no case needs the one
before it.  Each later call begins with the histories that the call before it left.
"""
import collections
import random
import struct

FRESH, CARRIED = "fresh", "carried"     # what a call begins with, if not with six given samples
SECTOR, SAMPLES, UNITS, DATA = 2304, 4032, 144, 2016
COPIED = (0, 1, 2, 3, 12, 13, 14, 15)   # where a group has copies of header bytes

# Wrong lengths.  A disc has sectors of 2,324 bytes and more; of the last of each, 16 bits are those of the right one.
LENGTHS = 0, 1, 128, 2176, 2303, 2305, 2324, 2328, 2336, 2352, 2432, 4608, 65536 + SECTOR
ROOMS = 0, 1, 224, 2016, 4031, 4033, 4064, 8064, 65536 + SAMPLES
DONE, COPIES, EIGHT_BIT, LENGTH = 0, 12, 13, 14

Call = collections.namedtuple("Call", "stereo eight_bit begin sector room")     # room: the length of the output
Case = collections.namedtuple("Case", "recipe calls")


# ---- Sectors

def sector_of(headers, data):
    """A sector of 144 header bytes, each copy as it must be, and 18 times 112 bytes of data."""
    groups = []
    for g in range(18):
        eight = headers[8 * g:8 * g + 8]
        groups += [eight[:4], eight, eight[4:], data[112 * g:112 * g + 112]]
    return b"".join(groups)


def some_headers(rng, filters=range(4), shifts=range(16), upper=range(4)):
    """Any of these in each unit; upper is bits 6 and 7."""
    return bytes(rng.choice(upper) << 6 | rng.choice(filters) << 4 | rng.choice(shifts) for _ in range(UNITS))


HEADERS = {
    "any header": lambda rng: rng.randbytes(UNITS),
    "plain headers": lambda rng: some_headers(rng, shifts=range(13), upper=(0,)),
    "shifts 13 to 15": lambda rng: some_headers(rng, shifts=(13, 14, 15)),
    "bit 6": lambda rng: some_headers(rng, upper=(1,)),
    "bit 7": lambda rng: some_headers(rng, upper=(2,)),
    "bits 6 and 7": lambda rng: some_headers(rng, upper=(3,)),
    "low shifts": lambda rng: some_headers(rng, shifts=(0, 0, 1, 2)),
    "high shifts": lambda rng: some_headers(rng, shifts=(9, 10, 11, 12)),
    "no filter 0": lambda rng: some_headers(rng, filters=(1, 2, 3)),
    "one header": lambda rng: rng.randbytes(1) * UNITS,
}


def runs(rng):
    """Stretches of the highest nibble and of the lowest."""
    stretches = [rng.choice((b"\x77", b"\x88", b"\x78", b"\x87")) * rng.randint(1, 300) for _ in range(200)]
    return b"".join(stretches)[:DATA]


NIBBLES = {
    "any nibbles": lambda rng: rng.randbytes(DATA),
    "nibbles 7 and 8": lambda rng: bytes(rng.choices((0x77, 0x78, 0x87, 0x88), k=DATA)),
    "long runs of 7 and 8": runs,
    "nibbles -1, 0 and 1": lambda rng: bytes(rng.choices((0x00, 0x01, 0x0F, 0x10, 0xF0, 0x1F, 0xF1), k=DATA)),
    "no sound": lambda rng: bytes(DATA),
}
LIKELY = (12, 4, 3, 3, 2)               # of NIBBLES


def some_sector(rng, headers=None):
    make = HEADERS[headers] if headers else rng.choice(tuple(HEADERS.values()))
    return sector_of(make(rng), rng.choices(tuple(NIBBLES.values()), LIKELY)[0](rng))


def some_begin(rng):
    """Fresh histories, or six samples."""
    if rng.random() < 0.2:
        return FRESH
    edges = (-32768, 32767, -32767, -1, 0, 1)
    return tuple(rng.choice(edges) if rng.random() < 0.3 else rng.randint(-32768, 32767) for _ in range(6))


def some_call(rng, headers=None):
    """A call that is not refused."""
    return Call(rng.random() < 0.5, False, some_begin(rng), some_sector(rng, headers), SAMPLES)


# ---- One reason to refuse a good call

def resized(sector, length):
    """The sector cut, or continued by its own bytes."""
    return (sector * (length // SECTOR + 1))[:length]


def other_sector(rng, call):
    length = rng.choice((*LENGTHS, rng.randrange(SECTOR), rng.randint(SECTOR + 1, 9000)))
    return call._replace(sector=resized(call.sector, length))


def other_room(rng, call):
    return call._replace(room=rng.choice((*ROOMS, rng.randrange(SAMPLES), rng.randint(SAMPLES + 1, 9000))))


def eight_bit(rng, call):
    return call._replace(eight_bit=True)


def flipped(call, *flips):
    """The call with bits of its sector flipped: a group, a byte in it and a mask each."""
    sector = bytearray(call.sector)
    for g, place, mask in flips:
        sector[128 * g + place] ^= mask
    return call._replace(sector=bytes(sector))


def some_group(rng):
    return rng.choice((0, 17, rng.randrange(18)))


def one_bit(rng, call, places):
    """A bit of a header byte or of its copy differs."""
    return flipped(call, (some_group(rng), rng.choice(places), 1 << rng.randrange(8)))


def other_copy(rng, call):
    return one_bit(rng, call, range(16))


def several_bits(rng, call):
    """Bytes differ from their copies, in one group or in more."""
    flips = {(some_group(rng), rng.choice(COPIED)): rng.randint(1, 255) for _ in range(4)}
    return flipped(call, *((*where, mask) for where, mask in flips.items()))


def cancelling(rng, call):
    """The same bit differs in two copies."""
    g, mask = some_group(rng), 1 << rng.randrange(8)
    return flipped(call, *((g, place, mask) for place in rng.sample(COPIED, 2)))


def with_copies(call, g, first, last):
    """The call with other copies in group g: bytes 0 to 3, and bytes 12 to 15."""
    at, sector = 128 * g, call.sector
    return call._replace(sector=sector[:at] + first + sector[at + 4:at + 12] + last + sector[at + 16:])


def exchanged(rng, call):
    """In one group the copies stand at each other's place."""
    call, g = call._replace(sector=some_sector(rng, "any header")), some_group(rng)
    return with_copies(call, g, call.sector[128 * g + 12:128 * g + 16], call.sector[128 * g:128 * g + 4])


def turned(rng, call):
    """In one group four copies stand in another order."""
    call, g = call._replace(sector=some_sector(rng, "any header")), some_group(rng)
    first, last = call.sector[128 * g:128 * g + 4], call.sector[128 * g + 12:128 * g + 16]
    by = rng.randint(1, 3)
    return with_copies(call, g, *rng.choice(((first[by:] + first[:by], last), (first, last[by:] + last[:by]))))


def neighbour(rng, call):
    """One group has the copies of the next."""
    call, g = call._replace(sector=some_sector(rng, "any header")), rng.randrange(17)
    at = 128 * (g + 1)
    return with_copies(call, g, call.sector[at:at + 4], call.sector[at + 12:at + 16])


REASONS = {LENGTH: (other_sector, other_room), EIGHT_BIT: (eight_bit,), COPIES: (other_copy, several_bits)}


def refused(rng, call, numbers):
    """The call with a reason for each of the numbers, and what it must give: 14 before 13 before 12."""
    for number in sorted(numbers):
        call = rng.choice(REASONS[number])(rng, call)
    return call, max(numbers)


def some_refused(rng, call):
    return refused(rng, call, rng.choice(((12,), (13,), (14,), (12, 13), (12, 14), (13, 14), (12, 13, 14))))


# ---- Recipes: a name, and what makes calls, each with the number that it must give

def one_call(headers):
    return lambda rng: [(some_call(rng, headers), DONE)]


def one_refused(numbers):
    return lambda rng: [refused(rng, some_call(rng), numbers)]


def one_changed(change, number):
    return lambda rng: [(change(rng, some_call(rng)), number)]


def at_once(rng):
    """Both lengths are wrong."""
    return [(other_room(rng, other_sector(rng, some_call(rng))), LENGTH)]


def of_length(length):
    return "a sector of %d bytes" % length, one_changed(
        lambda rng, call: call._replace(sector=resized(call.sector, length)), LENGTH)


def of_room(room):
    return "an output of %d samples" % room, one_changed(lambda rng, call: call._replace(room=room), LENGTH)


def differing(place):
    return "byte %d differs from its copy" % place, one_changed(lambda rng, call: one_bit(rng, call, (place,)), COPIES)


def same_change(rng):
    """A header byte and its copy change alike: nothing is wrong."""
    place, mask = rng.choice((0, 1, 2, 3, 8, 9, 10, 11)), rng.randint(1, 255)
    g = some_group(rng)
    return [(flipped(some_call(rng), (g, place, mask), (g, place + 4, mask)), DONE)]


def stream(rng, modes, refusals=0.0):
    """Calls of these modes that carry the histories on; refusals is the share of refused ones."""
    made = []
    for k, stereo in enumerate(modes):
        call = some_call(rng, rng.choice((None, "no filter 0")))._replace(stereo=stereo)
        call = call._replace(begin=CARRIED) if k > 0 else call
        made.append(some_refused(rng, call) if rng.random() < refusals else (call, DONE))
    return made


def some_modes(rng):
    return [rng.random() < 0.5 for _ in range(rng.randint(2, 5))]


def refused_between(rng):
    """A good call, a refused one, and then a stereo and a mono call that show the histories."""
    first, middle, *last = stream(rng, (rng.random() < 0.5, rng.random() < 0.5, True, False))
    return [first, some_refused(rng, middle[0]), *last]


RECIPES = [
    *((name, one_call(name)) for name in HEADERS),
    ("a header and its copy changed alike", same_change),
    ("sectors in turn, stereo and mono", lambda rng: stream(rng, (True, False, True))),
    ("sectors in turn, mono and stereo", lambda rng: stream(rng, (False, True, False))),
    ("sectors in any order", lambda rng: stream(rng, some_modes(rng))),
    ("sectors of which some are refused", lambda rng: stream(rng, some_modes(rng), refusals=0.4)),
    ("a refused sector between good ones", refused_between),
    *map(of_length, LENGTHS),
    *map(of_room, ROOMS),
    ("another length of the sector", one_changed(other_sector, LENGTH)),
    ("another length of the output", one_changed(other_room, LENGTH)),
    ("other lengths of both", at_once),
    ("8-bit", one_changed(eight_bit, EIGHT_BIT)),
    *map(differing, range(16)),
    ("bytes differ from their copies", one_changed(several_bits, COPIES)),
    ("differences that cancel", one_changed(cancelling, COPIES)),
    ("copies exchanged", one_changed(exchanged, COPIES)),
    ("copies in another order", one_changed(turned, COPIES)),
    ("copies of the next group", one_changed(neighbour, COPIES)),
    ("8-bit, and copies differ", one_refused((12, 13))),
    ("a wrong length, and copies differ", one_refused((12, 14))),
    ("a wrong length, and 8-bit", one_refused((13, 14))),
    ("every reason", one_refused((12, 13, 14))),
    *30 * [("a good sector", one_call(None))],
]


def make_case(seed, number):
    """A case, and the numbers that its calls must give."""
    rng = random.Random(seed * 1000003 + number)
    recipe, make = RECIPES[number % len(RECIPES)]
    calls, numbers = zip(*make(rng))
    return Case(recipe, calls), numbers


# ---- For the program

def flags(call):
    return call.stereo | call.eight_bit << 1 | (call.begin == FRESH) << 2 | (call.begin not in (FRESH, CARRIED)) << 3


def encoded(case):
    """As host/c/xa.c takes it."""
    return b"".join(struct.pack("<B6hII", flags(call), *(call.begin if flags(call) & 8 else 6 * (0,)),
                                len(call.sector), call.room) + call.sector for call in case.calls)
