"""Cases of encoded sounds for the fuzz.  Each is made from a seed and its number alone.

A recipe makes a good sound, of which it knows that the answer is yes, and then breaks rules in blocks that it chooses.
So it knows the block that a no must name.
"""
import collections
import random
import struct

import spu

LOW, HIGH = -0x8000, 0x7FFF
NEAR = 0x7FFF                           # up to this E every sample can have an original at distance E + 1
YES, REFUSED = (0, True, 0), (23, False, 0)

Case = collections.namedtuple("Case", "recipe largest originals encoded")


def no(block):
    return 0, False, block


# ---- Good sounds

DATA = (
    lambda rng: rng.randbytes(14),
    lambda rng: bytes(rng.choices((0x77, 0x78, 0x87, 0x88), k=14)),
    lambda rng: bytes(rng.choices((0x00, 0x01, 0x0F, 0x10, 0xF0, 0x1F, 0xF1), k=14)),
    lambda rng: bytes(14),
)
LIKELY = (12, 3, 3, 1)                  # of DATA


def some_block(rng, filters=range(5), shifts=range(16)):
    """A block without the end flag.  Bit 7 of the header and bits 1-7 of the flags may be set."""
    header = rng.choice((0, 0x80)) | rng.choice(filters) << 4 | rng.choice(shifts)
    return bytearray((header, rng.choice((0, 2, 4, 6, 0xFE, 2 * rng.randrange(128))),
                      *rng.choices(DATA, LIKELY)[0](rng)))


def decoded(blocks):
    samples = [0, 0]
    for block in blocks:
        samples += spu.decode(block, samples[-1], samples[-2])
    return samples[2:]


def some_count(rng, least=1):
    """Of blocks."""
    return rng.choice((least, least + 1, rng.randint(least, 6), rng.randint(least, 10), rng.randint(least, 40)))


def some_largest(rng, most=0xFFFF):
    return rng.choice([largest for largest in (
        0, 0, 1, 2, rng.randint(3, 300), rng.randint(301, NEAR - 1), NEAR - 1, NEAR, NEAR + 1,
        rng.randint(NEAR + 2, 0xFFFD), 0xFFFE, 0xFFFF) if largest <= most])


class Sound:
    """A good sound, to be broken: blocks, the samples that they decode to, and originals within E of the samples."""
    def __init__(self, rng, count=None, largest=None, filters=range(5), shifts=range(16)):
        self.rng = rng
        self.largest = some_largest(rng, NEAR) if largest is None else largest
        self.blocks = [some_block(rng, filters, shifts) for _ in range(count or some_count(rng))]
        self.blocks[-1][1] |= 1
        self.hear()

    def hear(self):
        """Takes originals anew; many are E away."""
        largest = self.largest
        some = (0, largest, -largest, *(self.rng.randint(-largest, largest) for _ in range(4)))
        self.samples = decoded(self.blocks)
        self.originals = [min(max(sample + distance, LOW), HIGH) for sample, distance in
                          zip(self.samples, self.rng.choices(some, k=len(self.samples)))]

    def some(self):
        """One of the blocks: often the first or the last."""
        return self.rng.choice((0, len(self.blocks) - 1, self.rng.randrange(len(self.blocks))))

    def move(self, b, place, distance):
        """Moves an original to this distance from its sample."""
        at = 28 * b + place
        self.originals[at] = self.rng.choice([original for original in (
            self.samples[at] - distance, self.samples[at] + distance) if LOW <= original <= HIGH])

    def loud(self, b, high):
        """Makes block b one whose samples are HIGH, or LOW, from sample 2 on, whatever stands before it."""
        self.blocks[b][0], self.blocks[b][2:] = 0x10, (b"\x77" if high else b"\x88") * 14
        self.hear()

    def case(self):
        return Case(None, self.largest, self.originals, b"".join(self.blocks))


# ---- One rule broken in block b

def far(sound, b):
    """The distance is E + 1, or more."""
    place = sound.rng.choice((0, 27, sound.rng.randrange(28)))
    sound.move(b, place, sound.rng.choice((sound.largest + 1, sound.rng.randint(sound.largest + 1, NEAR + 1))))


def end_flag(sound, b):
    """The last block loses it, any other gets it."""
    sound.blocks[b][1] ^= 1


def wrong_filter(sound, b):
    """The samples of block b may change, and those after it."""
    sound.blocks[b][0] = sound.blocks[b][0] & 0x8F | sound.rng.choice((5, 6, 7)) << 4


RULES = far, end_flag, wrong_filter


def broken(sound, b):
    """Breaks a rule in block b, or several."""
    for rule in sound.rng.sample(RULES, sound.rng.choice((1, 1, 2, 3))):
        rule(sound, b)


# ---- Recipes: a name, and what makes a case, with the number, the yes and the block that it must give

def good(**given):
    return lambda rng: (Sound(rng, **given).case(), YES)


def of_e(largest):
    return "a good sound, E %d" % largest, good(largest=largest)


def any_originals(rng):
    """No two samples are further apart than 65,535."""
    sound = Sound(rng, largest=0xFFFF)
    sound.originals = [rng.choice((LOW, HIGH, rng.randint(LOW, HIGH))) for _ in sound.originals]
    return sound.case(), YES


def upper_bits(rng):
    """Bit 7 of each header is set, and of each block's flags all but the end flag."""
    sound = Sound(rng)
    for block in sound.blocks:
        block[0], block[1] = block[0] | 0x80, block[1] | 0xFE
    return sound.case(), YES


def exactly(rng):
    """Every original is E away."""
    sound = Sound(rng)
    for at in range(len(sound.originals)):
        sound.move(0, at, sound.largest)
    return sound.case(), YES


def one_broken(rule, where):
    def make(rng):
        sound = Sound(rng)
        b = {"the first": 0, "the last": len(sound.blocks) - 1}.get(where, rng.randrange(len(sound.blocks)))
        rule(sound, b)
        return sound.case(), no(b)
    return "%s in %s block" % (rule.__name__, where), make


def one_over(rng):
    """All originals are as near as they must be, but one, which is E + 1 away."""
    sound = Sound(rng)
    b = sound.some()
    sound.move(b, rng.choice((0, 27, rng.randrange(28))), sound.largest + 1)
    return sound.case(), no(b)


def several_over(rng):
    sound = Sound(rng)
    chosen = [sound.some() for _ in range(rng.randint(2, 4))]
    for b in chosen:
        far(sound, b)
    return sound.case(), no(min(chosen))


def opposite(over):
    """An original far below a HIGH sample, or far above a LOW one; the largest distance is 65,535."""
    def make(rng):
        sound = Sound(rng, largest=some_largest(rng, 0xFFFF - over))
        b, high = sound.some(), rng.random() < 0.5
        sound.loud(b, high)
        sound.move(b, rng.randint(2, 27), sound.largest + over)
        return sound.case(), no(b) if over else YES
    return make


def ends_opposite(rng):
    """The distance is 65,535, of which 16 bits are -1."""
    sound = Sound(rng, largest=rng.choice((0, 1, 2, NEAR, NEAR + 1, 0xFFFE, rng.randint(3, 0xFFFD))))
    b = sound.some()
    sound.loud(b, rng.random() < 0.5)
    sound.move(b, rng.randint(2, 27), 0xFFFF)
    return sound.case(), no(b)


def worst(below):
    """E is the largest error that the sound has, or one below it."""
    def make(rng):
        sound = Sound(rng, largest=some_largest(rng) or 1)
        errors = [abs(sample - original) for sample, original in zip(sound.samples, sound.originals)]
        if max(errors) == 0:
            sound.move(0, 0, 1)
            errors[0] = 1
        sound.largest = max(errors) - below
        return sound.case(), no(errors.index(max(errors)) // 28) if below else YES
    return make


def of_filter(chosen):
    """The originals belong to the samples that a block with this filter gives, so nothing else is wrong."""
    def make(rng):
        sound = Sound(rng)
        b = sound.some()
        sound.blocks[b][0] = sound.blocks[b][0] & 0x8F | chosen << 4
        sound.hear()
        return sound.case(), no(b)
    return "filter %d" % chosen, make


def all_end_flags(set_flags):
    def make(rng):
        sound = Sound(rng)
        for block in sound.blocks:
            block[1] = block[1] & 0xFE | set_flags
        last = len(sound.blocks) - 1
        return sound.case(), (no(0) if last > 0 else YES) if set_flags else no(last)
    return make


def end_flag_before(rng):
    """A block before the last one has the end flag, and the last one lacks it."""
    sound = Sound(rng, count=some_count(rng, 2))
    last = len(sound.blocks) - 1
    b = rng.choice((0, last - 1, rng.randrange(last)))
    end_flag(sound, b)
    end_flag(sound, last)
    return sound.case(), no(b)


def one_block_broken(rules):
    """A block breaks these rules at once."""
    def make(rng):
        sound = Sound(rng)
        b = sound.some()
        if wrong_filter in rules:
            wrong_filter(sound, b)
            sound.hear()
        for rule in rules:
            if rule != wrong_filter:
                rule(sound, b)
        return sound.case(), no(b)
    return " and ".join(rule.__name__ for rule in rules) + " in one block", make


def two_blocks_broken(rng):
    sound = Sound(rng, count=some_count(rng, 2))
    b, c = sorted(rng.sample(range(len(sound.blocks)), 2))
    broken(sound, c)
    broken(sound, b)
    return sound.case(), no(b)


# ---- Recipes of histories

STARTS = {
    "zero history": lambda old, older: (0, 0),
    "old alone": lambda old, older: (old, 0),
    "old and older exchanged": lambda old, older: (older, old),
    "old twice": lambda old, older: (old, old),
}


def begin_with(sound, b, start, older, old):
    """Gives block b originals that begin with a wrong history.  Block b - 1 ends with two samples, in 4,096ths.  If
    their signs are opposite, filters 2 to 4 make at least 3,328 of the mistake."""
    sound.blocks[b - 1][0], sound.blocks[b - 1][15] = 0x00, older & 15 | (old & 15) << 4
    sound.blocks[b][0], sound.blocks[b][2:] = sound.rng.choice((0x2C, 0x3C, 0x4C)), sound.rng.randbytes(14)
    sound.hear()
    sound.originals[28 * b:28 * b + 28] = spu.decode(sound.blocks[b], *STARTS[start](4096 * old, 4096 * older))


def wrong_start(start):
    def make(rng):
        sound = Sound(rng, count=some_count(rng, 2), largest=rng.choice((0, 1, rng.randint(2, 3000))))
        b, sign = rng.randrange(1, len(sound.blocks)), rng.choice((-1, 1))
        begin_with(sound, b, start, -sign * rng.randint(1, 3), sign * rng.randint(1, 3))
        return sound.case(), no(b)
    return "originals from " + start, make


def neighbours(rng):
    """A sound, and b: the first samples of blocks b and b + 1 differ by 4,096 or more, whatever stands before them, and
    E is less than half of that."""
    sound = Sound(rng, count=some_count(rng, 2), largest=rng.choice((0, 1, rng.randint(2, 2047))))
    b = rng.randrange(len(sound.blocks) - 1)
    for block, nibble in zip(sound.blocks[b:b + 2], rng.sample(range(16), 2)):
        block[0], block[2] = 0x00, block[2] & 0xF0 | nibble
    sound.hear()
    return sound, b


def ended_anew(sound, blocks):
    """Gives the sound other blocks, of which the last has the end flag."""
    sound.blocks = [bytearray(block) for block in blocks]
    for block in sound.blocks:
        block[1] &= 0xFE
    sound.blocks[-1][1] |= 1


def dropped(rng):
    sound, b = neighbours(rng)
    more = [some_block(rng)] * rng.randrange(3)
    ended_anew(sound, sound.blocks[:b] + sound.blocks[b + 1:] + more)
    return sound.case(), no(b)


def repeated(rng):
    sound, b = neighbours(rng)
    blocks = sound.blocks[:b + 1] + sound.blocks[b:]
    ended_anew(sound, rng.choice((blocks, blocks[:-1])))
    return sound.case(), no(b + 1)


def exchanged(rng):
    sound, b = neighbours(rng)
    ended_anew(sound, [*sound.blocks[:b], sound.blocks[b + 1], sound.blocks[b], *sound.blocks[b + 2:]])
    return sound.case(), no(b)


# ---- Recipes of counts

def more_blocks(sound, by):
    ended_anew(sound, sound.blocks + [some_block(sound.rng, range(8)) for _ in range(by)])


def fewer_blocks(sound, by):
    ended_anew(sound, sound.blocks[:-by])


def more_originals(sound, by):
    sound.originals = sound.originals + [sound.rng.randint(LOW, HIGH) for _ in range(28 * by)]


def fewer_originals(sound, by):
    sound.originals = sound.originals[:-28 * by]


COUNTS = more_blocks, fewer_blocks, more_originals, fewer_originals


def other_counts(rng, change):
    """The sound, and how many pairs it has: one at least."""
    sound, by = Sound(rng, count=some_count(rng, 2)), rng.choice((1, 1, 2, rng.randint(1, 12)))
    count = len(sound.blocks)
    by = min(by, count - 1) if change in (fewer_blocks, fewer_originals) else by
    change(sound, by)
    return sound, min(len(sound.blocks), len(sound.originals) // 28)


def counts_differ(change):
    def make(rng):
        sound, pairs = other_counts(rng, change)
        return sound.case(), no(pairs)
    return change.__name__, make


def counts_differ_after(change):
    """A block with a partner is at fault, too."""
    def make(rng):
        sound, pairs = other_counts(rng, change)
        b = rng.choice((0, pairs - 1, rng.randrange(pairs)))
        broken(sound, b)
        return sound.case(), no(b)
    return change.__name__ + ", a fault before", make


def counts_differ_before(change):
    """Blocks without a partner break every rule that they can."""
    def make(rng):
        sound, pairs = other_counts(rng, change)
        for block in sound.blocks[pairs:]:
            block[0], block[1] = rng.choice((block[0], 0x50, 0x60, 0x70)), block[1] ^ rng.choice((0, 1))
        return sound.case(), no(pairs)
    return change.__name__ + ", faults after", make


def last_pair_ends(change):
    """The end flag stands where the pairs end, and is wrong there; more blocks follow."""
    def make(rng):
        sound, pairs = other_counts(rng, change)
        sound.blocks[pairs - 1][1] |= 1
        sound.blocks[-1][1] ^= rng.choice((0, 1))
        return sound.case(), no(pairs - 1)
    return change.__name__ + ", the end flag in the last pair", make


def end_flag_cut_off(rng):
    """With a block too few, the last block there lacks the end flag."""
    sound = Sound(rng, count=some_count(rng, 2))
    del sound.blocks[rng.randrange(1, len(sound.blocks)):]
    return sound.case(), no(len(sound.blocks) - 1)


def empty(originals, blocks):
    """Nothing, or one side alone."""
    def make(rng):
        sound = Sound(rng, largest=some_largest(rng))
        if rng.random() < 0.3:
            wrong_filter(sound, 0)
        if rng.random() < 0.3:
            end_flag(sound, sound.some())
        return Case(None, sound.largest, sound.originals if originals else [],
                    b"".join(sound.blocks) if blocks else b""), no(0)
    return make


# ---- Recipes of lengths

def resized(items, length, filler):
    return items[:length] + filler(max(0, length - len(items)))


def odd_length(rng, now, size):
    """A length that is not a multiple of size, often near to one or to the length now."""
    near = [now + by for by in (-1, 1, size // 4, size // 2)]
    some = (1, size // 2, size - 1, size + 1, rng.randrange(25 * size), *near)
    return rng.choice([length for length in some if length > 0 and length % size != 0])


def other_originals(rng, case):
    length = odd_length(rng, len(case.originals), 28)
    return case._replace(originals=resized(case.originals, length, lambda more: more * [0]))


def other_bytes(rng, case):
    return case._replace(encoded=resized(case.encoded, odd_length(rng, len(case.encoded), 16), bytes))


def whole_but(change):
    """A good sound, a bad one or an empty one, of another length."""
    def make(rng):
        sound = Sound(rng)
        if rng.random() < 0.4:
            broken(sound, sound.some())
        case = sound.case()
        if rng.random() < 0.2:
            case = case._replace(originals=[], encoded=b"")
        return change(rng, case), REFUSED
    return make


def lengths(originals, encoded):
    """Silence; a header of 70h has a wrong filter."""
    def make(rng):
        return Case(None, some_largest(rng), [0] * originals, rng.choice((b"\x00", b"\x70")) * encoded), REFUSED
    return "%d originals, %d bytes" % (originals, encoded), make


# ---- Recipes of long sounds

def long_sound(rng):
    """The block at fault has a number above 255."""
    sound = Sound(rng, count=rng.randint(257, 300), largest=rng.choice((0, 1, 100)))
    b = rng.randint(256, len(sound.blocks) - 1)
    broken(sound, b)
    return sound.case(), no(b)


def many_blocks(rng):
    """65,536 bytes, of which 16 bits are 0."""
    sound = Sound(rng, count=rng.randint(1, 3))
    pairs = len(sound.blocks)
    ended_anew(sound, sound.blocks + [some_block(rng)] * (4096 - pairs))
    return sound.case(), no(pairs)


def many_originals(rng):
    """65,548 originals, of which 16 bits are 12."""
    sound = Sound(rng, count=rng.randint(1, 3))
    pairs = len(sound.blocks)
    sound.originals = sound.originals + [7] * (65548 - 28 * pairs)
    return sound.case(), no(pairs)


RECIPES = [
    *map(of_e, (0, 1, NEAR, NEAR + 1, 0xFFFE, 0xFFFF)),
    *(("filter %d alone" % chosen, good(filters=(chosen,))) for chosen in range(5)),
    *(("shift %d alone" % shift, good(shifts=(shift,))) for shift in (0, 12, 13, 14, 15)),
    ("one block", good(count=1)),
    ("two blocks", good(count=2)),
    ("forty blocks", good(count=40)),
    ("any originals, E 65535", any_originals),
    ("upper bits", upper_bits),
    ("every original E away", exactly),
    *(one_broken(rule, where) for rule in RULES for where in ("the first", "the last", "any")),
    *4 * [("one original E + 1 away", one_over)],
    ("several originals too far", several_over),
    *2 * [("an end of the range, E away", opposite(0))],
    *2 * [("an end of the range, E + 1 away", opposite(1))],
    ("the other end of the range", ends_opposite),
    *2 * [("E the largest error", worst(0))],
    *2 * [("E below the largest error", worst(1))],
    *map(of_filter, (5, 6, 7)),
    ("every block has the end flag", all_end_flags(1)),
    ("no block has the end flag", all_end_flags(0)),
    ("the end flag too early", end_flag_before),
    *map(one_block_broken, (RULES, (far, end_flag), (far, wrong_filter), (end_flag, wrong_filter))),
    *3 * [("two blocks at fault", two_blocks_broken)],
    *map(wrong_start, STARTS),
    ("a block dropped", dropped),
    ("a block repeated", repeated),
    ("two blocks exchanged", exchanged),
    *map(counts_differ, COUNTS),
    *map(counts_differ_after, COUNTS),
    *map(counts_differ_before, (more_blocks, fewer_originals)),
    *map(last_pair_ends, (more_blocks, fewer_originals)),
    ("the end flag cut off", end_flag_cut_off),
    ("nothing", empty(False, False)),
    ("no blocks", empty(True, False)),
    ("no originals", empty(False, True)),
    *2 * [("another number of originals", whole_but(other_originals))],
    *2 * [("another number of bytes", whole_but(other_bytes))],
    ("other numbers of both", whole_but(lambda rng, case: other_bytes(rng, other_originals(rng, case)))),
    *(lengths(*both) for both in ((1, 0), (0, 1), (27, 16), (29, 16), (14, 16), (32, 16), (28, 15), (28, 17), (28, 8),
                                  (28, 20), (56, 33))),
    ("a long sound", long_sound),
    ("many blocks", many_blocks),
    ("many originals", many_originals),
    *12 * [("a good sound", lambda rng: (Sound(rng, largest=some_largest(rng)).case(), YES))],
]


def make_case(seed, number):
    """A case, and the number, the yes and the block that it must give."""
    rng = random.Random(seed * 1000003 + number)
    recipe, make = RECIPES[number % len(RECIPES)]
    case, said = make(rng)
    return case._replace(recipe=recipe), said


# ---- For the program

def encoded(case):
    """As host/c/encoder.c takes it."""
    count = len(case.originals)
    return struct.pack("<HII%dh" % count, case.largest, count, len(case.encoded), *case.originals) + case.encoded
