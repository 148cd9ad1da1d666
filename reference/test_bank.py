"""The rules of sound banks on both sides of their edges, worked out by hand; and the fuzz against wrong references."""
import random
import unittest

import bank
from bank import AT_ENTRY, DAMAGED, DONE, GOOD, IN_HEADER, NO_ENTRY, ROOM, check, damage, find, lookup, read, write
from bank_cases import RECIPES, WRONG_ALIASES, WRONG_SOUNDS, Draft, make_case
from bank_fuzz import answers
from bank_mutants import WRONG, load

# A sound of one block, an alias of it, an alias of the alias.  The header ends at 32, a multiple of 16.
SMALL = bytes.fromhex("0300"
                      "0000 20000000 01000000"
                      "0100 00000000 00000000"
                      "0100 01000000 00000000") + b"sixteen bytes 01"
EMPTY = bytes(2)


def file(length, *entries):
    """A bank of that length; a byte of its data says where it stands."""
    header = len(entries).to_bytes(2, "little")
    for kind, offset, count in entries:
        header += kind.to_bytes(2, "little") + offset.to_bytes(4, "little") + count.to_bytes(4, "little")
    return header + bytes(place % 251 for place in range(len(header), length))


def one(kind, offset, count, length=64):
    """Where a bank of 64 bytes with a single entry is damaged; its header ends at 12."""
    return damage(file(length, (kind, offset, count)))


def third(kind, offset, count):
    """Where a bank of 64 bytes is damaged whose entries 0 and 1 are good, and 2 is this; its header ends at 32."""
    return damage(file(64, (0, 48, 1), (0, 32, 2), (kind, offset, count)))


class Headers(unittest.TestCase):
    def test_length(self):
        for short in (b"", b"\0", b"\1", b"\1\0", file(12, (0, 16, 1))[:11], SMALL[:31]):
            self.assertEqual(damage(short), (IN_HEADER, 0))
        self.assertEqual(damage(file(12, (0, 16, 1))), (AT_ENTRY, 0))
        self.assertEqual(damage(SMALL[:32]), (AT_ENTRY, 0))
        self.assertEqual(damage(SMALL), (GOOD, 0))

    def test_no_entries(self):
        self.assertEqual(damage(EMPTY), (GOOD, 0))
        self.assertEqual(damage(EMPTY + b"x"), (GOOD, 0))

    def test_count(self):
        def aliases(n):
            return file(10256 + 32, (0, 10272, 1), *[(1, 0, 0)] * (n - 1))
        self.assertEqual(damage(aliases(1024)), (GOOD, 0))
        self.assertEqual(damage(aliases(1025)), (IN_HEADER, 0))
        self.assertEqual(damage(b"\xFF\xFF" + bytes(655350)), (IN_HEADER, 0))
        self.assertEqual(damage(b"\x00\x04" + bytes(10240)), (AT_ENTRY, 0))     # 400h is 1,024

    def test_entries(self):
        self.assertEqual(bank.entries(SMALL), ((0, 32, 1), (1, 0, 0), (1, 1, 0)))
        odd = bytes.fromhex("0100 0201 06050403 0A090807")
        self.assertEqual(bank.entries(odd), ((0x0102, 0x03040506, 0x0708090A),))


class Sounds(unittest.TestCase):
    def test_kind(self):
        self.assertEqual(one(0, 16, 1), (GOOD, 0))
        for kind in (1, 2, 256, 65535):
            self.assertEqual(one(kind, 16, 1), (AT_ENTRY, 0))

    def test_after_header(self):
        self.assertEqual(one(0, 0, 1), (AT_ENTRY, 0))
        self.assertEqual(third(0, 32, 1), (GOOD, 0))
        self.assertEqual(third(0, 16, 1), (AT_ENTRY, 2))

    def test_multiple_of_16(self):
        for offset in (17, 20, 24, 31, 33):
            self.assertEqual(one(0, offset, 1), (AT_ENTRY, 0))
        self.assertEqual(one(0, 32, 1), (GOOD, 0))

    def test_blocks(self):
        self.assertEqual(one(0, 16, 0), (AT_ENTRY, 0))
        self.assertEqual(one(0, 16, 3), (GOOD, 0))
        self.assertEqual(one(0, 16, 4), (AT_ENTRY, 0))
        self.assertEqual(one(0, 16, 3, length=63), (AT_ENTRY, 0))
        self.assertEqual(one(0, 16, 3, length=65), (GOOD, 0))
        self.assertEqual(one(0, 48, 1), (GOOD, 0))
        self.assertEqual(one(0, 64, 1), (AT_ENTRY, 0))

    def test_nothing_wraps(self):
        for offset, count in ((0xFFFFFFF0, 1), (0xFFFFFFF0, 2), (0x80000010, 1), (0x10010, 1), (16, 0x10000000),
                              (16, 0x10000001), (16, 0x0FFFFFFF), (16, 0x10000002), (16, 0x80000001), (16, 0xFFFFFFFF),
                              (32, 0xFFFFFFFF), (32, 0xFFFFFFFE), (0xFFFFFFF0, 0x10000003), (0xFFFFFFF0, 0xF0000001)):
            self.assertEqual(one(0, offset, count), (AT_ENTRY, 0))

    def test_overlap_order_and_gaps(self):
        self.assertEqual(damage(file(300, (0, 160, 2), (0, 80, 6), (0, 160, 2), (0, 64, 1))), (GOOD, 0))


class Aliases(unittest.TestCase):
    def test_lower_number(self):
        for offset in (0, 1):
            self.assertEqual(third(1, offset, 0), (GOOD, 0))
        for offset in (2, 3, 256, 65536, 65537, 0x80000000, 0x80000001, 0xFFFFFFFF):
            self.assertEqual(third(1, offset, 0), (AT_ENTRY, 2))

    def test_entry_0(self):
        self.assertEqual(one(1, 0, 0), (AT_ENTRY, 0))

    def test_count(self):
        for count in (1, 256, 65536, 0x10000000, 0x80000000):
            self.assertEqual(third(1, 0, count), (AT_ENTRY, 2))

    def test_kind(self):
        for kind in (2, 257):
            self.assertEqual(third(kind, 0, 0), (AT_ENTRY, 2))

    def test_check(self):
        self.assertEqual(check(EMPTY), (0, GOOD, 0))
        self.assertEqual(check(EMPTY[:1]), (9, IN_HEADER, 0))
        self.assertEqual(check(file(12, (0, 16, 1))), (9, AT_ENTRY, 0))

    def test_first_damage(self):
        bad, good = (2, 0, 0), (0, 64, 1)
        self.assertEqual(damage(file(80, good, bad, good, bad)), (AT_ENTRY, 1))
        self.assertEqual(damage(file(80, good, (1, 2, 0), bad, good)), (AT_ENTRY, 1))
        self.assertEqual(damage(file(80, good, (1, 0, 0), (1, 1, 0), bad)), (AT_ENTRY, 3))


class Reads(unittest.TestCase):
    def test_good(self):
        self.assertEqual(read(SMALL, 0), (DONE, 0, 32, 1))
        self.assertEqual(read(SMALL, 2), (DONE, 1, 1, 0))
        for k in (3, 65536, 0xFFFFFFFF):
            self.assertEqual(read(SMALL, k), (NO_ENTRY, 0, 0, 0))

    def test_damaged(self):
        self.assertEqual(read(file(12, (7, 8, 9)), 0), (DONE, 7, 8, 9))
        self.assertEqual(read(file(12, (7, 8, 9)), 1), (NO_ENTRY, 0, 0, 0))
        self.assertEqual(read(file(12, (7, 8, 9))[:11], 0), (DAMAGED, 0, 0, 0))


class Finds(unittest.TestCase):
    HOUSE = file(112, (0, 64, 2), (0, 96, 1), (1, 0, 0), (1, 1, 0), (1, 2, 0))

    def test_title_then_house(self):
        self.assertEqual(find(SMALL, self.HOUSE, 0), (DONE, False, 0, 32, 16))
        self.assertEqual(find(SMALL, self.HOUSE, 2), (DONE, False, 0, 32, 16))
        self.assertEqual(find(SMALL, self.HOUSE, 3), (DONE, True, 1, 96, 16))
        self.assertEqual(find(SMALL, self.HOUSE, 4), (DONE, True, 0, 64, 32))
        for number in (5, 65536, 65540, 1 << 31, 0xFFFFFFFF):
            self.assertEqual(find(SMALL, self.HOUSE, number), (NO_ENTRY, False, 0, 0, 0))

    def test_empty(self):
        self.assertEqual(find(EMPTY, SMALL, 0), (DONE, True, 0, 32, 16))
        self.assertEqual(find(SMALL, EMPTY, 0), (DONE, False, 0, 32, 16))
        self.assertEqual(find(EMPTY, EMPTY, 0), (NO_ENTRY, False, 0, 0, 0))

    def test_either_damaged(self):
        for bad in (b"", SMALL[:-1], file(64, (2, 16, 1))):
            for number in (0, 2, 3, 5, 0xFFFFFFFF):
                self.assertEqual(find(SMALL, bad, number), (DAMAGED, False, 0, 0, 0))
                self.assertEqual(find(bad, SMALL, number), (DAMAGED, False, 0, 0, 0))

    def test_bytes(self):
        self.assertEqual(lookup(SMALL, self.HOUSE, 1), b"sixteen bytes 01")
        self.assertEqual(lookup(SMALL, self.HOUSE, 4), bytes(range(64, 96)))
        self.assertEqual(lookup(SMALL, self.HOUSE, 5), b"")
        self.assertEqual(lookup(SMALL, SMALL[:-1], 0), b"")

    def test_longest_chain(self):
        chain = file(10272, (0, 10256, 1), *((1, k, 0) for k in range(1023)))
        self.assertEqual(find(chain, EMPTY, 1023), (DONE, False, 0, 10256, 16))
        self.assertEqual(find(SMALL, chain, 1023), (DONE, True, 0, 10256, 16))
        self.assertEqual(find(SMALL, chain, 1024), (NO_ENTRY, False, 0, 0, 0))


class Writes(unittest.TestCase):
    LISTS = [0, 1, 1], [32, 0, 1], [1, 0, 0]

    def test_buffer(self):
        data = SMALL[32:]
        self.assertEqual(write(*self.LISTS, data, b"x" * 48), ((DONE, 48), SMALL))
        self.assertEqual(write(*self.LISTS, data, b"x" * 51), ((DONE, 48), SMALL + b"xxx"))
        for length in (47, 32, 1, 0):
            self.assertEqual(write(*self.LISTS, data, b"x" * length), ((ROOM, 0), b"x" * length))

    def test_no_entries(self):
        self.assertEqual(write([], [], [], b"", b"xxx"), ((DONE, 2), b"\0\0x"))
        self.assertEqual(write([], [], [], b"d", b"xxx"), ((DONE, 3), b"\0\0d"))
        self.assertEqual(write([], [], [], b"", b"x"), ((ROOM, 0), b"x"))

    def test_data_brings_the_gap(self):
        self.assertEqual(write([0], [16], [1], bytes(20), b"x" * 32)[0], (DONE, 32))
        self.assertEqual(write([0], [16], [1], bytes(16), b"x" * 32), ((DAMAGED, 0), b"x" * 32))

    def test_judged_without_the_buffer(self):
        self.assertEqual(write([0], [16], [1], bytes(19), b"x" * 99), ((DAMAGED, 0), b"x" * 99))

    def test_damaged_before_room(self):
        self.assertEqual(write([2], [16], [1], bytes(20), b""), ((DAMAGED, 0), b""))

    def test_lists(self):
        data = SMALL[32:]
        for cut in range(3):
            lists = [values[:-1] if k == cut else values for k, values in enumerate(self.LISTS)]
            self.assertEqual(write(*lists, data, b"x" * 99), ((DAMAGED, 0), b"x" * 99))

    def test_most_entries(self):
        for n, number in ((1024, DONE), (1025, DAMAGED), (65536, DAMAGED), (65537, DAMAGED)):
            written, _ = write([0] + [1] * (n - 1), [-(-(2 + 10 * n) // 16) * 16] + [0] * (n - 1), [1] + [0] * (n - 1),
                               bytes(32), bytes(2 + 10 * n + 32))
            self.assertEqual(written, (number, 10274 if number == DONE else 0))

    def test_round_trip(self):
        house = Finds.HOUSE
        lists = [list(column) for column in zip(*bank.entries(house))]
        _, buffer = write(*lists, house[52:], b"x" * 200)
        self.assertEqual(buffer, house + b"x" * 88)
        for number in range(6):
            self.assertEqual(find(buffer, SMALL, number), find(house, SMALL, number))
            self.assertEqual(lookup(buffer, SMALL, number), lookup(house, SMALL, number))


class Fuzz(unittest.TestCase):
    def test_wrong_entries_break_one_rule(self):
        rng = random.Random(1)
        for name, wrong in (*WRONG_SOUNDS.items(), *WRONG_ALIASES.items()):
            for _ in range(20):
                draft = Draft(rng, rng.choice((2, 3, 5, 11)))
                k = rng.randrange(1, len(draft.entries))
                kind, offset, count = wrong(draft, k)
                sound = (offset >= draft.end, offset % 16 == 0, count >= 1, offset + 16 * count <= draft.length)
                alias = (offset < k, count == 0)
                broken = {0: sound.count(False), 1: alias.count(False)}.get(kind, all(sound) or all(alias))
                self.assertEqual(broken, 1, (name, draft.end, draft.length, k, kind, offset, count))

    def test_made_as_said(self):
        for number in range(3 * len(RECIPES)):
            case, made, where = make_case(2, number)
            if where is not None:
                self.assertEqual(damage(made), where, case.recipe)

    def test_wrong_references(self):
        cases = [make_case(1, number)[0] for number in range(2000)]
        for name, *texts in WRONG:
            wrong = load(zip(texts[::2], texts[1::2]))
            with self.subTest(name):
                self.assertTrue(any(ours != theirs for case in cases
                                    for ours, theirs in zip(answers(bank, case), answers(wrong, case))))

    def test_the_reference_itself(self):
        for number in range(200):
            case = make_case(1, number)[0]
            self.assertEqual(list(answers(bank, case)), list(answers(load(), case)))


if __name__ == "__main__":
    unittest.main()
