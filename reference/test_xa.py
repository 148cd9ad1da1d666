"""The rules of XA speech on both sides of their edges, worked out by hand; and the fuzz against wrong references."""
import os
import random
import unittest

import spu
import xa
import xa_edges
from xa import COPIES, DONE, EIGHT_BIT, LENGTH, Histories, History
from xa_cases import RECIPES, make_case, sector_of
from xa_fuzz import answers
from xa_mutants import WRONG_SAMPLES, load, told_apart

PROGRAM = os.path.join(os.path.dirname(os.path.abspath(__file__)), os.pardir, "crates", "xa_sectors")
SOME = Histories(History(1, 2), History(3, 4), History(5, 6))
ROOM = [-1] * 4032


def sector(header=0x0C, *changes):
    """Silence with one header byte in all units, then changes: a place in the sector and its byte, by turns.  With 0Ch,
    filter 0 and shift 12, a sample is its nibble."""
    made = bytearray(sector_of(bytes([header]) * 144, bytes(2016)))
    for place, byte in zip(changes[::2], changes[1::2]):
        made[place] = byte
    return bytes(made)


def call(given, stereo=False, histories=Histories(), eight_bit=False, room=ROOM):
    return xa.decode(given, stereo, eight_bit, histories, room)


def heard(given, stereo=False, histories=Histories()):
    """Where the output is not 0, and what is there."""
    (number, _), out = call(given, stereo, histories)
    assert number == DONE and len(out) == 4032
    return {place: sample for place, sample in enumerate(out) if sample}


def first(header, nibble, old=0, older=0):
    """Sample 0 of unit 0."""
    return call(sector(header, 16, nibble), histories=Histories(mono=History(old, older)))[1][0]


def plainly(given, stereo, histories):
    """A sector sample by sample, every place by its formula."""
    kept, out = [list(history) for history in histories], [None] * 4032
    for g in range(18):
        for unit in range(8):
            header = given[128 * g + 4 + unit]
            shift = 9 if header % 16 > 12 else header % 16
            k0, k1 = ((0, 0), (60, 0), (115, -52), (98, -55))[header // 16 % 4]
            history = kept[unit % 2 if stereo else 2]
            for j in range(28):
                byte = given[128 * g + 16 + 4 * j + unit // 2]
                nibble = byte // 16 if unit % 2 else byte % 16
                t = nibble - 16 if nibble > 7 else nibble
                sample = t * 2 ** (12 - shift) + (history[0] * k0 + history[1] * k1 + 32) // 64
                sample = min(max(sample, -0x8000), 0x7FFF)
                history[:] = sample, history[0]
                out[224 * g + (56 * (unit // 2) + 2 * j + unit % 2 if stereo else 28 * unit + j)] = sample
    return Histories(*(History(*history) for history in kept)), out


def headers_met(given, stereo):
    """Each header byte with its channel."""
    return {(xa.channel_of(unit, stereo), group[4 + unit]) for group in xa.groups(given) for unit in range(8)}


class Layout(unittest.TestCase):
    # Of each data byte the places of its two samples, in mono and in stereo.
    PLACES = {16: (0, 28, 0, 1), 17: (56, 84, 56, 57), 18: (112, 140, 112, 113), 19: (168, 196, 168, 169),
              20: (1, 29, 2, 3), 124: (27, 55, 54, 55), 127: (195, 223, 222, 223),
              128 + 16: (224, 252, 224, 225), 2176 + 16: (3808, 3836, 3808, 3809), 2303: (4003, 4031, 4030, 4031)}

    def test_nibbles(self):
        for place, (mono, next_mono, left, right) in self.PLACES.items():
            self.assertEqual(heard(sector(0x0C, place, 0x21)), {mono: 1, next_mono: 2})
            self.assertEqual(heard(sector(0x0C, place, 0x21), True), {left: 1, right: 2})

    def test_headers(self):
        """Every sample of a group is 1, but of unit k, which has shift 11, it is 2."""
        for k in range(8):
            headers = bytearray([0x0C] * 144)
            headers[8 + k] = 0x0B           # in group 1
            _, out = call(sector_of(bytes(headers), b"\x11" * 2016))
            self.assertEqual([place for place, sample in enumerate(out) if sample == 2],
                             list(range(224 + 28 * k, 224 + 28 * k + 28)))
            self.assertEqual(out.count(1), 4032 - 28)

    def test_copies_stand_around(self):
        group = sector_of(bytes(range(144)), bytes(2016))[:16]
        self.assertEqual(group, bytes([0, 1, 2, 3, 0, 1, 2, 3, 4, 5, 6, 7, 4, 5, 6, 7]))

    def test_sample_by_sample(self):
        rng = random.Random(104)
        histories = SOME
        for k in range(20):
            given = sector_of(rng.randbytes(144), rng.randbytes(2016))
            wanted = plainly(given, k % 3 == 0, histories)
            (number, histories), out = call(given, k % 3 == 0, histories)
            self.assertEqual((number, histories, out), (DONE, *wanted))


class Samples(unittest.TestCase):
    def test_signed(self):
        self.assertEqual([first(0x0C, nibble) for nibble in (0, 1, 7, 8, 15)], [0, 1, 7, -8, -1])

    def test_shift(self):
        self.assertEqual([first(shift, 1) for shift in range(13)],
                         [4096, 2048, 1024, 512, 256, 128, 64, 32, 16, 8, 4, 2, 1])
        self.assertEqual((first(0, 7), first(0, 8)), (28672, -32768))

    def test_shifts_13_to_15(self):
        for shift in (13, 14, 15):
            self.assertEqual((first(shift, 1), first(shift, 8)), (8, -64))
            self.assertEqual(first(0x10 | shift, 1, old=64), 8 + 60)
            self.assertEqual(first(0x20 | shift, 1, old=64), 8 + 115)
            self.assertEqual(first(0x30 | shift, 1, old=64), 8 + 98)

    def test_filters(self):
        self.assertEqual(first(0x0C, 0, 1000, 500), 0)
        self.assertEqual(first(0x1C, 0, 1000, 500), 938)        # 60032 / 64 = 938
        self.assertEqual(first(0x2C, 0, 1000, 500), 1391)       # 89032 / 64 = 1391.1
        self.assertEqual(first(0x3C, 0, 1000, 500), 1102)       # 70532 / 64 = 1102.1

    def test_rounding(self):
        self.assertEqual(first(0x1C, 0, -1), -1)                # -28 / 64
        self.assertEqual(first(0x1C, 0, 1), 1)                  # 92 / 64
        self.assertEqual(first(0x3C, 0, 0, 1), -1)              # -23 / 64
        self.assertEqual(first(0x3C, 0, 0, -1), 1)              # 87 / 64
        self.assertEqual(first(0x2C, 0, -8, 0), -14)            # -888 / 64 = -13.9
        self.assertEqual(first(0x2C, 0, 8, 0), 14)              # 952 / 64 = 14.9

    def test_bits_6_and_7(self):
        for header, sample in ((0x0C, 0), (0x1C, 938), (0x2C, 1391), (0x3C, 1102)):
            for upper in (0x40, 0x80, 0xC0):
                self.assertEqual(first(upper | header, 0, 1000, 500), sample)
                self.assertEqual(first(upper | header, 3, 1000, 500), sample + 3)

    def test_saturation(self):
        self.assertEqual(first(0x10, 7, 0x7FFF), 0x7FFF)
        self.assertEqual(first(0x10, 8, -0x8000), -0x8000)
        self.assertEqual(first(0x2C, 0, 0x7FFF, -0x8000), 0x7FFF)
        self.assertEqual(first(0x2C, 0, -0x8000, 0x7FFF), -0x8000)
        self.assertEqual([first(0x10, 4, old) for old in (17474, 17475, 17476)], [32766, 32767, 32767])
        self.assertEqual([first(0x10, 12, old) for old in (-17475, -17476, -17477)], [-32767, -32768, -32768])

    def test_saturated_samples_are_kept(self):
        """Sample 0 is saturated, and sample 1 is made from that: 32767 * 60 + 32 is 64 * 30719 + 36."""
        _, out = call(sector(0x10, 16, 7), histories=Histories(mono=History(0x7FFF, 0)))
        self.assertEqual(out[:2], [32767, 30719])

    def test_as_the_chip(self):
        """A unit's nibbles in a block of the chip give the same samples."""
        rng = random.Random(1)
        for header in range(64):
            nibbles = [rng.randrange(16) for _ in range(28)]
            block = bytes([header, 0, *(nibbles[j] | nibbles[j + 1] << 4 for j in range(0, 28, 2))])
            changes = [number for j, nibble in enumerate(nibbles) for number in (16 + 4 * j, nibble)]
            _, out = call(sector(header, *changes), histories=SOME)
            self.assertEqual(out[:28], spu.decode(block, 5, 6))


class Carried(unittest.TestCase):
    # With filter 1 a sample of 1 to 8 rings on for ever: (7 * 60 + 32) / 64 = 7.1.
    LAST = 16 + 4 * 27                      # of a group, the byte of sample 27 of units 0 and 1

    def test_zero_when_made(self):
        self.assertEqual(Histories(), ((0, 0), (0, 0), (0, 0)))
        self.assertEqual(heard(sector(0x1C)), {})

    def test_last_two(self):
        given = sector(0x0C, 2303, 0x21, 2299, 0x43)
        self.assertEqual(call(given, True, SOME)[0], (DONE, ((1, 3), (2, 4), (5, 6))))
        self.assertEqual(call(given, False, SOME)[0], (DONE, ((1, 2), (3, 4), (2, 4))))

    def test_silence(self):
        self.assertEqual(call(sector(), True, SOME)[0], (DONE, ((0, 0), (0, 0), (5, 6))))
        self.assertEqual(call(sector(), False, SOME)[0], (DONE, ((1, 2), (3, 4), (0, 0))))

    def test_from_unit_to_unit(self):
        """Sample 27 of unit 0 is 7; unit 1 or, in stereo, unit 2 goes on from it."""
        out = call(sector(0x1C, self.LAST, 7))[1]
        self.assertEqual(out[26:30], [0, 7, 7, 7])
        out = call(sector(0x1C, self.LAST, 7), True)[1]
        self.assertEqual((out[52:58:2], out[53:59:2]), ([0, 7, 7], [0, 0, 0]))
        out = call(sector(0x1C, self.LAST, 7 << 4), True)[1]
        self.assertEqual((out[52:58:2], out[53:59:2]), ([0, 0, 0], [0, 7, 7]))

    def test_from_group_to_group(self):
        """The last byte of group 0 has the last samples of units 6 and 7."""
        self.assertEqual(call(sector(0x1C, 127, 0x70))[1][222:226], [0, 7, 7, 7])
        self.assertEqual(call(sector(0x1C, 127, 0x57), True)[1][222:228], [7, 5, 7, 5, 7, 5])

    def test_from_sector_to_sector(self):
        (_, histories), _ = call(sector(0x1C, 2303, 0x57), True)
        self.assertEqual(histories, ((7, 0), (5, 0), (0, 0)))
        (_, histories), out = call(sector(0x1C, 2303, 0x20), False, histories)
        self.assertEqual((out[0], histories), (0, ((7, 0), (5, 0), (2, 0))))
        (_, histories), out = call(sector(0x1C), True, histories)
        self.assertEqual(out[:4], [7, 5, 7, 5])
        (_, histories), out = call(sector(0x1C), False, histories)
        self.assertEqual(out[:2], [2, 2])
        self.assertEqual(histories, ((7, 7), (5, 5), (2, 2)))

    def test_old_and_older(self):
        """Filter 2 from 1000 and 500: 1391, then (1391 * 115 - 1000 * 52 + 32) / 64 = 1687.4."""
        out = call(sector(0x2C), False, Histories(mono=History(1000, 500)))[1]
        self.assertEqual(out[:2], [1391, 1687])

    def test_any_values(self):
        for ends in ((0x7FFF, -0x8000), (-0x8000, -0x8000), (-0x8000, 0x7FFF)):
            self.assertEqual(first(0x3C, 0, *ends), spu.saturate((98 * ends[0] - 55 * ends[1] + 32) // 64))


class Refusals(unittest.TestCase):
    def refuses(self, number, given, **other):
        for stereo in (False, True):
            room = other.get("room", ROOM)
            self.assertEqual(call(given, stereo, SOME, **other), ((number, SOME), room))

    def test_sector(self):
        good = sector()
        for length in (0, 1, 128, 2303):
            self.refuses(LENGTH, good[:length])
        for more in (1, 20, 48, 2304, 65536):
            self.refuses(LENGTH, good + bytes(more))

    def test_output(self):
        for length in (0, 1, 2016, 4031, 4033, 8064, 65536 + 4032):
            self.refuses(LENGTH, sector(), room=[7] * length)

    def test_eight_bit(self):
        self.refuses(EIGHT_BIT, sector(), eight_bit=True)

    def test_copies(self):
        for g in (0, 1, 9, 17):
            for place in range(16):
                for bit in range(8):
                    self.refuses(COPIES, sector(0x0C, 128 * g + place, 0x0C ^ 1 << bit))
        self.assertEqual(call(sector(0x0C, 3, 0x1F, 7, 0x1F))[0].number, DONE)
        self.assertEqual(call(sector(0x0C, 2176 + 11, 0x1F, 2176 + 15, 0x1F))[0].number, DONE)

    def test_copies_of_others(self):
        self.refuses(COPIES, sector(0x0C, 0, 0x0D, 12, 0x0D))
        self.refuses(COPIES, sector(0x0C, 0, 0x0D, 8, 0x0D))
        self.refuses(COPIES, sector(0x0C, 0, 0x0D, 5, 0x0D))

    def test_order(self):
        differing = sector(0x0C, 0, 0)
        self.refuses(EIGHT_BIT, differing, eight_bit=True)
        self.refuses(LENGTH, differing[:2303])
        self.refuses(LENGTH, sector()[:2303], eight_bit=True)
        self.refuses(LENGTH, differing[:2303], eight_bit=True)
        self.refuses(LENGTH, differing, room=ROOM[:4031])
        self.refuses(LENGTH, sector(), eight_bit=True, room=ROOM[:4031])
        self.refuses(LENGTH, differing, eight_bit=True, room=ROOM + [0])


class Program(unittest.TestCase):
    """The program `xa_sectors` decodes xa.xa, of which an outside decoder gave the samples, and then the edges."""
    def stored(self, name):
        path = os.path.join(PROGRAM, name)
        self.assertTrue(os.path.exists(path), "crates/xa_sectors/%s is missing, with which this test compares" % name)
        with open(path, "rb") as file:
            return file.read()

    def test_outside_sectors(self):
        sectors, lines = self.stored("data/xa.xa"), self.stored("stdout").decode().split("\n")
        self.assertEqual(len(sectors), 12 * 2304)
        histories, modes = Histories(), []
        for k in range(12):
            mode, *groups = lines[19 * k:19 * k + 19]
            (number, histories), out = call(sectors[2304 * k:2304 * k + 2304], mode == "stereo", histories)
            self.assertEqual(number, DONE)
            self.assertEqual([" ".join(map(str, out[224 * g:224 * g + 224])) for g in range(18)], groups, k)
            modes.append(mode)
        self.assertEqual((modes.count("stereo"), modes.count("mono")), (6, 6))

    def test_edges(self):
        self.assertEqual(self.stored("data/edges.xa"), b"".join(map(xa_edges.packed, xa_edges.records())))
        self.assertEqual(self.stored("stdout").decode().split("\n")[19 * 12:],
                         [*xa_edges.lines(xa_edges.records()), ""])


class Edges(unittest.TestCase):
    RECORDS = xa_edges.records()

    def test_every_header(self):
        met = set()
        for record, (decoded, _, _) in zip(self.RECORDS, xa_edges.answers(xa, self.RECORDS)):
            met |= headers_met(record.bytes, record.stereo) if decoded.number == DONE else set()
        self.assertEqual(len(met), 3 * 256)

    def test_numbers(self):
        numbers = [decoded.number for decoded, _, _ in xa_edges.answers(xa, self.RECORDS)]
        self.assertEqual([numbers.count(number) for number in (DONE, COPIES, EIGHT_BIT, LENGTH)], [8, 4, 2, 8])

    def test_size(self):
        for record in self.RECORDS:
            self.assertEqual((len(record.bytes), len(xa_edges.packed(record))), (2305, 2310))
            self.assertTrue(record.length <= 2305 and record.room <= 4033)


class Fuzz(unittest.TestCase):
    def test_every_header(self):
        met = set()
        for case, numbers in (make_case(1, number) for number in range(200)):
            for call, number in zip(case.calls, numbers):
                met |= headers_met(call.sector, call.stereo) if number == DONE else set()
        self.assertEqual(len(met), 3 * 256)

    def test_made_as_said(self):
        for number in range(3 * len(RECIPES)):
            case, numbers = make_case(2, number)
            self.assertEqual(tuple(decoded.number for decoded, _ in answers(xa, case)), numbers, case.recipe)

    def test_wrong_references(self):
        samples = {name for name, *_ in WRONG_SAMPLES}
        for name, case, record in told_apart():
            with self.subTest(name):
                self.assertIsNotNone(case)
                self.assertTrue(record is not None or name not in samples, "no edge record tells it apart")

    def test_the_reference_itself(self):
        for number in range(100):
            case = make_case(1, number)[0]
            self.assertEqual(list(answers(xa, case)), list(answers(load(), case)))


if __name__ == "__main__":
    unittest.main()
