"""The rules of the check of encoders on both sides of their edges, worked out by hand; and the fuzz against wrong
references."""
import os
import struct
import unittest

import encoder
import encoder_edges
from encoder import LENGTH, Verdict
from encoder_cases import RECIPES, encoded, make_case
from encoder_fuzz import answer
from encoder_mutants import BEYOND_EDGES, load, told_apart

CRATES = os.path.join(os.path.dirname(os.path.abspath(__file__)), os.pardir, "crates")
YES, EMPTY = Verdict(0, True), Verdict(0, False, True, False, False, 0, 28)
SILENCE = [0] * 28


def block(header=0x0C, *nibbles, flags=0):
    """A block of these nibbles, the last again and again if they are fewer than 28; none are zeros.  With 0Ch, filter
    0 and shift 12, a sample is its nibble."""
    given = [nibble & 15 for nibble in nibbles or (0,)]
    given += [given[-1]] * (28 - len(given))
    return bytes([header, flags, *(low | high << 4 for low, high in zip(given[::2], given[1::2]))])


def ended(*blocks):
    """These blocks, the last with the end flag."""
    joined = bytearray(b"".join(blocks))
    joined[-15] |= 1
    return bytes(joined)


def check(originals, given, largest=0):
    return encoder.check(originals, given, largest)


def no(b, sample=28, end_flag=False, wrong_filter=False):
    return Verdict(0, False, False, end_flag, wrong_filter, b, sample)


def unpaired(b):
    return Verdict(0, False, True, False, False, b, 28)


def plainly(originals, given, largest):
    """The number, the yes and the block: all blocks at fault, sample by sample."""
    if len(originals) % 28 > 0 or len(given) % 16 > 0:
        return 23, False, 0
    count, pairs = len(given) // 16, min(len(originals) // 28, len(given) // 16)
    at_fault = set() if len(originals) // 28 == count > 0 else {pairs}
    old = older = 0
    for place in range(28 * pairs):
        b, j = place // 28, place % 28
        header, flags, byte = given[16 * b], given[16 * b + 1], given[16 * b + 2 + j // 2]
        nibble = byte // 16 if j % 2 else byte % 16
        t = nibble - 16 if nibble > 7 else nibble
        shift = 9 if header % 16 > 12 else header % 16
        k0, k1 = {1: (60, 0), 2: (115, -52), 3: (98, -55), 4: (122, -60)}.get(header // 16 % 8, (0, 0))
        sample = min(max(t * 2 ** (12 - shift) + (old * k0 + older * k1 + 32) // 64, -32768), 32767)
        old, older = sample, old
        if not originals[place] - largest <= sample <= originals[place] + largest:
            at_fault.add(b)
        if header // 16 % 8 > 4 or flags % 2 != (b == count - 1):
            at_fault.add(b)
    return 0, not at_fault, min(at_fault, default=0)


class Distances(unittest.TestCase):
    def test_edges(self):
        """Every sample is 3."""
        given = ended(block(0x0C, 3))
        self.assertEqual(check([3] * 28, given, 0), YES)
        for largest in (0, 1, 5, 32764):
            for sign in (-1, 1):
                near, far = 3 + sign * largest, 3 + sign * (largest + 1)
                self.assertEqual(check([near] * 28, given, largest), YES)
                self.assertEqual(check([far] * 28, given, largest), no(0, 0))

    def test_sample(self):
        given = ended(block(), block())
        for place in range(56):
            for wrong in (-1, 1):
                originals = [0] * place + [wrong] + [0] * (55 - place)
                self.assertEqual(check(originals, given), no(place // 28, place % 28))
                self.assertEqual(check(originals, given, 1), YES)

    def test_first_sample(self):
        originals = 2 * SILENCE
        originals[30], originals[31], originals[55] = 2, 9, -9
        self.assertEqual(check(originals, ended(block(), block()), 1), no(1, 2))
        self.assertEqual(check(originals, ended(block(), block()), 2), no(1, 3))
        self.assertEqual(check(originals, ended(block(), block()), 8), no(1, 3))
        self.assertEqual(check(originals, ended(block(), block()), 9), YES)

    def test_17_bits(self):
        """Samples are -32768; with 7s and filter 1 they are 28672, 32767, 32767 and so on."""
        low = ended(block(0x00, 8))
        self.assertEqual(check([32767] * 28, low, 65535), YES)
        self.assertEqual(check([32767] * 28, low, 65534), no(0, 0))
        self.assertEqual(check([32766] * 28, low, 65534), YES)
        self.assertEqual(check([0] * 28, low, 32768), YES)
        self.assertEqual(check([0] * 28, low, 32767), no(0, 0))
        for largest in (0, 1, 32767, 32768):
            self.assertEqual(check([32767] * 28, low, largest), no(0, 0))
        high = ended(block(0x10, 7))
        self.assertEqual(check([-32768] * 28, high, 65535), YES)
        self.assertEqual(check([-32768] * 28, high, 65534), no(0, 1))
        self.assertEqual(check([-32768] * 28, high, 61440), no(0, 1))
        self.assertEqual(check([-32768] * 28, high, 61439), no(0, 0))
        self.assertEqual(check([28672] + [-32768] * 27, high, 1), no(0, 1))


class Samples(unittest.TestCase):
    # The last two samples of the first block are 4096 and 8192.  After it stands a block of zeros; by its filter, its
    # first two samples.
    LOUD = block(0x00, *26 * (0,), 1, 2)
    AFTER = {0: (0, 0),
             1: (7680, 7200),       # 491552 / 64 = 7680.5, 460832 / 64 = 7200.5
             2: (11392, 13814),     # 729120 / 64 = 11392.5, 884128 / 64 = 13814.5
             3: (9024, 6778),       # 577568 / 64 = 9024.5, 433824 / 64 = 6778.5
             4: (11776, 14768)}     # 753696 / 64 = 11776.5, 945184 / 64 = 14768.5

    def test_history(self):
        """Sample 2 of block 1 is too far, so samples 0 and 1 are not."""
        before = [0] * 26 + [4096, 8192]
        for chosen, (first, second) in self.AFTER.items():
            given = ended(self.LOUD, block(chosen << 4 | 0x0C))
            self.assertEqual(check(before + [first, second] + [-32768] * 26, given), no(1, 2))
            self.assertEqual(check(before + [first, second + 1] + [0] * 26, given), no(1, 1))
            self.assertEqual(check(before + [first - 1, second] + [0] * 26, given), no(1, 0))

    def test_history_of_samples(self):
        """Within E of their originals, decoded samples make the history: (7 * 60 + 32) / 64 is 7, and rings on."""
        given = ended(block(0x0C, *27 * (0,), 7), block(0x1C))
        self.assertEqual(check([0] * 27 + [7] + [7] * 28, given), YES)
        self.assertEqual(check([0] * 27 + [5] + [7] * 28, given, 2), YES)
        self.assertEqual(check([0] * 27 + [5] + [5] * 28, given, 1), no(0, 27))
        self.assertEqual(check([0] * 27 + [7] + [0] * 28, given, 6), no(1, 0))

    def test_zero_history(self):
        """With filters 1 to 4, silence stays silence."""
        for header in (0x1C, 0x2C, 0x3C, 0x4C):
            self.assertEqual(check(SILENCE, ended(block(header))), YES)

    def test_shifts(self):
        for shift, sample in enumerate((4096, 2048, 1024, 512, 256, 128, 64, 32, 16, 8, 4, 2, 1, 8, 8, 8)):
            self.assertEqual(check([sample] * 28, ended(block(shift, 1))), YES)
            self.assertEqual(check([-sample] * 28, ended(block(shift, -1))), YES)

    def test_low_nibble_first(self):
        self.assertEqual(check(14 * [1, 2], ended(block(0x0C, *14 * (1, 2)))), YES)
        self.assertEqual(check(14 * [2, 1], ended(block(0x0C, *14 * (1, 2)))), no(0, 0))


class Filters(unittest.TestCase):
    def test_each(self):
        for header in range(256):
            verdict = YES if header >> 4 & 7 < 5 else no(0, wrong_filter=True)
            self.assertEqual(check(SILENCE, ended(block(header))), verdict)

    def test_place(self):
        for b in range(3):
            given = [block(0x4C)] * 3
            given[b] = block(0x5C)
            self.assertEqual(check(3 * SILENCE, ended(*given)), no(b, wrong_filter=True))

    def test_acts_as_0(self):
        """The history is 7, which a filter of 5 to 7 does not use."""
        for header in (0x5C, 0x6C, 0x7C):
            given = ended(block(0x0C, 7), block(header))
            self.assertEqual(check([7] * 28 + [0] * 28, given), no(1, wrong_filter=True))
            self.assertEqual(check([7] * 28 + [7] * 28, given), no(1, 0, wrong_filter=True))


class EndFlags(unittest.TestCase):
    def verdict(self, *flags):
        return check(len(flags) * SILENCE, b"".join(block(flags=byte) for byte in flags))

    def test_bit_0(self):
        for byte in range(256):
            self.assertEqual(self.verdict(byte), YES if byte % 2 == 1 else no(0, end_flag=True))
            self.assertEqual(self.verdict(byte, 1), YES if byte % 2 == 0 else no(0, end_flag=True))

    def test_last_and_no_other(self):
        self.assertEqual(self.verdict(0, 0, 0, 1), YES)
        self.assertEqual(self.verdict(1, 0, 0, 1), no(0, end_flag=True))
        self.assertEqual(self.verdict(0, 1, 0, 1), no(1, end_flag=True))
        self.assertEqual(self.verdict(0, 0, 1, 1), no(2, end_flag=True))
        self.assertEqual(self.verdict(0, 0, 1, 0), no(2, end_flag=True))
        self.assertEqual(self.verdict(0, 0, 0, 0), no(3, end_flag=True))
        self.assertEqual(self.verdict(0, 1, 1, 0), no(1, end_flag=True))
        self.assertEqual(self.verdict(1, 1, 1, 1), no(0, end_flag=True))


class Counts(unittest.TestCase):
    def verdict(self, groups, flags, header=0x0C, b=0):
        """Of silence; block b has the header."""
        return check(groups * SILENCE, b"".join(
            block(header if b == place else 0x0C, flags=byte) for place, byte in enumerate(flags)))

    def test_more_blocks(self):
        self.assertEqual(self.verdict(2, (0, 0, 1)), unpaired(2))
        self.assertEqual(self.verdict(2, (0, 0, 0, 0, 1)), unpaired(2))
        self.assertEqual(self.verdict(1, (0, 1)), unpaired(1))

    def test_more_originals(self):
        self.assertEqual(self.verdict(3, (0, 1)), unpaired(2))
        self.assertEqual(self.verdict(9, (0, 1)), unpaired(2))
        self.assertEqual(self.verdict(2, (1,)), unpaired(1))

    def test_last_encoded_block(self):
        """It is the last of the encoded bytes, whatever the originals."""
        self.assertEqual(self.verdict(2, (0, 1, 0)), no(1, end_flag=True))
        self.assertEqual(self.verdict(2, (0, 1, 1)), no(1, end_flag=True))
        self.assertEqual(self.verdict(3, (0, 0)), no(1, end_flag=True))
        self.assertEqual(self.verdict(2, (0, 0, 0)), unpaired(2))

    def test_earlier_faults(self):
        self.assertEqual(self.verdict(3, (0, 0, 0, 0, 1), 0x5C, 1), no(1, wrong_filter=True))
        self.assertEqual(self.verdict(3, (0, 1), 0x5C, 1), no(1, wrong_filter=True))
        self.assertEqual(self.verdict(3, (1, 1)), no(0, end_flag=True))
        self.assertEqual(check([0] * 27 + [1] + 2 * SILENCE, ended(block(), block())), no(0, 27))

    def test_rules_of_unpaired_blocks(self):
        self.assertEqual(self.verdict(2, (0, 0, 1), 0x5C, 2), unpaired(2))
        self.assertEqual(self.verdict(2, (0, 0, 1, 0), 0x7C, 3), unpaired(2))

    def test_empty(self):
        for largest in (0, 1, 65535):
            self.assertEqual(check([], b"", largest), EMPTY)
            self.assertEqual(check(SILENCE, b"", largest), EMPTY)
            self.assertEqual(check([], ended(block()), largest), EMPTY)
            self.assertEqual(check([], block(0x7C), largest), EMPTY)


class First(unittest.TestCase):
    def test_all_rules_of_a_block(self):
        originals = [0] * 28 + [0] * 9 + [1] * 19 + [0] * 28
        silent = block()
        for header, wrong_filter in ((0x0C, False), (0x6C, True)):
            for flags, end_flag in ((0, False), (1, True)):
                given = ended(silent, block(header, flags=flags), silent)
                self.assertEqual(check(originals, given), no(1, 9, end_flag, wrong_filter))
                if end_flag or wrong_filter:
                    self.assertEqual(check(originals, given, 1), no(1, 28, end_flag, wrong_filter))

    def test_rules_of_later_blocks(self):
        """Block 1 breaks one rule, block 2 the others."""
        bad = block(0x6C, flags=1)
        far = 2 * SILENCE + [1] * 28 + SILENCE
        self.assertEqual(check(far, ended(block(), block(0x6C), bad, block())), no(1, wrong_filter=True))
        self.assertEqual(check(far, ended(block(), block(flags=1), bad, block())), no(1, end_flag=True))
        self.assertEqual(check([0] * 55 + [1] * 57, ended(block(), block(), bad, block())), no(1, 27))

    def test_sample_by_sample(self):
        for number in range(4 * len(RECIPES)):
            case, said = make_case(3, number)
            self.assertEqual(plainly(case.originals, case.encoded, case.largest), said, case.recipe)


class Refusals(unittest.TestCase):
    def test_originals(self):
        for count in range(1, 100):
            for given in (b"", ended(block()), block(0x7C)):
                verdict = check([0] * count, given)
                self.assertEqual(verdict == Verdict(LENGTH), count % 28 != 0)

    def test_encoded(self):
        silent = ended(block()) + bytes(60)
        for count in range(1, 60):
            for originals in ([], SILENCE, [9] * 28):
                verdict = check(originals, silent[:count])
                self.assertEqual(verdict == Verdict(LENGTH), count % 16 != 0)

    def test_nothing_else(self):
        self.assertEqual(check([0], b""), (23, False, False, False, False, 0, 0))
        self.assertEqual(check([0] * 27, bytes(15)), (23, False, False, False, False, 0, 0))


class Program(unittest.TestCase):
    """The program `encoder_cases` checks an outside decoder's sound, and then the edges."""
    def stored(self, name):
        path = os.path.join(CRATES, name)
        self.assertTrue(os.path.exists(path), "crates/%s is missing, with which this test compares" % name)
        with open(path, "rb") as file:
            return file.read()

    def test_outside_sound(self):
        stored, vectors = self.stored("encoder_cases/data/outside.bin"), self.stored("adpcm_vectors/data/spu-adpcm.spu")
        samples = self.stored("adpcm_vectors/stdout").split()
        self.assertEqual((len(stored), len(vectors), len(samples)), (16128 + 4608, 4608, 8064))
        self.assertEqual(stored[:16128], struct.pack("<8064h", *map(int, samples)))
        blocks = stored[16128:]
        self.assertEqual([(blocks[at], blocks[at + 2:at + 16]) for at in range(0, 4608, 16)],
                         [(vectors[at], vectors[at + 2:at + 16]) for at in range(0, 4608, 16)])
        self.assertEqual([flags & 1 for flags in blocks[1::16]], [0] * 287 + [1])
        self.assertTrue(all(header >> 4 & 7 < 5 for header in blocks[::16]))

    def test_outside_answers(self):
        """Original 4,000 is sample 24 of block 142; block 99 is the last of 100, and has no end flag."""
        self.assertEqual(self.stored("encoder_cases/stdout").decode().split("\n")[:4],
                         ["yes", "no 142 sample 24", "yes", "no 99 end_flag"])

    def test_edges(self):
        self.assertEqual(self.stored("encoder_cases/data/cases.bin"),
                         b"".join(map(encoder_edges.packed, encoder_edges.cases())))
        self.assertEqual(self.stored("encoder_cases/stdout").decode().split("\n")[4:],
                         [line for line, *_ in encoder_edges.EDGES] + [""])


class Edges(unittest.TestCase):
    CASES = encoder_edges.cases()

    def test_lines(self):
        for (line, *_), verdict in zip(encoder_edges.EDGES, encoder_edges.answers(encoder, self.CASES)):
            self.assertEqual(encoder_edges.line(verdict), line)

    def test_size(self):
        for case in self.CASES:
            self.assertTrue(len(case.originals) <= 168 and len(case.encoded) <= 96)
            self.assertEqual(len(encoder_edges.packed(case)), 438)

    def test_rest(self):
        """A program that reads into the rest of a record reads A5h."""
        record = encoder_edges.packed(self.CASES[0])
        self.assertEqual(record[:6], struct.pack("<HHH", 0, 28, 16))
        self.assertEqual((record[62:342], record[358:]), (b"\xA5" * 280, b"\xA5" * 80))


class Fuzz(unittest.TestCase):
    def test_made_as_said(self):
        for number in range(3 * len(RECIPES)):
            case, said = make_case(2, number)
            verdict = answer(encoder, case)
            self.assertEqual((verdict.number, verdict.yes, verdict.block), said, case.recipe)

    def test_encoded(self):
        """As host/c/encoder.c takes it: E, the two lengths, the originals, the bytes."""
        case = make_case(1, 0)[0]._replace(largest=0x0102, originals=[-2, 3], encoded=b"\x04\x05\x06")
        self.assertEqual(encoded(case).hex(), "0201" "02000000" "03000000" "feff" "0300" "040506")

    def test_wrong_references(self):
        for name, case, edge in told_apart():
            with self.subTest(name):
                self.assertIsNotNone(case)
                self.assertTrue(edge is not None or name in BEYOND_EDGES, "no edge tells it apart")

    def test_the_reference_itself(self):
        for number in range(200):
            case = make_case(1, number)[0]
            self.assertEqual(answer(encoder, case), answer(load(), case))


if __name__ == "__main__":
    unittest.main()
