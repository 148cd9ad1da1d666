"""The edges of the scope paper and samples of its other rules, worked out by hand."""
import os
import unittest

from bench import bench
from replay import replay
from spu import (ATTACK, DECAY, GAUSS, IDLE, OFF, RELEASE, SUSTAIN, SoundRam, Spu, Voice, answer,
                 decode, interpolate, next_noise, pitch_step, s16, volume)

ROOT = os.path.join(os.path.dirname(os.path.abspath(__file__)), os.pardir)
VECTORS = os.path.join(ROOT, "crates", "adpcm_vectors")
LOUD = [0x00, 0x07] + [0x77] * 14       # shift 0, all nibbles 7, a loop on itself


def load(spu, address, data):
    for k in range(0, len(data), 2):
        spu.store((address + k) % spu.L, data[k] | data[k + 1] << 8)


def keyed(spu, n=0, start=0x400, pitch=0x1000, low=0x000F, high=0):
    for place, value in ((0, 0x3FFF), (2, 0x2000), (4, pitch), (6, start), (8, low), (10, high)):
        assert spu.write(16 * n + place, value) == 0
    assert spu.write(0x188 if n < 16 else 0x18A, 1 << n % 16) == 0


def loud(control=0xC000, L=65536):
    spu = Spu(L)
    load(spu, 0x2000, LOUD)
    for offset in (0x180, 0x182):
        spu.write(offset, 0x3FFF)
    spu.write(0x1AA, control)
    return spu


class Edges(unittest.TestCase):
    def test_pitch(self):
        self.assertEqual(pitch_step(0x3FFF), 0x3FFF)
        self.assertEqual(pitch_step(0x4001), 0x4000)
        self.assertEqual(pitch_step(0x8000, -0x8000), 0)
        self.assertEqual(pitch_step(0x8000, -0x7FFF), 0x4000)
        self.assertEqual(pitch_step(0x1000, 0x7FFF), 0x1FFF)
        self.assertEqual(pitch_step(0x1000, 0), 0x1000)

    def test_volume(self):
        self.assertEqual([volume(v) for v in (0x3FFF, 0x4000, 0x7FFF)], [0x7FFE, -0x8000, -2])

    def test_nibble(self):
        self.assertEqual(decode(bytes([0x10]) + bytes(15), -1, 0)[0], -1)
        self.assertEqual(decode(bytes([0x10, 0] + [7] * 14), 0x7FFF, 0)[0], 0x7FFF)

    def test_envelope(self):
        voice = Voice()
        voice.key_on(0, 65536, 0, 0)
        levels = []
        while voice.phase == ATTACK:
            voice.envelope_step(0, 0)
            levels.append(voice.level)
        self.assertEqual((levels, voice.phase), ([0x3800, 0x7000, 0x7FFF], DECAY))
        voice.envelope_step(3, 0)
        self.assertEqual((voice.level, voice.phase), (0x3FFF, DECAY))
        voice.envelope_step(3, 0)
        self.assertEqual((voice.level, voice.phase), (0x1FFF, SUSTAIN))

    def test_noise(self):
        self.assertEqual([next_noise(x) for x in (0, 0x7FF, 0xFFE)], [1, 0xFFE, 0x1FFD])

    def test_noise_counted(self):
        """M-102: a count of the ones under 9C00h gives the same next level as 01's four bits xored, for every level."""
        for level in range(0x10000):
            even = bin(level & 0x9C00).count("1") % 2 == 0
            self.assertEqual(next_noise(level), 2 * level % 0x10000 + even)

    def test_mix(self):
        self.assertEqual(answer(-0x8000, 0x4000), 0x7FFF)

    def test_transfer_count(self):
        spu = Spu(65536)
        spu.write(0x1AA, 0x20)
        self.assertEqual(spu.transfer_in([1]), (6, 0, 0, 0))        # not yet applied
        self.assertEqual(spu.transfer_in([1] * 33)[0], 6)
        spu.tick(0, 0)
        self.assertEqual(spu.transfer_in([1] * 32), (0, 32, 0, 0))
        self.assertEqual(spu.transfer_in([1] * 33), (7, 0, 0, 0))
        self.assertEqual(spu.transfer_in([]), (7, 0, 0, 0))

    def test_wrapped_block(self):
        for L in (65536, 524288):
            spu = loud(L=L)
            load(spu, L - 8, LOUD)
            keyed(spu, start=(L - 8) // 8)
            spu.voices[0].load(spu)
            self.assertEqual(spu.voices[0].samples[3:], [0x7000] * 28)
            self.assertFalse(spu.doubt)
            self.assertEqual(spu.block_view(L - 8), (8, b""))
            self.assertEqual(spu.block_view(L - 16)[0], 0)
            self.assertEqual(spu.block_view(0x2000), (0, bytes(LOUD)))


class HeardBefore(unittest.TestCase):
    def test_release_ends(self):
        voice = Voice()
        voice.key_on(0, 65536, 0x000F, 0x0020)
        voice.level = 0x7FFF
        voice.key_off(0x000F, 0x0020)
        for _ in range(100):
            voice.envelope_step(0x000F, 0x0020)
        self.assertEqual((voice.phase, voice.level, voice.wait), (OFF, 0, 0))

    def test_index_from_bit_4(self):
        voice = Voice()
        voice.key_on(0, 65536, 0x000F, 0)
        voice.loaded, voice.level, voice.counter = True, 0x7FFF, 0xFFF
        voice.samples[:4] = [100, 2000, 30000, -4000]
        heard = interpolate(100, 2000, 30000, -4000, 0xFF)
        self.assertEqual(voice.tick(SoundRam(65536), 0, 0, 0), heard * 0x7FFF >> 15)

    def test_off_voice_still_interrupts(self):
        spu = loud(0xC040)
        load(spu, 0x2000, [0, 1] + [0] * 14)
        spu.write(0x1A4, 0x400)
        keyed(spu, pitch=0x4000)
        irqs = [spu.tick(0, 0)[4] for _ in range(7)]
        self.assertEqual((irqs, spu.voices[0].phase), ([1, 0, 0, 0, 0, 0, 0], OFF))
        self.assertEqual(spu.read(0x1AE)[1] >> 6 & 1, 1)
        spu.write(0x1AA, 0xC000)
        self.assertEqual(spu.read(0x1AE)[1] >> 6 & 1, 0)
        spu.write(0x1AA, 0xC040)
        self.assertEqual([spu.tick(0, 0)[4] for _ in range(7)], [0, 0, 0, 0, 0, 0, 1])

    def test_endx_at_the_end(self):
        spu = loud()
        keyed(spu, n=17)
        for k in range(28):
            self.assertEqual(spu.read(0x19E), (0, 0), k)
            spu.tick(0, 0)
        self.assertEqual(spu.read(0x19E), (0, 2))
        spu.write(0x18A, 2)
        self.assertEqual(spu.read(0x19E), (0, 0))


class Tables(unittest.TestCase):
    def test_gauss(self):
        self.assertEqual(len(GAUSS), 512)
        for i in range(256):
            four = GAUSS[i] + GAUSS[255 - i] + GAUSS[256 + i] + GAUSS[511 - i]
            self.assertTrue(0x7F7F <= four <= 0x7F81)

    @unittest.skipUnless(os.path.exists(os.path.join(VECTORS, "stdout")), "no vectors")
    def test_adpcm_vectors(self):
        with open(os.path.join(VECTORS, "data", "spu-adpcm.spu"), "rb") as file:
            data = file.read()
        with open(os.path.join(VECTORS, "stdout"), encoding="ascii") as file:
            expected = [[int(x) for x in line.split()] for line in file]
        self.assertEqual(len(data), 16 * len(expected))
        old = older = 0
        for k, samples in enumerate(expected):
            self.assertEqual(decode(data[16 * k:16 * k + 16], old, older), samples, k)
            old, older = samples[27], samples[26]

    def test_header_oddities(self):
        body = [0] + [0x8F] * 14
        self.assertEqual(decode([0x0D] + body, 1, 2), decode([0x09] + body, 1, 2))
        self.assertEqual(decode([0xF9] + body, 1, 2), decode([0x09] + body, 1, 2))
        self.assertEqual(decode([0xA9] + body, 1, 2), decode([0x29] + body, 1, 2))


class Refusals(unittest.TestCase):
    def test_make_and_reset(self):
        self.assertEqual(Spu.make(524288)[0], 0)
        for bad in (0, 100, 65535):
            number, spu = Spu.make(bad)
            self.assertEqual((number, spu.L, spu.read(0x1AC)), (1, 65536, (0, 4)))

    def test_registers(self):
        spu = Spu(65536)
        for offset in range(0x210):
            number = spu.write(offset, 4)
            if offset % 2 or offset > 0x1FE or offset in (0x1A0, 0x1BC, 0x1BE):
                expected = 3
            elif offset in (0x19C, 0x19E, 0x1AE, 0x1B8, 0x1BA):
                expected = 4
            else:
                expected = 5 if offset == 0x1A8 or offset < 0x180 and offset % 16 == 12 else 0
            self.assertEqual(number, expected, hex(offset))
            readable = 3 if expected == 3 else 5 if offset == 0x1A8 else 0
            self.assertEqual(spu.read(offset)[0], readable, hex(offset))
        for offset in (0x000, 0x172, 0x180, 0x182):
            self.assertEqual((spu.write(offset, 0x8000), spu.write(offset, 0x7FFF)), (5, 0))
        for offset in (0x004, 0x184, 0x186, 0x1B0, 0x1FE):
            self.assertEqual((spu.write(offset, 0x8000), spu.read(offset)), (0, (0, 0x8000)))
        for value in range(16):
            self.assertEqual(spu.write(0x1AC, value), 11 if value & 1 else 0 if value == 4 else 5)

    def test_undocumented_bits(self):
        spu = Spu(65536)
        refused = {0x1AC: [0, *range(4, 16)]}
        refused |= {offset: range(8, 16) for offset in (0x18A, 0x18E, 0x192, 0x196, 0x19A)}
        refused |= {0x10 * n + 0xA: [13] for n in range(24)}
        for offset in (*refused, 0x19E, 0x188, 0x198, 0x008, 0x190):
            for k in range(16):
                documented = 4 if offset == 0x19E else 5 if offset == 0x1AC and k != 2 else 0
                expected = 11 if k in refused.get(offset, ()) else documented
                before = spu.read(offset)[1]
                self.assertEqual(spu.write(offset, 1 << k), expected, (hex(offset), k))
                self.assertEqual(spu.read(offset), (0, before if expected else 1 << k), (hex(offset), k))
        self.assertEqual([spu.write(0x1AC, value) for value in (0x0010, 0x0006, 0x0014, 0xFFFF)], [11, 5, 11, 11])
        self.assertEqual([spu.write(offset, 0xFFFF) for offset in (0x00B, 0x19E, 0x19B, 0x1AD)], [3, 4, 3, 3])
        spu.capture_place = 1
        self.assertEqual(spu.write(0x1AC, 0xFFFF), 2)

    def test_states_with_undocumented_bits(self):
        spu = loud()
        for offset, value in ((0x00A, 0x2000), (0x18A, 0xFF00), (0x19A, 0xFF00), (0x1AC, 0xFFF1)):
            spu.reg[offset] |= value
            self.assertEqual((spu.refusal(), spu.read(offset)), (0, (0, spu.reg[offset])))
        self.assertEqual(spu.tick(0, 0)[0], 0)

    def test_lengths_and_ranges(self):
        spu = Spu(65536)
        spu.marks.append(0)
        self.assertEqual(spu.tick(0, 0), (1, 0, 0, 0, 0, 0))
        self.assertEqual(spu.transfer_in([1])[0], 1)
        self.assertEqual((spu.block_view(0)[0], spu.read(0)[0], spu.reset()), (0, 0, 0))
        spu.marks.pop()
        for field, bad in (("capture_place", 0x400), ("capture_place", 1), ("timer", 0x20001),
                           ("timer", -1), ("reverb_place", 65536), ("transfer_address", 3)):
            good = getattr(spu, field)
            setattr(spu, field, bad)
            self.assertEqual((spu.tick(0, 0)[0], spu.reset(), spu.read(1)[0], spu.write(1, 0),
                              spu.block_view(3)[0], spu.transfer_out([])[0]), (2,) * 6)
            setattr(spu, field, good)
        voice = spu.voices[23]
        for field, bad in (("level", 0x8000), ("counter", 0x1000), ("index", 28), ("address", 4),
                           ("address", 65536), ("wait", 0x400001), ("phase", RELEASE)):
            good = getattr(voice, field)
            setattr(voice, field, bad)
            self.assertEqual(spu.tick(0, 0)[0], 2)
            setattr(voice, field, good)
        self.assertEqual(spu.tick(0, 0)[0], 0)
        spu.L = 100
        self.assertEqual(spu.tick(0, 0)[0], 1)
        spu.ram, spu.marks = bytearray(100), bytearray(6)
        self.assertEqual(spu.tick(0, 0)[0], 2)


class Playing(unittest.TestCase):
    def test_first_ticks(self):
        spu = loud()
        keyed(spu)
        spu.voices[0].samples = [0x7000] * 31       # a level tone from the first tick on
        heard = 4 * [0]
        for t, level in enumerate((0, 0x3800, 0x7000, 0x7FFF)):
            tone = sum(g * 0x7000 >> 15 for g in (GAUSS[255], GAUSS[511], GAUSS[256], GAUSS[0]))
            amplitude = tone * level >> 15
            heard[t] = (0, t, (amplitude * 0x7FFE >> 15) * 0x7FFE >> 15,
                        (amplitude * 0x4000 >> 15) * 0x7FFE >> 15, 0, 0)
        self.assertEqual([spu.tick(0, 0) for _ in range(4)], heard)

    def test_three_before(self):
        spu = loud()
        keyed(spu, pitch=0x4000)
        for _ in range(7):
            spu.tick(0, 0)
        self.assertEqual(spu.voices[0].samples, [0x7000] * 31)
        self.assertEqual(spu.voices[0].index, 0)

    def test_idle(self):
        spu = loud(0)
        spu.write(0x006, 0x400)
        spu.write(0x188, 0xFFFF)
        self.assertEqual(spu.read(0x188), (0, 0xFFFF))
        self.assertEqual({v.phase for v in spu.voices}, {IDLE})
        spu.write(0x1AA, 0x8000)
        self.assertEqual(spu.tick(0, 0)[5], 0)
        keyed(spu, start=0x2400)
        self.assertEqual((spu.read(0x00E), spu.voices[0].address), ((0, 0x2400), 0x2000))
        spu.tick(0, 0)                              # the loop start stores the reduced unit
        self.assertEqual(spu.read(0x00E), (0, 0x400))
        self.assertEqual(spu.read(0x00C), (0, 0x3800))
        spu.write(0x1AA, 0x4000)
        self.assertEqual((spu.read(0x00C), spu.read(0x00E)), ((0, 0), (0, 0x400)))

    def test_cd_and_capture(self):
        spu = loud(0x0001)
        spu.write(0x1B0, 0x8000)
        spu.write(0x1B2, 0x4000)
        self.assertEqual(spu.tick(-0x8000, 0x1235)[2:4], (0x7FFF * 0x7FFE >> 15,
                                                          0x91A * 0x7FFE >> 15))
        self.assertEqual([spu.fetch(k) for k in (0, 0x400, 0x800, 0xC00)], [0x8000, 0x1235, 0, 0])
        self.assertEqual(spu.capture_place, 2)
        for _ in range(255):
            spu.tick(0, 0)
        self.assertEqual(spu.read(0x1AE), (0, 0x801))
        for _ in range(256):
            spu.tick(0, 0)
        self.assertEqual(spu.read(0x1AE), (0, 1))

    def test_noise_timer(self):
        spu = loud(0x3F00)
        self.assertEqual(spu.timer, 4)
        spu.tick(0, 0)
        self.assertEqual((spu.noise, spu.timer), (1, 1))
        spu.tick(0, 0)
        self.assertEqual((spu.noise, spu.timer), (3, 2))
        spu.write(0x1AA, 0x3C00)
        self.assertEqual(spu.timer, 2)
        spu.write(0x1AA, 0x3800)
        self.assertEqual(spu.timer, 8)

    def test_tick_number(self):
        spu = Spu(65536)
        spu.tick_number = 0xFFFFFFFF
        self.assertEqual((spu.tick(0, 0)[1], spu.tick_number), (0xFFFFFFFF, 0))


class Doubt(unittest.TestCase):
    def test_sticky(self):
        spu = loud()
        keyed(spu, start=0x800)
        self.assertEqual([spu.tick(0, 0)[5] for _ in range(3)], [1, 0, 0])
        self.assertTrue(spu.doubt)
        self.assertEqual(spu.reset(), 0)
        self.assertFalse(spu.doubt)

    def test_transfer_out(self):
        spu = Spu(65536)
        spu.write(0x1AA, 0x20)
        spu.tick(0, 0)
        spu.write(0x1A6, 0x1FFF)
        self.assertEqual(spu.transfer_in([1, 2, 3, 4, 5])[:2], (0, 5))
        self.assertEqual((spu.transfer_address, spu.read(0x1A6)), (2, (0, 0x1FFF)))
        spu.write(0x1AA, 0x30)
        spu.tick(0, 0)
        spu.write(0x1A6, 0x1FFF)
        buffer = [0] * 4
        self.assertEqual((spu.transfer_out(buffer), buffer), ((0, 4, 0, 0), [1, 2, 3, 4]))
        spu.write(0x1A6, 0x1FFE)
        self.assertEqual((spu.transfer_out(buffer), buffer), ((0, 4, 0, 1), [0, 0, 0, 0]))
        buffer = [7] * 33
        self.assertEqual((spu.transfer_out(buffer), buffer), ((7, 0, 0, 0), [7] * 33))

    def test_reverb_reads(self):
        for control, out, expected in ((0, 0, 0), (0x80, 0, 1), (0, 0x8000, 1)):
            spu = Spu(65536)
            spu.write(0x1A2, 0x1000)
            spu.write(0x1AA, control)
            spu.write(0x184, out)
            self.assertEqual(spu.tick(0, 0)[5], expected)


class Reverb(unittest.TestCase):
    def test_plays_the_area(self):
        """Bit 7 clear, all volumes 0: the output is [mAPF2-dAPF2] times its volume."""
        spu = loud(0x4000)
        spu.write(0x1A2, 0x1FFE)                    # an area of 16 bytes
        for k, value in enumerate((1000, 2000, 3000, 4000, 5000, 6000, 7000, 8000)):
            spu.store(0xFFF0 + 2 * k, value)
        spu.write(0x184, 0x4000)
        spu.write(0x186, 0x8000)
        spu.write(0x1F8, 1)                         # left 8 bytes on
        spu.write(0x1FA, 0x2001)                    # right as well: 8 more than the area twice
        spu.write(0x1C2, 2)                         # less 16: the same place
        pairs = [spu.tick(0, 0)[2:4] for _ in range(20)]
        lefts, rights = [0], [0, 0]
        for place in range(10):
            lefts += 2 * [(1000 * ((place + 4) % 8 + 1) // 2) * 0x7FFE >> 15]
            rights += 2 * [-1000 * ((place + 4) % 8 + 1) * 0x7FFE >> 15]
        self.assertEqual(pairs, list(zip(lefts, rights))[:20])
        self.assertFalse(spu.doubt)

    def test_writes(self):
        """Same side and different side of a CD sample, worked out by hand."""
        spu = Spu(65536)
        for offset, value in ((0x1A2, 0x1000), (0x1C4, 0x4000), (0x1CE, 0x2000), (0x1B0, 0x4000),
                              (0x1D4, 1), (0x1E4, 3), (0x1E0, 5), (0x1F2, 6), (0x1FC, 0x7FFF),
                              (0x1F4, 8), (0x1F8, 10), (0x1DC, 1), (0x1C8, 0x8000),
                              (0x1D0, 0x4000), (0x1AA, 0x0085)):
            spu.write(offset, value)
        for disp, value in ((6, 101), (40, -1001), (22, -7), (48, 405)):
            spu.store(0x8000 + disp, value)
        spu.tick(2001, 0)
        # input floor(2001/2) = 1000, Lin 999; -1001/4 rounds to -251, 405/4 to 101
        same = ((999 - 251 - 101) >> 1) + 101
        self.assertEqual(s16(spu.fetch(0x8008)), same)
        self.assertEqual(s16(spu.fetch(0x8018)), ((999 + 101 + 7) >> 1) - 7)
        # comb 2 reads what was just written; dAPF1 = 0: the second read sees x itself
        self.assertEqual(s16(spu.fetch(0x8040)), -same)
        self.assertEqual(s16(spu.fetch(0x8050)), (-same >> 1) - same)
        self.assertEqual(spu.reverb_place, 0x8000)
        spu.tick(0, 0)
        self.assertEqual(spu.reverb_place, 0x8002)

    def test_place_wraps_to_base(self):
        spu = Spu(65536)
        spu.write(0x1A2, 0x3FFF)
        self.assertEqual(spu.reverb_place, 0xFFF8)
        for _ in range(8):
            spu.tick(0, 0)
        self.assertEqual(spu.reverb_place, 0xFFF8)


class Programs(unittest.TestCase):
    def test_bench_example(self):
        self.assertEqual(list(bench(b"t 2\nw 180 8000\n")),
                         ["bench 65536", "0 0 0 0", "1 0 0 0", "refused 5", "end clear"])

    def test_bench_lines(self):
        lines = (b"", b"t 0", b"t 65536", b"t -1", b"T 1", b"s", b"s 1 g", b"s 1", b"w 1FF 0",
                 b"w 00180 0", b" w\t1aa  20\r", b"t 001", b"s " + b"1 " * 33, b"s 1 2", b"# x",
                 b"w 180 0 0", b"w FFFF 1", b"r 180")
        self.assertEqual(list(bench(b"\n".join(lines))), [
            "bench 65536", "bad line", "bad line", "bad line", "bad line", "bad line", "bad line",
            "refused 6", "refused 3", "bad line", "0 0 0 0", "refused 7", "bad line", "bad line",
            "refused 3", "bad line", "end clear"])
        self.assertEqual(list(bench(b"")), ["bench 65536", "end clear"])

    def test_replay(self):
        lines = (b"# remark", b" ", b"w 1aa C0e0", b"t 1 8000 7fFF", b"r 1AE", b"s 1234 a", b"o 0",
                 b"o 2", b"f 1", b"v 8", b"v FFFFFFFF", b"v 000000000", b"ram 0 4", b"ram FFFE 3",
                 b"marks 0 8", b"marks 1 1", b"fill FFFE 2 a", b"ram 0FFFE 2", b"marks fff0 8",
                 b"t 1 1 2", b"reset", b"reset 1", b"r 0", b"o 65", b"ram 0 0")
        self.assertEqual(list(replay(65536, b"\n".join(lines) + b"\n")), [
            "replay 65536", "w 0", "t 0 0 0 0 1 1 1", "r 0 01E0", "s 0 2 0 0", "o 6 0 0 0 :",
            "o 6 0 0 0 : A5A5 A5A5", "f 0 1 00000000 00000000 0 0 1", "v 0 16 " + "00" * 16,
            "v 8 0 ", "bad line", "ram 00000 00000000", "bad line", "marks 00000 11000000",
            "bad line", "ok", "ram 0FFFE 0A0A", "marks 0FFF0 00000000", "bad line", "reset 0",
            "bad line", "r 0 0000", "bad line", "bad line", "end clear"])


if __name__ == "__main__":
    unittest.main()
