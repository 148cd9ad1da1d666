"""Wrong references, and for each the stored session that tells it apart.

    python3 -B reference/mutants.py [--only NAME] [--list]

A proof cannot notice a rule that its definition misreads; a session can, if the rule changes a line of its output.
Each entry below is the reference with one rule misread: a name, the wrong rule in plain words, and replacements of text
in one file.  A text to be replaced stands there exactly once, or the run stops: no entry goes stale in silence.  Beside
them each of the 512 entries of the interpolation table, one more and one less, makes a wrong reference.

The run first checks that the reference itself gives every stored output.  Then each wrong one plays the sessions of the
gate, the directed one first, up to the first line that differs from the stored output: `NAME: SESSION line N`.

The last wrong references of the list differ from the reference in some call, but in none that a line of bench or replay
makes, or only after more ticks than a session should have.  They are played too, and the reason is printed.  The last
line is `N told apart, M not`.  The status is 0 exactly when those alone are not told apart.
"""
import argparse
import collections
import itertools
import multiprocessing
import os
import sys
import types

HERE = os.path.dirname(os.path.abspath(__file__))
MODULES = ("lines", "spu", "bench", "replay")               # in the order of their imports
SESSIONS = (("replay_edges", 65536), ("bench_song", None), ("bench", None), ("replay", 65536), ("replay_large", 524288))

# changes: (old, new) pairs in the file; table: an entry of the table and what is added to it; reason: why no line
# tells it apart.
Wrong = collections.namedtuple("Wrong", "name rule file changes table reason")
WRONG = []


def wrong(name, rule, *texts, file="spu", reason=None):
    """A wrong reference; texts are old and new by turns."""
    WRONG.append(Wrong(name, rule, file, tuple(zip(texts[::2], texts[1::2])), None, reason))


# Texts that several wrong references change.
KEPT = "old, self.reg[offset] = self.reg[offset], value"
READ_BACK = "return 0, self.reg[offset]\n"
REFUSED_WRITE = "        if number:\n            return number\n        old, self.reg[offset]"
READ_ONLY = "        if offset in (0x19C, 0x19E, 0x1AE, 0x1B8, 0x1BA):\n"
REFUSED_11 = ('        if value & self.undocumented(offset):       # "tested after 4 and before 5"\n'
              "            return 11\n")
UPPER_ADSR = "if offset < 0x180 and offset % 16 == 0xA:\n            return 1 <<"
UPPER_FLAGS = "if offset in (0x18A, 0x18E, 0x192, 0x196, 0x19A, 0x19E):"
RESET = "        if number == 0:\n            self.fresh()\n"
TICK_BEGINS = "        self.begin()\n        before, reg ="
CALL_BEGINS = "        self.at_first = (self.latch, self.doubt)"
HALFWORDS = "        halfwords = [self.fetch((address + 2 * k) % self.L) for k in range(8)]\n"
MODULATOR = "below = amplitudes[n - 1] if n"
PHASE_TEST = "            self.enter(next_phase(self.phase, self.level, low), low, high)"
CD = "cd = (times(cd_left, s16(reg[0x1B0])), times(cd_right, s16(reg[0x1B2])))"
REVERB_TURN = "self.reverb_turn(sums[self.turn][1], cd[self.turn])"
REFLECTIONS = ("        reflection(m(0x1D4 + own), m(0x1E0 + own))              # mSAME from dSAME\n"
               "        reflection(m(0x1E4 + own), m(0x1F0 + other))            # mDIFF from the other dDIFF\n")
REVERB_WRITE = "            if writes:\n                self.store(where(displacement), x)"
BENCH_W = ("        number = spu.write(hexadecimal(given[0]), hexadecimal(given[1]))\n"
           '        return [f"refused {number}"] if number else []')
BENCH_S = ("        number = spu.transfer_in([hexadecimal(v) for v in given])[0]\n"
           '        return [f"refused {number}"] if number else []')

# ---- What is lent

wrong("ram_high_byte_first", "A halfword lies high byte first.",
      "return self.ram[address] | self.ram[address + 1] << 8",
      "return self.ram[address] << 8 | self.ram[address + 1]",
      "self.ram[address] = value & 0xFF\n        self.ram[address + 1] = value >> 8 & 0xFF",
      "self.ram[address + 1] = value & 0xFF\n        self.ram[address] = value >> 8 & 0xFF")
wrong("marks_high_bit_first", "Halfword h has bit 7 - h mod 8 of its byte of marks.",
      "if counted and not self.marked(address):",
      "if counted and not self.marks[address >> 4] >> (7 - (address >> 1 & 7)) & 1:",
      "self.marks[address >> 4] |= 1 << (address >> 1 & 7)", "self.marks[address >> 4] |= 0x80 >> (address >> 1 & 7)")
wrong("unit_of_4", "A unit is 4 bytes.", "return unit * 8 % L", "return unit * 4 % L")
wrong("unit_in_512k", "A unit's address is taken modulo 80000h, whatever L is.",
      "return unit * 8 % L", "return unit * 8 % 0x80000")
wrong("unit_in_64k", "A unit's address is taken modulo 10000h, whatever L is.",
      "return unit * 8 % L", "return unit * 8 % 0x10000")
wrong("unit_clamped", "A unit past the end of sound RAM is the last one.",
      "return unit * 8 % L", "return min(unit * 8, L - 8)")

# ---- Numbers 3, 4, 11 and 5

wrong("odd_offsets_listed", "An odd offset means the register that it lies in.",
      "def write_refusal(self, offset, value):\n        number = self.refusal()",
      ("def write_refusal(self, offset, value):\n"
       "        offset &= ~1\n"
       "        number = self.refusal()"),
      KEPT, "offset &= ~1\n        old, self.reg[offset] = self.reg[offset], value")
wrong("odd_read_listed", "An odd offset reads the register that it lies in.",
      "            return number, 0\n        if not self.listed(offset):",
      "            return number, 0\n        offset &= ~1\n        if not self.listed(offset):")
wrong("offsets_repeat", "Offsets repeat every 200h.",
      "def write_refusal(self, offset, value):\n        number = self.refusal()",
      ("def write_refusal(self, offset, value):\n"
       "        offset &= 0x1FF\n"
       "        number = self.refusal()"),
      KEPT, "offset &= 0x1FF\n        old, self.reg[offset] = self.reg[offset], value")
wrong("listed_1a0", "1A0h is listed.", "not in (0x1A0, 0x1BC, 0x1BE)", "not in (0x1BC, 0x1BE)")
wrong("listed_1bc", "1BCh is listed.", "not in (0x1A0, 0x1BC, 0x1BE)", "not in (0x1A0, 0x1BE)")
wrong("listed_1be", "1BEh is listed.", "not in (0x1A0, 0x1BC, 0x1BE)", "not in (0x1A0, 0x1BC)")
wrong("unlisted_1b4", "1B4h and 1B6h, external audio, are not listed.",
      "not in (0x1A0, 0x1BC, 0x1BE)", "not in (0x1A0, 0x1B4, 0x1B6, 0x1BC, 0x1BE)")
wrong("unlisted_1fe", "1FEh is not listed.", "offset in range(0, 0x200, 2)", "offset in range(0, 0x1FE, 2)")
wrong("refused_5_before_3", "A volume with bit 15 set is refused by 5 at an odd offset too.",
      "        if not self.listed(offset):\n            return 3\n        if offset in (0x19C",
      ("        if self.not_carried(offset & ~1, value):\n"
       "            return 5\n"
       "        if not self.listed(offset):\n"
       "            return 3\n"
       "        if offset in (0x19C"))
for offset in ("0x19C", "0x19E", "0x1AE", "0x1B8", "0x1BA"):
    wrong("writable_" + offset[2:].lower(), f"{offset[2:]}h can be written.",
          "if offset in (0x19C, 0x19E, 0x1AE, 0x1B8, 0x1BA):",
          f"if offset != {offset} and offset in (0x19C, 0x19E, 0x1AE, 0x1B8, 0x1BA):")
wrong("read_only_is_3", "A write to a register that is only read gives 3.", "return 4\n", "return 3\n")
wrong("endx_written_cleared", "A write to ENDX is accepted and clears the bits.",
      "            return 4\n",
      ("            for voice in self.voices if offset < 0x1A0 else ():\n"
       "                voice.ended = False\n"
       "            return 0 if offset < 0x1A0 else 4\n"))
wrong("sweep_voice_left", "Left volumes of voices may have bit 15 set.", "if place in (0, 2) or", "if place == 2 or")
wrong("sweep_voice_right", "Right volumes of voices may have bit 15 set.",
      "if place in (0, 2) or", "if place == 0 or")
wrong("sweep_main_left", "180h may have bit 15 set.", "or offset in (0x180, 0x182):", "or offset == 0x182:")
wrong("sweep_main_right", "182h may have bit 15 set.", "or offset in (0x180, 0x182):", "or offset == 0x180:")
wrong("bit_15_of_reverb_out", "Reverb-out volumes are limited by bit 15 too.",
      "or offset in (0x180, 0x182):", "or offset in (0x180, 0x182, 0x184, 0x186):")
wrong("bit_15_of_cd", "CD volumes are limited by bit 15 too.",
      "or offset in (0x180, 0x182):", "or offset in (0x180, 0x182, 0x1B0, 0x1B2):")
wrong("bit_15_of_external", "External volumes are limited by bit 15 too.",
      "or offset in (0x180, 0x182):", "or offset in (0x180, 0x182, 0x1B4, 0x1B6):")
wrong("bit_15_of_pitch", "A pitch is limited by bit 15 too.", "if place in (0, 2) or", "if place in (0, 2, 4) or")
wrong("bit_15_of_reverb_in", "Reverb-in volumes are limited by bit 15 too.",
      "or offset in (0x180, 0x182):", "or offset in (0x180, 0x182, 0x1FC, 0x1FE):")
wrong("level_written", "The level of a voice can be written, and is kept.",
      ("        if offset < 0x180 and offset % 16 == 0xE:\n"
       "            self.voices[offset // 16].repeat = value\n"),
      ("        if offset < 0x180 and offset % 16 == 0xC:\n"
       "            self.voices[offset // 16].level = value & 0x7FFF\n"
       "        if offset < 0x180 and offset % 16 == 0xE:\n"
       "            self.voices[offset // 16].repeat = value\n"),
      "return place == 0xC or offset == 0x1A8", "return offset == 0x1A8")
wrong("level_refused_by_4", "The level of a voice is only read: a write gives 4.",
      "if offset in (0x19C, 0x19E, 0x1AE, 0x1B8, 0x1BA):",
      "if offset in (0x19C, 0x19E, 0x1AE, 0x1B8, 0x1BA) or offset < 0x180 and offset % 16 == 0xC:")
wrong("level_not_read", "Reading the level of a voice gives 5.",
      "        if offset == 0x1A8:\n", "        if offset == 0x1A8 or offset < 0x180 and offset % 16 == 0xC:\n")
wrong("data_port_written", "1A8h can be written.", "return place == 0xC or offset == 0x1A8", "return place == 0xC")
wrong("data_port_read", "1A8h can be read.", "        if offset == 0x1A8:\n            return 5, 0\n", "")
wrong("refused_read_value", "A refused read of 1A8h returns FFFFh beside its number.",
      "return 5, 0", "return 5, 0xFFFF")
wrong("data_port_read_3", "Reading 1A8h gives 3.", "return 5, 0", "return 3, 0")
wrong("transfer_type_any", "1ACh takes every value.", "return value >> 1 & 7 != 2", "return False")
wrong("transfer_type_bits_2_1", "1ACh needs its bits 2-1 to be 2, whatever bit 3 is.",
      "return value >> 1 & 7 != 2", "return value >> 1 & 3 != 2")
wrong("refused_write_kept", "A write refused by 5 still changes what reads back.",
      REFUSED_WRITE,
      ("        if number:\n"
       "            if number == 5:\n"
       "                self.reg[offset] = value\n"
       "            return number\n"
       "        old, self.reg[offset]"))
wrong("refused_volume_cut", "A volume with bit 15 set is taken without it.",
      REFUSED_WRITE,
      ("        if number:\n"
       "            if number == 5:\n"
       "                self.reg[offset] = value & 0x7FFF\n"
       "            return number\n"
       "        old, self.reg[offset]"))

wrong("undocumented_taken", "No bit is refused for being undocumented.", REFUSED_11, "")
wrong("undocumented_before_3", "11 goes before 3, at the odd offsets of a register too.",
      "        if not self.listed(offset):\n            return 3\n        if offset in (0x19C",
      ("        if value & self.undocumented(offset & ~1):\n"
       "            return 11\n"
       "        if not self.listed(offset):\n"
       "            return 3\n"
       "        if offset in (0x19C"))
wrong("undocumented_before_4", "11 goes before 4.",
      REFUSED_11, "", READ_ONLY, REFUSED_11 + READ_ONLY)
wrong("undocumented_after_5", "5 goes before 11.",
      "            return 11\n", "            return 5 if self.not_carried(offset, value) else 11\n")
wrong("undocumented_is_5", "An undocumented bit gives 5.", "            return 11\n", "            return 5\n")
wrong("undocumented_read", "A register with undocumented bits cannot be read.",
      "        if offset == 0x1A8:\n", "        if offset == 0x1A8 or self.undocumented(offset) and offset != 0x19E:\n")
wrong("undocumented_kept", "A write refused by 11 still changes what reads back.",
      REFUSED_WRITE,
      ("        if number:\n"
       "            if number == 11:\n"
       "                self.reg[offset] = value\n"
       "            return number\n"
       "        old, self.reg[offset]"))
wrong("undocumented_cut", "A write with undocumented bits is taken without them.",
      "        number = self.write_refusal(offset, value)\n",
      "        value &= ~self.undocumented(offset)\n        number = self.write_refusal(offset, value)\n")
wrong("undocumented_cut_with_11", "A write with undocumented bits is taken without them, and gives 11.",
      REFUSED_WRITE,
      ("        if number:\n"
       "            if number == 11:\n"
       "                self.reg[offset] = value & ~self.undocumented(offset)\n"
       "            return number\n"
       "        old, self.reg[offset]"))
wrong("undocumented_key_acts", "A key write refused by 11 acts on its voices.",
      REFUSED_WRITE,
      ("        if number:\n"
       "            if number == 11 and offset in (0x18A, 0x18E):\n"
       "                self.key_write(offset, value)\n"
       "            return number\n"
       "        old, self.reg[offset]"))
wrong("undocumented_pmon_0", "PMON bit 0 is undocumented.",
      "return 0xFFF1 if offset == 0x1AC else 0", "return 0xFFF1 if offset == 0x1AC else offset == 0x190")
wrong("undocumented_adsr_lower", "Bit 13 of +8 is undocumented too.",
      UPPER_ADSR, "if offset < 0x180 and offset % 16 in (8, 0xA):\n            return 1 <<")
for n in range(24):
    wrong(f"undocumented_not_voice_{n}", f"Voice {n} may have bit 13 of +Ah set.",
          UPPER_ADSR, f"if offset < 0x180 and offset % 16 == 0xA and offset // 16 != {n}:\n            return 1 <<")
for k in range(16):
    if k != 13:
        wrong(f"undocumented_adsr_{k}", f"Bit {k} of +Ah is refused and bit 13 is not.",
              "return 1 << (29 - 16) ", f"return 1 << {k} ")
        wrong(f"undocumented_adsr_13_and_{k}", f"Bit {k} of +Ah is refused too.",
              "return 1 << (29 - 16) ", f"return 1 << 13 | 1 << {k} ")
for register, name in ((0x188, "KON"), (0x18C, "KOFF"), (0x190, "PMON"), (0x194, "NON"), (0x198, "EON")):
    wrong("undocumented_not_" + name.lower(), f"{register + 2:X}h, of {name}, may have any bit set.",
          UPPER_FLAGS, UPPER_FLAGS.replace(f"0x{register + 2:X}, ", ""))
    wrong("undocumented_lower_" + name.lower(), f"Bits 15-8 of {register:X}h, the lower half of {name}, are refused.",
          UPPER_FLAGS, UPPER_FLAGS.replace("(", f"(0x{register:X}, "))
for k in range(16):
    for mask, name, where in ((0xFF00, "flags", "the upper flag registers"), (0xFFF1, "type", "1ACh")):
        refused = mask >> k & 1
        wrong(f"undocumented_{name}_{'not' if refused else 'and'}_{k}",
              f"Bit {k} of {where} {'does not give' if refused else 'gives'} 11.",
              f"return 0x{mask:X}", f"return 0x{mask ^ 1 << k:X}")

# ---- Ranges that a session comes up to

for name, rule, old, new in (
        ("level", "The level ends at 7FFEh.", "0 <= self.level <= 0x7FFF", "0 <= self.level < 0x7FFF"),
        ("counter", "The counter ends at FF0h.", "0 <= self.counter < 0x1000", "0 <= self.counter <= 0xFF0"),
        ("index", "The sample index ends at 26.", "0 <= self.index <= 27", "0 <= self.index <= 26"),
        ("address_16", "A voice address is a multiple of 16.", "self.address % 8 == 0", "self.address % 16 == 0"),
        ("address_top", "A voice address ends at L-16.", "0 <= self.address < L", "0 <= self.address <= L - 16"),
        ("wait", "A wait ends before 400000h.", "0 <= self.wait <= 0x400000", "0 <= self.wait < 0x400000"),
        ("wait_1", "A wait of 1 is none.", "(self.wait > 0 or", "(self.wait > 1 or"),
        ("wait_off", "Off needs a wait too.", "self.phase in (IDLE, OFF)))", "self.phase == IDLE))"),
        ("capture_place", "The capture place ends at 3FCh.",
         "0 <= self.capture_place < 0x400", "0 <= self.capture_place < 0x3FE"),
        ("reverb_base", "The reverb place lies above its base.",
         "<= self.reverb_place <= L - 2", "< self.reverb_place <= L - 2"),
        ("reverb_top", "The reverb place ends at L-4.",
         "<= self.reverb_place <= L - 2", "<= self.reverb_place <= L - 4"),
        ("reverb_unit", "The reverb place is a multiple of 8.",
         "self.reverb_place % 2 == 0", "self.reverb_place % 8 == 0"),
        ("transfer_unit", "The transfer address is a multiple of 8.",
         "self.transfer_address % 2 == 0", "self.transfer_address % 8 == 0"),
        ("transfer_top", "The transfer address ends at L-4.",
         "0 <= self.transfer_address < L", "0 <= self.transfer_address < L - 2"),
        ("timer_top", "The noise timer ends before 20000h.", "0 <= self.timer <= 0x20000", "0 <= self.timer < 0x20000"),
        ("timer_0", "The noise timer is never 0.", "0 <= self.timer <= 0x20000", "0 < self.timer <= 0x20000")):
    wrong("range_" + name, rule + " Calls of other states give 2.", old, new)

# ---- Registers read back

wrong("level_reads_0", "The level reads as 0.", "return 0, self.voices[offset // 16].level", "return 0, 0")
wrong("repeat_reads_as_written", "+Eh reads back as last written.",
      "return 0, self.voices[offset // 16].repeat", "return 0, self.reg[offset]")
wrong("repeat_reads_reduced", "+Eh reads reduced modulo L.",
      "return 0, self.voices[offset // 16].repeat", "return 0, self.voices[offset // 16].repeat % (self.L // 8)")
wrong("repeat_write_reduced", "A repeat that is written is reduced modulo L.",
      "self.voices[offset // 16].repeat = value", "self.voices[offset // 16].repeat = value % (self.L // 8)")
wrong("repeat_write_ignored", "+Eh is set by blocks alone.", "self.voices[offset // 16].repeat = value", "pass")
wrong("endx_halves_swapped", "19Ch has voices 8 to 23.",
      "self.voices[:16] if offset == 0x19C else self.voices[16:]",
      "self.voices[8:] if offset == 0x19C else self.voices[:8]")
wrong("endx_upper_in_bits_15_8", "19Eh has voices 16 to 23 in bits 15-8.",
      "return 0, sum(voice.ended << k for k, voice in enumerate(half))",
      "return 0, sum(voice.ended << k for k, voice in enumerate(half)) << (8 if offset == 0x19E else 0)")
wrong("main_volume_not_doubled", "1B8h and 1BAh read as 180h and 182h.",
      "return 0, volume(self.reg[offset - 0x38]) & 0xFFFF", "return 0, self.reg[offset - 0x38]")
wrong("main_volume_swapped", "1B8h reads the right volume, 1BAh the left.",
      "self.reg[offset - 0x38]", "self.reg[0x180 if offset == 0x1BA else 0x182]")
wrong("key_on_reads_0", "KON reads as 0.",
      "            return 5, 0\n",
      "            return 5, 0\n        if offset in (0x188, 0x18A):\n            return 0, 0\n")
wrong("key_off_reads_0", "KOFF reads as 0.",
      "            return 5, 0\n",
      "            return 5, 0\n        if offset in (0x18C, 0x18E):\n            return 0, 0\n")
wrong("key_on_adds_bits", "KON keeps the bits of the writes before.",
      "self.key_write(offset, value)", "self.reg[offset] |= old\n            self.key_write(offset, value)")
wrong("key_on_lost_by_tick", "A tick clears KON and KOFF.",
      TICK_BEGINS,
      ("        self.begin()\n"
       "        self.reg[0x188] = self.reg[0x18A] = self.reg[0x18C] = self.reg[0x18E] = 0\n"
       "        before, reg ="))
wrong("pmon_without_bit_0", "PMON bit 0 is not kept.",
      KEPT, "old, self.reg[offset] = self.reg[offset], value & 0xFFFE if offset == 0x190 else value")
wrong("pitch_cut_when_written", "A pitch above 4000h is kept as 4000h.",
      KEPT,
      ("old, self.reg[offset] = self.reg[offset], min(value, 0x4000) if offset < 0x180 and offset % 16 == 4 "
       "else value"))
wrong("transfer_address_reads_now", "1A6h moves with transfers.",
      READ_BACK, "return 0, self.transfer_address // 8 if offset == 0x1A6 else self.reg[offset]\n")
wrong("reverb_base_reads_place", "1A2h reads the place of the reverb.",
      READ_BACK, "return 0, self.reverb_place // 8 if offset == 0x1A2 else self.reg[offset]\n")
wrong("units_read_reduced", "1A2h, 1A4h and 1A6h read reduced modulo L.",
      READ_BACK,
      "return 0, self.reg[offset] % (self.L // 8) if offset in (0x1A2, 0x1A4, 0x1A6) else self.reg[offset]\n")
wrong("reverb_base_moves_nothing", "Writing 1A2h leaves the place, where it is in range.",
      "self.reverb_place = unit_address(value, self.L)",
      "self.reverb_place = max(self.reverb_place, unit_address(value, self.L))")
wrong("reverb_base_same_value", "Writing 1A2h with the same value leaves the place.",
      "elif offset == 0x1A2: ", "elif offset == 0x1A2 and value != old: ")
wrong("transfer_same_value", "Writing 1A6h with the same value leaves the transfer address.",
      "elif offset == 0x1A6:", "elif offset == 0x1A6 and value != old:")
wrong("transfer_write_ignored", "Writing 1A6h leaves the transfer address.",
      "self.transfer_address = unit_address(value, self.L)", "pass")

wrong("control_reads_applied", "SPUCNT's bits 5-0 read back as applied.",
      READ_BACK, "return 0, self.reg[offset] & 0xFFC0 | self.applied if offset == 0x1AA else self.reg[offset]\n")
wrong("main_volume_read_late", "1B8h and 1BAh read the main volume of the last tick.",
      "return 0, volume(self.reg[offset - 0x38]) & 0xFFFF",
      'return 0, volume(self.__dict__.get("main", (0, 0))[offset == 0x1BA]) & 0xFFFF',
      TICK_BEGINS,
      ("        self.begin()\n"
       "        self.main = self.reg[0x180], self.reg[0x182]\n"
       "        before, reg ="))
wrong("endx_read_clears", "Reading ENDX clears it.",
      "            return 0, sum(voice.ended << k for k, voice in enumerate(half))",
      ("            seen = sum(voice.ended << k for k, voice in enumerate(half))\n"
       "            for voice in half:\n"
       "                voice.ended = False\n"
       "            return 0, seen"))

# ---- Fresh state and reset

wrong("fresh_transfer_type", "1ACh is 0 in a fresh state.", "self.reg[0x1AC] = 4", "self.reg[0x1AC] = 0")
wrong("fresh_timer_0", "The noise timer is 0 in a fresh state.",
      "self.noise, self.timer = 0, 0x20000", "self.noise, self.timer = 0, 0")
wrong("fresh_noise_1", "The noise is 1 in a fresh state.",
      "self.noise, self.timer = 0, 0x20000", "self.noise, self.timer = 1, 0x20000")
wrong("fresh_turn_right", "The right side has the first turn.", "self.turn = 0  ", "self.turn = 1  ")
wrong("fresh_repeat", "A fresh voice has repeat unit 200h.",
      "        self.voices = [Voice() for _ in range(24)]\n",
      ("        self.voices = [Voice() for _ in range(24)]\n"
       "        for voice in self.voices:\n"
       "            voice.repeat = 0x200\n"))
for kept, rule in (
        ("reg", "the registers"), ("voices", "the voices"), ("noise", "the noise level"), ("timer", "the noise timer"),
        ("capture_place", "the capture place"), ("reverb_place", "the place of the reverb"),
        ("transfer_address", "the transfer address"), ("applied", "SPUSTAT's bits 5-0"), ("held", "the held outputs"),
        ("turn", "whose turn it is"), ("latch", "the interrupt latch"), ("doubt", "the doubt"),
        ("tick_number", "the tick number")):
    wrong("reset_keeps_" + kept, f"A reset keeps {rule}.", RESET,
          f"        if number == 0:\n            kept = self.{kept}\n"
          f"            self.fresh()\n            self.{kept} = kept\n")
wrong("reset_keeps_endx", "A reset keeps ENDX.",
      RESET,
      ("        if number == 0:\n"
       "            kept = [voice.ended for voice in self.voices]\n"
       "            self.fresh()\n"
       "            for voice, ended in zip(self.voices, kept):\n"
       "                voice.ended = ended\n"))
wrong("reset_clears_ram", "A reset clears sound RAM.",
      RESET,
      ("        if number == 0:\n"
       "            self.fresh()\n"
       "            self.ram[:] = bytes(self.L)\n"))
wrong("reset_clears_marks", "A reset clears the marks.",
      RESET,
      ("        if number == 0:\n"
       "            self.fresh()\n"
       "            self.marks[:] = bytes(self.L // 16)\n"))
wrong("reset_for_64k", "A reset makes the state for 65,536.",
      RESET, "        if number == 0:\n            self.fresh()\n            self.L = 65536\n")
wrong("tick_number_after", "A tick returns its number after it.",
      "return (0, before, left, right)", "return (0, self.tick_number, left, right)")
wrong("tick_number_of_transfers", "Transfers count as ticks.",
      "        return (0, len(values)) + self.reports()",
      "        self.tick_number += 1\n        return (0, len(values)) + self.reports()")

# ---- Control and SPUSTAT

wrong("applied_at_once", "SPUSTAT bits 5-0 take SPUCNT's at the write.",
      "            self.control_write(old, value)",
      "            self.control_write(old, value)\n            self.applied = value & 0x3F")
wrong("applied_at_once_in_status", "SPUSTAT shows SPUCNT's bits 5-0 as they stand, and transfers wait for the tick.",
      "        mode = self.applied >> 4 & 3\n        return (self.applied |",
      "        mode = self.applied >> 4 & 3\n        return (self.reg[0x1AA] & 0x3F |")
wrong("applied_once", "SPUSTAT keeps the bits that it has.",
      "self.applied = reg[0x1AA] & 0x3F ", "self.applied |= reg[0x1AA] & 0x3F ")
wrong("applied_mode_only", "SPUSTAT takes bits 5-4 alone.",
      "self.applied = reg[0x1AA] & 0x3F ", "self.applied = reg[0x1AA] & 0x30 ")
wrong("status_without_latch", "SPUSTAT bit 6 is 0.", "(self.applied | self.latch << 6 |", "(self.applied |")
wrong("status_bit_6_enable", "SPUSTAT bit 6 is SPUCNT's.", "self.latch << 6", "(self.reg[0x1AA] & 0x40)")
wrong("status_bit_7_of_bit_4", "SPUSTAT bit 7 is the applied bit 4.",
      "(self.applied >> 5 & 1) << 7", "(self.applied >> 4 & 1) << 7")
wrong("status_bit_7_at_once", "SPUSTAT bit 7 is SPUCNT's bit 5.",
      "(self.applied >> 5 & 1) << 7", "(self.reg[0x1AA] >> 5 & 1) << 7")
wrong("status_bit_7_mode_2", "SPUSTAT bit 7 is set in mode 2 alone.",
      "(self.applied >> 5 & 1) << 7", "(mode == 2) << 7")
wrong("status_modes_swapped", "SPUSTAT bit 8 is mode 3, bit 9 mode 2.",
      "(mode == 2) << 8 | (mode == 3) << 9", "(mode == 3) << 8 | (mode == 2) << 9")
wrong("status_bit_8_mode_1", "SPUSTAT bit 8 is set in mode 1 too.", "(mode == 2) << 8", "(mode in (1, 2)) << 8")
wrong("status_busy", "SPUSTAT bit 10 is set in a transfer mode.",
      "(mode == 3) << 9", "(mode == 3) << 9 | (mode != 0) << 10")
wrong("status_bit_11_above", "SPUSTAT bit 11 is set above 200h, not at it.",
      "(self.capture_place >= 0x200) << 11", "(self.capture_place > 0x200) << 11")
wrong("status_bit_11_inverted", "SPUSTAT bit 11 is set in the first half.",
      "(self.capture_place >= 0x200) << 11", "(self.capture_place < 0x200) << 11")
wrong("status_bit_11_of_last", "SPUSTAT bit 11 is of the halfword captured last.",
      "(self.capture_place >= 0x200) << 11", "((self.capture_place - 2) % 0x400 >= 0x200) << 11")
wrong("status_has_control", "SPUSTAT bits 15-12 are SPUCNT's.",
      "return (self.applied | self.latch", "return (self.applied | self.reg[0x1AA] & 0xF000 | self.latch")
wrong("status_read_clears_latch", "Reading SPUSTAT clears the latch.",
      "            return 0, self.status()",
      "            seen, self.latch = self.status(), False\n            return 0, seen")

# ---- Noise

wrong("noise_step_fixed", "The timer falls by 4 always.", "self.timer -= 4 + (control >> 8 & 3)", "self.timer -= 4")
wrong("noise_step_from_3", "The timer falls by 3 plus bits 9-8.",
      "self.timer -= 4 + (control >> 8 & 3)", "self.timer -= 3 + (control >> 8 & 3)")
wrong("noise_step_down", "The timer falls by 7 less bits 9-8.",
      "self.timer -= 4 + (control >> 8 & 3)", "self.timer -= 7 - (control >> 8 & 3)")
wrong("noise_at_0", "The noise moves when the timer reaches 0.",
      "        if self.timer < 0:\n            self.noise", "        if self.timer <= 0:\n            self.noise")
wrong("noise_reload_at_0", "The timer is reloaded when it is 0.",
      "            while self.timer < 0:", "            while self.timer <= 0:")
wrong("noise_reload_once", "The timer is reloaded once.",
      "            while self.timer < 0:\n                self.timer +=",
      "            if self.timer < 0:\n                self.timer +=")
wrong("noise_reload_sets", "The timer is set to the period, and not raised by it.",
      ("            while self.timer < 0:\n"
       "                self.timer += 0x20000 >> (control >> 10 & 15)"),
      "            self.timer = 0x20000 >> (control >> 10 & 15)")
wrong("noise_moves_each_reload", "The noise moves once a reload.",
      "            self.noise = next_noise(self.noise)\n            while self.timer < 0:\n",
      "            while self.timer < 0:\n                self.noise = next_noise(self.noise)\n")
wrong("noise_period_fixed", "A reload adds 20000h whatever the shift.",
      "                self.timer += 0x20000 >> (control >> 10 & 15)", "                self.timer += 0x20000")
wrong("noise_shift_3_bits", "The shift is in bits 12-10.",
      "self.timer += 0x20000 >> (control >> 10 & 15)", "self.timer += 0x20000 >> (control >> 10 & 7)")
for bit in (15, 12, 11, 10):
    wrong(f"noise_without_bit_{bit}", f"Bit {bit} is not in the noise's parity.",
          "level >> 15 ^ level >> 12 ^ level >> 11 ^ level >> 10 ^ 1",
          " ^ ".join(f"level >> {other}" for other in (15, 12, 11, 10) if other != bit) + " ^ 1")
wrong("noise_bit_14", "Bit 14 is in the noise's parity in place of bit 15.",
      "level >> 15 ^ level >> 12", "level >> 14 ^ level >> 12")
wrong("noise_bit_14_for_12", "Bit 14 is in the noise's parity in place of bit 12.",
      "level >> 15 ^ level >> 12", "level >> 15 ^ level >> 14")
wrong("noise_all_bits", "Every bit of the level is in the noise's parity.",
      "(level >> 15 ^ level >> 12 ^ level >> 11 ^ level >> 10 ^ 1) & 1", '(bin(level).count("1") + 1) & 1')
wrong("noise_not_inverted", "The noise's parity is not inverted.", "level >> 10 ^ 1) & 1", "level >> 10) & 1")
wrong("noise_parity_after", "The parity is of the level after doubling.",
      "    bit = (level >> 15", "    level *= 2\n    bit = (level >> 15",
      "return 2 * level % 0x10000 + bit", "return level % 0x10000 + bit")
wrong("noise_15_bits", "The noise has 15 bits.",
      "return 2 * level % 0x10000 + bit", "return 2 * level % 0x8000 + bit")
wrong("noise_timer_every_write", "Every SPUCNT write sets the noise timer.", "if (old ^ new) & 0x3C00: ", "if True: ")
wrong("noise_timer_bits_9_8", "A write that changes bits 9-8 sets the noise timer too.",
      "if (old ^ new) & 0x3C00: ", "if (old ^ new) & 0x3F00: ")
wrong("noise_timer_never", "No write sets the noise timer.", "if (old ^ new) & 0x3C00: ", "if False: ")
wrong("noise_timer_bits_12_10", "Bit 13 alone does not set the noise timer.",
      "if (old ^ new) & 0x3C00: ", "if (old ^ new) & 0x1C00: ")
wrong("noise_timer_old_shift", "The timer is set by the shift before the write.",
      "self.timer = 0x20000 >> (new >> 10 & 15)", "self.timer = 0x20000 >> (old >> 10 & 15)")
wrong("noise_timer_zero", "A write that changes the shift sets the timer to 0.",
      "self.timer = 0x20000 >> (new >> 10 & 15)", "self.timer = 0")
wrong("noise_timer_shorter_only", "A write sets the timer only where that makes it shorter.",
      "self.timer = 0x20000 >> (new >> 10 & 15)", "self.timer = min(self.timer, 0x20000 >> (new >> 10 & 15))")
wrong("noise_reset_by_write", "A write that changes the shift sets the noise to 0 too.",
      "self.timer = 0x20000 >> (new >> 10 & 15)", "self.noise, self.timer = 0, 0x20000 >> (new >> 10 & 15)")
wrong("noise_needs_bit_15", "The noise stands still with SPUCNT bit 15 clear.",
      "        self.noise_step()\n", "        if reg[0x1AA] & 0x8000:\n            self.noise_step()\n")
wrong("noise_needs_listener", "The noise stands still while no voice hears it.",
      "        self.noise_step()\n", "        if self.flags(0x194):\n            self.noise_step()\n")
wrong("noise_after_voices", "The voices hear the noise before this tick's step.",
      "        self.noise_step()\n        amplitudes = self.voices_step()\n",
      "        amplitudes = self.voices_step()\n        self.noise_step()\n")

# ---- Voices: steps 1 to 5

wrong("idle_reads", "An Idle voice reads its block.",
      "            if voice.phase != IDLE:\n",
      ("            if voice.phase == IDLE:\n"
       "                self.fetch_block(voice.address)\n"
       "            if voice.phase != IDLE:\n"))
wrong("off_stops", "An Off voice neither reads nor moves.",
      "            if voice.phase != IDLE:\n", "            if voice.phase not in (IDLE, OFF):\n")
wrong("load_at_key_on", "Key on loads the block.",
      "                    self.voices[n].key_on(start, self.L, low, high)",
      ("                    self.voices[n].key_on(start, self.L, low, high)\n"
       "                    self.voices[n].load(self)"))
wrong("block_not_wrapped", "A block at L-8 reads zeros past the end of sound RAM.",
      "        halfwords = [self.fetch((address + 2 * k) % self.L) for k in range(8)]",
      "        halfwords = [self.fetch(address + 2 * k) if address + 2 * k < self.L else 0 for k in range(8)]")
wrong("block_wraps_to_16", "A block at L-8 goes on in its own 16 bytes.",
      "self.fetch((address + 2 * k) % self.L)", "self.fetch(address & ~15 | address + 2 * k & 15)")
wrong("interpolate_reversed", "The newest sample is taken as the oldest.",
      "heard = interpolate(*four, self.counter >> 4)", "heard = interpolate(*four[::-1], self.counter >> 4)")
wrong("interpolate_old_older", "The two middle samples change places.",
      "heard = interpolate(*four, self.counter >> 4)",
      "heard = interpolate(four[0], four[2], four[1], four[3], self.counter >> 4)")
wrong("interpolate_ahead", "The sample and the three after it are interpolated.",
      "four = self.samples[self.index:self.index + 4] ",
      "four = (self.samples + [0] * 3)[self.index + 3:self.index + 7] ")
wrong("interpolate_one_before", "The four samples before the one at the index are interpolated.",
      "four = self.samples[self.index:self.index + 4] ", "four = ([0] + self.samples)[self.index:self.index + 4] ")
wrong("interpolate_bits_3_10", "The index has bits 3-10 of the counter.",
      "heard = interpolate(*four, self.counter >> 4)", "heard = interpolate(*four, self.counter >> 3 & 0xFF)")
wrong("interpolate_nearest", "The index is rounded to the nearest.",
      "heard = interpolate(*four, self.counter >> 4)", "heard = interpolate(*four, min(0xFF, self.counter + 8 >> 4))")
wrong("interpolate_none", "The sample at the index is heard as it is.",
      "heard = interpolate(*four, self.counter >> 4)", "heard = four[3]")
wrong("interpolate_sum_rounded", "The sum of the four products is rounded, not each.",
      ("    return (times(GAUSS[0x0FF - i], oldest) + times(GAUSS[0x1FF - i], older)\n"
       "            + times(GAUSS[0x100 + i], old) + times(GAUSS[i], new))"),
      ("    return times(1, GAUSS[0x0FF - i] * oldest + GAUSS[0x1FF - i] * older\n"
       "                 + GAUSS[0x100 + i] * old + GAUSS[i] * new)"))
wrong("interpolate_to_zero", "The four products are rounded towards zero.",
      "    return (times(GAUSS[0x0FF - i], oldest) +",
      ("    def times(a, b):\n"
       "        return int(a * b / 32768)\n"
       "    return (times(GAUSS[0x0FF - i], oldest) +"))
wrong("interpolate_i_reversed", "The table is gone through backwards.",
      "    return (times(GAUSS[0x0FF - i], oldest) +",
      "    i = 0xFF - i\n    return (times(GAUSS[0x0FF - i], oldest) +")
wrong("before_block_zeros", "The three samples before a block are 0.",
      "self.samples = last + decode(block, last[2], last[1])",
      "self.samples = [0] * 3 + decode(block, last[2], last[1])")
wrong("noise_unsigned", "The noise is heard unsigned.", "heard = s16(noise) ", "heard = noise ")
wrong("noise_without_envelope", "The noise is heard without the envelope.",
      "amplitude = times(heard, self.level) ", "amplitude = times(heard, self.level) if noise is None else heard ")
wrong("noise_stands_still", "A voice that plays noise neither loads nor moves.",
      "        if not self.loaded:\n            self.load(memory)\n        if noise is None:",
      ("        if noise is not None:\n"
       "            amplitude = times(s16(noise), self.level)\n"
       "            self.envelope_step(low, high)\n"
       "            return amplitude\n"
       "        if not self.loaded:\n"
       "            self.load(memory)\n"
       "        if noise is None:"))
wrong("noise_not_loaded", "A voice that plays noise moves without loading its first block.",
      "        if not self.loaded:\n            self.load(memory)\n",
      "        if not self.loaded and noise is None:\n            self.load(memory)\n")
wrong("envelope_before_amplitude", "The amplitude has the envelope after this tick's step.",
      ("        amplitude = times(heard, self.level)        # \"the envelope before this tick's step\"\n"
       "        self.envelope_step(low, high)\n"),
      "        self.envelope_step(low, high)\n        amplitude = times(heard, self.level)\n")
wrong("amplitude_to_zero", "The amplitude is rounded towards zero.",
      "amplitude = times(heard, self.level) ", "amplitude = int(heard * self.level / 32768) ")
wrong("amplitude_by_7fff", "The amplitude is divided by 7FFFh.",
      "amplitude = times(heard, self.level) ", "amplitude = heard * self.level // 0x7FFF ")

wrong("registers_of_16_voices", "Voices 16 to 23 use the registers of voices 0 to 7.",
      "at = 16 * n\n", "at = 16 * (n % 16)\n")

# ---- Pitch

wrong("pitch_limit_3fff", "A pitch above 3FFFh steps 3FFFh.",
      "return 0x4000 if step > 0x3FFF else step", "return min(step, 0x3FFF)")
wrong("pitch_no_limit", "A step has no limit.", "return 0x4000 if step > 0x3FFF else step", "return step")
wrong("pitch_cut_to_14_bits", "A step has 14 bits.",
      "return 0x4000 if step > 0x3FFF else step", "return step & 0x3FFF")
wrong("pitch_limit_first", "The pitch is limited before it is modulated.",
      "    step = pitch\n", "    pitch = step = min(pitch, 0x4000)\n")
wrong("pitch_limit_first_only", "The pitch is limited before it is modulated, and not after.",
      "    step = pitch\n", "    pitch = step = min(pitch, 0x4000)\n",
      "return 0x4000 if step > 0x3FFF else step", "return step")
wrong("pitch_unsigned", "A modulated pitch is unsigned.",
      "step = times(s16(pitch), below + 0x8000) & 0xFFFF", "step = times(pitch, below + 0x8000) & 0xFFFF")
wrong("pitch_negative_0", "A negative modulated step is 0.",
      "step = times(s16(pitch), below + 0x8000) & 0xFFFF", "step = max(0, times(s16(pitch), below + 0x8000))")
wrong("pitch_not_cut", "A modulated step keeps all its bits.",
      "step = times(s16(pitch), below + 0x8000) & 0xFFFF", "step = times(s16(pitch), below + 0x8000) % 0x20000")
wrong("pitch_signed_always", "A pitch from 8000h on is signed without modulation too.",
      "    step = pitch\n", "    step = max(0, s16(pitch))\n")
wrong("pitch_factor_alone", "The factor is the amplitude without 8000h.", "below + 0x8000", "below")
wrong("pitch_factor_half", "The factor is half the amplitude above 8000h.", "below + 0x8000", "below // 2 + 0x8000")
wrong("pitch_to_zero", "A modulated step is rounded towards zero.",
      "step = times(s16(pitch), below + 0x8000) & 0xFFFF",
      "step = int(s16(pitch) * (below + 0x8000) / 32768) & 0xFFFF")
wrong("modulation_ignored", "Pitch modulation is ignored.",
      "below = amplitudes[n - 1] if n > 0 and pmon >> n & 1 else None", "below = None")
wrong("modulation_late", "A voice is modulated by the amplitude of the tick before.",
      "        amplitudes = [0] * 24\n",
      '        amplitudes, self.late = [0] * 24, self.__dict__.get("late", [0] * 24)\n',
      MODULATOR, "below = self.late[n - 1] if n",
      "        return amplitudes\n", "        self.late = amplitudes\n        return amplitudes\n")
wrong("modulation_from_above", "A voice is modulated by the voice above it, of the tick before.",
      "        amplitudes = [0] * 24\n",
      '        amplitudes, self.late = [0] * 24, self.__dict__.get("late", [0] * 24)\n',
      MODULATOR, "below = self.late[(n + 1) % 24] if n",
      "        return amplitudes\n", "        self.late = amplitudes\n        return amplitudes\n")
wrong("modulation_of_voice_0", "Voice 0 is modulated by voice 23, of the tick before.",
      "        amplitudes = [0] * 24\n",
      '        amplitudes, self.late = [0] * 24, self.__dict__.get("late", [0] * 24)\n',
      "below = amplitudes[n - 1] if n > 0 and pmon >> n & 1 else None",
      "below = None if not pmon >> n & 1 else amplitudes[n - 1] if n else self.late[23]",
      "        return amplitudes\n", "        self.late = amplitudes\n        return amplitudes\n")
wrong("modulation_after_volume", "A voice is modulated by the left side of the voice below.",
      MODULATOR, "below = times(amplitudes[n - 1], volume(reg[16 * n - 16])) if n")
wrong("modulation_bit_below", "PMON bit n makes voice n modulate the one above.",
      "n > 0 and pmon >> n & 1", "n > 0 and pmon >> n - 1 & 1")
wrong("modulation_by_idle", "An Idle voice below stops the voice.",
      MODULATOR,
      "below = -0x8000 if n and pmon >> n & 1 and self.voices[n - 1].phase == IDLE else amplitudes[n - 1] if n")
wrong("modulation_without_envelope", "A voice is modulated by the sample below without its envelope.",
      "amplitude = times(heard, self.level) ", "self.heard, amplitude = heard, times(heard, self.level) ",
      MODULATOR, 'below = self.voices[n - 1].__dict__.get("heard", 0) if n')
wrong("modulation_not_by_noise", "A voice that plays noise modulates by 0.",
      MODULATOR, "below = (0 if non >> n - 1 & 1 else amplitudes[n - 1]) if n")
wrong("pmon_is_non", "PMON and NON change places.",
      "self.flags(0x190), self.flags(0x194)", "self.flags(0x194), self.flags(0x190)")
wrong("flags_upper_half_lost", "Flags are of voices 0 to 15.",
      "return self.reg[offset] | self.reg[offset + 2] << 16", "return self.reg[offset]")
wrong("flags_halves_swapped", "The first flag register is of voices 16 to 23.",
      "return self.reg[offset] | self.reg[offset + 2] << 16", "return self.reg[offset + 2] | self.reg[offset] << 16")
wrong("voices_23_to_0", "The voices go from 23 to 0.",
      "for n, voice in enumerate(self.voices):\n            if voice.phase",
      "for n, voice in reversed(list(enumerate(self.voices))):\n            if voice.phase")
wrong("one_sample_a_tick", "One sample at most is moved in a tick.",
      "        while self.counter >= 0x1000: ", "        if self.counter >= 0x1000: ",
      "            self.counter -= 0x1000\n", "            self.counter %= 0x1000\n")
wrong("counter_cleared", "A move clears the counter.",
      "            self.counter -= 0x1000\n", "            self.counter = 0\n")
wrong("moves_lost_at_end", "A new block begins with its first sample, whatever is left of the step.",
      "                self.end_rule(memory.L)\n",
      "                self.counter %= 0x1000\n                self.end_rule(memory.L)\n")
wrong("counter_cleared_at_end", "A new block clears the counter.",
      "                self.end_rule(memory.L)\n",
      "                self.counter = 0\n                self.end_rule(memory.L)\n")
wrong("block_of_27", "A block ends past sample 26.", "if self.index > 27:  ", "if self.index > 26:  ")
wrong("next_block_late", "The next block is loaded in the next tick.",
      "                self.end_rule(memory.L)\n                self.load(memory)\n",
      "                self.end_rule(memory.L)\n                self.loaded = False\n")

# ---- Load

wrong("shift_13_as_12", "Shifts 13 to 15 act as 12.", "shift = 9   ", "shift = 12   ")
wrong("shift_13_as_0", "Shifts 13 to 15 act as 0.", "shift = 9   ", "shift = 0   ")
wrong("shift_13_as_8", "Shifts 13 to 15 act as 8.", "shift = 9   ", "shift = 8   ")
wrong("shift_13_as_it_is", "Shifts 13 to 15 shift right by 1 to 3.",
      ("    if shift > 12:\n"
       '        shift = 9                                   # "13..15 act as 9"\n'),
      "",
      "saturate((t << (12 - shift)) +", "saturate((t << 12 >> shift) +")
wrong("shift_12_as_9", "Shift 12 acts as 9 too.", "    if shift > 12:\n", "    if shift > 11:\n")
wrong("shift_15_only", "Shifts 13 and 14 act as 12, 15 as 9.",
      "    if shift > 12:\n", "    if shift in (13, 14):\n        shift = 12\n    if shift > 12:\n")
wrong("header_nibbles_swapped", "The shift is the high nibble of byte 0, the filter the low one.",
      "    shift = block[0] & 15\n", "    shift = block[0] >> 4\n",
      "FILTERS[block[0] >> 4 & 7]", "FILTERS[block[0] & 7]")
wrong("filter_2_bits", "The filter is in bits 4-5.", "FILTERS[block[0] >> 4 & 7]", "FILTERS[block[0] >> 4 & 3]")
wrong("filter_4_bits", "The filter is in bits 4-7, and 5 to 15 act as 0.",
      "FILTERS[block[0] >> 4 & 7]", "(FILTERS + ((0, 0),) * 8)[block[0] >> 4]")
wrong("filter_5_as_4", "Filters 5 to 7 act as 4.",
      "(122, -60), (0, 0), (0, 0), (0, 0))", "(122, -60), (122, -60), (122, -60), (122, -60))")
wrong("filter_5_as_1", "Filters 5 to 7 act as 1 to 3.",
      "(122, -60), (0, 0), (0, 0), (0, 0))", "(122, -60), (60, 0), (115, -52), (98, -55))")
wrong("filter_6_as_2", "Filter 6 acts as 2.",
      "(122, -60), (0, 0), (0, 0), (0, 0))", "(122, -60), (0, 0), (115, -52), (0, 0))")
wrong("filter_7_as_3", "Filter 7 acts as 3.",
      "(122, -60), (0, 0), (0, 0), (0, 0))", "(122, -60), (0, 0), (0, 0), (98, -55))")
for k, filters in enumerate(("(61, 0)", "(59, 0)", "(60, -1)")):
    wrong(f"filter_1_off_{k}", f"Filter 1 is {filters}.", "(60, 0), ", filters + ", ")
for number, k0, k1 in ((2, 115, -52), (3, 98, -55), (4, 122, -60)):
    for k, (wrong_0, wrong_1) in enumerate(((k0 + 1, k1), (k0, k1 + 1), (k0, -k1))):
        wrong(f"filter_{number}_off_{k}", f"Filter {number} is ({wrong_0}, {wrong_1}).",
              f"({k0}, {k1}), ", f"({wrong_0}, {wrong_1}), ")
wrong("filters_2_3_swapped", "Filters 2 and 3 change places.", "(115, -52), (98, -55)", "(98, -55), (115, -52)")
wrong("filter_without_32", "No 32 is added before the division by 64.",
      "(old * k0 + older * k1 + 32) // 64", "(old * k0 + older * k1) // 64")
wrong("filter_to_zero", "The filter is rounded towards zero.",
      "(old * k0 + older * k1 + 32) // 64", "int((old * k0 + older * k1 + 32) / 64)")
wrong("filter_rounded_apart", "The two parts of the filter are rounded by themselves.",
      "(old * k0 + older * k1 + 32) // 64", "((old * k0 + 32) // 64 + (older * k1 + 32) // 64)")
wrong("filter_old_older", "Old and older change places.",
      "(old * k0 + older * k1 + 32)", "(older * k0 + old * k1 + 32)")
wrong("filter_first_old_older", "Old and older change places at the beginning of a block.",
      "decode(block, last[2], last[1])", "decode(block, last[1], last[2])")
wrong("filter_from_zero", "Each block begins with old and older 0.",
      "decode(block, last[2], last[1])", "decode(block, 0, 0)")
wrong("sample_wraps", "A sample past 16 bits wraps.", "new = saturate((t <<", "new = s16((t <<")
wrong("sample_unsaturated_old", "A sample is saturated where it is heard, not where it is old.",
      ("            new = saturate((t << (12 - shift)) + (old * k0 + older * k1 + 32) // 64)\n"
       "            samples.append(new)\n"),
      ("            new = (t << (12 - shift)) + (old * k0 + older * k1 + 32) // 64\n"
       "            samples.append(saturate(new))\n"))
wrong("nibble_high_first", "The high nibble comes first.", "(byte & 15, byte >> 4)", "(byte >> 4, byte & 15)")
wrong("nibble_unsigned", "A nibble is unsigned.", "t = (nibble ^ 8) - 8", "t = nibble")
wrong("nibble_sign_magnitude", "Bit 3 of a nibble is its sign.",
      "t = (nibble ^ 8) - 8", "t = -(nibble & 7) if nibble & 8 else nibble")
wrong("shift_by_11", "A sample is t times 2^(11-shift).", "(t << (12 - shift))", "(t << 12 - shift >> 1)")
wrong("header_bytes_swapped", "The flags stand in byte 0, shift and filter in byte 1.",
      HALFWORDS,
      ("        halfwords = [self.fetch((address + 2 * k) % self.L) for k in range(8)]\n"
       "        halfwords[0] = halfwords[0] >> 8 | halfwords[0] % 256 << 8\n"))
wrong("block_read_live", "The flags of a block are those in RAM when it ends.",
      "                self.end_rule(memory.L)\n",
      ("                self.flags = memory.ram[(self.address + 1) % memory.L]\n"
       "                self.end_rule(memory.L)\n"))
wrong("samples_read_live", "Samples are decoded from RAM as it stands when they are met.",
      "        if noise is None:\n            four",
      ("        block = bytes(memory.ram[(self.address + k) % memory.L] for k in range(16))\n"
       "        self.samples[3:] = decode(block, self.samples[2], self.samples[1])\n"
       "        if noise is None:\n"
       "            four"))
wrong("loop_start_at_end", "A loop start sets repeat at the end of its block.",
      "        if self.flags & 4:\n            self.repeat = self.address // 8\n", "",
      "        if self.flags & 1 == 0:\n            self.address =",
      ("        if self.flags & 4:\n"
       "            self.repeat = self.address // 8\n"
       "        if self.flags & 1 == 0:\n"
       "            self.address ="))
wrong("loop_start_bit_3", "Loop start is bit 3.", "if self.flags & 4:", "if self.flags & 8:")
wrong("loop_start_ignored", "A loop start sets nothing.", "if self.flags & 4:", "if False:")
wrong("loop_start_next", "A loop start sets repeat to the block after it.",
      "self.repeat = self.address // 8", "self.repeat = self.address // 8 + 2")
wrong("loop_start_bytes", "A loop start sets repeat to the address in units of 16 bytes.",
      "self.repeat = self.address // 8", "self.repeat = self.address // 16")
wrong("loop_start_not_when_off", "An Off voice takes no loop start.",
      "if self.flags & 4:", "if self.flags & 4 and self.phase != OFF:")
wrong("loop_start_after_write", "A repeat that was written keeps loop starts off till the next key on.",
      "self.voices[offset // 16].repeat = value",
      "self.voices[offset // 16].repeat, self.voices[offset // 16].written = value, True",
      "if self.flags & 4:", "if self.flags & 4 and not self.written:",
      "        self.phase = IDLE\n", "        self.phase = IDLE\n        self.written = False\n")

# ---- End rule

wrong("end_next_8", "The next block is 8 bytes on.",
      "self.address = (self.address + 16) % L", "self.address = (self.address + 8) % L")
wrong("end_past_l_repeats", "Past the end of sound RAM the voice goes on at its repeat.",
      "self.address = (self.address + 16) % L",
      "self.address = self.address + 16 if self.address + 16 < L else unit_address(self.repeat, L)")
wrong("end_past_l_stays", "Past the end of sound RAM the voice stays in the last block.",
      "self.address = (self.address + 16) % L", "self.address = min(self.address + 16, L - 16)")
wrong("endx_at_load", "ENDX is set when the block is loaded.",
      "            self.ended = True\n", "",
      "        if self.flags & 4:\n", "        self.ended |= self.flags & 1 == 1\n        if self.flags & 4:\n")
wrong("endx_with_mute_only", "ENDX is set by End+Mute alone.",
      "            self.ended = True\n", "            self.ended |= self.flags & 2 == 0\n")
wrong("endx_with_repeat_only", "ENDX is set by End+Repeat alone.",
      "            self.ended = True\n", "            self.ended |= self.flags & 2 != 0\n")
wrong("endx_not_when_off", "An Off voice sets no ENDX.",
      "            self.ended = True\n", "            self.ended |= self.phase != OFF\n")
wrong("endx_by_release", "ENDX is set when a voice goes Off by its envelope.",
      "            self.enter(next_phase(self.phase, self.level, low), low, high)\n",
      ("            self.enter(next_phase(self.phase, self.level, low), low, high)\n"
       "            self.ended |= self.phase == OFF\n"))
wrong("end_goes_on", "End+Mute goes on with the next block.",
      "            self.address = unit_address(self.repeat, L)\n",
      "            self.address = unit_address(self.repeat, L) if self.flags & 2 else (self.address + 16) % L\n")
wrong("end_bits_swapped", "Bit 1 ends a block, bit 0 lets it repeat.",
      "        if self.flags & 1 == 0:\n            self.address =",
      "        if self.flags & 2 == 0:\n            self.address =",
      "            if self.flags & 2 == 0:\n                self.silence(OFF)",
      "            if self.flags & 1 == 0:\n                self.silence(OFF)")
wrong("end_mute_inverted", "Bit 1 set mutes.",
      "            if self.flags & 2 == 0:\n", "            if self.flags & 2:\n")
wrong("end_never_mutes", "No block mutes.", "            if self.flags & 2 == 0:\n", "            if False:\n")
wrong("end_2_repeats", "Bit 1 alone jumps to repeat.",
      "        if self.flags & 1 == 0:\n            self.address =",
      "        if self.flags & 3 == 0:\n            self.address =")
wrong("mute_keeps_level", "End+Mute goes to Off with the level as it is.",
      "                self.silence(OFF)", "                self.enter(OFF)")
wrong("mute_to_idle", "End+Mute goes to Idle.",
      "                self.silence(OFF)", "                self.silence(IDLE)")
wrong("mute_keeps_phase", "End+Mute sets the level to 0 and leaves the phase.",
      "                self.silence(OFF)", "                self.level = 0")

wrong("mute_at_once", "The tick that meets End+Mute is silent.",
      "                self.load(memory)\n        return amplitude\n",
      ("                self.load(memory)\n"
       "                amplitude = 0 if self.phase == OFF else amplitude\n"
       "        return amplitude\n"))
wrong("end_to_start", "A block's end goes to the start of key on.",
      "            self.address = unit_address(self.repeat, L)\n",
      "            self.address = unit_address(self.start, L)\n",
      "        self.repeat = start\n", "        self.repeat = self.start = start\n")
wrong("end_to_start_register", "A block's end goes to the start register as it stands.",
      "            self.address = unit_address(self.repeat, L)\n",
      "            self.address = unit_address(self.start, L)\n",
      "            if voice.phase != IDLE:\n",
      "            voice.start = reg[16 * n + 6]\n            if voice.phase != IDLE:\n")
wrong("end_repeat_of_load", "A block's end goes to repeat as it was when the block was loaded.",
      "            self.address = unit_address(self.repeat, L)\n",
      "            self.address = unit_address(self.then, L)\n",
      "            self.repeat = self.address // 8\n",
      "            self.repeat = self.address // 8\n        self.then = self.repeat\n")

# ---- Key on, key off, SPUCNT bit 15

wrong("key_on_needs_no_bit_15", "Key on starts voices without SPUCNT bit 15.",
      "elif self.reg[0x1AA] & 0x8000:  ", "else:  ")
wrong("key_on_clears_endx_always", "Key on without SPUCNT bit 15 clears ENDX.",
      "                elif self.reg[0x1AA] & 0x8000:  ",
      ("                elif not self.reg[0x1AA] & 0x8000:\n"
       "                    self.voices[n].ended = False\n"
       "                else:  "))
wrong("key_on_sets_repeat_always", "Key on without SPUCNT bit 15 sets repeat.",
      "                elif self.reg[0x1AA] & 0x8000:  ",
      ("                elif not self.reg[0x1AA] & 0x8000:\n"
       "                    self.voices[n].repeat = start\n"
       "                else:  "))
for kept, rule in (("samples", "the samples"), ("counter", "the counter"), ("index", "the sample index"),
                   ("level", "the level"), ("ended", "ENDX"), ("loaded", "the block that is loaded")):
    wrong("key_on_keeps_" + kept, f"Key on keeps {rule}.", "        self.__init__()\n",
          f"        kept = self.{kept}\n        self.__init__()\n        self.{kept} = kept\n")
wrong("key_on_keeps_repeat", "Key on keeps repeat.",
      "        self.__init__()\n", "        kept = self.repeat\n        self.__init__()\n",
      "        self.repeat = start\n", "        self.repeat = kept\n")
wrong("key_on_repeat_reduced", "Key on sets repeat reduced modulo L.",
      "        self.repeat = start\n", "        self.repeat = start % (L // 8)\n")
wrong("key_on_new_bits_only", "Key on acts on bits that were clear before.",
      "            self.key_write(offset, value)",
      "            self.key_write(offset, value & ~old if offset < 0x18C else value)")
wrong("key_on_idle_only", "Key on starts voices that are Idle or Off.",
      "                    self.voices[n].key_on(",
      "                    if self.voices[n].phase in (IDLE, OFF): self.voices[n].key_on(")
wrong("key_on_not_in_release", "Key on leaves a voice in Release.",
      "                    self.voices[n].key_on(",
      "                    if self.voices[n].phase != RELEASE: self.voices[n].key_on(")
wrong("key_off_new_bits_only", "Key off acts on bits that were clear before.",
      "            self.key_write(offset, value)",
      "            self.key_write(offset, value & ~old if offset >= 0x18C else value)")
wrong("key_upper_half_lost", "18Ah and 18Eh act on voices 0 to 7.", "first = 16 if offset & 2 else 0", "first = 0")
wrong("key_on_clear_bits", "Key on sends the voices whose bits are clear to Release.",
      "            if value >> (n - first) & 1:\n",
      ("            if offset < 0x18C and not value >> (n - first) & 1:\n"
       "                self.voices[n].key_off(*(self.reg[16 * n + k] for k in (8, 10)))\n"
       "            if value >> (n - first) & 1:\n"))
wrong("key_registers_swapped", "188h is key off, 18Ch key on.",
      "                if offset >= 0x18C:\n", "                if offset < 0x18C:\n")
wrong("key_off_not_attack", "Key off leaves Attack.",
      "if self.phase in (ATTACK, DECAY, SUSTAIN):", "if self.phase in (DECAY, SUSTAIN):")
wrong("key_off_not_decay", "Key off leaves Decay.",
      "if self.phase in (ATTACK, DECAY, SUSTAIN):", "if self.phase in (ATTACK, SUSTAIN):")
wrong("key_off_not_sustain", "Key off leaves Sustain.",
      "if self.phase in (ATTACK, DECAY, SUSTAIN):", "if self.phase in (ATTACK, DECAY):")
wrong("key_off_again", "Key off restarts a running Release.",
      "if self.phase in (ATTACK, DECAY, SUSTAIN):", "if self.phase in (ATTACK, DECAY, SUSTAIN, RELEASE):")
wrong("key_off_idle", "Key off sends an Idle voice to Release.",
      "if self.phase in (ATTACK, DECAY, SUSTAIN):", "if self.phase in (IDLE, ATTACK, DECAY, SUSTAIN):")
wrong("key_off_keeps_wait", "Key off keeps the wait that runs.",
      "            self.enter(RELEASE, low, high)", "            self.phase = RELEASE")
wrong("key_off_mutes", "Key off goes to Off at once.",
      "            self.enter(RELEASE, low, high)", "            self.silence(OFF)")
wrong("key_off_idle_at_0", "Key off at level 0 goes to Idle at once.",
      "            self.enter(RELEASE, low, high)",
      "            self.enter(RELEASE if self.level else IDLE, low, high)")
wrong("endx_cleared_by_key_off", "Key off clears ENDX.",
      "            self.enter(RELEASE, low, high)",
      "            self.ended = False\n            self.enter(RELEASE, low, high)")
wrong("key_on_in_tick", "Key on acts in the next tick.",
      "                    self.voices[n].key_on(start, self.L, low, high)",
      '                    self.__dict__.setdefault("keyed", []).append(n)',
      TICK_BEGINS,
      ('        for n in self.__dict__.pop("keyed", ()):\n'
       "            self.voices[n].key_on(self.reg[16 * n + 6], self.L, *(self.reg[16 * n + k] for k in (8, "
       "10)))\n"
       "        self.begin()\n"
       "        before, reg ="))
wrong("key_off_in_tick", "Key off acts in the next tick.",
      "                    self.voices[n].key_off(low, high)",
      '                    self.__dict__.setdefault("released", []).append(n)',
      TICK_BEGINS,
      ('        for n in self.__dict__.pop("released", ()):\n'
       "            self.voices[n].key_off(*(self.reg[16 * n + k] for k in (8, 10)))\n"
       "        self.begin()\n"
       "        before, reg ="))
wrong("stop_to_off", "SPUCNT bit 15 clear makes all voices Off.",
      "                voice.silence(IDLE)", "                voice.silence(OFF)")
wrong("stop_to_release", "SPUCNT bit 15 clear sends all voices to Release.",
      "                voice.silence(IDLE)", "                voice.key_off(0, 0)")
wrong("stop_fresh", "SPUCNT bit 15 clear makes all voices fresh.",
      "                voice.silence(IDLE)", "                voice.__init__()")
wrong("stop_clears_endx", "SPUCNT bit 15 clear clears ENDX.",
      "                voice.silence(IDLE)",
      "                voice.silence(IDLE)\n                voice.ended = False")
wrong("stop_keeps_level", "SPUCNT bit 15 clear leaves the levels.",
      "                voice.silence(IDLE)", "                voice.enter(IDLE)")
wrong("stop_none", "SPUCNT bit 15 clear leaves the voices.", "if new & 0x8000 == 0:  ", "if False:  ")
wrong("stop_resumes", "SPUCNT bit 15 set again lets the voices go on.",
      "                voice.silence(IDLE)\n",
      ("                if voice.phase != IDLE:\n"
       "                    voice.kept = voice.phase, voice.level, voice.wait\n"
       "                voice.silence(IDLE)\n"
       "        elif not old & 0x8000:\n"
       "            for voice in self.voices:\n"
       '                if "kept" in voice.__dict__ and voice.phase == IDLE:\n'
       "                    voice.phase, voice.level, voice.wait = voice.kept\n"))
wrong("stop_in_tick", "SPUCNT bit 15 clear acts in the next tick.",
      "if new & 0x8000 == 0:  ", "if False:  ",
      "        amplitudes = self.voices_step()\n",
      ("        for voice in self.voices if not reg[0x1AA] & 0x8000 else ():\n"
       "            voice.silence(IDLE)\n"
       "        amplitudes = self.voices_step()\n"))

# ---- Envelope

wrong("cycles_from_10", "Cycles are 2^(shift-10).", "1 << max(0, shift - 11)", "1 << max(0, shift - 10)")
wrong("cycles_from_12", "Cycles are 2^(shift-12).", "1 << max(0, shift - 11)", "1 << max(0, shift - 12)")
wrong("cycles_1", "A wait is always 1.", "1 << max(0, shift - 11)", "1")
wrong("rise_slow_at_6000", "An exponential rise is slower from 6000h on.",
      "rising and level > 0x6000", "rising and level >= 0x6000")
wrong("rise_slow_never", "An exponential rise is never slower.",
      "return cycles * 4 if exponential and rising and level > 0x6000 else cycles", "return cycles")
wrong("rise_slow_linear", "A linear rise is slower above 6000h too.",
      "return cycles * 4 if exponential and rising", "return cycles * 4 if rising")
wrong("rise_slow_falling", "A fall is slower above 6000h too.",
      "return cycles * 4 if exponential and rising and level", "return cycles * 4 if exponential and level")
wrong("rise_slow_8", "An exponential rise is 8 times slower above 6000h.",
      "return cycles * 4 if", "return cycles * 8 if")
wrong("rise_step_quarter", "An exponential rise takes a quarter of the step above 6000h, and not the time.",
      "return cycles * 4 if exponential and rising and level > 0x6000 else cycles", "return cycles",
      "    if exponential and not rising:\n",
      ("    if exponential and rising and level > 0x6000:\n"
       "        step >>= 2\n"
       "    if exponential and not rising:\n"))
wrong("step_from_10", "A step is the value times 2^(10-shift).",
      "value << max(0, 11 - shift)", "value << max(0, 10 - shift)")
wrong("step_from_12", "A step is the value times 2^(12-shift).",
      "value << max(0, 11 - shift)", "value << max(0, 12 - shift)")
wrong("fall_to_zero", "An exponential fall is rounded towards zero.",
      "        step = times(step, level)\n", "        step = int(step * level / 32768)\n")
wrong("fall_linear", "An exponential fall is linear.", "    if exponential and not rising:\n", "    if False:\n")
wrong("fall_of_both", "An exponential rise is scaled by the level too.",
      "    if exponential and not rising:\n", "    if exponential:\n")
wrong("fall_always_exponential", "A linear fall is scaled by the level too.",
      "    if exponential and not rising:\n", "    if not rising:\n")
wrong("level_stays_below_7fff", "A level past 7FFFh stays where it was.",
      "return max(0, min(0x7FFF, level + step))", "return max(0, level + step) if level + step <= 0x7FFF else level")
wrong("level_to_7ffe", "A level ends at 7FFEh.",
      "return max(0, min(0x7FFF, level + step))", "return max(0, min(0x7FFE, level + step))")
wrong("level_stays_above_0", "A level below 0 stays where it was.",
      "return max(0, min(0x7FFF, level + step))", "return min(0x7FFF, level + step) if level + step >= 0 else level")
wrong("attack_mode_ignored", "Attack is always linear.",
      "return low >> 15, True, low >> 10 & 31", "return 0, True, low >> 10 & 31")
wrong("attack_mode_inverted", "Attack is linear with bit 15 set.",
      "return low >> 15, True, low >> 10 & 31", "return 1 - (low >> 15), True, low >> 10 & 31")
wrong("attack_shift_4_bits", "The attack shift has 4 bits.", "low >> 10 & 31, 7 -", "low >> 10 & 15, 7 -")
wrong("attack_step_up", "The attack step is 4 plus bits 9-8.",
      "low >> 10 & 31, 7 - (low >> 8 & 3)", "low >> 10 & 31, 4 + (low >> 8 & 3)")
wrong("attack_step_7", "The attack step is 7.", "low >> 10 & 31, 7 - (low >> 8 & 3)", "low >> 10 & 31, 7")
wrong("attack_step_8", "The attack step is 8 less bits 9-8.",
      "low >> 10 & 31, 7 - (low >> 8 & 3)", "low >> 10 & 31, 8 - (low >> 8 & 3)")
wrong("decay_linear", "Decay is linear.", "return 1, False, low >> 4 & 15, -8", "return 0, False, low >> 4 & 15, -8")
wrong("decay_step_7", "The decay step is -7.",
      "return 1, False, low >> 4 & 15, -8", "return 1, False, low >> 4 & 15, -7")
wrong("decay_shift_low", "The decay shift is in bits 3-0.",
      "return 1, False, low >> 4 & 15, -8", "return 1, False, low & 15, -8")
wrong("sustain_mode_inverted", "Sustain is linear with bit 15 set.",
      "return high >> 15, not falling,", "return 1 - (high >> 15), not falling,")
wrong("sustain_direction_inverted", "Sustain rises with bit 14 set.",
      "falling, n = high >> 14 & 1, high >> 6 & 3", "falling, n = 1 - (high >> 14 & 1), high >> 6 & 3")
wrong("sustain_bit_13", "Sustain falls with bit 13 set.",
      "falling, n = high >> 14 & 1, high >> 6 & 3", "falling, n = high >> 13 & 1, high >> 6 & 3")
wrong("sustain_fall_minus_7", "A falling sustain steps by -7 + n.", "-8 + n if falling", "-7 + n if falling")
wrong("sustain_fall_minus_n", "A falling sustain steps by -8 - n.", "-8 + n if falling", "-8 - n if falling")
wrong("sustain_fall_as_rise", "A falling sustain steps by -(7 - n).", "-8 + n if falling", "n - 7 if falling")
wrong("sustain_rise_up", "A rising sustain steps by 4 + n.", "else 7 - n", "else 4 + n")
wrong("sustain_still", "The level stands still in Sustain.",
      "        self.wait -= 1\n", "        if self.phase == SUSTAIN:\n            return\n        self.wait -= 1\n")
wrong("sustain_ends_at_0", "Sustain at 0 goes to Off.",
      "    if phase == RELEASE and level == 0:", "    if phase in (SUSTAIN, RELEASE) and level == 0:")
wrong("release_mode_inverted", "Release is linear with bit 5 set.",
      "return high >> 5 & 1, False, high & 31, -8", "return 1 - (high >> 5 & 1), False, high & 31, -8")
wrong("release_linear", "Release is linear.",
      "return high >> 5 & 1, False, high & 31, -8", "return 0, False, high & 31, -8")
wrong("release_step_7", "The release step is -7.",
      "return high >> 5 & 1, False, high & 31, -8", "return high >> 5 & 1, False, high & 31, -7")
wrong("release_shift_4_bits", "The release shift has 4 bits.",
      "return high >> 5 & 1, False, high & 31, -8", "return high >> 5 & 1, False, high & 15, -8")
wrong("adsr_halves_swapped", "+Ah is the lower half of ADSR.",
      "voice.tick(self, reg[at + 4], reg[at + 8], reg[at + 10],",
      "voice.tick(self, reg[at + 4], reg[at + 10], reg[at + 8],")
wrong("attack_never_ends", "Attack at 7FFFh stays.", "    if phase == ATTACK and level == 0x7FFF:", "    if False:")
wrong("attack_at_7000", "Attack goes to Decay from 7000h on.",
      "    if phase == ATTACK and level == 0x7FFF:", "    if phase == ATTACK and level >= 0x7000:")
wrong("attack_late", "Attack goes to Decay with the next step after 7FFFh.",
      PHASE_TEST,
      ("            self.enter(next_phase(self.phase, before if self.phase == ATTACK else self.level, low), "
       "low, high)"),
      "            self.level = envelope_move(",
      "            before = self.level\n            self.level = envelope_move(")
wrong("decay_strictly_below", "Decay ends strictly below its limit.",
      "level <= ((low & 15) + 1) * 0x800", "level < ((low & 15) + 1) * 0x800")
wrong("decay_limit_n", "Decay ends at N times 800h.",
      "level <= ((low & 15) + 1) * 0x800", "level <= (low & 15) * 0x800")
wrong("decay_limit_clamped", "Decay stops exactly at its limit.",
      PHASE_TEST,
      ("            after = next_phase(self.phase, self.level, low)\n"
       "            if (self.phase, after) == (DECAY, SUSTAIN):\n"
       "                self.level = min(0x7FFF, ((low & 15) + 1) * 0x800)\n"
       "            self.enter(after, low, high)"))
wrong("two_changes", "Phases are tested till none changes.",
      PHASE_TEST,
      ("            after = next_phase(self.phase, self.level, low)\n"
       "            self.enter(next_phase(after, self.level, low), low, high)"))
wrong("phases_every_tick", "Phases are tested in every tick.",
      "        self.wait -= 1\n",
      ("        after = next_phase(self.phase, self.level, low)\n"
       "        if after != self.phase:\n"
       "            self.enter(after, low, high)\n"
       "            return\n"
       "        self.wait -= 1\n"))
wrong("phases_before_move", "Phases are tested before the level moves.",
      ("            self.level = envelope_move(self.phase, self.level, low, high)\n"
       "            self.enter(next_phase(self.phase, self.level, low), low, high)"),
      ("            after = next_phase(self.phase, self.level, low)\n"
       "            self.level = envelope_move(after, self.level, low, high)\n"
       "            self.enter(after, low, high)"))
wrong("release_to_idle", "Release at 0 goes to Idle.", "        return OFF\n", "        return IDLE\n")
wrong("wait_of_old_phase", "After a change of phase the wait is that of the phase before.",
      PHASE_TEST,
      ("            before = self.phase\n"
       "            self.enter(next_phase(self.phase, self.level, low), low, high)\n"
       "            if self.phase != OFF:\n"
       "                self.wait = envelope_cycles(before, self.level, low, high)"))
wrong("wait_of_old_level", "The wait is four times by the level before the move.",
      ("            self.level = envelope_move(self.phase, self.level, low, high)\n"
       "            self.enter(next_phase(self.phase, self.level, low), low, high)"),
      ("            before, self.level = self.level, envelope_move(self.phase, self.level, low, high)\n"
       "            self.phase = next_phase(self.phase, self.level, low)\n"
       "            self.wait = 0 if self.phase == OFF else envelope_cycles(self.phase, before, low, high)"))
wrong("wait_one_more", "Entering Attack waits one tick more.",
      "        self.enter(ATTACK, low, high)", "        self.enter(ATTACK, low, high)\n        self.wait += 1")
wrong("wait_follows_registers", "A register written during a wait changes the wait.",
      "        self.wait -= 1\n",
      ("        self.wait = min(self.wait, envelope_cycles(self.phase, self.level, low, high))\n"
       "        self.wait -= 1\n"))
wrong("step_fixed_at_wait", "The step is the one of the registers when the wait began.",
      "                     else envelope_cycles(phase, self.level, low, high))",
      ("                     else envelope_cycles(phase, self.level, low, high))\n"
       "        self.fixed = low, high"),
      "            self.level = envelope_move(self.phase, self.level, low, high)",
      "            self.level = envelope_move(self.phase, self.level, *self.fixed)")
wrong("adsr_fixed_at_key_on", "A voice keeps the ADSR registers of its key on.",
      "        self.enter(ATTACK, low, high)", "        self.enter(ATTACK, low, high)\n        self.adsr = low, high",
      "        if self.phase in (IDLE, OFF):\n            return\n",
      ("        if self.phase in (IDLE, OFF):\n"
       "            return\n"
       "        low, high = self.adsr\n"))
wrong("envelope_stops_with_bit_14", "Envelopes stand still with SPUCNT bit 14 clear.",
      "        self.envelope_step(low, high)\n",
      "        if memory.reg[0x1AA] & 0x4000:\n            self.envelope_step(low, high)\n")

# ---- Mix

wrong("volume_not_doubled", "A volume is its signed low 15 bits.",
      "return s16(register << 1)", "return s16(register << 1) >> 1")
wrong("volume_unsigned", "A volume's low 15 bits are unsigned.",
      "return s16(register << 1)", "return (register & 0x7FFF) * 2")
wrong("volume_plus_1", "A volume of 3FFFh is 7FFFh.",
      "return s16(register << 1)", "return s16(register << 1 | register >> 14 & 1 ^ 1)")
wrong("side_to_zero", "A side is rounded towards zero.",
      "part = times(amplitude, volume(self.reg[16 * n + 2 * side]))",
      "part = int(amplitude * volume(self.reg[16 * n + 2 * side]) / 32768)")
wrong("sides_rounded_once", "The sum of the sides is rounded, not each.",
      "part = times(amplitude, volume(self.reg[16 * n + 2 * side]))",
      "part = amplitude * volume(self.reg[16 * n + 2 * side])",
      "        return voices, echoing\n", "        return voices >> 15, echoing >> 15\n")
wrong("sides_swapped", "A voice's left volume is its right.",
      "volume(self.reg[16 * n + 2 * side])", "volume(self.reg[16 * n + 2 - 2 * side])")
wrong("sum_saturated_each", "The voices' sum is saturated after each voice.",
      "                voices += part\n", "                voices = saturate(voices + part)\n")
wrong("sum_not_saturated", "The voices' sum is not saturated by itself.",
      "total += saturate(voices) + self.held[side]", "total += voices + self.held[side]")
wrong("sum_with_reverb_saturated", "Voices and reverb are saturated together before CD joins.",
      "total += saturate(voices) + self.held[side]", "total += saturate(voices + self.held[side])")
wrong("sum_wraps", "The voices' sum wraps at 16 bits.",
      "total += saturate(voices) + self.held[side]", "total += s16(voices) + self.held[side]")
wrong("mute_bit_ignored", "SPUCNT bit 14 mutes nothing.", "        if control & 0x4000:\n", "        if True:\n")
wrong("mute_bit_inverted", "SPUCNT bit 14 mutes.",
      "        if control & 0x4000:\n", "        if not control & 0x4000:\n")
wrong("mute_needs_bit_15", "SPUCNT bit 15 clear mutes like bit 14.",
      "        if control & 0x4000:\n", "        if control & 0xC000 == 0xC000:\n")
wrong("mute_leaves_reverb", "SPUCNT bit 14 clear leaves the reverb's output.",
      "            total += saturate(voices) + self.held[side]\n",
      "            total += saturate(voices)\n        total += self.held[side]\n")
wrong("mute_cd", "SPUCNT bit 14 clear mutes CD too.",
      "        if control & 1:\n            total += cd\n",
      "        if control & 0x4001 == 0x4001:\n            total += cd\n")
wrong("cd_always", "CD joins without bit 0.",
      "        if control & 1:\n            total += cd\n", "        total += cd\n")
wrong("cd_by_bit_1", "CD joins by bit 1.",
      "        if control & 1:\n            total += cd\n", "        if control & 2:\n            total += cd\n")
wrong("cd_volume_of_external", "CD has the volumes of external audio.",
      CD, "cd = (times(cd_left, s16(reg[0x1B4])), times(cd_right, s16(reg[0x1B6])))")
wrong("cd_without_volume", "CD joins before its volume.", CD, "cd = (cd_left, cd_right)")
wrong("cd_doubled_volume", "A CD volume is twice its low 15 bits.",
      CD, "cd = (times(cd_left, volume(reg[0x1B0])), times(cd_right, volume(reg[0x1B2])))")
wrong("cd_unsigned_volume", "A CD volume is unsigned.",
      CD, "cd = (times(cd_left, reg[0x1B0]), times(cd_right, reg[0x1B2]))")
wrong("cd_sides_swapped", "CD left has the right volume.",
      CD, "cd = (times(cd_left, s16(reg[0x1B2])), times(cd_right, s16(reg[0x1B0])))")
wrong("cd_saturated", "CD is saturated after its volume.",
      CD, "cd = (saturate(times(cd_left, s16(reg[0x1B0]))), saturate(times(cd_right, s16(reg[0x1B2]))))")
wrong("cd_to_zero", "CD times its volume is rounded towards zero.",
      CD, "cd = (int(cd_left * s16(reg[0x1B0]) / 32768), int(cd_right * s16(reg[0x1B2]) / 32768))")
wrong("main_not_saturated_before", "The sum is saturated after the main volume alone.",
      "saturate(times(saturate(total), volume(main)))", "saturate(times(total, volume(main)))")
wrong("main_not_saturated_after", "The answer wraps at 16 bits.",
      "saturate(times(saturate(total), volume(main)))", "s16(times(saturate(total), volume(main)))")
wrong("main_signed_16", "A main volume is 16 bits, not doubled.",
      "saturate(times(saturate(total), volume(main)))", "saturate(times(saturate(total), main))")
wrong("main_to_zero", "The answer is rounded towards zero.",
      "saturate(times(saturate(total), volume(main)))", "saturate(int(saturate(total) * volume(main) / 32768))")
wrong("main_sides_swapped", "180h is the right main volume.",
      "return answer(total, self.reg[0x180 + 2 * side])", "return answer(total, self.reg[0x182 - 2 * side])")

# ---- Capture

wrong("capture_cd_after_volume", "Capture has CD after its volume.",
      "self.capture((cd_left, cd_right,", "self.capture((cd[0], cd[1],")
wrong("capture_cd_swapped", "Capture has CD right first.",
      "self.capture((cd_left, cd_right,", "self.capture((cd_right, cd_left,")
wrong("capture_cd_by_bit_0", "Capture has no CD without bit 0.",
      "self.capture((cd_left, cd_right,",
      "self.capture((cd_left if reg[0x1AA] & 1 else 0, cd_right if reg[0x1AA] & 1 else 0,")
wrong("capture_voices_0_2", "Capture has voices 0 and 2.",
      "amplitudes[1], amplitudes[3]))", "amplitudes[0], amplitudes[2]))")
wrong("capture_voices_swapped", "Capture has voice 3 before voice 1.",
      "amplitudes[1], amplitudes[3]))", "amplitudes[3], amplitudes[1]))")
wrong("capture_sides", "Capture has the left sides of the voices.",
      "amplitudes[1], amplitudes[3]))", "*(times(amplitudes[n], volume(reg[16 * n])) for n in (1, 3))))")
wrong("capture_interleaved", "The four captures lie beside each other.",
      "self.store(0x400 * k + self.capture_place, value)",
      "self.store((4 * self.capture_place + 2 * k) % 0x1000, value)")
wrong("capture_200h", "The captures lie 200h apart.",
      "self.store(0x400 * k + self.capture_place, value)",
      "self.store(0x200 * k + self.capture_place % 0x200, value)")
wrong("capture_place_3fc", "The capture place goes from 3FCh to 0.",
      "self.capture_place = (self.capture_place + 2) % 0x400",
      "self.capture_place = (self.capture_place + 2) % 0x3FE")
wrong("capture_place_first", "The capture place moves before the writes.",
      ("        for k, value in enumerate(values):\n"
       "            self.store(0x400 * k + self.capture_place, value)\n"
       "        self.capture_place = (self.capture_place + 2) % 0x400\n"),
      ("        self.capture_place = (self.capture_place + 2) % 0x400\n"
       "        for k, value in enumerate(values):\n"
       "            self.store(0x400 * k + self.capture_place, value)\n"))
wrong("capture_needs_bit_15", "Capture stands still with SPUCNT bit 15 clear.",
      "        for k, value in enumerate(values):\n            self.store(0x400",
      ("        if not self.reg[0x1AA] & 0x8000:\n"
       "            return\n"
       "        for k, value in enumerate(values):\n"
       "            self.store(0x400"))
wrong("capture_needs_bit_14", "Capture stands still with SPUCNT bit 14 clear.",
      "        for k, value in enumerate(values):\n            self.store(0x400",
      ("        if not self.reg[0x1AA] & 0x4000:\n"
       "            return\n"
       "        for k, value in enumerate(values):\n"
       "            self.store(0x400"))
wrong("capture_not_of_idle", "An Idle voice is not captured.",
      "            self.store(0x400 * k + self.capture_place, value)",
      ("            if k < 2 or self.voices[2 * k - 3].phase != IDLE: self.store(0x400 * k + "
       "self.capture_place, value)"))
wrong("capture_after_reverb", "Capture writes after the reverb's turn.",
      ("        self.capture((cd_left, cd_right, amplitudes[1], amplitudes[3]))\n"
       "        self.reverb_turn(sums[self.turn][1], cd[self.turn])\n"),
      ("        self.reverb_turn(sums[self.turn][1], cd[self.turn])\n"
       "        self.capture((cd_left, cd_right, amplitudes[1], amplitudes[3]))\n"))
wrong("capture_before_voices", "Capture of CD writes before the voices load.",
      "        self.noise_step()\n        amplitudes = self.voices_step()\n",
      ("        self.noise_step()\n"
       "        self.store(self.capture_place, cd_left)\n"
       "        self.store(0x400 + self.capture_place, cd_right)\n"
       "        amplitudes = self.voices_step()\n"))
wrong("capture_restarts", "SPUCNT bit 15 clear sets the capture place to 0.",
      "        if new & 0x8000 == 0:  ",
      ("        if new & 0x8000 == 0:\n"
       "            self.capture_place = 0\n"
       "        if new & 0x8000 == 0:  "))
wrong("capture_low_bytes", "Capture writes the low bytes alone.",
      "self.store(0x400 * k + self.capture_place, value)", "self.store(0x400 * k + self.capture_place, value & 0xFF)")

# ---- Reverb: turns, place, input and output

wrong("reverb_turn_fixed", "Both sides have their turns in every tick.",
      "        self.reverb_turn(sums[self.turn][1], cd[self.turn])\n",
      ("        self.reverb_turn(sums[self.turn][1], cd[self.turn])\n"
       "        self.reverb_turn(sums[self.turn][1], cd[self.turn])\n"))
wrong("reverb_place_after_left", "The place moves after left.",
      "        if self.turn == 1:\n", "        if self.turn == 0:\n")
wrong("reverb_place_each_turn", "The place moves after each turn.",
      "        if self.turn == 1:\n", "        if True:\n")
wrong("reverb_place_by_4", "The place moves 4.",
      "            self.reverb_place += 2\n            if self.reverb_place == self.L:",
      "            self.reverb_place += 4\n            if self.reverb_place >= self.L:")
wrong("reverb_place_needs_bit_7", "The place stands still with SPUCNT bit 7 clear.",
      "        if self.turn == 1:\n", "        if self.turn == 1 and self.reg[0x1AA] & 0x80:\n")
wrong("reverb_needs_bit_15", "The reverb stands still with SPUCNT bit 15 clear.",
      "        taken = saturate(echoing +",
      ("        if not self.reg[0x1AA] & 0x8000:\n"
       "            return\n"
       "        taken = saturate(echoing +"))
wrong("reverb_place_early", "The place goes to the base from L-4.",
      "if self.reverb_place == self.L:", "if self.reverb_place == self.L - 2:")
wrong("reverb_base_clamped", "A base past the end of sound RAM is L-8 in the reverb's addresses.",
      "        base = unit_address(reg[0x1A2], L)\n", "        base = min(reg[0x1A2] * 8, L - 8)\n")
wrong("reverb_input_unsaturated", "The reverb's input is not saturated.",
      "taken = saturate(echoing + (cd if self.reg[0x1AA] & 5 == 5 else 0))",
      "taken = echoing + (cd if self.reg[0x1AA] & 5 == 5 else 0)")
wrong("reverb_input_saturated_apart", "Voices and CD are saturated apart in the reverb's input.",
      "taken = saturate(echoing + (cd if self.reg[0x1AA] & 5 == 5 else 0))",
      "taken = saturate(echoing) + (saturate(cd) if self.reg[0x1AA] & 5 == 5 else 0)")
wrong("reverb_cd_by_bit_2", "CD joins the reverb's input by bit 2 alone.",
      "self.reg[0x1AA] & 5 == 5", "self.reg[0x1AA] & 4")
wrong("reverb_cd_by_bit_0", "CD joins the reverb's input by bit 0 alone.",
      "self.reg[0x1AA] & 5 == 5", "self.reg[0x1AA] & 1")
wrong("reverb_cd_by_bit_3", "CD joins the reverb's input by bits 0 and 3.",
      "self.reg[0x1AA] & 5 == 5", "self.reg[0x1AA] & 9 == 9")
wrong("reverb_cd_never", "CD never joins the reverb's input.", "self.reg[0x1AA] & 5 == 5", "False")
wrong("reverb_cd_raw", "CD joins the reverb's input before its volume.",
      "        self.reverb_turn(sums[self.turn][1], cd[self.turn])\n",
      "        self.reverb_turn(sums[self.turn][1], (cd_left, cd_right)[self.turn])\n")
wrong("reverb_cd_other_side", "The reverb's input has CD of the other side.",
      REVERB_TURN, "self.reverb_turn(sums[self.turn][1], cd[1 - self.turn])")
wrong("reverb_input_muted", "SPUCNT bit 14 clear mutes the reverb's input.",
      "taken = saturate(echoing +", "taken = saturate((echoing if self.reg[0x1AA] & 0x4000 else 0) +")
wrong("reverb_input_all_voices", "All voices go to the reverb.",
      "echoing += part if eon >> n & 1 else 0", "echoing += part")
wrong("reverb_input_inverted", "EON voices do not go to the reverb, the others do.",
      "echoing += part if eon >> n & 1 else 0", "echoing += 0 if eon >> n & 1 else part")
wrong("reverb_input_mono", "The reverb's input has amplitudes before their volumes.",
      "echoing += part if eon >> n & 1 else 0", "echoing += amplitude if eon >> n & 1 else 0")
wrong("reverb_takes_away", "EON voices go to the reverb and not to the mix.",
      "                voices += part\n", "                voices += 0 if eon >> n & 1 else part\n")
wrong("reverb_input_other_side", "The reverb's input is of the other side.",
      REVERB_TURN, "self.reverb_turn(sums[1 - self.turn][1], cd[self.turn])")
wrong("reverb_mixed_at_once", "The reverb's output is mixed in the tick that makes it.",
      ("        left, right = (self.mix(side, sums[side][0], cd[side]) for side in (0, 1))\n"
       "        self.capture((cd_left, cd_right, amplitudes[1], amplitudes[3]))\n"
       "        self.reverb_turn(sums[self.turn][1], cd[self.turn])\n"),
      ("        self.capture((cd_left, cd_right, amplitudes[1], amplitudes[3]))\n"
       "        self.reverb_turn(sums[self.turn][1], cd[self.turn])\n"
       "        left, right = (self.mix(side, sums[side][0], cd[side]) for side in (0, 1))\n"))
wrong("reverb_not_held", "An output is mixed in one tick only.",
      "        left, right = (self.mix(", "        self.held[self.turn] = 0\n        left, right = (self.mix(")
wrong("reverb_volume_at_mix", "The output volume is the one of the mix.",
      "total += saturate(voices) + self.held[side]",
      "total += saturate(voices) + saturate(times(self.held[side], s16(self.reg[0x184 + 2 * side])))",
      "return saturate(times(out, v_out))", "return out")
wrong("reverb_held_swapped", "Held outputs change sides.",
      "total += saturate(voices) + self.held[side]", "total += saturate(voices) + self.held[1 - side]")
wrong("reverb_base_clears_held", "Writing 1A2h clears the held outputs.",
      "            self.reverb_place = unit_address(value, self.L)\n",
      ("            self.reverb_place = unit_address(value, self.L)\n"
       "            self.held = [0, 0]\n"))
wrong("reverb_base_turns_left", "Writing 1A2h gives left the next turn.",
      "            self.reverb_place = unit_address(value, self.L)\n",
      "            self.reverb_place = unit_address(value, self.L)\n            self.turn = 0\n")
wrong("reverb_restarts", "Setting SPUCNT bit 7 sets the place to the base.",
      "        if new & 0x8000 == 0:  ",
      ("        if new & ~old & 0x80:\n"
       "            self.reverb_place = unit_address(self.reg[0x1A2], self.L)\n"
       "        if new & 0x8000 == 0:  "))
wrong("reverb_off_silent", "SPUCNT bit 7 clear silences the reverb's output.",
      "return saturate(times(out, v_out))", "return saturate(times(out, v_out)) if writes else 0")
wrong("reverb_out_doubled", "An output volume is twice its low 15 bits.",
      "v_out = s16(reg[0x184 + 2 * side])", "v_out = volume(reg[0x184 + 2 * side])")
wrong("reverb_out_unsigned", "An output volume is unsigned.",
      "v_out = s16(reg[0x184 + 2 * side])", "v_out = reg[0x184 + 2 * side]")
wrong("reverb_out_swapped", "184h is the right output volume.",
      "v_out = s16(reg[0x184 + 2 * side])", "v_out = s16(reg[0x186 - 2 * side])")
wrong("reverb_out_unsaturated", "The output is not saturated.",
      "return saturate(times(out, v_out))", "return times(out, v_out)")
wrong("reverb_out_saturated_before", "Lout is saturated before the output volume.",
      "return saturate(times(out, v_out))", "return saturate(times(saturate(out), v_out))")
wrong("reverb_out_to_zero", "The output is rounded towards zero.",
      "return saturate(times(out, v_out))", "return saturate(int(out * v_out / 32768))")

# ---- Reverb: addresses and formula

wrong("reverb_reduced_first", "A displacement is reduced modulo L first.",
      "return reg[offset] * 8\n", "return reg[offset] * 8 % L\n")
wrong("reverb_reduced_by_area_size", "A sum past L is reduced by the area once.",
      "return base + (place - base + displacement) % (L - base)",
      ("at = place + displacement\n"
       "            return (at - (L - base) if at >= L else at) % L & ~1"))
wrong("reverb_wraps_at_l", "An address wraps modulo L.",
      "return base + (place - base + displacement) % (L - base)", "return (place + displacement) % L")
wrong("reverb_from_base", "Displacements count from the base.",
      "return base + (place - base + displacement) % (L - base)", "return base + displacement % (L - base)")
wrong("reverb_units_of_4", "A displacement counts 4 bytes.",
      "return reg[offset] * 8\n", "return reg[offset] * 4 & ~1\n")
wrong("reverb_volumes_doubled", "The reverb's volumes are twice their low 15 bits.",
      "            return s16(reg[offset])\n", "            return volume(reg[offset])\n")
wrong("reverb_reads_unsigned", "The reverb reads unsigned halfwords.",
      "return s16(self.fetch(where(displacement), counted))", "return self.fetch(where(displacement), counted)")
for offset in (*range(0x1C4, 0x1D4, 2), 0x1FC, 0x1FE):
    wrong(f"reverb_volume_{offset:x}", f"The reverb takes volume {offset ^ 2:X}h for {offset:X}h.",
          "            return s16(reg[offset])\n",
          f"            return s16(reg[offset ^ 2 if offset == {offset} else offset])\n")
for offset in (0x1C0, 0x1C2, *range(0x1D4, 0x1FC, 2)):
    wrong(f"reverb_displacement_{offset:x}", f"The reverb takes displacement {offset ^ 2:X}h for {offset:X}h.",
          "return reg[offset] * 8\n", f"return reg[offset ^ 2 if offset == {offset} else offset] * 8\n")
wrong("reverb_previous_unit", "[m-2] is the halfword 8 bytes before.",
      ("inner = l_in + times(get(source), v(0x1CE)) - get(target - 2)\n"
       "            put(target, saturate(times(inner, v(0x1C4)) + get(target - 2)))"),
      ("inner = l_in + times(get(source), v(0x1CE)) - get(target - 8)\n"
       "            put(target, saturate(times(inner, v(0x1C4)) + get(target - 8)))"))
wrong("reverb_next_halfword", "[m+2] is read in place of [m-2].",
      ("inner = l_in + times(get(source), v(0x1CE)) - get(target - 2)\n"
       "            put(target, saturate(times(inner, v(0x1C4)) + get(target - 2)))"),
      ("inner = l_in + times(get(source), v(0x1CE)) - get(target + 2)\n"
       "            put(target, saturate(times(inner, v(0x1C4)) + get(target + 2)))"))
wrong("reflection_adds_previous", "The previous halfword is added inside the brackets.",
      "v(0x1CE)) - get(target - 2)", "v(0x1CE)) + get(target - 2)")
wrong("reflection_subtracts_wall", "The wall's part is subtracted.",
      "inner = l_in + times(get(source), v(0x1CE))", "inner = l_in - times(get(source), v(0x1CE))")
wrong("reflection_without_input", "The input is left out of the brackets.",
      "inner = l_in + times(get(source), v(0x1CE))", "inner = times(get(source), v(0x1CE))")
wrong("reflection_without_previous", "The previous halfword is not added after vIIR.",
      "put(target, saturate(times(inner, v(0x1C4)) + get(target - 2)))",
      "get(target - 2)\n            put(target, saturate(times(inner, v(0x1C4))))")
wrong("reflection_subtracts_after", "The previous halfword is subtracted after vIIR.",
      "v(0x1C4)) + get(target - 2)", "v(0x1C4)) - get(target - 2)")
wrong("reflection_saturates_brackets", "The sum in brackets is saturated.",
      "put(target, saturate(times(inner,", "put(target, saturate(times(saturate(inner),")
wrong("reflection_saturates_product", "The product with vIIR is saturated.",
      "saturate(times(inner, v(0x1C4)) +", "saturate(saturate(times(inner, v(0x1C4))) +")
wrong("reflection_wraps", "A reflection wraps at 16 bits.",
      "put(target, saturate(times(inner, v(0x1C4)) +", "put(target, s16(times(inner, v(0x1C4)) +")
wrong("reflection_rounded_once", "The sum in brackets is not rounded before vIIR.",
      ("inner = l_in + times(get(source), v(0x1CE)) - get(target - 2)\n"
       "            put(target, saturate(times(inner, v(0x1C4)) +"),
      ("inner = (l_in << 15) + get(source) * v(0x1CE) - (get(target - 2) << 15)\n"
       "            put(target, saturate((inner * v(0x1C4) >> 30) +"))
wrong("reflection_to_zero", "The products of a reflection are rounded towards zero.",
      "            inner = l_in +",
      ("            def times(a, b):\n"
       "                return int(a * b / 32768)\n"
       "            inner = l_in +"))
wrong("reflection_negates", "vIIR of -8000h negates what is written.",
      "put(target, saturate(times(inner, v(0x1C4)) + get(target - 2)))",
      ("x = times(inner, v(0x1C4)) + get(target - 2)\n"
       "            put(target, saturate(-x if v(0x1C4) == -0x8000 else x))"))
wrong("reflection_volumes_swapped", "vWALL and vIIR change places.",
      "times(get(source), v(0x1CE))", "times(get(source), v(0x1C4))",
      "times(inner, v(0x1C4))", "times(inner, v(0x1CE))")
wrong("different_side_same", "The different side reads its own side.", "m(0x1F0 + other))", "m(0x1F0 + own))")
wrong("different_side_first", "The different side goes before the same side.",
      REFLECTIONS,
      ("        reflection(m(0x1E4 + own), m(0x1F0 + other))\n"
       "        reflection(m(0x1D4 + own), m(0x1E0 + own))\n"))
wrong("same_side_other", "The same side reads the other side.", "m(0x1E0 + own))  ", "m(0x1E0 + other))  ")
wrong("same_and_diff_sources_swapped", "dSAME and dDIFF change places.",
      "m(0x1E0 + own))  ", "m(0x1F0 + other))  ",
      "m(0x1F0 + other))            #", "m(0x1E0 + own))            #")
wrong("combs_first", "The combs read before the reflections write.",
      REFLECTIONS, "",
      "        out = all_pass(out, v(0x1D0), m(0x1F4 + own), m(0x1C0))\n",
      ("        reflection(m(0x1D4 + own), m(0x1E0 + own))\n"
       "        reflection(m(0x1E4 + own), m(0x1F0 + other))\n"
       "        out = all_pass(out, v(0x1D0), m(0x1F4 + own), m(0x1C0))\n"))
wrong("reflections_last", "The reflections come last.",
      REFLECTIONS, "",
      "        return saturate(times(out, v_out))\n",
      ("        reflection(m(0x1D4 + own), m(0x1E0 + own))\n"
       "        reflection(m(0x1E4 + own), m(0x1F0 + other))\n"
       "        return saturate(times(out, v_out))\n"))
for k, (gain, tap) in enumerate((("0x1C6", "0x1D8"), ("0x1C8", "0x1DC"), ("0x1CA", "0x1E8"), ("0x1CC", "0x1EC"))):
    old = f"times(v({gain}), get(m({tap} + own)))"
    following = ("0x1C8", "0x1CA", "0x1CC", "0x1C6")[k]
    wrong(f"comb_{k + 1}_volume", f"Comb {k + 1} has the volume of the next one.",
          old, f"times(v({following}), get(m({tap} + own)))")
    wrong(f"comb_{k + 1}_side", f"Comb {k + 1} reads the other side.", old, f"times(v({gain}), get(m({tap} + other)))")
    wrong(f"comb_{k + 1}_negative", f"Comb {k + 1} is subtracted.", old, f"times(-v({gain}), get(m({tap} + own)))")
wrong("comb_addresses_2_3_swapped", "Combs 2 and 3 change addresses.",
      "get(m(0x1DC + own))", "get(m(0x1E8 + own))",
      "v(0x1CA), get(m(0x1E8 + own))", "v(0x1CA), get(m(0x1DC + own))")
wrong("combs_rounded_once", "The sum of the combs is rounded, not each.",
      ("        out = times(v(0x1C6), get(m(0x1D8 + own)))              # the four combs\n"
       "        out += times(v(0x1C8), get(m(0x1DC + own)))\n"
       "        out += times(v(0x1CA), get(m(0x1E8 + own)))\n"
       "        out += times(v(0x1CC), get(m(0x1EC + own)))\n"),
      ("        out = sum(v(gain) * get(m(tap + own)) for gain, tap in ((0x1C6, 0x1D8), (0x1C8, 0x1DC), "
       "(0x1CA, 0x1E8), (0x1CC, 0x1EC))) >> 15\n"))
wrong("combs_saturated", "The sum of the combs is saturated.",
      "        out = all_pass(out, v(0x1D0),", "        out = all_pass(saturate(out), v(0x1D0),")
wrong("all_pass_saturated_between", "Lout is saturated between the all-passes.",
      "        out = all_pass(out, v(0x1D2),", "        out = all_pass(saturate(out), v(0x1D2),")
wrong("all_pass_adds", "An all-pass adds its first product.",
      "x = saturate(out - times(gain, get(target - back)))", "x = saturate(out + times(gain, get(target - back)))")
wrong("all_pass_negated_first", "An all-pass adds the product with the negated volume.",
      "x = saturate(out - times(gain, get(target - back)))", "x = saturate(out + times(-gain, get(target - back)))")
wrong("all_pass_x_unsaturated", "The x of an all-pass is saturated where it is stored, not where it is used on.",
      ("            x = saturate(out - times(gain, get(target - back)))\n"
       "            put(target, x)\n"),
      ("            x = out - times(gain, get(target - back))\n"
       "            put(target, saturate(x))\n"))
wrong("all_pass_x_unsaturated_off", "The x of an all-pass is saturated only where it is written.",
      "x = saturate(out - times(gain, get(target - back)))",
      "x = out - times(gain, get(target - back))\n            x = saturate(x) if writes else x")
wrong("all_pass_x_wraps", "The x of an all-pass wraps at 16 bits.",
      "x = saturate(out - times(gain, get(target - back)))", "x = s16(out - times(gain, get(target - back)))")
wrong("all_pass_one_read", "An all-pass uses its first read twice.",
      ("            x = saturate(out - times(gain, get(target - back)))\n"
       "            put(target, x)\n"
       "            return times(x, gain) + get(target - back)\n"),
      ("            back = get(target - back)\n"
       "            x = saturate(out - times(gain, back))\n"
       "            put(target, x)\n"
       "            return times(x, gain) + back\n"))
wrong("all_pass_subtracts_last", "An all-pass subtracts its second read.",
      "return times(x, gain) + get(target - back)", "return times(x, gain) - get(target - back)")
wrong("all_pass_out_for_x", "An all-pass multiplies its input, not x.",
      "return times(x, gain) + get(target - back)", "return times(out, gain) + get(target - back)")
wrong("all_pass_adds_displacement", "An all-pass reads at mAPF + dAPF.",
      "            x = saturate(out -", "            back = -back\n            x = saturate(out -")
wrong("all_pass_to_zero", "The products of an all-pass are rounded towards zero.",
      "            x = saturate(out -",
      ("            def times(a, b):\n"
       "                return int(a * b / 32768)\n"
       "            x = saturate(out -"))
wrong("all_pass_gains_swapped", "vAPF1 and vAPF2 change places.",
      "all_pass(out, v(0x1D0),", "all_pass(out, v(0x1D2),",
      "out = all_pass(out, v(0x1D2), m(0x1F8", "out = all_pass(out, v(0x1D0), m(0x1F8")
wrong("all_pass_displacements_swapped", "dAPF1 and dAPF2 change places.",
      "m(0x1F4 + own), m(0x1C0))", "m(0x1F4 + own), m(0x1C2))",
      "m(0x1F8 + own), m(0x1C2))", "m(0x1F8 + own), m(0x1C0))")
wrong("all_pass_1_side", "The first all-pass is of the other side.",
      "m(0x1F4 + own), m(0x1C0))", "m(0x1F4 + other), m(0x1C0))")
wrong("all_pass_2_side", "The second all-pass is of the other side.",
      "m(0x1F8 + own), m(0x1C2))", "m(0x1F8 + other), m(0x1C2))")
wrong("all_pass_2_first", "The second all-pass goes before the first.",
      ("        out = all_pass(out, v(0x1D0), m(0x1F4 + own), m(0x1C0))\n"
       "        out = all_pass(out, v(0x1D2), m(0x1F8 + own), m(0x1C2))\n"),
      ("        out = all_pass(out, v(0x1D2), m(0x1F8 + own), m(0x1C2))\n"
       "        out = all_pass(out, v(0x1D0), m(0x1F4 + own), m(0x1C0))\n"))
wrong("reverb_in_swapped", "vLIN is the right input volume.",
      "l_in = times(v(0x1FC + own), taken)", "l_in = times(v(0x1FC + other), taken)")
wrong("reverb_in_halved", "The input is halved.",
      "l_in = times(v(0x1FC + own), taken)", "l_in = times(v(0x1FC + own), taken) >> 1")
wrong("reverb_in_saturated", "Lin is saturated.",
      "l_in = times(v(0x1FC + own), taken)", "l_in = saturate(times(v(0x1FC + own), taken))")
wrong("reverb_in_to_zero", "Lin is rounded towards zero.",
      "l_in = times(v(0x1FC + own), taken)", "l_in = int(v(0x1FC + own) * taken / 32768)")
wrong("reverb_writes_always", "SPUCNT bit 7 clear does not keep the reverb from writing.",
      REVERB_WRITE, "            self.store(where(displacement), x)")
wrong("reverb_writes_all_pass_always",
      "SPUCNT bit 7 clear keeps the reflections from being written, and not the all-passes.",
      "            put(target, x)\n", "            self.store(where(target), x)\n")
wrong("reverb_writes_never", "The reverb never writes.", REVERB_WRITE, "            pass")
wrong("reverb_writes_zero", "With SPUCNT bit 7 clear the reverb writes zeros.",
      REVERB_WRITE, "            self.store(where(displacement), x if writes else 0)")
wrong("reverb_off_skips_reflections", "With SPUCNT bit 7 clear the reflections read nothing.",
      "            inner = l_in +", "            if not writes:\n                return\n            inner = l_in +")
wrong("reverb_off_no_reads", "With SPUCNT bit 7 clear the reverb reads nothing and holds 0.",
      "        own, other = 2 * side, 2 - 2 * side\n",
      ("        own, other = 2 * side, 2 - 2 * side\n"
       "        if not writes:\n"
       "            return 0\n"))
wrong("reverb_forbidden_write_reads", "A write that bit 7 forbids is a read.",
      REVERB_WRITE,
      ("            if writes:\n"
       "                self.store(where(displacement), x)\n"
       "            else:\n"
       "                get(displacement)"))
wrong("reverb_forbidden_write_access", "A write that bit 7 forbids is an access.",
      REVERB_WRITE,
      ("            if writes:\n"
       "                self.store(where(displacement), x)\n"
       "            self.access(where(displacement))"))
wrong("reverb_forbidden_write_marks", "A write that bit 7 forbids marks its halfword.",
      REVERB_WRITE,
      ("            if writes:\n"
       "                self.store(where(displacement), x)\n"
       "            self.marks[where(displacement) >> 4] |= 1 << (where(displacement) >> 1 & 7)"))

# ---- Interrupt

wrong("irq_by_bit_6_alone", "The interrupt is armed by bit 6 alone.",
      "on = self.reg[0x1AA] & 0x8040 == 0x8040", "on = self.reg[0x1AA] & 0x40")
wrong("irq_by_bit_15_alone", "The interrupt is armed by bit 15 alone.",
      "on = self.reg[0x1AA] & 0x8040 == 0x8040", "on = self.reg[0x1AA] & 0x8000")
wrong("irq_in_unit", "Every halfword of the IRQ address's unit counts.",
      "        if address == self.watched:",
      "        if self.watched is not None and address // 8 == self.watched // 8:")
wrong("irq_in_block", "Every halfword of the 16 bytes counts.",
      "        if address == self.watched:",
      "        if self.watched is not None and address // 16 == self.watched // 16:")
wrong("irq_in_units_of_16", "The IRQ address counts 16 bytes.",
      "unit_address(self.reg[0x1A4], self.L) if on", "unit_address(self.reg[0x1A4] * 2, self.L) if on")
wrong("irq_not_reduced", "The IRQ address is not reduced modulo L.",
      "unit_address(self.reg[0x1A4], self.L) if on", "self.reg[0x1A4] * 8 if on")
wrong("irq_first_halfword_of_block", "A block load accesses its first halfword.",
      HALFWORDS,
      ("        watched = self.watched\n"
       "        halfwords = []\n"
       "        for k in range(8):\n"
       "            halfwords.append(self.fetch((address + 2 * k) % self.L))\n"
       "            self.watched = None\n"
       "        self.watched = watched\n"))
wrong("irq_not_by_block_wrap", "A block load's part past L is no access.",
      HALFWORDS,
      ("        watched = self.watched\n"
       "        halfwords = []\n"
       "        for k in range(8):\n"
       "            self.watched = watched if address + 2 * k < self.L else None\n"
       "            halfwords.append(self.fetch((address + 2 * k) % self.L))\n"
       "        self.watched = watched\n"))
wrong("irq_of_aligned_blocks", "A block at 8 past a multiple of 16 accesses its first halfword alone.",
      HALFWORDS,
      ("        watched = self.watched\n"
       "        halfwords = []\n"
       "        for k in range(8):\n"
       "            halfwords.append(self.fetch((address + 2 * k) % self.L))\n"
       "            self.watched = None if address % 16 else watched\n"
       "        self.watched = watched\n"))
wrong("irq_not_by_blocks", "Block loads are no accesses.",
      HALFWORDS,
      ("        watched, self.watched = self.watched, None\n"
       "        halfwords = [self.fetch((address + 2 * k) % self.L) for k in range(8)]\n"
       "        self.watched = watched\n"))
wrong("irq_not_by_off", "An Off voice's loads are no accesses.",
      "        block = memory.fetch_block(self.address)\n",
      ("        watched = memory.watched\n"
       "        memory.watched = None if self.phase == OFF else watched\n"
       "        block = memory.fetch_block(self.address)\n"
       "        memory.watched = watched\n"))
wrong("irq_not_by_noise", "Loads of a voice that plays noise are no accesses.",
      ("        if self.phase == IDLE:\n"
       '            return 0                                # "Idle: amplitude 0, no reads."\n'),
      ("        if self.phase == IDLE:\n"
       "            return 0\n"
       "        if noise is not None:\n"
       "            watched, memory.watched = memory.watched, None\n"
       "            amplitude = times(s16(noise), self.level)\n"
       "            self.tick(memory, pitch, low, high, below)\n"
       "            memory.watched = watched\n"
       "            return amplitude\n"))
wrong("irq_not_by_reads", "Reads are no accesses.",
      "        self.access(address)\n        if counted and", "        if counted and")
wrong("irq_not_by_uncounted", "Uncounted reads are no accesses.",
      "        self.access(address)\n        if counted and",
      "        if counted:\n            self.access(address)\n        if counted and")
wrong("irq_not_by_writes", "Writes are no accesses.",
      "        self.access(address)\n        self.ram[address] =", "        self.ram[address] =")
wrong("irq_not_by_capture", "Capture is no access.",
      "            self.store(0x400 * k + self.capture_place, value)\n",
      ("            watched, self.watched = self.watched, None\n"
       "            self.store(0x400 * k + self.capture_place, value)\n"
       "            self.watched = watched\n"))
for k, kind in enumerate(("CD left", "CD right", "voice 1", "voice 3")):
    wrong("irq_not_by_capture_" + kind.replace(" ", "_").lower(), f"Capture of {kind} is no access.",
          "            self.store(0x400 * k + self.capture_place, value)\n",
          f"            watched = self.watched\n            self.watched = None if k == {k} else watched\n"
          "            self.store(0x400 * k + self.capture_place, value)\n            self.watched = watched\n")
wrong("irq_not_by_reverb_writes", "Reverb writes are no accesses.",
      "                self.store(where(displacement), x)",
      ("                watched, self.watched = self.watched, None\n"
       "                self.store(where(displacement), x)\n"
       "                self.watched = watched"))
wrong("irq_not_by_reverb_reads", "Reverb reads are no accesses.",
      "            return s16(self.fetch(where(displacement), counted))",
      ("            watched, self.watched = self.watched, None\n"
       "            x = s16(self.fetch(where(displacement), counted))\n"
       "            self.watched = watched\n"
       "            return x"))
wrong("irq_not_by_inward", "Inward transfers are no accesses.",
      "        for value in values:\n            self.store(",
      "        self.watched = None\n        for value in values:\n            self.store(")
wrong("irq_not_by_outward", "Outward transfers are no accesses.",
      "        for k in range(len(buffer)):\n", "        self.watched = None\n        for k in range(len(buffer)):\n")
wrong("irq_first_of_transfer", "A transfer accesses its first halfword.",
      "            self.store(self.next_transfer_address(), value)\n",
      ("            self.store(self.next_transfer_address(), value)\n"
       "            self.watched = None\n"))
wrong("irq_by_view", "A block view is an access.",
      '        return (number, b"") if number else',
      ("        self.begin()\n"
       "        for k in range(0 if number else 8):\n"
       "            self.access(address + 2 * k)\n"
       '        return (number, b"") if number else'))
wrong("irq_by_arming", "Writing the address that was accessed last raises the interrupt.",
      "        if address == self.watched:", "        self.last = address\n        if address == self.watched:",
      "        elif offset == 0x1AA:\n",
      ("        elif offset == 0x1A4:\n"
       "            self.latch |= self.reg[0x1AA] & 0x8040 == 0x8040 and unit_address(value, self.L) == "
       'self.__dict__.get("last")\n'
       "        elif offset == 0x1AA:\n"))
wrong("irq_reported_always", "Each access at the address is reported, though the latch is set.",
      "return int(self.latch and not latch), int(self.doubt and not doubt)",
      "return int(self.again), int(self.doubt and not doubt)",
      "            self.latch = True\n", "            self.latch = self.again = True\n",
      CALL_BEGINS, "        self.at_first, self.again = (self.latch, self.doubt), False")
wrong("irq_reported_while_latched", "Every call reports the latch.",
      "return int(self.latch and not latch), int(self.doubt and not doubt)",
      "return int(self.latch), int(self.doubt and not doubt)")
wrong("irq_not_latched", "The latch lasts for one call.",
      CALL_BEGINS, "        self.latch = False\n        self.at_first = (self.latch, self.doubt)")
wrong("irq_unarmed_latch", "An access with the interrupt off sets the latch, and is not reported.",
      "        on = self.reg[0x1AA] & 0x8040 == 0x8040\n", "        on = True\n",
      "return int(self.latch and not latch), int(self.doubt",
      "return int(self.latch and not latch and self.reg[0x1AA] & 0x8040 == 0x8040), int(self.doubt")
wrong("latch_cleared_by_bit_15", "SPUCNT bit 15 clear clears the latch.",
      "        if new & 0x40 == 0: ", "        if new & 0x8040 != 0x8040: ")
wrong("latch_cleared_by_write", "Every SPUCNT write clears the latch.",
      "        if new & 0x40 == 0: ", "        if True: ")
wrong("latch_never_cleared", "No write clears the latch.", "        if new & 0x40 == 0: ", "        if False: ")
wrong("latch_cleared_by_setting", "The latch is cleared where bit 6 is set anew, not where it is cleared.",
      "        if new & 0x40 == 0: ", "        if new & 0x40 and not old & 0x40: ")
wrong("latch_cleared_by_address", "Writing 1A4h clears the latch.",
      "        elif offset == 0x1AA:\n",
      ("        elif offset == 0x1A4:\n"
       "            self.latch = False\n"
       "        elif offset == 0x1AA:\n"))

# ---- Counted reads and doubt

wrong("doubt_not_by_blocks", "Block loads are not counted.",
      "self.fetch((address + 2 * k) % self.L) for", "self.fetch((address + 2 * k) % self.L, False) for")
wrong("doubt_first_of_block", "The first halfword of a block is counted alone.",
      "self.fetch((address + 2 * k) % self.L) for", "self.fetch((address + 2 * k) % self.L, k == 0) for")
wrong("doubt_header_not", "The first halfword of a block is not counted.",
      "self.fetch((address + 2 * k) % self.L) for", "self.fetch((address + 2 * k) % self.L, k > 0) for")
wrong("doubt_7_of_block", "The last halfword of a block is not counted.",
      "self.fetch((address + 2 * k) % self.L) for", "self.fetch((address + 2 * k) % self.L, k < 7) for")
wrong("doubt_by_first_byte", "A block is marked if the first byte of its marks is FFh.",
      HALFWORDS,
      ("        self.doubt |= self.marks[address >> 4] != 0xFF\n"
       "        halfwords = [self.fetch((address + 2 * k) % self.L, False) for k in range(8)]\n"))
wrong("doubt_by_any_mark", "A block is marked if the first byte of its marks is not 0.",
      HALFWORDS,
      ("        self.doubt |= self.marks[address >> 4] == 0\n"
       "        halfwords = [self.fetch((address + 2 * k) % self.L, False) for k in range(8)]\n"))
wrong("doubt_not_by_off", "An Off voice's loads are not counted.",
      "        block = memory.fetch_block(self.address)\n",
      ("        doubt = memory.doubt\n"
       "        block = memory.fetch_block(self.address)\n"
       "        memory.doubt = doubt if self.phase == OFF else memory.doubt\n"))
wrong("doubt_not_by_outward", "Outward transfers are not counted.",
      "self.fetch(self.next_transfer_address())", "self.fetch(self.next_transfer_address(), False)")
wrong("doubt_stops_outward", "An outward transfer stops at an unmarked halfword.",
      ("            buffer[k] = self.fetch(self.next_transfer_address())\n"
       "        return (0, len(buffer))"),
      ("            buffer[k] = self.fetch(self.next_transfer_address())\n"
       "            if self.doubt:\n"
       "                return (0, k + 1) + self.reports()\n"
       "        return (0, len(buffer))"))
wrong("doubt_by_view", "A block view is counted.",
      '        return (number, b"") if number else',
      ("        for k in range(0 if number else 8):\n"
       "            self.fetch(address + 2 * k)\n"
       '        return (number, b"") if number else'))
wrong("doubt_not_by_reverb", "Reverb reads are not counted.", "counted = writes or v_out != 0 ", "counted = False ")
wrong("doubt_by_all_reverb", "Every reverb read is counted.", "counted = writes or v_out != 0 ", "counted = True ")
wrong("doubt_by_writing_reverb", "Reverb reads are counted with bit 7 set alone.",
      "counted = writes or v_out != 0 ", "counted = writes ")
wrong("doubt_by_heard_reverb", "Reverb reads are counted where the output volume is not 0.",
      "counted = writes or v_out != 0 ", "counted = v_out != 0 ")
wrong("doubt_by_positive_volume", "A negative output volume counts as 0.",
      "counted = writes or v_out != 0 ", "counted = writes or v_out > 0 ")
wrong("doubt_by_either_volume", "Reverb reads are counted if either output volume is not 0.",
      "counted = writes or v_out != 0 ", "counted = writes or reg[0x184] | reg[0x186] != 0 ")
wrong("doubt_by_other_volume", "Reverb reads are counted by the other side's volume.",
      "counted = writes or v_out != 0 ", "counted = writes or reg[0x186 - 2 * side] != 0 ")
wrong("doubt_not_by_reflections_off", "The reflections' reads are not counted with bit 7 clear.",
      ("            inner = l_in + times(get(source), v(0x1CE)) - get(target - 2)\n"
       "            put(target, saturate(times(inner, v(0x1C4)) + get(target - 2)))"),
      ("            doubt = self.doubt\n"
       "            inner = l_in + times(get(source), v(0x1CE)) - get(target - 2)\n"
       "            x = saturate(times(inner, v(0x1C4)) + get(target - 2))\n"
       "            self.doubt = self.doubt if writes else doubt\n"
       "            put(target, x)"))
wrong("doubt_not_by_first_read", "The first read of an all-pass is not counted.",
      "x = saturate(out - times(gain, get(target - back)))",
      "x = saturate(out - times(gain, s16(self.fetch(where(target - back), False))))")
wrong("doubt_reported_always", "Doubt is reported by every later call.",
      "int(self.doubt and not doubt)\n", "int(self.doubt)\n")
wrong("doubt_reported_each_read", "Each call that reads an unmarked halfword reports doubt.",
      "            self.doubt = True\n", "            self.doubt = self.anew = True\n",
      CALL_BEGINS, "        self.at_first, self.anew = (self.latch, self.doubt), False",
      "int(self.doubt and not doubt)\n", "int(self.anew)\n")
wrong("doubt_not_sticky", "Doubt lasts for one call.",
      CALL_BEGINS, "        self.doubt = False\n        self.at_first = (self.latch, self.doubt)")
wrong("doubt_cleared_by_stop", "SPUCNT bit 15 clear clears doubt.",
      "        if new & 0x8000 == 0:  ", "        self.doubt &= new & 0x8000 != 0\n        if new & 0x8000 == 0:  ")
wrong("doubt_cleared_by_key_on", "Key on clears doubt.",
      "                    self.voices[n].key_on(start",
      "                    self.doubt = False\n                    self.voices[n].key_on(start")
wrong("marks_not_by_capture", "Capture does not mark.",
      "            self.store(0x400 * k + self.capture_place, value)\n",
      ("            marks = bytes(self.marks)\n"
       "            self.store(0x400 * k + self.capture_place, value)\n"
       "            self.marks[:] = marks\n"))
wrong("marks_not_by_inward", "Inward transfers do not mark.",
      "            self.store(self.next_transfer_address(), value)\n",
      ("            marks = bytes(self.marks)\n"
       "            self.store(self.next_transfer_address(), value)\n"
       "            self.marks[:] = marks\n"))
wrong("marks_not_by_reverb", "Reverb writes do not mark.",
      "                self.store(where(displacement), x)",
      ("                marks = bytes(self.marks)\n"
       "                self.store(where(displacement), x)\n"
       "                self.marks[:] = marks"))
wrong("marks_by_reads", "A read marks its halfword.",
      "            self.doubt = True\n        return self.ram[address]",
      ("            self.doubt = True\n"
       "            self.marks[address >> 4] |= 1 << (address >> 1 & 7)\n"
       "        return self.ram[address]"))
wrong("marks_whole_bytes", "A write marks all eight halfwords of its byte of marks.",
      "self.marks[address >> 4] |= 1 << (address >> 1 & 7)", "self.marks[address >> 4] = 0xFF")
wrong("marks_at_call_begin", "Reads meet the marks as they were at the beginning of the call.",
      CALL_BEGINS, "        self.at_first, self.before = (self.latch, self.doubt), bytes(self.marks)",
      "if counted and not self.marked(address):",
      "if counted and not self.before[address >> 4] >> (address >> 1 & 7) & 1:")

# ---- Transfers

wrong("mode_of_register", "The transfer mode is SPUCNT's as it stands.",
      "if self.applied >> 4 & 3 not in modes:", "if self.reg[0x1AA] >> 4 & 3 not in modes:")
wrong("mode_1_outward", "Mode 1 moves outward too.",
      "self.transfer_refusal(len(buffer), (3,))", "self.transfer_refusal(len(buffer), (1, 3))")
wrong("mode_2_outward", "Mode 2 moves outward too.",
      "self.transfer_refusal(len(buffer), (3,))", "self.transfer_refusal(len(buffer), (2, 3))")
wrong("mode_0_outward", "Mode 0 moves outward too.",
      "self.transfer_refusal(len(buffer), (3,))", "self.transfer_refusal(len(buffer), (0, 3))")
wrong("mode_1_not_inward", "Mode 1 does not move inward.",
      "self.transfer_refusal(len(values), (1, 2))", "self.transfer_refusal(len(values), (2,))")
wrong("mode_2_not_inward", "Mode 2 does not move inward.",
      "self.transfer_refusal(len(values), (1, 2))", "self.transfer_refusal(len(values), (1,))")
wrong("mode_3_inward", "Mode 3 moves inward too.",
      "self.transfer_refusal(len(values), (1, 2))", "self.transfer_refusal(len(values), (1, 2, 3))")
wrong("mode_0_inward", "Mode 0 moves inward too.",
      "self.transfer_refusal(len(values), (1, 2))", "self.transfer_refusal(len(values), (0, 1, 2))")
wrong("count_before_mode", "7 goes before 6.",
      ("        if self.applied >> 4 & 3 not in modes:\n"
       "            return 6\n"
       "        return 0 if 1 <= count <= 32 else 7"),
      ("        if not 1 <= count <= 32:\n"
       "            return 7\n"
       "        return 0 if self.applied >> 4 & 3 in modes else 6"))
wrong("count_0", "0 halfwords move.", "return 0 if 1 <= count <= 32 else 7", "return 0 if count <= 32 else 7")
wrong("count_31", "32 halfwords give 7.",
      "return 0 if 1 <= count <= 32 else 7", "return 0 if 1 <= count <= 31 else 7")
wrong("count_33", "33 halfwords move.", "return 0 if 1 <= count <= 32 else 7", "return 0 if 1 <= count <= 33 else 7")
wrong("count_64", "64 halfwords move.",
      "return 0 if 1 <= count <= 32 else 7", "return 0 if 1 <= count <= 32 or count == 64 else 7")
wrong("count_cut", "Of more than 32 halfwords the first 32 move.",
      "        number = self.transfer_refusal(len(values), (1, 2))",
      ("        values = values[:32]\n"
       "        number = self.transfer_refusal(len(values), (1, 2))"))
wrong("transfer_needs_bit_15", "Transfers need SPUCNT bit 15.",
      "if self.applied >> 4 & 3 not in modes:",
      "if self.applied >> 4 & 3 not in modes or not self.reg[0x1AA] & 0x8000:")
wrong("transfer_not_wrapped", "The transfer address stays at L-2.",
      "self.transfer_address = (address + 2) % self.L", "self.transfer_address = min(address + 2, self.L - 2)")
wrong("transfer_starts_anew", "Each transfer begins at 1A6h.",
      "        self.begin()\n        for value in values:",
      ("        self.begin()\n"
       "        self.transfer_address = unit_address(self.reg[0x1A6], self.L)\n"
       "        for value in values:"))
wrong("outward_starts_anew", "Each outward transfer begins at 1A6h.",
      "        self.begin()\n        for k in range(len(buffer)):",
      ("        self.begin()\n"
       "        self.transfer_address = unit_address(self.reg[0x1A6], self.L)\n"
       "        for k in range(len(buffer)):"))
wrong("transfer_restarts", "An SPUCNT write sets the transfer address to 1A6h.",
      "            self.control_write(old, value)",
      ("            self.control_write(old, value)\n"
       "            self.transfer_address = unit_address(self.reg[0x1A6], self.L)"))
wrong("transfer_by_units", "The transfer address moves 8 a halfword.",
      "self.transfer_address = (address + 2) % self.L", "self.transfer_address = (address + 8) % self.L")
wrong("transfer_register_moves", "1A6h moves by whole units with transfers.",
      "self.transfer_address = (address + 2) % self.L",
      ("self.transfer_address = (address + 2) % self.L\n"
       "        self.reg[0x1A6] = self.transfer_address // 8"))
wrong("refused_transfer_moves_address", "An inward transfer refused by 7 moves the address.",
      ("        if number:\n"
       "            return number, 0, 0, 0\n"
       "        self.begin()\n"
       "        for value in values:"),
      ("        if number:\n"
       "            self.transfer_address = (self.transfer_address + (2 if number == 7 else 0)) % self.L\n"
       "            return number, 0, 0, 0\n"
       "        self.begin()\n"
       "        for value in values:"))
wrong("refused_transfer_count", "A transfer refused by 7 returns its count.",
      ("        if number:\n"
       "            return number, 0, 0, 0\n"
       "        self.begin()\n"
       "        for value in values:"),
      ("        if number:\n"
       "            return number, len(values) if number == 7 else 0, 0, 0\n"
       "        self.begin()\n"
       "        for value in values:"))
wrong("refused_outward_clears", "A refused outward transfer clears its buffer.",
      ("        if number:\n"
       "            return number, 0, 0, 0\n"
       "        self.begin()\n"
       "        for k in"),
      ("        if number:\n"
       "            buffer[:] = [0] * len(buffer)\n"
       "            return number, 0, 0, 0\n"
       "        self.begin()\n"
       "        for k in"))
wrong("outward_reversed", "An outward transfer fills its buffer from the end.",
      "buffer[k] = self.fetch(", "buffer[-1 - k] = self.fetch(")
wrong("inward_fills", "An inward transfer writes its last halfword everywhere.",
      "            self.store(self.next_transfer_address(), value)",
      "            self.store(self.next_transfer_address(), values[-1])")
wrong("transfer_count_bytes", "A transfer returns the number of bytes.",
      "return (0, len(values)) + self.reports()", "return (0, 2 * len(values)) + self.reports()")

# ---- Block view and floats

wrong("view_odd", "Any even address has a view.", "address % 8 or not", "address % 2 or not")
wrong("view_16", "A view begins at a multiple of 16.", "address % 8 or not", "address % 16 or not")
wrong("view_any", "Any address has a view.", "address % 8 or not", "False or not")
wrong("view_to_l_8", "A view at L-8 has 8 bytes.", "0 <= address <= self.L - 16)", "0 <= address <= self.L - 8)")
wrong("view_to_l_24", "There is no view at L-16.", "0 <= address <= self.L - 16)", "0 <= address < self.L - 16)")
wrong("view_wraps", "A view's address is taken modulo L.",
      "        number = self.refusal(ram=True)\n",
      "        number = self.refusal(ram=True)\n        address %= self.L\n")
wrong("view_refused_shows", "A refused view shows the block that the address lies in.",
      'return (number, b"") if number', "return (number, bytes(self.ram[address & ~7:][:16])) if number")
wrong("view_8", "A view has 8 bytes.",
      "bytes(self.ram[address:address + 16])", "bytes(self.ram[address:address + 8])")
wrong("float_32767", "Floats are divided by 32767.", "left / 32768, right / 32768,", "left / 32767, right / 32767,")
wrong("float_swapped", "The floats change sides.", "left / 32768, right / 32768,", "right / 32768, left / 32768,")
wrong("float_whole", "The floats are not divided.", "left / 32768, right / 32768,", "float(left), float(right),")
wrong("float_minus_0", "0 becomes -0.",
      "left / 32768, right / 32768,", "left / 32768 or -0.0, right / 32768 or -0.0,")
wrong("float_no_cd", "A tick with floats hears no CD.",
      "number, before, left, right, irq, doubt = self.tick(cd_left, cd_right)",
      "number, before, left, right, irq, doubt = self.tick(0, 0)")

wrong("float_not_counted", "A tick with floats is not counted.",
      "number, before, left, right, irq, doubt = self.tick(cd_left, cd_right)",
      ("number, before, left, right, irq, doubt = self.tick(cd_left, cd_right)\n"
       "        self.tick_number = before"))

# ---- Lines of both programs

wrong("line_last_lost", "A last line without LF is lost.",
      "return pieces if pieces[-1] else pieces[:-1]", "return pieces[:-1]", file="lines")
wrong("line_empty_last", "An empty piece after the last LF is a line.",
      "return pieces if pieces[-1] else pieces[:-1]", "return pieces", file="lines")
wrong("line_cr_ends", "CR ends a line too.",
      'data.split(b"\\n")', 'data.replace(b"\\r", b"\\n").split(b"\\n")', file="lines")
wrong("line_cr_no_blank", "CR is no blank.",
      'rb"[ \\t\\r]+"', 'rb"[ \\t]+"', file="lines")
wrong("line_tab_no_blank", "A tab is no blank.",
      'rb"[ \\t\\r]+"', 'rb"[ \\r]+"', file="lines")
wrong("line_vt_blank", "A vertical tab or form feed is a blank.",
      'rb"[ \\t\\r]+"', 'rb"[ \\t\\r\\v\\f]+"', file="lines")
wrong("line_one_blank", "Fields are parted by one blank.",
      'rb"[ \\t\\r]+", line) if field]', 'rb"[ \\t\\r]", line)]', file="lines")
wrong("line_leading_blank", "A line that begins with a blank is bad.",
      "    return [field for field",
      '    if line[:1] in (b" ", b"\\t"):\n        return [b"?"]\n    return [field for field', file="lines")
wrong("line_upper_case", "Commands are taken in either case.",
      '    return [field for field in re.split(rb"[ \\t\\r]+", line) if field]',
      ('    found = [field for field in re.split(rb"[ \\t\\r]+", line) if field]\n'
       "    return [found[0].lower()] + found[1:] if found else found"), file="lines")
wrong("hex_upper_only", "Hex has upper case alone.",
      "[0-9A-Fa-f]{%d,%d}", "[0-9A-F]{%d,%d}", file="lines")
wrong("hex_lower_only", "Hex has lower case alone.",
      "[0-9A-Fa-f]{%d,%d}", "[0-9a-f]{%d,%d}", file="lines")
wrong("hex_prefix", "Hex may begin with 0x.",
      'rb"[0-9A-Fa-f]{%d,%d}"', 'rb"(?:0x)?[0-9A-Fa-f]{%d,%d}"', file="lines")
wrong("hex_signed", "Hex may have a sign.",
      ('    check(re.fullmatch(rb"[0-9A-Fa-f]{%d,%d}" % (least, most), field))\n'
       "    return int(field, 16)"),
      ('    check(re.fullmatch(rb"[-+]?[0-9A-Fa-f]{%d,%d}" % (least, most), field))\n'
       "    return int(field, 16) & 0xFFFFFFFF"), file="lines")
wrong("hex_leading_zeros", "Leading zeros of hex are let go.",
      '    check(re.fullmatch(rb"[0-9A-Fa-f]{%d',
      ('    field = field.lstrip(b"0") or b"0" if least == 1 else field\n'
       '    check(re.fullmatch(rb"[0-9A-Fa-f]{%d'), file="lines")
wrong("hex_cut", "Hex of more digits is cut.",
      ('    check(re.fullmatch(rb"[0-9A-Fa-f]{%d,%d}" % (least, most), field))\n'
       "    return int(field, 16)"),
      ('    check(re.fullmatch(rb"[0-9A-Fa-f]{%d,}" % least, field))\n'
       "    return int(field, 16) % 16 ** most"), file="lines")
wrong("decimal_no_zeros", "Leading zeros of a count are bad.",
      '    check(re.fullmatch(rb"[0-9]+", field))', '    check(re.fullmatch(rb"0|[1-9][0-9]*", field))', file="lines")
wrong("decimal_signed", "A count may have a plus.",
      '    check(re.fullmatch(rb"[0-9]+", field))\n    digits = field.lstrip(b"0")',
      '    check(re.fullmatch(rb"[+]?[0-9]+", field))\n    digits = field.lstrip(b"+0")', file="lines")
wrong("decimal_hex", "Counts are hex.",
      '    check(re.fullmatch(rb"[0-9]+", field))',
      '    check(re.fullmatch(rb"[0-9A-Fa-f]+", field))\n    field = b"%d" % int(field, 16)', file="lines")
wrong("decimal_wraps", "A count is taken modulo 2^32.",
      ("    check(len(digits) <= 7)         # no count is longer\n"
       '    value = int(digits or b"0")'),
      '    value = int(digits or b"0") % 2 ** 32', file="lines")
wrong("decimal_9_digits", "A count of ten digits or more is bad, leading zeros too.",
      '    check(re.fullmatch(rb"[0-9]+", field))', '    check(re.fullmatch(rb"[0-9]{1,9}", field))', file="lines")
wrong("decimal_0", "A count of 0 is bad.",
      "    check(least <= value <= most)", "    check(max(1, least) <= value <= most)", file="lines")
wrong("decimal_clamped", "A count above its limit is its limit.",
      "    check(least <= value <= most)", "    check(least <= value)\n    value = value if value <= most else 1",
      file="lines")

# ---- The program bench

wrong("bench_refused_s_silent", "A refused s prints nothing.",
      BENCH_S, "        spu.transfer_in([hexadecimal(v) for v in given])\n        return []", file="bench")
wrong("bench_refused_w_silent", "A refused w prints nothing.",
      BENCH_W, "        spu.write(hexadecimal(given[0]), hexadecimal(given[1]))\n        return []", file="bench")
wrong("bench_accepted_printed", "An accepted w prints refused 0.",
      BENCH_W,
      ("        number = spu.write(hexadecimal(given[0]), hexadecimal(given[1]))\n"
       '        return [f"refused {number}"]'), file="bench")
wrong("bench_accepted_s_printed", "An accepted s prints refused 0.",
      BENCH_S,
      ("        number = spu.transfer_in([hexadecimal(v) for v in given])[0]\n"
       '        return [f"refused {number}"]'), file="bench")
wrong("bench_refused_always_5", "A refused w prints refused 5.",
      BENCH_W,
      ("        number = spu.write(hexadecimal(given[0]), hexadecimal(given[1]))\n"
       '        return ["refused 5"] if number else []'), file="bench")
wrong("bench_blank_silent", "A blank line prints nothing.",
      "    words = fields(line)\n    check(words)\n",
      "    words = fields(line)\n    if not words:\n        return []\n", file="bench")
wrong("bench_comment_silent", "A comment prints nothing.",
      "    words = fields(line)\n    check(words)\n",
      ("    words = fields(line)\n"
       "    check(words)\n"
       '    if words[0].startswith(b"#"):\n'
       "        return []\n"), file="bench")
wrong("bench_w_extra", "A w line may have more fields.",
      "        check(len(given) == 2)\n", "        check(len(given) >= 2)\n", file="bench")
wrong("bench_w_short", "A w line without value writes 0.",
      "        check(len(given) == 2)\n", '        check(len(given) in (1, 2))\n        given = given + [b"0"]\n',
      file="bench")
wrong("bench_t_extra", "A t line may have more fields.",
      'check(command == b"t" and len(given) == 1)', 'check(command == b"t" and len(given) >= 1)', file="bench")
wrong("bench_t_alone", "A t line without count does one tick.",
      '    check(command == b"t" and len(given) == 1)\n',
      '    given = given or [b"1"]\n    check(command == b"t" and len(given) == 1)\n', file="bench")
wrong("bench_s_alone", "An s line without values is refused by 7 or 6.",
      "        check(given)\n", "", file="bench")
wrong("bench_s_partial", "The values before a bad one are transferred.",
      "        number = spu.transfer_in([hexadecimal(v) for v in given])[0]\n",
      ("        values = []\n"
       "        try:\n"
       "            for v in given:\n"
       "                values.append(hexadecimal(v))\n"
       "        except BadLine:\n"
       "            spu.transfer_in(values)\n"
       "            raise\n"
       "        number = spu.transfer_in(values)[0]\n"), file="bench")
wrong("bench_s_32", "An s line of more than 32 values is bad.",
      "        check(given)\n", "        check(1 <= len(given) <= 32)\n", file="bench")
wrong("bench_s_one_by_one", "An s line transfers its values one by one.",
      "        number = spu.transfer_in([hexadecimal(v) for v in given])[0]\n",
      "        number = [spu.transfer_in([v])[0] for v in [hexadecimal(v) for v in given]][0]\n", file="bench")
wrong("bench_t_65536", "65,536 and more ticks are taken as 1.",
      "decimal(given[0], 65535)", "(lambda n: n if n <= 65535 else 1)(decimal(given[0], 9999999))", file="bench")
wrong("bench_t_hex", "N is hex.",
      "decimal(given[0], 65535)", "hexadecimal(given[0])", file="bench")
wrong("bench_reads", "bench takes r lines.",
      '    if command == b"w":\n',
      ('    if command == b"r" and len(given) == 1:\n'
       "        return [str(spu.read(hexadecimal(given[0]))[1])]\n"
       '    if command == b"w":\n'), file="bench")
wrong("bench_resets", "bench takes reset lines.",
      '    if command == b"w":\n',
      ('    if command == b"reset":\n'
       "        spu.reset()\n"
       "        return []\n"
       '    if command == b"w":\n'), file="bench")
wrong("bench_words", "A command may be longer than its letter.",
      "    command, given = words[0], words[1:]", "    command, given = words[0][:1], words[1:]", file="bench")
wrong("bench_stops_at_bad", "A bad line ends the session.",
      '            yield "bad line"\n', '            yield "bad line"\n            break\n', file="bench")
wrong("bench_bad_silent", "A bad line prints nothing.",
      '            yield "bad line"\n', "            pass\n", file="bench")
wrong("bench_doubt_reported", "The fourth field is the tick's report of doubt.",
      ("        _, before, left, right, _, _ = spu.tick(0, 0)\n"
       '        out.append(f"{before} {left} {right} {int(spu.doubt)}")'),
      ("        _, before, left, right, _, doubt = spu.tick(0, 0)\n"
       '        out.append(f"{before} {left} {right} {doubt}")'), file="bench")
wrong("bench_doubt_before", "The fourth field is the doubt before the tick.",
      ("        _, before, left, right, _, _ = spu.tick(0, 0)\n"
       '        out.append(f"{before} {left} {right} {int(spu.doubt)}")'),
      ("        doubt = int(spu.doubt)\n"
       "        _, before, left, right, _, _ = spu.tick(0, 0)\n"
       '        out.append(f"{before} {left} {right} {doubt}")'), file="bench")
wrong("bench_number_after", "The first field is the tick number after the tick.",
      'out.append(f"{before} {left}', 'out.append(f"{before + 1} {left}', file="bench")
wrong("bench_sides_swapped", "Right comes before left.",
      "{before} {left} {right}", "{before} {right} {left}", file="bench")
wrong("bench_unsigned", "Samples are printed unsigned.",
      "{before} {left} {right}", "{before} {left & 0xFFFF} {right & 0xFFFF}", file="bench")
wrong("bench_end_clear", "The last line is always end clear.",
      'yield "end doubt" if spu.doubt else "end clear"', 'yield "end clear"', file="bench")
wrong("bench_end_doubt", "The last line is always end doubt.",
      'yield "end doubt" if spu.doubt else "end clear"', 'yield "end doubt"', file="bench")
wrong("bench_no_end", "There is no last line.",
      '    yield "end doubt" if spu.doubt else "end clear"\n', "", file="bench")
wrong("bench_large", "bench has 524,288 bytes.",
      "    spu = Spu(65536)\n", "    spu = Spu(524288)\n", file="bench")
wrong("bench_loaded", "bench begins with all of RAM marked.",
      "    spu = Spu(65536)\n", '    spu = Spu(65536)\n    spu.marks[:] = b"\\xFF" * 4096\n', file="bench")

# ---- The program replay

wrong("replay_comment_anywhere", "A line whose first field begins with # is a comment.",
      'or line.startswith(b"#")', 'or words[0].startswith(b"#")', file="replay")
wrong("replay_comment_bad", "A comment is a bad line.",
      'if not words or line.startswith(b"#"):', "if not words:", file="replay")
wrong("replay_blank_bad", "A blank line is a bad line.",
      '        if not words or line.startswith(b"#"):\n            continue\n',
      ('        if line.startswith(b"#"):\n'
       "            continue\n"
       '        words = words or [b"?"]\n'), file="replay")
wrong("replay_t_cd_left_only", "One CD sample is enough.",
      "check(len(given) in (1, 3))", "check(len(given) in (1, 2, 3))",
      "return decimal(given[0], 65535), *(cd or (0, 0))", "return decimal(given[0], 65535), *((cd + [0, 0])[:2])",
      file="replay")
wrong("replay_cd_short", "CD samples have 1 to 4 digits.",
      "hexadecimal(field, 4, 4)", "hexadecimal(field, 4)", file="replay")
wrong("replay_cd_swapped", "CD right comes first.",
      "*(cd or (0, 0))", "*(cd[::-1] or (0, 0))", file="replay")
wrong("replay_cd_unsigned", "CD samples are unsigned.",
      "s16(hexadecimal(field, 4, 4))", "hexadecimal(field, 4, 4)", file="replay")
wrong("replay_cd_first_tick", "CD samples are of the first tick alone.",
      '    for _ in range(count):\n        yield "t',
      '    for k in range(count):\n        cd = cd if k == 0 else (0, 0)\n        yield "t', file="replay")
wrong("replay_o_buffer_0", "The outgoing buffer is lent holding 0.",
      "[0xA5A5] * decimal(given[0], 64)", "[0] * decimal(given[0], 64)", file="replay")
wrong("replay_o_32", "An outward transfer of more than 32 is a bad line.",
      "[0xA5A5] * decimal(given[0], 64)", "[0xA5A5] * decimal(given[0], 32)", file="replay")
wrong("replay_o_65", "An outward transfer of 65 is a good line.",
      "[0xA5A5] * decimal(given[0], 64)", "[0xA5A5] * decimal(given[0], 65)", file="replay")
wrong("replay_o_moved", "The outgoing buffer of a transfer refused by 7 is not shown.",
      '[f"{h:04X}" for h in buffer]', '[f"{h:04X}" for h in buffer if not answer.startswith("o 7")]', file="replay")
wrong("replay_ram_4_digits", "Addresses have 4 digits.",
      'yield f"ram {address:05X}', 'yield f"ram {address:04X}', file="replay")
wrong("replay_ram_at_end", "A range that ends at L is bad.",
      '    check(address + count <= spu.L)\n    yield f"ram', '    check(address + count < spu.L)\n    yield f"ram',
      file="replay")
wrong("replay_ram_past_end", "A range past L is cut.",
      '    check(address + count <= spu.L)\n    yield f"ram', '    check(address < spu.L)\n    yield f"ram',
      file="replay")
wrong("replay_marks_odd", "Marks may begin at an odd address.",
      "check(address % 2 == 0 and address + 2 * count <= spu.L)", "check(address + 2 * count <= spu.L)",
      file="replay")
wrong("replay_marks_past_end", "Marks are bounded by L/2 halfwords from 0.",
      "check(address % 2 == 0 and address + 2 * count <= spu.L)",
      ("check(address % 2 == 0 and address + count <= spu.L)\n"
       "    count = min(count, (spu.L - address) // 2)"), file="replay")
wrong("replay_fill_marks", "A raw fill marks.",
      '    yield "ok"',
      ("    for k in range(address, address + count):\n"
       "        spu.marks[k >> 4] |= 1 << (k >> 1 & 7)\n"
       '    yield "ok"'), file="replay")
wrong("replay_fill_halfwords", "A raw fill fills N halfwords.",
      "    spu.ram[address:address + count] = bytes([byte]) * count",
      ("    count = min(2 * count, spu.L - address)\n"
       "    spu.ram[address:address + count] = bytes([byte]) * count"), file="replay")
wrong("replay_fill_none_past_end", "A fill of no bytes at L is bad.",
      "    check(address + count <= spu.L)\n    spu.ram",
      "    check(address < spu.L and address + count <= spu.L)\n    spu.ram", file="replay")
wrong("replay_view_4_digits", "A view's address has up to 4 digits.",
      "spu.block_view(hexadecimal(given[0], 8))", "spu.block_view(hexadecimal(given[0], 4))", file="replay")
wrong("replay_reset_extra", "A reset line may have more fields.",
      "    check(not given)\n", "", file="replay")
wrong("replay_end_clear", "The last line is always end clear.",
      'yield "end doubt" if spu.doubt else "end clear"', 'yield "end clear"', file="replay")
wrong("replay_end_doubt", "The last line is always end doubt.",
      'yield "end doubt" if spu.doubt else "end clear"', 'yield "end doubt"', file="replay")
wrong("replay_sd_before", "SD is the doubt before the tick.",
      '        yield "t %d %d %d %d %d %d" % spu.tick(*cd) + f" {int(spu.doubt)}"',
      ("        before = int(spu.doubt)\n"
       '        yield "t %d %d %d %d %d %d" % spu.tick(*cd) + f" {before}"'), file="replay")
wrong("replay_lower_case", "Hex is answered in lower case.",
      '"r %d %04X"', '"r %d %04x"', file="replay")
wrong("replay_refused_read_shown", "A refused read shows FFFF.",
      '    yield "r %d %04X" % spu.read(hexadecimal(given[0]))',
      ("    number, value = spu.read(hexadecimal(given[0]))\n"
       '    yield "r %d %04X" % (number, 0xFFFF if number else value)'), file="replay")

# ---- Wrong references that no line can tell apart

RELEASED = ("Release at level 0 differs from Off in the state alone: both are silent, read, move, "
            "and leave key off without effect")
PROGRAM_LENDS = "the programs lend sound RAM and marks of the right lengths"
PROGRAM_STATE = "the programs' states are those that the calls make, and all of these are in range"
wrong("number_1_missing", "RAM or marks of another length are taken.",
      ("        if (ram and len(self.ram) != self.L) or (marks and len(self.marks) != self.L // 16):\n"
       "            return 1\n"),
      "",
      reason=PROGRAM_LENDS)
wrong("number_2_before_1", "A state out of range gives 2, whatever the lengths.",
      "        if (ram and len(self.ram) != self.L) or",
      ("        if not self.in_range():\n"
       "            return 2\n"
       "        if (ram and len(self.ram) != self.L) or"),
      reason=PROGRAM_LENDS)
wrong("number_2_missing", "A state out of range is taken.",
      "        return 0 if self.in_range() else 2", "        return 0",
      reason=PROGRAM_STATE)
wrong("reset_heals", "A reset takes a state out of range.",
      "        number = self.refusal()\n        if number == 0:\n            self.fresh()",
      "        number = 0\n        if number == 0:\n            self.fresh()",
      reason=PROGRAM_STATE)
wrong("range_wait_any", "A wait has no upper end.",
      "0 <= self.wait <= 0x400000", "0 <= self.wait",
      reason=PROGRAM_STATE)
wrong("range_address_any", "A voice address may lie in the middle of a unit.",
      "self.address % 8 == 0 and 0 <= self.address", "0 <= self.address",
      reason=PROGRAM_STATE)
wrong("range_reverb_any", "A reverb place may lie below its base.",
      "unit_address(self.reg[0x1A2], L) <= self.reverb_place <= L - 2", "0 <= self.reverb_place <= L - 2",
      reason=PROGRAM_STATE)
wrong("sustain_shift_6_bits", "The sustain shift has 6 bits.",
      "high >> 8 & 31, -8 + n", "high >> 8 & 63, -8 + n",
      reason="no write sets bit 13 of +Ah")
wrong("transfer_type_reads_4", "1ACh reads as 4.",
      READ_BACK, "return 0, 4 if offset == 0x1AC else self.reg[offset]\n",
      reason="no write to 1ACh but that of 4 is accepted")
wrong("make_other_l", "Making a state for another L gives the fresh state for 524,288.",
      "else (1, cls(65536))", "else (1, cls(524288))",
      reason="replay makes states for the two lengths alone")
wrong("key_off_needs_bit_15", "Key off acts with SPUCNT bit 15 set alone.",
      "                if offset >= 0x18C:\n",
      ("                if offset >= 0x18C and not self.reg[0x1AA] & 0x8000:\n"
       "                    pass\n"
       "                elif offset >= 0x18C:\n"),
      reason="without bit 15 every voice of a state that the calls make is Idle, and key off leaves Idle voices")
wrong("stop_on_change_only", "SPUCNT bit 15 makes the voices Idle where it changes from set to clear.",
      "if new & 0x8000 == 0:  ", "if old & 0x8000 and new & 0x8000 == 0:  ",
      reason="without bit 15 every voice of a state that the calls make is Idle")
wrong("mute_to_release", "End+Mute goes to Release at level 0.",
      "                self.silence(OFF)",
      "                self.level = 0\n                self.phase, self.wait = RELEASE, 1",
      reason=RELEASED)
wrong("release_never_off", "Release at 0 stays in Release.",
      "    if phase == RELEASE and level == 0:", "    if False:",
      reason=RELEASED)
wrong("wait_kept_when_idle", "Idle and Off keep the wait that ran.",
      "        self.wait = (0 if phase in (IDLE, OFF)", "        self.wait = (self.wait if phase in (IDLE, OFF)",
      reason="no call shows a wait, and Idle and Off do not use it")
wrong("tick_number_stops", "The tick number stays at FFFFFFFFh.",
      "self.tick_number = (before + 1) % 0x100000000 ", "self.tick_number = min(before + 1, 0xFFFFFFFF) ",
      reason="it takes 4,294,967,295 ticks")
wrong("fresh_timer_1fffc", "The noise timer is 1FFFCh in a fresh state.",
      "self.noise, self.timer = 0, 0x20000", "self.noise, self.timer = 0, 0x1FFFC",
      reason="it takes 18,725 ticks without a change of the shift")
wrong("ticks_65534", "65,535 ticks are a bad line.",
      "decimal(given[0], 65535)", "decimal(given[0], 65534)",
      file="bench", reason="it takes 65,535 ticks")


def table_entries():
    for entry, (step, word) in itertools.product(range(512), ((1, "more"), (-1, "less"))):
        yield Wrong(f"table_{entry:03x}_{word}", f"Entry {entry:X}h of the interpolation table is one {word}.",
                    "spu", (), (entry, step), None)


# ---- The run

def source(name):
    with open(os.path.join(HERE, name + ".py"), encoding="utf-8") as file:
        return file.read()


def session_file(session, name):
    with open(os.path.join(HERE, os.pardir, "crates", session, name), "rb") as file:
        return file.read()


SOURCES = {name: source(name) for name in MODULES}
COMPILED = {name: compile(text, name + ".py", "exec") for name, text in SOURCES.items()}
INPUTS = {session: session_file(session, "stdin") for session, _ in SESSIONS}
STORED = {session: session_file(session, "stdout").decode().split("\n") for session, _ in SESSIONS}


def changed(file, changes):
    """The source of a file with each text replaced by its other."""
    text = SOURCES[file]
    for old, new in changes:
        if text.count(old) != 1:
            sys.exit(f"{file}.py: to be replaced once, found {text.count(old)} times:\n{old}")
        text = text.replace(old, new)
    return text


def load(file=None, changes=(), table=None):
    """The modules bench and replay, made anew, with the changes of a wrong reference."""
    for name in MODULES:
        code = COMPILED[name]
        if name == file and changes:
            code = compile(changed(file, changes), f"wrong {name}.py", "exec")
        sys.modules[name] = module = types.ModuleType(name)
        exec(code, module.__dict__)
    if table:
        sys.modules["spu"].GAUSS[table[0]] += table[1]
    return sys.modules["bench"], sys.modules["replay"]


def answers(programs, session, L):
    """The lines that a session prints."""
    bench, replay = programs
    yield from bench.bench(INPUTS[session]) if L is None else replay.replay(L, INPUTS[session])
    yield ""                                                # after the last LF


def first_difference(programs):
    """(session, line number) of the first answer that differs from the stored one, or None."""
    for session, L in SESSIONS:
        pairs = itertools.zip_longest(answers(programs, session, L), STORED[session])
        for number, (ours, stored) in enumerate(pairs, 1):
            if ours != stored:
                return session, number
    return None


def play(entry):
    """A wrong reference that raises an error is a mistake in this list, and stops the run."""
    try:
        return first_difference(load(entry.file, entry.changes, entry.table))
    except Exception as error:
        raise RuntimeError(f"{entry.name} raises an error") from error


def main():
    options = argparse.ArgumentParser()
    options.add_argument("--only", metavar="NAME", help="play this wrong reference alone")
    options.add_argument("--list", action="store_true", help="show names and rules, play nothing")
    given = options.parse_args()
    entries = [*WRONG, *table_entries()]
    assert len({entry.name for entry in entries}) == len(entries), "two wrong references have one name"
    if given.only:
        entries = [entry for entry in entries if entry.name == given.only]
        if not entries:
            sys.exit(f"no wrong reference is called {given.only}")
    if given.list:
        for entry in entries:
            print(f"{entry.name}: {entry.rule}" + (f" (out of reach: {entry.reason})" if entry.reason else ""))
        return
    for entry in entries:
        changed(entry.file, entry.changes)
    difference = first_difference(load())
    if difference:
        sys.exit("the reference itself differs from the stored output of %s, line %d" % difference)
    missed, reached = [], []
    with multiprocessing.Pool(2) as pool:
        for entry, difference in zip(entries, pool.imap(play, entries, chunksize=4)):
            if difference:
                print("%s: %s line %d" % (entry.name, *difference), flush=True)
                reached += [entry] if entry.reason else []
            else:
                missed.append(entry)
                why = f", out of reach: {entry.reason}" if entry.reason else ""
                print(f"{entry.name}: not told apart{why}", flush=True)
    wanting = [entry for entry in missed if not entry.reason]
    for head, some in (("no session tells apart", wanting), ("not out of reach", reached),
                       ("out of reach", [entry for entry in missed if entry.reason])):
        if some:
            print(f"{head}: " + ", ".join(entry.name for entry in some))
    print(f"{len(entries) - len(missed)} told apart, {len(missed)} not")
    sys.exit(1 if wanting or reached else 0)


if __name__ == "__main__":
    main()
