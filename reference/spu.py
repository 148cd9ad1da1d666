"""The sound chip, written rule by rule from the papers, in unbounded integers.

">>" and "//" round down.  An address counts bytes; a unit is 8 bytes.  Sentences in
quotation marks are those of the scope paper that the code under them carries, or of the
change requests where they are named; where a place could be read otherwise,
docs/DECISIONS.md says how it is read.
"""

SIZES = (65536, 524288)
IDLE, ATTACK, DECAY, SUSTAIN, RELEASE, OFF = range(6)
FILTERS = ((0, 0), (60, 0), (115, -52), (98, -55), (122, -60), (0, 0), (0, 0), (0, 0))

# "The 512-entry table is 000's."
GAUSS = [int(word, 16) for word in """
    -001 -001 -001 -001 -001 -001 -001 -001 -001 -001 -001 -001 -001 -001 -001 -001
    0000 0000 0000 0000 0000 0000 0000 0001 0001 0001 0001 0002 0002 0002 0003 0003
    0003 0004 0004 0005 0005 0006 0007 0007 0008 0009 0009 000A 000B 000C 000D 000E
    000F 0010 0011 0012 0013 0015 0016 0018 0019 001B 001C 001E 0020 0021 0023 0025
    0027 0029 002C 002E 0030 0033 0035 0038 003A 003D 0040 0043 0046 0049 004D 0050
    0054 0057 005B 005F 0063 0067 006B 006F 0074 0078 007D 0082 0087 008C 0091 0096
    009C 00A1 00A7 00AD 00B3 00BA 00C0 00C7 00CD 00D4 00DB 00E3 00EA 00F2 00FA 0101
    010A 0112 011B 0123 012C 0135 013F 0148 0152 015C 0166 0171 017B 0186 0191 019C
    01A8 01B4 01C0 01CC 01D9 01E5 01F2 0200 020D 021B 0229 0237 0246 0255 0264 0273
    0283 0293 02A3 02B4 02C4 02D6 02E7 02F9 030B 031D 0330 0343 0356 036A 037E 0392
    03A7 03BC 03D1 03E7 03FC 0413 042A 0441 0458 0470 0488 04A0 04B9 04D2 04EC 0506
    0520 053B 0556 0572 058E 05AA 05C7 05E4 0601 061F 063E 065C 067C 069B 06BB 06DC
    06FD 071E 0740 0762 0784 07A7 07CB 07EF 0813 0838 085D 0883 08A9 08D0 08F7 091E
    0946 096F 0998 09C1 09EB 0A16 0A40 0A6C 0A98 0AC4 0AF1 0B1E 0B4C 0B7A 0BA9 0BD8
    0C07 0C38 0C68 0C99 0CCB 0CFD 0D30 0D63 0D97 0DCB 0E00 0E35 0E6B 0EA1 0ED7 0F0F
    0F46 0F7F 0FB7 0FF1 102A 1065 109F 10DB 1116 1153 118F 11CD 120B 1249 1288 12C7
    1307 1347 1388 13C9 140B 144D 1490 14D4 1517 155C 15A0 15E6 162C 1672 16B9 1700
    1747 1790 17D8 1821 186B 18B5 1900 194B 1996 19E2 1A2E 1A7B 1AC8 1B16 1B64 1BB3
    1C02 1C51 1CA1 1CF1 1D42 1D93 1DE5 1E37 1E89 1EDC 1F2F 1F82 1FD6 202A 207F 20D4
    2129 217F 21D5 222C 2282 22DA 2331 2389 23E1 2439 2492 24EB 2545 259E 25F8 2653
    26AD 2708 2763 27BE 281A 2876 28D2 292E 298B 29E7 2A44 2AA1 2AFF 2B5C 2BBA 2C18
    2C76 2CD4 2D33 2D91 2DF0 2E4F 2EAE 2F0D 2F6C 2FCC 302B 308B 30EA 314A 31AA 3209
    3269 32C9 3329 3389 33E9 3449 34A9 3509 3569 35C9 3629 3689 36E8 3748 37A8 3807
    3867 38C6 3926 3985 39E4 3A43 3AA2 3B00 3B5F 3BBD 3C1B 3C79 3CD7 3D35 3D92 3DEF
    3E4C 3EA9 3F05 3F62 3FBD 4019 4074 40D0 412A 4185 41DF 4239 4292 42EB 4344 439C
    43F4 444C 44A3 44FA 4550 45A6 45FC 4651 46A6 46FA 474E 47A1 47F4 4846 4898 48E9
    493A 498A 49D9 4A29 4A77 4AC5 4B13 4B5F 4BAC 4BF7 4C42 4C8D 4CD7 4D20 4D68 4DB0
    4DF7 4E3E 4E84 4EC9 4F0E 4F52 4F95 4FD7 5019 505A 509A 50DA 5118 5156 5194 51D0
    520C 5247 5281 52BA 52F3 532A 5361 5397 53CC 5401 5434 5467 5499 54CA 54FA 5529
    5558 5585 55B2 55DE 5609 5632 565B 5684 56AB 56D1 56F6 571B 573E 5761 5782 57A3
    57C3 57E2 57FF 581C 5838 5853 586D 5886 589E 58B5 58CB 58E0 58F4 5907 5919 592A
    593A 5949 5958 5965 5971 597C 5986 598F 5997 599E 59A4 59A9 59AD 59B0 59B2 59B3
""".split()]


def s16(x):
    """The low 16 bits of x, read as signed."""
    return ((x & 0xFFFF) ^ 0x8000) - 0x8000


def saturate(x):
    return -0x8000 if x < -0x8000 else 0x7FFF if x > 0x7FFF else x


def times(a, b):
    """A product "divided by 8000h rounding down" """
    return (a * b) >> 15


def volume(register):
    """"Volume = twice the signed low 15 bits." """
    return s16(register << 1)


# ---- What is lent: sound RAM and marks, with interrupt and doubt on their accesses ----

def unit_address(unit, L):
    """"An address is the unit number times 8, modulo L." """
    return unit * 8 % L


class SoundRam:
    def __init__(self, L):
        self.L = L
        self.ram = bytearray(L)
        self.marks = bytearray(L // 16)
        self.doubt = False      # sticky
        self.latch = False      # of the interrupt
        self.watched = None     # the IRQ address while interrupts are on, else None

    def access(self, address):
        """"an access to the halfword exactly at the IRQ address sets the latch" """
        if address == self.watched:
            self.latch = True

    def marked(self, address):
        """"bit h mod 8 of byte h div 8 says that halfword h (address 2h) is loaded" """
        return self.marks[address >> 4] >> (address >> 1 & 7) & 1

    def fetch(self, address, counted=True):
        """"A counted read of an unmarked halfword sets doubt" """
        self.access(address)
        if counted and not self.marked(address):
            self.doubt = True
        return self.ram[address] | self.ram[address + 1] << 8

    def store(self, address, value):
        """"A halfword lies ... low byte first"; "Every write marks its halfword." """
        self.access(address)
        self.ram[address] = value & 0xFF
        self.ram[address + 1] = value >> 8 & 0xFF
        self.marks[address >> 4] |= 1 << (address >> 1 & 7)

    def fetch_block(self, address):
        """"A block load accesses 8 halfwords, in order from the voice address on, wrapping." """
        halfwords = [self.fetch((address + 2 * k) % self.L) for k in range(8)]
        return b"".join(h.to_bytes(2, "little") for h in halfwords)


# ---- One voice: interpolation, pitch, load, envelope ----

def interpolate(oldest, older, old, new, i):
    """000's formula, "each product shifted right 15 rounding down" """
    return (times(GAUSS[0x0FF - i], oldest) + times(GAUSS[0x1FF - i], older)
            + times(GAUSS[0x100 + i], old) + times(GAUSS[i], new))


def pitch_step(pitch, below=None):
    """000's Step; below is the amplitude that modulates it, None without modulation."""
    step = pitch
    if below is not None:
        step = times(s16(pitch), below + 0x8000) & 0xFFFF
    return 0x4000 if step > 0x3FFF else step


def decode(block, old, older):
    """"Sample = saturate(t*2^(12-shift) + (old*k0 + older*k1 + 32)/64 rounded down)" """
    shift = block[0] & 15
    if shift > 12:
        shift = 9                                   # "13..15 act as 9"
    k0, k1 = FILTERS[block[0] >> 4 & 7]             # "Filter = bits 4-6"
    samples = []
    for byte in block[2:16]:
        for nibble in (byte & 15, byte >> 4):       # "low nibble first"
            t = (nibble ^ 8) - 8                    # "t the signed nibble"
            new = saturate((t << (12 - shift)) + (old * k0 + older * k1 + 32) // 64)
            samples.append(new)
            old, older = new, old
    return samples


def envelope_rate(phase, low, high):
    """000's ADSR bits: (exponential, rising, shift, value) of a phase that moves."""
    if phase == ATTACK:
        return low >> 15, True, low >> 10 & 31, 7 - (low >> 8 & 3)
    if phase == DECAY:
        return 1, False, low >> 4 & 15, -8
    if phase == SUSTAIN:
        falling, n = high >> 14 & 1, high >> 6 & 3
        return high >> 15, not falling, high >> 8 & 31, -8 + n if falling else 7 - n
    return high >> 5 & 1, False, high & 31, -8      # Release


def envelope_cycles(phase, level, low, high):
    """"Cycles = 2^max(0, shift-11)"; "exponential rise above 6000h: cycles times 4" """
    exponential, rising, shift, _ = envelope_rate(phase, low, high)
    cycles = 1 << max(0, shift - 11)
    return cycles * 4 if exponential and rising and level > 0x6000 else cycles


def envelope_move(phase, level, low, high):
    """"step = value*2^max(0, 11-shift)"; "exponential fall: step*level/8000h rounded down";
    "clamped to 0..7FFFh" """
    exponential, rising, shift, value = envelope_rate(phase, low, high)
    step = value << max(0, 11 - shift)
    if exponential and not rising:
        step = times(step, level)
    return max(0, min(0x7FFF, level + step))


def next_phase(phase, level, low):
    """"Attack at 7FFFh goes to Decay; Decay at or below (N+1)*800h goes to Sustain; Release
    at 0 goes to Off." """
    if phase == ATTACK and level == 0x7FFF:
        return DECAY
    if phase == DECAY and level <= ((low & 15) + 1) * 0x800:
        return SUSTAIN
    if phase == RELEASE and level == 0:
        return OFF
    return phase


class Voice:
    def __init__(self):
        """"A fresh voice is stated once; reset and key on both begin from it." """
        self.phase = IDLE
        self.level = 0              # the envelope
        self.wait = 0
        self.address = 0            # bytes
        self.repeat = 0             # a unit, as docs/DECISIONS.md, Voice, reads it
        self.counter = 0
        self.index = 0
        self.samples = [0] * 31     # the three before the block, then its 28
        self.flags = 0              # byte 1 of the block
        self.loaded = False
        self.ended = False          # the ENDX bit

    def in_range(self, L):
        """The voice's part of number 2."""
        return (0 <= self.level <= 0x7FFF and 0 <= self.counter < 0x1000
                and 0 <= self.index <= 27
                and self.address % 8 == 0 and 0 <= self.address < L
                and 0 <= self.wait <= 0x400000
                and (self.wait > 0 or self.phase in (IDLE, OFF)))

    def enter(self, phase, low=0, high=0):
        """"Entering a phase sets the wait to cycles"; Idle and Off: "to 0" """
        self.phase = phase
        self.wait = (0 if phase in (IDLE, OFF)
                     else envelope_cycles(phase, self.level, low, high))

    def silence(self, phase):
        """Idle or Off, "envelope 0" """
        self.level = 0
        self.enter(phase)

    def tick(self, memory, pitch, low, high, below=None, noise=None):
        """Steps 1 to 5; the amplitude.  below: amplitude of the voice below if it modulates;
        noise: the noise level if the voice hears it."""
        if self.phase == IDLE:
            return 0                                # "Idle: amplitude 0, no reads."
        if not self.loaded:
            self.load(memory)
        if noise is None:
            four = self.samples[self.index:self.index + 4]      # three before, and the sample
            heard = interpolate(*four, self.counter >> 4)
        else:
            heard = s16(noise)                      # "If NON is set, use noise as signed."
        amplitude = times(heard, self.level)        # "the envelope before this tick's step"
        self.envelope_step(low, high)
        self.counter += pitch_step(pitch, below)
        while self.counter >= 0x1000:               # "each 1000h moves one sample"
            self.counter -= 0x1000
            self.index += 1
            if self.index > 27:                     # "Past sample 27: the end rule, then the
                self.index = 0                      # next block is loaded at once."
                self.end_rule(memory.L)
                self.load(memory)
        return amplitude

    def load(self, memory):
        """"load the 16 bytes at the voice address, wrapping at L"; "Loop start sets repeat to
        the voice address." """
        block = memory.fetch_block(self.address)
        last = self.samples[28:]
        self.samples = last + decode(block, last[2], last[1])
        self.flags = block[1]
        self.loaded = True
        if self.flags & 4:
            self.repeat = self.address // 8

    def end_rule(self, L):
        """"Bit 0 clear: address + 16, modulo L. Set: ENDX bit set, address = repeat; if also
        bit 1 clear: Off, envelope 0." """
        if self.flags & 1 == 0:
            self.address = (self.address + 16) % L
        else:
            self.ended = True
            self.address = unit_address(self.repeat, L)
            if self.flags & 2 == 0:
                self.silence(OFF)

    def key_on(self, start, L, low, high):
        """"samples, counter, envelope 0; Attack; address = start; repeat = start; ENDX bit
        cleared; no block loaded" """
        self.__init__()
        self.address = unit_address(start, L)
        self.repeat = start
        self.enter(ATTACK, low, high)

    def key_off(self, low, high):
        """"Attack, Decay, Sustain go to Release." """
        if self.phase in (ATTACK, DECAY, SUSTAIN):
            self.enter(RELEASE, low, high)

    def envelope_step(self, low, high):
        """"Each tick takes 1; at 0 the level moves ..., then phases are tested, one change at
        most"; "Then the wait is set anew. Idle and Off have no steps" """
        if self.phase in (IDLE, OFF):
            return
        self.wait -= 1
        if self.wait == 0:
            self.level = envelope_move(self.phase, self.level, low, high)
            self.enter(next_phase(self.phase, self.level, low), low, high)


# ---- Noise and the last step of the mix, by themselves ----

def next_noise(level):
    """"2*level modulo 10000h plus (bits 15, 12, 11, 10 xored, inverted)" """
    bit = (level >> 15 ^ level >> 12 ^ level >> 11 ^ level >> 10 ^ 1) & 1
    return 2 * level % 0x10000 + bit


def answer(total, main):
    """"The saturated sum times main volume /8000h, saturated, is the answer." """
    return saturate(times(saturate(total), volume(main)))


# ---- The whole chip ----

class Spu(SoundRam):
    def __init__(self, L):
        super().__init__(L)
        self.fresh()

    @classmethod
    def make(cls, L):
        """"Making a state for another L gives 1 and the fresh state for 65,536." """
        return (0, cls(L)) if L in SIZES else (1, cls(65536))

    def fresh(self):
        """"registers zero except 1ACh = 4; voices Idle; noise 0, timer 20000h; places 0; no
        doubt; tick number 0" """
        self.reg = [0] * 0x200              # by offset; the odd places stay unused
        self.reg[0x1AC] = 4
        self.voices = [Voice() for _ in range(24)]
        self.noise, self.timer = 0, 0x20000
        self.capture_place = self.reverb_place = self.transfer_address = 0
        self.applied = 0                    # SPUCNT bits 5-0 as SPUSTAT shows them
        self.held = [0, 0]                  # reverb outputs, left and right
        self.turn = 0                       # 0 left, 1 right
        self.latch = self.doubt = False
        self.tick_number = 0

    def reset(self):
        """"Reset gives back the state as made"; RAM and marks stay, as docs/DECISIONS.md, Calls,
        reads it."""
        number = self.refusal()
        if number == 0:
            self.fresh()
        return number

    # ---- Numbers 1 and 2, of every call ----

    def refusal(self, ram=False, marks=False):
        """1: "RAM or marks of another length than the state's L asks"; 2: out of range."""
        if (ram and len(self.ram) != self.L) or (marks and len(self.marks) != self.L // 16):
            return 1
        return 0 if self.in_range() else 2

    def in_range(self):
        """The ranges of number 2."""
        L = self.L
        return (L in SIZES
                and all([voice.in_range(L) for voice in self.voices])
                and self.capture_place % 2 == 0 and 0 <= self.capture_place < 0x400
                and self.reverb_place % 2 == 0
                and unit_address(self.reg[0x1A2], L) <= self.reverb_place <= L - 2
                and self.transfer_address % 2 == 0 and 0 <= self.transfer_address < L
                and 0 <= self.timer <= 0x20000)

    # ---- Registers ----

    @staticmethod
    def listed(offset):
        return offset in range(0, 0x200, 2) and offset not in (0x1A0, 0x1BC, 0x1BE)

    @staticmethod
    def undocumented(offset):
        """The bits of a register that give number 11, as a mask: document 02's "1ACh bits 15-4 and
        0, bit 29 of ADSR, and bits 15-8 of the upper flag registers" """
        if offset < 0x180 and offset % 16 == 0xA:
            return 1 << (29 - 16)                   # +Ah has bits 31-16 of ADSR
        if offset in (0x18A, 0x18E, 0x192, 0x196, 0x19A, 0x19E):
            return 0xFF00
        return 0xFFF1 if offset == 0x1AC else 0

    @staticmethod
    def not_carried(offset, value):
        """Number 5 of a write to a listed offset."""
        place = offset % 16 if offset < 0x180 else None     # in a voice
        if place in (0, 2) or offset in (0x180, 0x182):
            return value & 0x8000 != 0              # "volume with bit 15 set"
        if offset == 0x1AC:
            return value >> 1 & 7 != 2              # "1ACh with bits 3-1 other than 2"
        return place == 0xC or offset == 0x1A8

    def write_refusal(self, offset, value):
        number = self.refusal()
        if number:
            return number
        if not self.listed(offset):
            return 3
        if offset in (0x19C, 0x19E, 0x1AE, 0x1B8, 0x1BA):
            return 4
        if value & self.undocumented(offset):       # "tested after 4 and before 5"
            return 11
        return 5 if self.not_carried(offset, value) else 0

    def write(self, offset, value):
        number = self.write_refusal(offset, value)
        if number:
            return number
        old, self.reg[offset] = self.reg[offset], value
        if offset < 0x180 and offset % 16 == 0xE:
            self.voices[offset // 16].repeat = value
        elif offset in (0x188, 0x18A, 0x18C, 0x18E):
            self.key_write(offset, value)
        elif offset == 0x1A2:           # "also moves the reverb place or transfer address there"
            self.reverb_place = unit_address(value, self.L)
        elif offset == 0x1A6:
            self.transfer_address = unit_address(value, self.L)
        elif offset == 0x1AA:
            self.control_write(old, value)
        return 0

    def key_write(self, offset, value):
        """"Key writes act in the call, on the bits set in the value." """
        first = 16 if offset & 2 else 0
        for n in range(first, min(first + 16, 24)):
            if value >> (n - first) & 1:
                start, low, high = (self.reg[16 * n + k] for k in (6, 8, 10))
                if offset >= 0x18C:
                    self.voices[n].key_off(low, high)
                elif self.reg[0x1AA] & 0x8000:      # "Key on (SPUCNT bit 15 set)"
                    self.voices[n].key_on(start, self.L, low, high)

    def control_write(self, old, new):
        if (old ^ new) & 0x3C00:    # "changes bits 13-10 sets the timer to that shifted number"
            self.timer = 0x20000 >> (new >> 10 & 15)
        if new & 0x8000 == 0:       # "bit 15 clear makes all voices Idle, envelope 0"
            for voice in self.voices:
                voice.silence(IDLE)
        if new & 0x40 == 0:         # "with bit 6 clear clears the latch"
            self.latch = False

    def read(self, offset):
        """"Carried registers read back as last written, but +Ch the envelope, +Eh the repeat
        unit, 19Ch/19Eh ENDX, 1B8h/1BAh the doubled main volume." """
        number = self.refusal()
        if number:
            return number, 0
        if not self.listed(offset):
            return 3, 0
        if offset == 0x1A8:
            return 5, 0
        if offset < 0x180 and offset % 16 == 0xC:
            return 0, self.voices[offset // 16].level
        if offset < 0x180 and offset % 16 == 0xE:
            return 0, self.voices[offset // 16].repeat
        if offset in (0x19C, 0x19E):
            half = self.voices[:16] if offset == 0x19C else self.voices[16:]
            return 0, sum(voice.ended << k for k, voice in enumerate(half))
        if offset == 0x1AE:
            return 0, self.status()
        if offset in (0x1B8, 0x1BA):
            return 0, volume(self.reg[offset - 0x38]) & 0xFFFF
        return 0, self.reg[offset]

    def status(self):
        """SPUSTAT: "bit 6 is the interrupt latch, 7 the applied bit 5, 8 and 9 modes 2 and 3,
        11 capture place at or above 200h; the rest 0" """
        mode = self.applied >> 4 & 3
        return (self.applied | self.latch << 6 | (self.applied >> 5 & 1) << 7
                | (mode == 2) << 8 | (mode == 3) << 9 | (self.capture_place >= 0x200) << 11)

    def flags(self, offset):
        """A pair of flag registers, voice n in bit n."""
        return self.reg[offset] | self.reg[offset + 2] << 16

    # ---- The reports of a call that touches RAM ----

    def begin(self):
        """"If SPUCNT bits 15 and 6 are set", the IRQ address is watched in this call."""
        on = self.reg[0x1AA] & 0x8040 == 0x8040
        self.watched = unit_address(self.reg[0x1A4], self.L) if on else None
        self.at_first = (self.latch, self.doubt)

    def reports(self):
        """(irq, doubt): "the call that sets it reports it, later ones do not" """
        latch, doubt = self.at_first
        return int(self.latch and not latch), int(self.doubt and not doubt)

    # ---- One tick, in order ----

    def tick(self, cd_left, cd_right):
        number = self.refusal(ram=True, marks=True)
        if number:
            return number, 0, 0, 0, 0, 0
        self.begin()
        before, reg = self.tick_number, self.reg
        self.applied = reg[0x1AA] & 0x3F            # "SPUSTAT bits 5-0 take SPUCNT's."
        self.noise_step()
        amplitudes = self.voices_step()
        cd = (times(cd_left, s16(reg[0x1B0])), times(cd_right, s16(reg[0x1B2])))
        sums = (self.side_sums(amplitudes, 0), self.side_sums(amplitudes, 1))
        left, right = (self.mix(side, sums[side][0], cd[side]) for side in (0, 1))
        self.capture((cd_left, cd_right, amplitudes[1], amplitudes[3]))
        self.reverb_turn(sums[self.turn][1], cd[self.turn])
        self.tick_number = (before + 1) % 0x100000000       # "passes from FFFFFFFFh to 0"
        return (0, before, left, right) + self.reports()

    def noise_step(self):
        """"Timer less (4 + SPUCNT bits 9-8). Below zero: ... then add 20000h shifted right by
        bits 13-10 until not negative." """
        control = self.reg[0x1AA]
        self.timer -= 4 + (control >> 8 & 3)
        if self.timer < 0:
            self.noise = next_noise(self.noise)
            while self.timer < 0:
                self.timer += 0x20000 >> (control >> 10 & 15)

    def voices_step(self):
        """"Voices 0 to 23", one after the other, as docs/DECISIONS.md, Voice, reads it; the 24
        amplitudes."""
        reg, pmon, non = self.reg, self.flags(0x190), self.flags(0x194)
        amplitudes = [0] * 24
        for n, voice in enumerate(self.voices):
            if voice.phase != IDLE:
                at = 16 * n
                below = amplitudes[n - 1] if n > 0 and pmon >> n & 1 else None
                noise = self.noise if non >> n & 1 else None
                amplitudes[n] = voice.tick(self, reg[at + 4], reg[at + 8], reg[at + 10],
                                           below, noise)
        return amplitudes

    def side_sums(self, amplitudes, side):
        """"Side = amplitude*volume/8000h": the sum of all voices' and of EON voices' sides."""
        eon = self.flags(0x198)
        voices = echoing = 0
        for n, amplitude in enumerate(amplitudes):
            if amplitude:                           # the side of 0 is 0
                part = times(amplitude, volume(self.reg[16 * n + 2 * side]))
                voices += part
                echoing += part if eon >> n & 1 else 0
        return voices, echoing

    def mix(self, side, voices, cd):
        """"Voices sum to a saturated total, zeroed in the mix when SPUCNT bit 14 is clear, as
        is reverb output. CD*volume/8000h joins if bit 0." """
        control = self.reg[0x1AA]
        total = 0
        if control & 0x4000:
            total += saturate(voices) + self.held[side]
        if control & 1:
            total += cd
        return answer(total, self.reg[0x180 + 2 * side])

    def capture(self, values):
        """"go to 000h, 400h, 800h, C00h plus the place; the place moves 2, from 3FEh to 0" """
        for k, value in enumerate(values):
            self.store(0x400 * k + self.capture_place, value)
        self.capture_place = (self.capture_place + 2) % 0x400

    def reverb_turn(self, echoing, cd):
        """"Left on the first tick, right on the next, by turns; the place moves 2 after right,
        from L-2 to the base." "input is the saturated sum of EON voices' sides and, if bits 0
        and 2, CD after its volume" """
        taken = saturate(echoing + (cd if self.reg[0x1AA] & 5 == 5 else 0))
        self.held[self.turn] = self.reverb_output(self.turn, taken)
        if self.turn == 1:
            self.reverb_place += 2
            if self.reverb_place == self.L:
                self.reverb_place = unit_address(self.reg[0x1A2], self.L)
        self.turn = 1 - self.turn

    def reverb_output(self, side, taken):
        """000's formula for one side (0 is left), statement by statement.  "only stored
        halfwords (x of each all-pass, used on, written or not) and the output saturate" """
        reg, L, place = self.reg, self.L, self.reverb_place
        base = unit_address(reg[0x1A2], L)
        v_out = s16(reg[0x184 + 2 * side])
        writes = reg[0x1AA] & 0x80 != 0     # "SPUCNT bit 7 clear: nothing is written."
        counted = writes or v_out != 0      # else "bit 7 is clear and ... output volume is 0"

        def v(offset):                      # a volume
            return s16(reg[offset])

        def m(offset):                      # a displacement in bytes
            return reg[offset] * 8

        def where(displacement):
            """"base + ((place - base + displacement ...) modulo (L - base))" """
            return base + (place - base + displacement) % (L - base)

        def get(displacement):
            return s16(self.fetch(where(displacement), counted))

        def put(displacement, x):
            if writes:
                self.store(where(displacement), x)

        def reflection(target, source):
            """[m] = (Lin + [d]*vWALL - [m-2])*vIIR + [m-2]"""
            inner = l_in + times(get(source), v(0x1CE)) - get(target - 2)
            put(target, saturate(times(inner, v(0x1C4)) + get(target - 2)))

        def all_pass(out, gain, target, back):
            """Lout=Lout-vAPF*[mAPF-dAPF], [mAPF]=Lout, Lout=Lout*vAPF+[mAPF-dAPF]"""
            x = saturate(out - times(gain, get(target - back)))
            put(target, x)
            return times(x, gain) + get(target - back)

        own, other = 2 * side, 2 - 2 * side
        l_in = times(v(0x1FC + own), taken)
        reflection(m(0x1D4 + own), m(0x1E0 + own))              # mSAME from dSAME
        reflection(m(0x1E4 + own), m(0x1F0 + other))            # mDIFF from the other dDIFF
        out = times(v(0x1C6), get(m(0x1D8 + own)))              # the four combs
        out += times(v(0x1C8), get(m(0x1DC + own)))
        out += times(v(0x1CA), get(m(0x1E8 + own)))
        out += times(v(0x1CC), get(m(0x1EC + own)))
        out = all_pass(out, v(0x1D0), m(0x1F4 + own), m(0x1C0))
        out = all_pass(out, v(0x1D2), m(0x1F8 + own), m(0x1C2))
        return saturate(times(out, v_out))

    # ---- Other calls ----

    def transfer_refusal(self, count, modes):
        number = self.refusal(ram=True, marks=True)
        if number:
            return number
        if self.applied >> 4 & 3 not in modes:
            return 6
        return 0 if 1 <= count <= 32 else 7

    def next_transfer_address(self):
        """"2 a halfword, wrapping" """
        address = self.transfer_address
        self.transfer_address = (address + 2) % self.L
        return address

    def transfer_in(self, values):
        number = self.transfer_refusal(len(values), (1, 2))
        if number:
            return number, 0, 0, 0
        self.begin()
        for value in values:
            self.store(self.next_transfer_address(), value)
        return (0, len(values)) + self.reports()

    def transfer_out(self, buffer):
        number = self.transfer_refusal(len(buffer), (3,))
        if number:
            return number, 0, 0, 0
        self.begin()
        for k in range(len(buffer)):
            buffer[k] = self.fetch(self.next_transfer_address())
        return (0, len(buffer)) + self.reports()

    def block_view(self, address):
        """8: "block address odd, not a multiple of 8, or beyond L-16"; "not counted" """
        number = self.refusal(ram=True)
        if number == 0 and (address % 8 or not 0 <= address <= self.L - 16):
            number = 8
        return (number, b"") if number else (0, bytes(self.ram[address:address + 16]))

    def tick_floats(self, cd_left, cd_right):
        """"the pair as 32-bit floats, each sample divided by 32768, exactly" """
        number, before, left, right, irq, doubt = self.tick(cd_left, cd_right)
        return number, before, left / 32768, right / 32768, irq, doubt
