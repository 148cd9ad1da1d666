"""Makes the examples: the samples, as ADPCM blocks, sound banks of them, and the scripts, from notes.

    python3 -B examples/make.py             writes the files
    python3 -B examples/make.py --check     says whether they are up to date; exit status 1 if they are not
"""
import math
import pathlib
import random
import struct
import sys
from typing import NamedTuple, Optional

HERE = pathlib.Path(__file__).parent
RATE = 44100                        # ticks in a second; a voice at pitch 1000h plays as many samples

# ---- ADPCM: 28 samples in a block of 16 bytes

BLOCK = 28
END, REPEAT, START = 1, 2, 4        # the flags, in a block's second byte
FILTERS = ((0, 0), (60, 0), (115, -52), (98, -55), (122, -60))


def saturate(x):
    return max(-0x8000, min(0x7FFF, x))


def encode_block(samples, number, shift, old, older):
    """(squared error, filter, shift, nibbles, old, older): each nibble is the nearest to its sample."""
    k0, k1 = FILTERS[number]
    step = 1 << (12 - shift)
    error, nibbles = 0, []
    for sample in samples:
        guess = (old * k0 + older * k1 + 32) // 64
        nibble = max(-8, min(7, (sample - guess + step // 2) // step))
        old, older = saturate(nibble * step + guess), old
        error += (sample - old) ** 2
        nibbles.append(nibble)
    return error, number, shift, nibbles, old, older


def best_block(samples, old, older, filters):
    """The filter and the shift with the least squared error."""
    return min(encode_block(samples, number, shift, old, older) for number in filters for shift in range(13))


def block_bytes(number, shift, flags, nibbles):
    pairs = zip(nibbles[::2], nibbles[1::2])
    return bytes((number << 4 | shift, flags, *(low & 15 | (high & 15) << 4 for low, high in pairs)))


def encode(samples, loop=None, end_flag=True):
    """The blocks of a sound that repeats from sample loop on, or plays once (None).

    The first block of a loop takes filter 0, which looks at no sample before it, so every round sounds the same.
    end_flag=False leaves the last block's end flag out: the voice runs on into whatever lies behind.
    """
    blocks, old, older = b"", 0, 0
    for at in range(0, len(samples), BLOCK):
        first, last = at == loop, at + BLOCK >= len(samples)
        piece = (samples[at:at + BLOCK] + [0] * BLOCK)[:BLOCK]
        _, number, shift, nibbles, old, older = best_block(piece, old, older, (0,) if first else range(5))
        flags = START if first else 0
        if last and end_flag:
            flags |= END if loop is None else END | REPEAT
        blocks += block_bytes(number, shift, flags, nibbles)
    return blocks


# ---- waves: lists of numbers of any size

def sines(phase, partials):
    """Partials {number: strength}, at a phase counted in cycles."""
    return sum(strength * math.sin(2 * math.pi * number * phase) for number, strength in partials.items())


def one_cycle(length, partials):
    return [sines(i / length, partials) for i in range(length)]


def flute_wave(length):
    """A sine with a little of the next three partials."""
    return one_cycle(length, {1: 1, 2: 0.22, 3: 0.12, 4: 0.03})


def saw_wave(length):
    """A sawtooth of 14 partials, the high ones softened."""
    return one_cycle(length, {k: math.exp(-k / 9) / k for k in range(1, 15)})


def pluck_wave(length, cycles):
    """A string: the higher a partial, the sooner it dies. The last cycle repeats; the envelope fades it."""
    def strengths(cycle):
        return {k: math.exp(-5 * (k - 1) * cycle / cycles) / k for k in range(1, 13)}
    return [sines(i / length, strengths(min(i / length, cycles - 1))) for i in range(length * cycles)]


def bell_wave(length, cycles):
    """A metal bar: a sine, its phase shaken 3.5 times as fast. The shaking dies, and the last cycle is a sine."""
    def at(phase):
        shake = 2.2 * math.exp(-6 * phase / cycles) if phase < cycles - 1 else 0
        return math.sin(2 * math.pi * phase + shake * math.sin(2 * math.pi * 3.5 * phase))
    return [at(i / length) for i in range(length * cycles)]


def strike(wave, rate, start, strength, hertz, seconds):
    """Adds a tone to a wave, struck at start; after so many seconds a third of it is left."""
    first = round(start * rate)
    for i in range(first, min(len(wave), first + round(7 * seconds * rate))):
        t = (i - first) / rate
        wave[i] += strength * math.exp(-t / seconds) * math.sin(2 * math.pi * hertz * t)


def creak(wave, rate, until, chance):
    """A hinge that sticks and slips, slowly, faster, slowly again. Each slip strikes the wood."""
    slip = 0.0
    while slip < until:
        way = slip / until
        swell = 0.15 + 0.35 * math.sin(math.pi * way)
        strike(wave, rate, slip, swell, 620 + 260 * way, 0.006)
        strike(wave, rate, slip, swell / 2, 1480 + 300 * way, 0.004)
        slip += (1 + 0.25 * chance.random()) / (45 + 65 * math.sin(math.pi * way))


def slam(wave, rate, start, chance):
    """The leaf, the frame, the latch, and the air between them."""
    strike(wave, rate, start, 1.3, 78, 0.06)
    strike(wave, rate, start, 0.6, 187, 0.03)
    strike(wave, rate, start + 0.03, 0.3, 1150, 0.008)
    for i in range(round(start * rate), len(wave)):
        wave[i] += 0.5 * math.exp(-(i / rate - start) / 0.02) * chance.uniform(-1, 1)


def door_wave(rate, seconds=0.95, shuts=0.62):
    """A door that creaks and falls shut; it fades to silence at its end."""
    chance = random.Random(1996)
    wave = [0.0] * round(rate * seconds)
    creak(wave, rate, shuts - 0.1, chance)
    slam(wave, rate, shuts, chance)
    return [x * min(1, (len(wave) - i) / (0.08 * rate)) for i, x in enumerate(wave)]


# ---- samples

class Sample(NamedTuple):
    file: Optional[str]             # None: the scripts carry it in lines s
    blocks: bytes
    cycle: int = 0                  # samples in a cycle of its wave, where it has a pitch


def scaled(wave, peak=28000):
    most = max(abs(x) for x in wave)
    return [round(x * peak / most) for x in wave]


def looped(file, wave, cycle, peak=28000):
    """A sample whose last cycle repeats."""
    return Sample(file, encode(scaled(wave, peak), loop=len(wave) - cycle), cycle)


SINE = looped(None, one_cycle(112, {1: 1}), 112)
FLUTE = looped("flute.adpcm", flute_wave(112), 112)
SAW = looped("saw.adpcm", saw_wave(112), 112)
PLUCK = looped("pluck.adpcm", pluck_wave(56, 48), 56)
BELL = looped("bell.adpcm", bell_wave(56, 64), 56)
TREMBLE = looped("tremble.adpcm", one_cycle(28, {1: 1}), 28, peak=448)     # as a modulator: a quarter of a half tone
LEVEL = Sample("level.adpcm", encode([0x7000] * BLOCK, loop=0))            # as a modulator: nearly an octave up
SILENCE = Sample("silence.adpcm", encode([0] * BLOCK, loop=0))
DOOR = Sample("door.adpcm", encode(scaled(door_wave(RATE // 4)), end_flag=False))
ZEROS = Sample("zeros.bin", bytes(4096))
FILES = (FLUTE, SAW, PLUCK, BELL, TREMBLE, LEVEL, SILENCE, DOOR, ZEROS)

# ---- sound banks: a header, which says where each sound stands, and the sounds

SOUND, ALIAS = 0, 1                 # the kinds of an entry


def bank(*entries):
    """A sample is a sound; a number is an alias of the entry that has it. Sounds begin at multiples of 16."""
    header, data = struct.pack("<H", len(entries)), b""
    first = (2 + 10 * len(entries) + 15) // 16 * 16
    for entry in entries:
        if isinstance(entry, Sample):
            header += struct.pack("<HII", SOUND, first + len(data), len(entry.blocks) // 16)
            data += entry.blocks
        else:
            header += struct.pack("<HII", ALIAS, entry, 0)
    return header.ljust(first, b"\0") + data


BANKS = {"title.bank": bank(FLUTE, 0), "house.bank": bank(SAW, PLUCK, BELL, 0)}

# ---- notes, volumes, envelopes, noise: what the registers take

NAMES = {"C": 0, "D": 2, "E": 4, "F": 5, "G": 7, "A": 9, "B": 11}


def frequency(note):
    """Of a name like A4 (440 Hz) or F#3."""
    half_tones = NAMES[note[0]] + note.count("#") + 12 * int(note[-1])
    return 440 * 2 ** ((half_tones - 57) / 12)


def pitch(hertz, cycle):
    """At pitch 1000h a voice plays 44,100 samples a second."""
    return round(hertz * cycle * 0x1000 / RATE)


def sides(volume, pan=0.0):
    """Left and right, from a volume of 0 to 1 and a place from -1 (left) to 1 (right)."""
    angle = (pan + 1) * math.pi / 4
    return tuple(round(0x3FFF * volume * side) for side in (math.cos(angle), math.sin(angle)))


class Envelope(NamedTuple):
    low: int
    high: int
    words: str


def envelope(attack, sustain=None, release=11):
    """From the shifts of attack, sustain and release; sustain None holds the level. The decay is next to nothing.

    An attack of shift n takes 106 ms * 2^(n-11). Falls are exponential: after 93 ms * 2^(n-11) a third is left.
    """
    held = sustain is None
    fall = "hold" if held else f"fall {93 * 2 ** (sustain - 11):.3g} ms"
    return Envelope(attack << 10 | 0xFF, (0x1FC0 if held else 0xC000 | sustain << 8) | 0x20 | release,
                    f"attack {106 * 2 ** (attack - 11):.3g} ms, {fall}, release {93 * 2 ** (release - 11):.3g} ms")


def noise(shift, step):
    """The speed of the noise, a part of SPUCNT: the higher, the brighter."""
    return shift << 10 | step << 8


# ---- scripts

ON, REVERB, INWARD = 0xC000, 0x80, 0x10     # SPUCNT: chip and sound on; the reverb writes; transfers inward
SAMPLES_FROM = 0x1000                       # below lie the captures, which the chip writes by itself


def listed(numbers):
    """voice 3; voices 3 and 5; voices 3 to 5"""
    *head, last = numbers
    if not head:
        return f"voice {last}"
    if len(head) > 1 and last - head[0] == len(head):
        return f"voices {head[0]} to {last}"
    return f"voices {', '.join(map(str, head))} and {last}"


class Script:
    """The lines of a script, and where its samples lie in sound RAM."""

    def __init__(self, *head):
        self.lines = []
        self.free = SAMPLES_FROM
        self.places = {}
        self.say(*head)

    def say(self, *comments):
        self.lines += ["# " + comment for comment in comments]

    def part(self, *comments):
        self.lines.append("")
        self.say(*comments)

    def write(self, offset, value):
        self.lines.append(f"w {offset:X} {value:04X}")

    def wait(self, ticks):
        while ticks > 0:
            self.lines.append(f"t {min(ticks, 65535)}")
            ticks -= 65535

    def place(self, sample):
        self.places[sample] = self.free
        self.free += len(sample.blocks)
        return self.places[sample]

    def load(self, *samples):
        """Samples from their files."""
        self.part("Samples, from their files to sound RAM.")
        for sample in samples:
            self.lines.append(f"l {self.place(sample):X} samples/{sample.file}")

    def send(self, *samples):
        """Samples in lines s."""
        self.write(0x1A6, self.free // 8)
        for sample in samples:
            self.place(sample)
            halfwords = [f"{high:02X}{low:02X}" for low, high in zip(sample.blocks[::2], sample.blocks[1::2])]
            self.lines += ["s " + " ".join(halfwords[at:at + 32]) for at in range(0, len(halfwords), 32)]

    def take(self, number, sample, words):
        """A sample from the sound banks, in a line b, behind what was moved before."""
        self.place(sample)
        self.say(words)
        self.lines.append(f"b {number}")

    def main_volume(self):
        self.part("Main volume, left and right: full.")
        self.write(0x180, 0x3FFF)
        self.write(0x182, 0x3FFF)

    def control(self, bits, *comment):
        self.part("Control: the chip on, its sound on" + "".join(comment) + ".")
        self.write(0x1AA, bits)

    def voice(self, voice, sample, adsr, left, right, speed=None):
        """All of a voice, or all but its pitch."""
        self.write(0x10 * voice, left)
        self.write(0x10 * voice + 2, right)
        if speed is not None:
            self.write(0x10 * voice + 4, speed)
        self.write(0x10 * voice + 6, self.places[sample] // 8)
        self.write(0x10 * voice + 8, adsr.low)
        self.write(0x10 * voice + 0xA, adsr.high)

    def flags(self, offset, voices):
        """A bit for each voice: those of voices 16 to 23 in the second register of the pair."""
        bits = sum(1 << voice for voice in set(voices))
        if bits & 0xFFFF:
            self.write(offset, bits & 0xFFFF)
        if bits >> 16:
            self.write(offset + 2, bits >> 16)

    def key_on(self, *voices):
        self.flags(0x188, voices)

    def key_off(self, *voices):
        self.flags(0x18C, voices)

    def modulated(self, *voices):
        self.part(f"Pitch modulation by the voice below: {listed(voices)}.")
        self.flags(0x190, voices)

    def noisy(self, *voices):
        self.part(f"Noise in place of the sample: {listed(voices)}.")
        self.flags(0x194, voices)


class Room(NamedTuple):
    """A reverb of the public page: the bytes of its work area, and registers 1C0h to 1FEh."""
    name: str
    size: int
    registers: str


HALL = Room("Hall", 0xADE0, """
    01A5 0139 6000 5000 4C00 B800 BC00 C000 6000 5C00 15BA 11BB 14C2 10BD 11BC 0DC1
    11C0 0DC3 0DC0 09C1 0BC4 07C1 0A00 06CD 09C2 05C1 05C0 041A 0274 013A 8000 8000""")
STUDIO = Room("Studio Large", 0x6FE0, """
    00E3 00A9 6F60 4FA8 BCE0 4510 BEF0 A680 5680 52C0 0DFB 0B58 0D09 0A3C 0BD9 0973
    0B59 08DA 08D9 05E9 07EC 04B0 06EF 03D2 05EA 031D 031C 0238 0154 00AA 8000 8000""")


def set_reverb(script, room, volume, voices):
    """The work area lies at the top of sound RAM and is rounded up to whole files of zeros."""
    zeros = len(ZEROS.blocks)
    base = 0x80000 - (room.size + zeros - 1) // zeros * zeros
    script.part(f"Reverb: {room.name}. Its work area, {base:X}h to 7FFFFh, has to be loaded, too: zeros.",
                "The reverb reads it before it writes there, and what lies there is heard.")
    for address in range(base, 0x80000, zeros):
        script.lines.append(f"l {address:X} samples/{ZEROS.file}")
    script.say("The work area's address / 8, and the room.")
    script.write(0x1A2, base // 8)
    for k, value in enumerate(room.registers.split()):
        script.write(0x1C0 + 2 * k, int(value, 16))
    script.say("How loud it is, left and right, and which voices go into it.")
    script.write(0x184, round(0x7FFF * volume))
    script.write(0x186, round(0x7FFF * volume))
    script.flags(0x198, voices)


# ---- scores: what happens at which tick

class Moment:
    def __init__(self):
        self.title, self.words, self.writes, self.on, self.off = "", {}, [], [], []

    def comment(self):
        parts = [" ".join([name, *notes]) for name, notes in self.words.items()]
        return self.title + ", ".join(parts)


class Score:
    """Notes in any order. play writes their lines, in the order of time, behind those that the script has."""

    def __init__(self, script):
        self.script = script
        self.moments = {}

    def at(self, tick):
        return self.moments.setdefault(round(tick), Moment())

    def title(self, tick, words):
        self.at(tick).title = words + ": "

    def write(self, tick, offset, value):
        self.at(tick).writes.append((offset, value))

    def key_on(self, tick, name, note, *voices):
        self.at(tick).words.setdefault(name, []).extend(note.split())
        self.at(tick).on += voices

    def key_off(self, tick, *voices):
        self.at(tick).off += voices

    def play(self, until):
        now = 0
        for tick, moment in sorted(self.moments.items()):
            self.script.wait(tick - now)
            self.play_moment(moment)
            now = tick
        self.script.wait(round(until) - now)

    def play_moment(self, moment):
        if moment.title:
            self.script.part(moment.comment())
        elif moment.words:
            self.script.say(moment.comment())
        self.script.key_off(*moment.off)
        for offset, value in moment.writes:
            self.script.write(offset, value)
        self.script.key_on(*moment.on)


class Part:
    """An instrument: a sample with an envelope. Its voices take the notes by turns, so that one rings on while the
    next one starts."""

    def __init__(self, score, name, sample, adsr, voices, volume, pans=(0,)):
        self.score, self.name, self.sample, self.voices, self.turn = score, name, sample, voices, 0
        score.script.part(f"{name}, {listed(voices)}: volume left and right, start address / 8,",
                          f"envelope ({adsr.words}).")
        for k, voice in enumerate(voices):
            score.script.voice(voice, sample, adsr, *sides(volume, pans[k % len(pans)]))

    def note(self, tick, note, ticks, shaken=False):
        """A note that is held for some ticks. shaken: the voice below is keyed with it."""
        voice = self.voices[self.turn % len(self.voices)]
        self.turn += 1
        keyed = (voice - 1, voice) if shaken else (voice,)
        self.score.write(tick, 0x10 * voice + 4, pitch(frequency(note), self.sample.cycle))
        self.score.key_on(tick, self.name, note, *keyed)
        self.score.key_off(tick + ticks, *keyed)


class Drums:
    """Kick, snare and cymbals on voices 0 to 5. All noise has one speed, so each stroke sets it."""

    BEND, KICK, SKIN, WIRES, HAT, CRASH = range(6)
    NOISY = (WIRES, HAT, CRASH)

    def __init__(self, score, control, sine, volume):
        self.score, self.control = score, control
        script = score.script
        script.part("kick, voice 1: a low tone, bent down by voice 0, which is not heard: a level that falls.")
        script.voice(self.BEND, LEVEL, envelope(attack=0, sustain=9), 0, 0, 0x1000)
        script.voice(self.KICK, sine, envelope(attack=4, sustain=11), *sides(volume), pitch(50, sine.cycle))
        script.part("snare, voices 2 and 3: its skin, a short tone, and its wires, noise.",
                    "A voice that plays noise reads a sample all the same: a silent one that repeats.")
        script.voice(self.SKIN, sine, envelope(attack=2, sustain=9), *sides(volume * 0.5, -0.2), pitch(196, sine.cycle))
        script.voice(self.WIRES, SILENCE, envelope(attack=2, sustain=10), *sides(volume * 0.35, -0.2))
        script.part("hat and crash, voices 4 and 5: noise, short and long.")
        script.voice(self.HAT, SILENCE, envelope(attack=2, sustain=8), *sides(volume * 0.15, 0.5))
        script.voice(self.CRASH, SILENCE, envelope(attack=4, sustain=13), *sides(volume * 0.2, 0.3))

    def stroke(self, tick, name, speed, *voices):
        self.score.write(tick, 0x1AA, self.control | speed)
        self.score.key_on(tick, name, "", *voices)

    def kick(self, tick):
        self.score.key_on(tick, "kick", "", self.BEND, self.KICK)

    def snare(self, tick):
        self.stroke(tick, "snare", noise(14, 0), self.SKIN, self.WIRES)

    def hat(self, tick):
        self.stroke(tick, "hat", noise(15, 0), self.HAT)

    def crash(self, tick):
        self.stroke(tick, "crash", noise(14, 2), self.CRASH)


# ---- the short examples

NO_FILE = "It needs no file and 64 KiB of sound RAM. Without comments and blank lines the program bench plays it, too."


def tone():
    script = Script("tone.txt: one tone, the A above middle C (440 Hz).",
                    "Listen for: a soft start, a steady tone in the middle, a soft end.", NO_FILE)
    script.main_volume()
    script.control(ON | INWARD, ", transfers to sound RAM, which are on from the next tick")
    script.wait(1)
    script.part("The transfer address / 8, and the wave: one cycle of a sine in four blocks, which repeat.")
    script.send(SINE)
    adsr = envelope(attack=11)
    script.part(f"Voice 0: volume left and right, pitch, start address / 8, envelope ({adsr.words}).",
                f"Pitch 1000h plays 44,100 samples a second. The wave has {SINE.cycle}, which gives 394 Hz.",
                "So 11E1h gives 440 Hz.")
    script.voice(0, SINE, adsr, *sides(0.9), pitch(frequency("A4"), SINE.cycle))
    script.part("Key on: a second and a half of sound.")
    script.key_on(0)
    script.wait(3 * RATE // 2)
    script.part("Key off: the tone dies away.")
    script.key_off(0)
    script.wait(RATE // 2)
    return script


def chord():
    script = Script("chord.txt: one chord (F major with a seventh and a ninth) three times, with three envelopes.",
                    "Listen for: strings that swell and fade, an organ that is there and gone,",
                    "a harp that fades by itself.")
    script.main_volume()
    script.load(SAW, FLUTE, PLUCK)
    score = Score(script)
    pans = (0, -0.7, 0.7, -0.4, 0.4)
    strings = Part(score, "strings", SAW, envelope(attack=14, release=12), range(0, 5), 0.26, pans)
    organ = Part(score, "organ", FLUTE, envelope(attack=6, release=8), range(5, 10), 0.22, pans)
    harp = Part(score, "harp", PLUCK, envelope(attack=3, sustain=14), range(10, 15), 0.32, pans)
    script.control(ON)
    script.part("The music: pitch, key on; later key off.")
    for k, note in enumerate(("F2", "C3", "A3", "E4", "G4")):
        strings.note(0, note, 1.6 * RATE)
        organ.note(2.5 * RATE, note, 1.2 * RATE)
        harp.note((4.0 + 0.1 * k) * RATE, note, (2.7 - 0.1 * k) * RATE)
    score.play(7.25 * RATE)
    return script


def drums():
    script = Script("drums.txt: two bars of drums, made of noise and a sine.",
                    "Listen for: the kick that falls, the snare on 2 and 4, the hat on the right,",
                    "the toms that roll down on the left, the crash at the end.", NO_FILE)
    script.main_volume()
    script.control(ON | INWARD, ", transfers to sound RAM, which are on from the next tick")
    script.wait(1)
    script.part("The transfer address / 8, and three waves that repeat: a level, silence, a sine.")
    script.send(LEVEL, SILENCE, SINE)
    score = Score(script)
    kit = Drums(score, ON | INWARD, SINE, 0.8)
    tom = 6
    script.part("tom, voice 6: noise, slower with each stroke.")
    script.voice(tom, SILENCE, envelope(attack=2, sustain=11), *sides(0.4, -0.4))
    script.modulated(kit.KICK)
    script.noisy(*kit.NOISY, tom)
    eighth = RATE // 4
    script.part("The music, in eighths of 11025 ticks (120 quarters a minute): the noise's speed in 1AAh, key on.")
    play_beats(kit, 0, eighth, kicks=(0, 3, 4), snares=(2, 6), hats=(0, 1, 3, 4, 5, 7))
    play_beats(kit, 8 * eighth, eighth, kicks=(0, 3), snares=(2,), hats=(0, 1, 3))
    for k in range(8):
        kit.stroke((12 + k / 2) * eighth, "tom", noise(13 - k // 2, 3 - k % 2 * 2), tom)
    kit.kick(16 * eighth)
    kit.crash(16 * eighth)
    for number, words in enumerate(("bar 1", "bar 2", "the end")):
        score.title(8 * number * eighth, words)
    score.play(22 * eighth)
    return script


def play_beats(kit, start, eighth, kicks, snares, hats):
    for strike_drum, beats in ((kit.kick, kicks), (kit.snare, snares), (kit.hat, hats)):
        for beat in beats:
            strike_drum(start + beat * eighth)


def hall():
    script = Script("hall.txt: bells in a hall.",
                    "Listen for: bells on both sides, the hall's answer to each, and its tail after the last one.")
    script.main_volume()
    script.load(BELL)
    voices = range(0, 8)
    set_reverb(script, HALL, 0.6, voices)
    score = Score(script)
    bell = Part(score, "bell", BELL, envelope(attack=2, sustain=13, release=12), voices, 0.36,
                (-0.8, 0.8, -0.5, 0.5, -0.2, 0.2, -0.6, 0.6))
    script.control(ON | REVERB, ", the reverb may write")
    step = RATE // 6
    script.part("The music: pitch, key on; later key off.")
    for k, note in enumerate("E4 B4 F#5 G5 B5 F#5 G5 D5 C4 G4 D5 E5 G5 D5 B4 G4 A4 E5 B5 E6".split()):
        bell.note(k * step, note, 7 * step)
    score.play(6.5 * RATE)
    return script


def door():
    script = Script("door.txt: a door that creaks and falls shut. The last block of its sample lacks the end flag.",
                    "Listen for: the silence after it. The voice runs on into sound RAM that nobody loaded.",
                    "Here that is silent; a console plays whatever lies there. render says from which tick on.")
    script.main_volume()
    script.load(DOOR)
    script.part("To mend it, load a silent block that repeats behind it: take the # from the next line.")
    script.say(f"l {script.free:X} samples/{SILENCE.file}")
    script.part("Voice 0: volume left and right, pitch (11,025 samples a second), start address / 8, envelope.")
    script.voice(0, DOOR, envelope(attack=0), *sides(1, 0.2), 0x400)
    script.control(ON)
    script.part("The door creaks, and falls shut.")
    script.key_on(0)
    script.wait(RATE)
    script.part("Nobody keys the voice off: it plays what lies behind the door.")
    script.wait(RATE)
    return script


def banks():
    script = Script("banks.txt: a flute, a bell and strings, from two sound banks.",
                    "Listen for: the flute, which this title brings; bell and strings are the house's.",
                    "It needs the options --title examples/samples/title.bank --house examples/samples/house.bank.")
    script.main_volume()
    script.control(ON | INWARD, ", transfers to sound RAM, which are on from the next tick")
    script.wait(1)
    script.part("The transfer address / 8, and the sounds, one behind the other.")
    script.write(0x1A6, script.free // 8)
    script.take(1, FLUTE, "1 is in the title's bank, an alias of 0 there: the flute. The house's 1, a harp, is not used.")
    script.take(2, BELL, "2 is in the house's bank alone: the bell.")
    script.take(3, SAW, "3 is in the house's bank alone, an alias of 0 there: the strings.")
    score = Score(script)
    flute = Part(score, "flute", FLUTE, envelope(attack=9, release=11), (0, 1), 0.3, (0.2,))
    bell = Part(score, "bell", BELL, envelope(attack=2, sustain=13, release=12), range(2, 6), 0.3, (-0.7, 0.7))
    strings = Part(score, "strings", SAW, envelope(attack=12, release=12), range(6, 12), 0.1, (-0.8, 0, 0.8))
    beat = 2 * RATE // 5
    script.part("The music: pitch, key on; later key off.")
    for bar, notes in enumerate(("A3 C4 E4", "A3 C4 F4", "B3 D4 G4", "A3 C#4 E4")):
        for note in notes.split():
            strings.note(4 * bar * beat, note, 3.8 * beat)
    for at, note, beats in ((0, "E5", 2), (2, "A5", 1), (3, "B5", 1), (4, "C6", 3), (7, "A5", 1), (8, "B5", 2),
                            (10, "G5", 1), (11, "D5", 1), (12, "E5", 3)):
        flute.note(at * beat, note, (beats - 0.2) * beat)
    for at, note in ((1, "A5"), (5, "F5"), (6, "C6"), (9, "D6"), (13, "A5"), (13.5, "C#6"), (14, "E6"), (14.5, "A6")):
        bell.note(at * beat, note, 2 * beat)
    score.play(18 * beat)
    return script


# ---- the song

EIGHTH = RATE // 5                  # 150 quarters a minute
BAR = 8 * EIGHTH


def held(eighths):
    """Notes end a little early."""
    return (eighths - 0.2) * EIGHTH



# A bar's chord: its name, bass (root and fifth), strings, harp.
CHORDS = (
    ("Cmaj7", "C2 G2", "G3 B3 E4", "C4 E4 G4 B4"),
    ("D", "D2 A2", "F#3 A3 D4", "D4 F#4 A4 D5"),
    ("Bm7", "B1 F#2", "F#3 A3 D4", "B3 D4 F#4 A4"),
    ("Em7", "E2 B2", "G3 B3 D4", "E4 G4 B4 D5"),
    ("Am7", "A1 E2", "G3 C4 E4", "A3 C4 E4 G4"),
    ("D7", "D2 A2", "A3 C4 D4", "D4 A4 C5 D5"),
)
LAST = len(CHORDS)                  # the bar of the last chord, G

# The melody, bar by bar: note and eighths.
MELODY = (
    "B4 3 C5 1 D5 2 G5 2",
    "F#5 3 E5 1 D5 2 A4 2",
    "D5 3 E5 1 F#5 2 B5 2",
    "A5 3 G5 1 E5 2 D5 2",
    "C5 1 E5 1 G5 2 F#5 1 G5 1 A5 2",
    "G5 2 F#5 1 E5 1 F#5 2 A5 1 C6 1",
    "B5 8",
)

# The bells' answers: bar and eighth, from 0, and note.
BELLS = ((1, 5, "A5"), (1, 6, "D6"), (1, 7, "F#6"), (3, 5, "B5"), (3, 6, "E6"), (3, 7, "G6"),
         (LAST, 1, "D5"), (LAST, 2, "G5"), (LAST, 3, "A5"), (LAST, 4, "D6"), (LAST, 6, "G6"))


def play_melody(flute):
    for bar, line in enumerate(MELODY):
        tick, words = bar * BAR, line.split()
        for note, eighths in zip(words[::2], map(int, words[1::2])):
            flute.note(tick, note, held(eighths), shaken=True)
            tick += eighths * EIGHTH


def play_chords(strings, harp, bass):
    for bar, (_, roots, chord_notes, harp_notes) in enumerate(CHORDS):
        start = bar * BAR
        root, fifth = roots.split()
        for eighth, note, eighths in ((0, root, 3), (3, root, 1), (4, fifth, 2), (6, root, 2)):
            bass.note(start + eighth * EIGHTH, note, held(eighths))
        for note in chord_notes.split():
            strings.note(start, note, held(8))
        for eighth, k in enumerate((0, 1, 2, 3, 2, 3, 2, 1)):
            harp.note(start + eighth * EIGHTH, harp_notes.split()[k], held(3))


def play_last_chord(strings, harp, bass):
    start = LAST * BAR
    bass.note(start, "G1", held(9))
    for note in ("G3", "B3", "D4"):
        strings.note(start, note, held(9))
    for k, note in enumerate(("G3", "D4", "G4", "B4")):
        harp.note(start + k * EIGHTH / 4, note, held(9 - k / 4))


def play_drums(kit):
    hats = (0, 1, 2, 3, 5, 6, 7)
    for bar in (0, 1):
        play_beats(kit, bar * BAR, EIGHTH, kicks=(0, 3), snares=(), hats=hats)
    for bar in range(2, LAST - 1):
        play_beats(kit, bar * BAR, EIGHTH, kicks=(0, 3, 6), snares=(4,), hats=hats)
    play_beats(kit, (LAST - 1) * BAR, EIGHTH, kicks=(0, 3), snares=(4, 6, 6.5, 7, 7.5), hats=(0, 1, 2, 3, 5))
    kit.kick(LAST * BAR)
    kit.crash(LAST * BAR)


def song():
    script = Script(
        "song.txt: a small tune for flute, harp, bells, strings, bass and drums.",
        "Listen for: the flute that begins to tremble late in a note (the voice below shakes its pitch), the harp that",
        "walks from side to side, the bells' answers in bars 2 and 4, the snare from bar 3 on, the last chord's tail.")
    script.main_volume()
    script.load(FLUTE, SAW, PLUCK, BELL, TREMBLE, LEVEL, SILENCE)
    set_reverb(script, STUDIO, 0.36, (Drums.WIRES, 7, 9, *range(10, 22)))
    score = Score(script)
    kit = Drums(score, ON | REVERB, FLUTE, 0.45)
    script.part("tremble, voices 6 and 8: not heard, a slow wave (5.5 Hz) that swells.")
    for voice in (6, 8):
        script.voice(voice, TREMBLE, envelope(attack=13, release=8), 0, 0, pitch(5.5, TREMBLE.cycle))
    flute = Part(score, "flute", FLUTE, envelope(attack=9, release=10), (7, 9), 0.25, (0.1,))
    strings = Part(score, "strings", SAW, envelope(attack=13, release=12), range(10, 16), 0.09, (-0.8, 0.8, 0))
    harp = Part(score, "harp", PLUCK, envelope(attack=3, sustain=12), range(16, 20), 0.21, (-0.7, -0.2, 0.7, 0.2))
    bells = Part(score, "bell", BELL, envelope(attack=2, sustain=13, release=12), (20, 21), 0.14, (-0.5, 0.5))
    bass = Part(score, "bass", SAW, envelope(attack=5, sustain=14, release=10), (22, 23), 0.24)
    script.modulated(kit.KICK, *flute.voices)
    script.noisy(*kit.NOISY)
    script.control(ON | REVERB, ", the reverb may write")
    script.part("The music, in eighths of 8820 ticks (150 quarters a minute): pitch, key on; later key off.")
    play_melody(flute)
    play_chords(strings, harp, bass)
    play_last_chord(strings, harp, bass)
    for bar, eighth, note in BELLS:
        bells.note(bar * BAR + eighth * EIGHTH, note, held(2))
    play_drums(kit)
    for bar, name in enumerate([name for name, *_ in CHORDS] + ["G"]):
        score.title(bar * BAR, f"bar {bar + 1}, {name}")
    score.play(14 * RATE)
    return script


# ---- files

EXAMPLES = (tone, chord, drums, hall, door, banks, song)


def contents():
    """What each file holds, by its name."""
    made = {f"samples/{sample.file}": sample.blocks for sample in FILES}
    made.update({f"samples/{name}": content for name, content in BANKS.items()})
    for example in EXAMPLES:
        made[f"{example.__name__}.txt"] = "".join(line + "\n" for line in example().lines).encode()
    return made


def write(made):
    (HERE / "samples").mkdir(exist_ok=True)
    for name, content in made.items():
        (HERE / name).write_bytes(content)
    return 0


def check(made):
    stale = [name for name, content in made.items()
             if not (HERE / name).is_file() or (HERE / name).read_bytes() != content]
    for name in stale:
        print(f"not up to date: {name}")
    if not stale:
        print(f"{len(made)} files are up to date")
    return 1 if stale else 0


if __name__ == "__main__":
    if sys.argv[1:] not in ([], ["--check"]):
        sys.exit("usage: make.py [--check]")
    sys.exit(check(contents()) if sys.argv[1:] else write(contents()))
