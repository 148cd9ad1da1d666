"""Random sessions through the program replay and through the reference, compared byte by byte.

    python3 -B reference/fuzz.py PROGRAM [--sessions 500] [--lines 1000] [--ticks 6000] [--seed 1]

PROGRAM is the built replay.  A session is a piece of music with mishaps: sample blocks are transferred in, voices keyed
on and off, noise, pitch modulation, reverb, CD input and interrupts come and go, and bad lines, refused calls, raw
fills and resets fall in between.  Sessions take sound RAM of both sizes by turns.  The first difference ends the run:
the session is saved beside, and the two lines are shown.
"""
import argparse
import random
import subprocess
import sys
import time

from replay import replay
from spu import SIZES

# The registers 1C0h..1FEh of the reverb "Hall".
HALL = (0x01A5, 0x0139, 0x6000, 0x5000, 0x4C00, 0xB800, 0xBC00, 0xC000, 0x6000, 0x5C00, 0x15BA, 0x11BB, 0x14C2, 0x10BD,
        0x11BC, 0x0DC1, 0x11C0, 0x0DC3, 0x0DC0, 0x09C1, 0x0BC4, 0x07C1, 0x0A00, 0x06CD, 0x09C2, 0x05C1, 0x05C0, 0x041A,
        0x0274, 0x013A, 0x8000, 0x8000)
DISPLACEMENTS = set(range(0x1D4, 0x1FC, 2)) | {0x1C0, 0x1C2}

# Values at the edges of a rule.
EDGE_VALUES = (0, 1, 2, 3, 4, 7, 0xF, 0x10, 0x7F, 0x80, 0xFF, 0x100, 0x7FF, 0x800, 0x1000, 0x3FFF, 0x4000, 0x4001, 0x5FFF,
               0x7FFF, 0x8000, 0x8001, 0xC000, 0xFFFE, 0xFFFF)
BAD_LINES = ("w", "w 180", "w 180 1 2", "w 12345 0", "w 180 12345", "w -1 0", "w 0x180 0", "W 180 0", "r", "r 180 0", "r g",
             "s", "s 1 2 g", "s 12345", "o", "o 65", "o 1 2", "o -1", "o a", "t", "t 65536", "t 1 1234", "t 1 123 1234",
             "t 1 1234 12345", "t 1 1234 1234 1", "t a", "f 65536", "f 1 0 0", "v", "v 123456789", "v 1 2", "v x", "reset 1",
             "resett", "reset\0", "ram 0", "ram 0 0", "ram 0 65", "ram 80000 1", "ram 7ffff 2", "marks 1 1", "marks 0 0",
             "marks 0 65", "marks 80000 1", "fill 0 1", "fill 0 1 100", "fill 80000 1 0", "fill 0 524289 0", "fill 0 1 0 0",
             "bad", "tt 1", " # no comment", "\0w 180 0", "w\x0b180 0", "t 99999999999999999999", "w 180 \xff")


class Session:
    def __init__(self, seed, lines, ticks):
        self.random = random.Random(seed)
        self.L = SIZES[seed % 2]
        self.left, self.ticks = lines, ticks
        self.text = []
        self.starts = []                        # units at which samples begin
        self.control = 0xC010

    def chance(self, share):
        return self.random.random() < share

    def pick(self, *choices):
        return self.random.choice(choices)

    def below(self, n):
        return self.random.randrange(n)

    def unit(self):
        """A unit within sound RAM, and now and then one past its end or near it."""
        top = self.L // 8
        return self.pick(self.below(top), self.below(top), 0, 0x80, 0x100, 0x180, top - 1, top - 2, self.below(0x10000)) & 0xFFFF

    def say(self, line):
        if self.left > 0:
            self.left -= 1
            if self.chance(0.02):
                line = self.pick(line.replace(" ", "\t"), " " + line, line + "  ", line.replace(" ", "   "), line + "\r")
            self.text.append(line)

    def write(self, offset, value):
        self.say(self.pick("w %X %X", "w %x %04x", "w %03X %04X") % (offset, value & 0xFFFF))

    def tick(self, n):
        n = min(n, self.ticks)
        self.ticks -= n
        cd = ""
        if self.chance(0.3):
            sample = lambda: self.pick(self.below(0x10000), self.below(0x10000), 0x7FFF, 0x8000, 0)
            cd = self.pick(" %04X %04X", " %04x %04x") % (sample(), sample())
        self.say("%s %s%d%s" % (self.pick("t", "t", "t", "f"), self.pick("", "", "", "00"), n, cd))

    def run_on(self):
        self.tick(self.pick(1, 1, 2, 3, 5, 8, 13, 28, 60, 150, 400))

    # ---- samples

    def blocks(self, count):
        """ADPCM blocks, as halfwords: the first begins the loop, the last ends it or mutes."""
        halfwords = []
        for k in range(count):
            shift = self.pick(self.below(13), self.below(13), self.pick(0, 12, 13, 14, 15))
            kind = self.pick(0, 1, 2, 3, 4, self.below(8))
            flags = (4 if k == 0 else 0) | (self.pick(1, 3, 3, 3) if k == count - 1 else self.pick(0, 0, 2))
            if self.chance(0.05):
                flags = self.below(256)
            halfwords.append(kind << 4 | shift | flags << 8 | self.pick(0, 0, 0x80))
            halfwords += [self.below(0x10000) for _ in range(7)]
        return halfwords

    def set_mode(self, mode):
        self.control = self.control & ~0x30 | mode << 4
        self.write(0x1AA, self.control)
        self.tick(1)

    def load_sample(self):
        unit = self.unit() if self.chance(0.8) else self.pick(self.L // 8 - 1, self.L // 8 - 2)
        self.set_mode(self.pick(1, 2, 2))
        self.write(0x1A6, unit)
        halfwords = self.blocks(self.pick(1, 2, 3, 4, 6))
        if self.chance(0.3):
            halfwords = halfwords[:-self.pick(1, 3, 8)]     # not all of it is loaded
        for k in range(0, len(halfwords), 32):
            self.say("s " + " ".join("%X" % h for h in halfwords[k:k + 32]))
        self.starts.append(unit)

    # ---- voices

    def voice(self, n=None):
        n = self.below(24) if n is None else n
        volume = lambda: self.pick(0x3FFF, 0x3FFF, 0x2000, 0x1000, 0x4000, 0x7FFF, 0x6000, self.below(0x8000))
        self.write(0x10 * n, volume())
        self.write(0x10 * n + 2, volume())
        self.write(0x10 * n + 4, self.pick(0x1000, 0x1000, 0x800, 0x1800, 0x2000, 0x3FFF, 0x4001, 0xFFFF, 0x400, self.below(0x4000)))
        self.write(0x10 * n + 6, self.pick(*self.starts) if self.starts else self.unit())
        self.write(0x10 * n + 8, self.pick(0x000F, 0x00FF, 0x80FF, 0x0003, 0x8003, 0x1F0A, self.below(0x10000), self.below(0x8000)))
        self.write(0x10 * n + 0xA, self.pick(0x0000, 0x5FC0, 0x1FC0, 0xC005, 0x8000, 0x0020, 0x4005, self.below(0x10000) & ~0x2000))
        if self.chance(0.1):
            self.write(0x10 * n + 0xE, self.pick(*self.starts) if self.starts else self.unit())
        self.key(0x188, 1 << n)

    def key(self, offset, bits):
        if bits & 0xFFFF:
            self.write(offset, bits)
        if bits >> 16:
            self.write(offset + 2, bits >> 16)

    def some_voices(self):
        return self.pick(1 << self.below(24), self.below(1 << 24), 0xFFFFFF, 0, self.below(1 << 24) & self.below(1 << 24))

    def flags(self):
        offset = self.pick(0x190, 0x194, 0x198)
        bits = self.some_voices()
        self.write(offset, bits)
        self.write(offset + 2, bits >> 16)

    # ---- the rest of the chip

    def set_control(self):
        self.control = self.pick(0xC000, 0xC000, 0xC080, 0xC080, 0xC0C5, 0x8000, 0x4000, self.below(0x10000)) | self.pick(0, 1, 4, 5, 0x40, 0x41)
        self.control = self.control & ~0x3F00 | self.pick(0, 0x1300, 0x3F00, self.below(64) << 8) if self.chance(0.5) else self.control
        self.control = self.control & ~0x30 | self.pick(0, 0x10, 0x20, 0x30)
        self.write(0x1AA, self.control)

    def volumes(self):
        level = lambda: self.pick(0x3FFF, 0x3FFF, 0x4000, 0x2000, 0x7FFF, 0, self.below(0x8000))
        self.write(0x180, level())
        self.write(0x182, level())
        for offset in (0x184, 0x186, 0x1B0, 0x1B2):
            if self.chance(0.5):
                self.write(offset, self.pick(0, 0x7FFF, 0x4000, 0x8000, 0xFFFF, self.below(0x10000)))

    def reverb(self):
        self.write(0x1A2, self.pick(self.L // 8 - 0x15C0, 0xE128, 0xFFF0, 0xFFFF, 0, self.L // 8 - 0x10, self.unit()))
        scale = self.pick(1, 1, 8, 64) if self.L == 65536 else self.pick(1, 1, 4)
        for k, value in enumerate(HALL):
            offset = 0x1C0 + 2 * k
            if self.chance(0.03):
                value = self.pick(*EDGE_VALUES, self.below(0x10000))
            self.write(offset, value // scale if offset in DISPLACEMENTS else value)
        self.write(0x184, self.pick(0x4000, 0x7FFF, 0x8000))
        self.write(0x186, self.pick(0x4000, 0x7FFF, 0xC000))
        self.flags_on(0x198)
        self.control |= 0x80
        self.write(0x1AA, self.control)

    def flags_on(self, offset):
        self.write(offset, 0xFFFF)
        self.write(offset + 2, 0xFF)

    def interrupt(self):
        """The IRQ address where something is soon touched, and the interrupt armed anew."""
        near = self.pick(*self.starts) if self.starts and self.chance(0.5) else self.pick(0, 0x80, 0x100, 0x180, self.below(0x80), self.unit())
        self.write(0x1A4, near + self.pick(0, 0, 1, 2))
        self.write(0x1AA, self.control & ~0x40)
        self.control |= 0x8040
        self.write(0x1AA, self.control)

    def outward(self):
        self.set_mode(3)
        self.write(0x1A6, self.pick(*self.starts) if self.starts and self.chance(0.6) else self.unit())
        self.say("o %d" % self.pick(1, 4, 8, 16, 31, 32, 32, 33, 64, 0))

    # ---- looking, and mishaps

    def look(self):
        self.say(self.pick(
            "r %x" % self.pick(0x1AE, 0x1AA, 0x19C, 0x19E, 0x1B8, 0x1BA, 0x10 * self.below(24) + 0xC, 0x10 * self.below(24) + 0xE),
            "r %X" % self.below(0x200), "r %x" % (2 * self.below(0x100)), "v %x" % (self.unit() * 8), "v %X" % self.below(self.L),
            "v %08x" % self.pick(self.L - 16, self.L - 8, self.L, 1, 0xFFFFFFFF), self.memory("ram"), self.memory("marks")))

    def memory(self, command):
        """Mostly near the capture buffers or a sample."""
        n = self.pick(1, 8, 16, 33, 64)
        wide = 1 if command == "ram" else 2
        address = self.pick(self.below(0x1000), self.below(self.L), self.starts[-1] * 8 % self.L if self.starts else 0, self.L - wide * n)
        return "%s %X %d" % (command, address & ~1, n)

    def mishap(self):
        if self.chance(0.5):
            self.say(self.pick(*BAD_LINES))
        elif self.chance(0.5):
            self.write(self.pick(self.below(0x220), 2 * self.below(0x100), 0x1A8, 0x1AC, 0x19C), self.pick(*EDGE_VALUES, self.below(0x10000)))
        elif self.chance(0.5):
            self.junk()
        elif self.chance(0.5):
            self.say("fill %X %d %x" % (self.below(self.L), self.pick(0, 1, 16, 100, 3000), self.below(256)))
        elif self.chance(0.3):
            self.say("reset")
            self.volumes()
            self.set_control()
        else:
            self.say(self.pick("# a comment", "", "  \t", "#", "s %x" % self.below(0x10000), "s " + "0 " * self.pick(31, 33, 40, 100)))

    def junk(self):
        """A register with undocumented bits, in a value of mostly documented ones."""
        offset, mask = self.pick((0x10 * self.below(24) + 0xA, 0x2000), (0x18A + 4 * self.below(6), 0xFF00), (0x1AC, 0xFFF1))
        value = self.pick(self.below(0x10000), 4) & ~mask
        self.write(offset, value | self.pick(0, mask, 1 << self.below(16), 1 << self.below(16), self.below(0x10000)))

    def compose(self):
        self.volumes()
        self.write(0x1AA, self.control)
        for _ in range(3):
            self.load_sample()
        self.write(0x1AA, 0xC080 if self.chance(0.5) else 0xC000)
        for n in range(self.pick(2, 5, 8)):
            self.voice(n)
        acts = ((self.run_on, 30), (self.voice, 8), (self.look, 12), (self.mishap, 8), (self.load_sample, 4), (self.set_control, 4),
                (self.flags, 4), (self.volumes, 2), (self.interrupt, 5), (self.outward, 3), (self.reverb, 1),
                (lambda: self.key(0x18C, self.some_voices()), 4), (lambda: self.key(0x188, self.some_voices()), 2))
        doing, weights = zip(*acts)
        while self.left > 0:
            self.random.choices(doing, weights)[0]()
        return "\n".join(self.text).encode("latin-1") + self.pick(b"", b"\n", b"\n")


def first_difference(ours, theirs):
    for k in range(max(len(ours), len(theirs))):
        a, b = (x[k] if k < len(x) else b"(nothing)" for x in (ours, theirs))
        if a != b:
            return k, a, b


def main():
    options = argparse.ArgumentParser()
    options.add_argument("program")
    for name, default in (("sessions", 500), ("lines", 1000), ("ticks", 6000), ("seed", 1)):
        options.add_argument("--" + name, type=int, default=default)
    given = options.parse_args()
    began, ticks, answers, sounding = time.time(), 0, 0, 0
    for k in range(given.sessions):
        seed = given.seed * 1000003 + k
        session = Session(seed, given.lines, given.ticks)
        data = session.compose()
        run = subprocess.run([given.program, str(session.L)], input=data, stdout=subprocess.PIPE)
        ours = run.stdout.split(b"\n")
        theirs = "\n".join([*replay(session.L, data), ""]).encode().split(b"\n")
        if ours != theirs or run.returncode:
            name = "fuzz-%d.txt" % seed
            with open(name, "wb") as saved:
                saved.write(data)
            line, a, b = first_difference(ours, theirs) or (0, b"", b"")
            sys.exit("session %d (replay %d, saved as %s, status %d), answer %d:\n  program   %s\n  reference %s" % (
                k, session.L, name, run.returncode, line, a.decode(), b.decode()))
        ticks += given.ticks - session.ticks
        answers += len(theirs) - 1
        sounding += sum(1 for a in theirs if a[:2] in (b"t ", b"f ") and a.split()[3] not in (b"0", b"00000000"))
        if k % 50 == 49:
            print("%d sessions, %d ticks, %d with sound, %d answers, %.0f s" % (k + 1, ticks, sounding, answers, time.time() - began), flush=True)
    print("%d sessions of %d lines agree: %d ticks, %d of them with sound, %d answers" % (given.sessions, given.lines, ticks, sounding, answers))


if __name__ == "__main__":
    main()
