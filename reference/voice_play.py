"""One voice played by itself, no mixing: the expected output of the single-voice plays.

L = 65,536.  For each play a line `play NAME`, then for each tick a line
`AMPLITUDE LEVEL ENDED DOUBT`: the tick's amplitude, then envelope level, ENDX flag and
sticky doubt after it.
"""
from spu import SoundRam, Voice

L = 65536

BLOCKS = (  # address, header, flags, seed
    (0x1000, 0x12, 0x00, 0x31),
    (0x1010, 0x25, 0x01, 0x77),
    (0x2000, 0x33, 0x04, 0x5A),
    (0x2010, 0x44, 0x02, 0xC3),
    (0x2020, 0x18, 0x03, 0x09),
    (0xFFF8, 0x09, 0x03, 0x88),
    (0x4000, 0x5D, 0x06, 0xE1),
    (0x4010, 0x70, 0x03, 0x42),
)

MODULATED, NOISE, KEY_OFF_AT_30 = "modulated", "noise", "key off"

PLAYS = (  # name, start unit, pitch, ADSR low, ADSR high, ticks, how
    ("one_shot", 0x200, 0x1000, 0x00FF, 0x0000, 70, None),
    ("loop", 0x400, 0x2800, 0x80C5, 0x5FC0, 120, None),
    ("wrapped", 0x1FFF, 0x1000, 0x000F, 0x0000, 40, None),
    ("pitch_0", 0x400, 0x0000, 0x2403, 0x0000, 8, None),
    ("pitch_3fff", 0x400, 0x3FFF, 0x000F, 0x0000, 40, None),
    ("pitch_4000", 0x400, 0x4000, 0x000F, 0x0000, 40, None),
    ("pitch_4001", 0x400, 0x4001, 0x000F, 0x0000, 20, None),
    ("modulated", 0x400, 0x1000, 0x000F, 0x0000, 60, MODULATED),
    ("glitch", 0x400, 0x9000, 0x000F, 0x0000, 60, MODULATED),
    ("noise", 0x400, 0x1000, 0x000F, 0x0000, 20, NOISE),
    ("filters", 0x800, 0x1800, 0xA0FF, 0xC1E5, 90, None),
    ("release", 0x400, 0x1000, 0x000F, 0x0021, 60, KEY_OFF_AT_30),
    ("unloaded", 0x600, 0x1000, 0x000F, 0x0000, 40, None),
    ("runs_out", 0x201, 0x3000, 0x000F, 0x0000, 60, None),
)


def block(memory, address, header, flags, seed):
    """16 bytes at the address, wrapping, and the marks of their 8 halfwords."""
    data, x = [header, flags], seed
    for _ in range(14):
        data.append(x)
        x = (x * 5 + 17) % 256
    for k in range(0, 16, 2):
        memory.store((address + k) % L, data[k] | data[k + 1] << 8)


def play(memory, start, pitch, low, high, ticks, how):
    voice = Voice()
    voice.key_on(start, L, low, high)
    memory.doubt = False
    for t in range(ticks):
        if how == KEY_OFF_AT_30 and t == 30:
            voice.key_off(low, high)
        below = t * 4099 % 65536 - 32768 if how == MODULATED else None
        noise = (t * 9973 + 5) % 65536 if how == NOISE else None
        amplitude = voice.tick(memory, pitch, low, high, below, noise)
        yield f"{amplitude} {voice.level} {int(voice.ended)} {int(memory.doubt)}"


def main():
    memory = SoundRam(L)
    for values in BLOCKS:
        block(memory, *values)
    for name, *values in PLAYS:
        print("play", name)
        for line in play(memory, *values):
            print(line)


if __name__ == "__main__":
    main()
