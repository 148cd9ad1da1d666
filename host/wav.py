"""Looks at a WAV file of 16 bits, stereo, 44,100 Hz.

    wav.py pairs FILE            prints a line for each pair: left, right
    wav.py sounds FILE PAIRS     says what is wrong with the sound, if anything: another length than PAIRS, a side
                                 that is silent, or many samples at the limit
"""
import array
import sys
import wave

QUIET, LOUD = 4000, 32767           # a peak below the one is no music; a sample at the other is clipped


def samples(name):
    with wave.open(name) as file:
        assert file.getparams()[:3] == (2, 2, 44100), file.getparams()
        return array.array("h", file.readframes(file.getnframes()))


def faults(sides, pairs):
    for side, heard in sides.items():
        if len(heard) != pairs:
            yield f"{side}: {len(heard)} samples, not {pairs}"
        peak = max(map(abs, heard), default=0)
        if peak < QUIET:
            yield f"{side}: the peak is {peak}"
        clipped = sum(abs(sample) >= LOUD for sample in heard)
        if clipped * 1000 > len(heard):
            yield f"{side}: {clipped} samples are clipped"


def main(command, name, *rest):
    heard = samples(name)
    left, right = heard[::2], heard[1::2]
    if command == "pairs":
        for pair in zip(left, right):
            print(*pair)
        return 0
    found = list(faults({"left": left, "right": right}, int(rest[0])))
    for fault in found:
        print(f"{name}: {fault}")
    return 1 if found else 0


if __name__ == "__main__":
    sys.exit(main(*sys.argv[1:]))
