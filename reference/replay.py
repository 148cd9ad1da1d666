"""The program replay L: every call of the chip, one answer to each input line.

L is 65536 or 524288; RAM and marks start as zero.  Offsets, values, addresses, bytes and
CD samples are hex, counts decimal.  SD is the state's doubt after the call.

    w OFF VAL          w NUM
    r OFF              r NUM VVVV
    s V ..             s NUM MOVED IRQ DOUBT
    o N                o NUM MOVED IRQ DOUBT : H ..
    t N [CDL CDR]      t NUM TICK LEFT RIGHT IRQ DOUBT SD         one line a tick
    f N [CDL CDR]      f NUM TICK LLLLLLLL RRRRRRRR IRQ DOUBT SD  the floats' bits
    v ADDR             v NUM LEN BYTES
    reset              reset NUM
    ram ADDR N         ram AAAAA BYTES
    marks ADDR N       marks AAAAA 0110..
    fill ADDR N BB     ok

The last line is "end clear" or "end doubt": the state's doubt.
"""
import struct
import sys

from lines import BadLine, check, decimal, fields, hexadecimal, lines
from spu import SIZES, Spu, s16


def w(spu, given):
    check(len(given) == 2)
    yield f"w {spu.write(hexadecimal(given[0]), hexadecimal(given[1]))}"


def r(spu, given):
    check(len(given) == 1)
    yield "r %d %04X" % spu.read(hexadecimal(given[0]))


def s(spu, given):
    check(given)
    yield "s %d %d %d %d" % spu.transfer_in([hexadecimal(v) for v in given])


def o(spu, given):
    """The buffer is lent holding A5A5 everywhere and shown whole after the call."""
    check(len(given) == 1)
    buffer = [0xA5A5] * decimal(given[0], 64)
    answer = "o %d %d %d %d :" % spu.transfer_out(buffer)
    yield " ".join([answer] + [f"{h:04X}" for h in buffer])


def ticks(given):
    """(count, CD left, CD right) of a t or f line."""
    check(len(given) in (1, 3))
    cd = [s16(hexadecimal(field, 4, 4)) for field in given[1:]]
    return decimal(given[0], 65535), *(cd or (0, 0))


def t(spu, given):
    count, *cd = ticks(given)
    for _ in range(count):
        yield "t %d %d %d %d %d %d" % spu.tick(*cd) + f" {int(spu.doubt)}"


def bits(x):
    return struct.pack(">f", x).hex().upper()


def f(spu, given):
    count, *cd = ticks(given)
    for _ in range(count):
        number, tick, left, right, irq, doubt = spu.tick_floats(*cd)
        yield f"f {number} {tick} {bits(left)} {bits(right)} {irq} {doubt} {int(spu.doubt)}"


def v(spu, given):
    check(len(given) == 1)
    number, view = spu.block_view(hexadecimal(given[0], 8))
    yield f"v {number} {len(view)} {view.hex().upper()}"


def reset(spu, given):
    check(not given)
    yield f"reset {spu.reset()}"


def ram(spu, given):
    """Raw RAM, not through the chip."""
    check(len(given) == 2)
    address, count = hexadecimal(given[0], 8), decimal(given[1], 64, 1)
    check(address + count <= spu.L)
    yield f"ram {address:05X} {spu.ram[address:address + count].hex().upper()}"


def marks(spu, given):
    check(len(given) == 2)
    address, count = hexadecimal(given[0], 8), decimal(given[1], 64, 1)
    check(address % 2 == 0 and address + 2 * count <= spu.L)
    shown = "".join(str(spu.marked(address + 2 * k)) for k in range(count))
    yield f"marks {address:05X} {shown}"


def fill(spu, given):
    """Raw fill, marks untouched."""
    check(len(given) == 3)
    address, count = hexadecimal(given[0], 8), decimal(given[1], spu.L)
    byte = hexadecimal(given[2], 2)
    check(address + count <= spu.L)
    spu.ram[address:address + count] = bytes([byte]) * count
    yield "ok"


COMMANDS = {b"w": w, b"r": r, b"s": s, b"o": o, b"t": t, b"f": f, b"v": v,
            b"reset": reset, b"ram": ram, b"marks": marks, b"fill": fill}


def replay(L, data):
    spu = Spu(L)
    yield f"replay {L}"
    for line in lines(data):
        words = fields(line)
        if not words or line.startswith(b"#"):
            continue
        try:
            check(words[0] in COMMANDS)
            yield from COMMANDS[words[0]](spu, words[1:])
        except BadLine:
            yield "bad line"
    yield "end doubt" if spu.doubt else "end clear"


if __name__ == "__main__":
    if len(sys.argv) != 2 or sys.argv[1] not in map(str, SIZES):
        sys.exit("usage: replay.py 65536|524288")
    for text in replay(int(sys.argv[1]), sys.stdin.buffer.read()):
        sys.stdout.write(text + "\n")
