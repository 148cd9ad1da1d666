"""The program bench: standard input to standard output.

L = 65,536, RAM and marks zero, CD zero.  Lines: w OFFSET VALUE, s V .., t N.
"""
import sys

from lines import BadLine, check, decimal, fields, hexadecimal, lines
from spu import Spu


def answers(spu, line):
    """The lines that one input line prints."""
    words = fields(line)
    check(words)
    command, given = words[0], words[1:]
    if command == b"w":
        check(len(given) == 2)
        number = spu.write(hexadecimal(given[0]), hexadecimal(given[1]))
        return [f"refused {number}"] if number else []
    if command == b"s":
        check(given)
        number = spu.transfer_in([hexadecimal(v) for v in given])[0]
        return [f"refused {number}"] if number else []
    check(command == b"t" and len(given) == 1)
    out = []
    for _ in range(decimal(given[0], 65535)):
        _, before, left, right, _, _ = spu.tick(0, 0)
        out.append(f"{before} {left} {right} {int(spu.doubt)}")
    return out


def bench(data):
    spu = Spu(65536)
    yield "bench 65536"
    for line in lines(data):
        try:
            yield from answers(spu, line)
        except BadLine:
            yield "bad line"
    yield "end doubt" if spu.doubt else "end clear"


if __name__ == "__main__":
    for text in bench(sys.stdin.buffer.read()):
        sys.stdout.write(text + "\n")
