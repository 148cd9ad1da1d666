"""Every offset from 0 to 3FFh written and read back, with four values one after the other on one
state of L = 524,288: `OFFSET WRITE READ VALUE` a line, all decimal.
"""
from spu import Spu

VALUES = 0x7654, 0x8123, 0xC0C5, 0x0004


def main():
    spu = Spu.make(524288)[1]
    for value in VALUES:
        for offset in range(0x400):
            written = spu.write(offset, value)
            number, seen = spu.read(offset)
            print(offset, written, number, seen)


if __name__ == "__main__":
    main()
