"""Input lines and their fields, as bench and replay take them."""
import re


def lines(data):
    """A line is what stands before LF; a last piece without LF is a line if not empty."""
    pieces = data.split(b"\n")
    return pieces if pieces[-1] else pieces[:-1]


def fields(line):
    """Parted by runs of blanks (space, tab, CR); blanks at the ends are let go."""
    return [field for field in re.split(rb"[ \t\r]+", line) if field]


class BadLine(Exception):
    pass


def check(good):
    if not good:
        raise BadLine


def hexadecimal(field, most=4, least=1):
    """Hex digits of either case, no sign or prefix."""
    check(re.fullmatch(rb"[0-9A-Fa-f]{%d,%d}" % (least, most), field))
    return int(field, 16)


def decimal(field, most, least=0):
    """Decimal digits; leading zeros are let go, signs are bad."""
    check(re.fullmatch(rb"[0-9]+", field))
    digits = field.lstrip(b"0")
    check(len(digits) <= 7)         # no count is longer
    value = int(digits or b"0")
    check(least <= value <= most)
    return value
