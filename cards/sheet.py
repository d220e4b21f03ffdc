#!/usr/bin/env python3
"""Makes a sheet of move names (cards/README.md, "Sheets").

    sheet.py < NAMES > SHEET    NAMES has a line for each action of the card, in the card's order, in UTF-8; an empty line is no name

A byte order mark at the start and a CR at the end of a line, as some editors write them, are left out. Whether the sheet is right for
a card, the guide says. Python 3, standard library only.
"""

import struct
import sys

MOST_BYTES = 65535


def name_of(number, line):
    """A line's name, if it is UTF-8."""
    try:
        line.decode("utf-8")
    except UnicodeDecodeError:
        raise ValueError("line %d is not UTF-8" % number) from None
    return line


def names_in(data):
    """The names of a text, line by line; the end of the last line may be missing."""
    lines = data.removeprefix(b"\xef\xbb\xbf").replace(b"\r\n", b"\n").split(b"\n")
    if lines[-1] == b"":
        lines.pop()
    return [name_of(number, line) for number, line in enumerate(lines, 1)]


def sheet(names):
    """The count, where each name begins and the last one ends, and the names; numbers are two bytes, low byte first."""
    places = [2 * len(names) + 4]
    for name in names:
        places.append(places[-1] + len(name))
    if places[-1] > MOST_BYTES:
        raise ValueError("the sheet would have %d bytes, and %d is the most" % (places[-1], MOST_BYTES))
    return struct.pack("<%dH" % (len(places) + 1), len(names), *places) + b"".join(names)


def main(words):
    if words:
        print("usage: sheet.py < NAMES > SHEET", file=sys.stderr)
        return 2
    try:
        made = sheet(names_in(sys.stdin.buffer.read()))
    except ValueError as error:
        print("sheet.py: %s" % error, file=sys.stderr)
        return 1
    sys.stdout.buffer.write(made)
    return 0


if __name__ == "__main__":
    sys.exit(main(sys.argv[1:]))
