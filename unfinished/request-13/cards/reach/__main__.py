#!/usr/bin/env python3
"""Prints which configurations a card reaches, and draws them. `./rigtemple reach` calls it; what is reached, and where each choice
leads, the proved program `drill` answers.

    reach NAME D [--svg PICTURE | --dot GRAPH] -- DRILL [WORD ...] < CARD

NAME is the card's file, for the heading of the picture; D the most moves; DRILL and its words the command that is the drill.
Standard output has the table, or "refused" and a number; with 11 and 24 standard error has the most moves that are answered.
Exit status: 0 the table is printed; 1 refused; 2 nothing was judged, and standard error says why. Python 3, standard library only.
"""

import os
import sys

import asked
import dot
import svg
import table

FORMS = {"--svg": svg.svg, "--dot": dot.dot}
USAGE = "usage: reach NAME D [--svg PICTURE | --dot GRAPH] -- DRILL [WORD ...] < CARD"


def number(digits):
    """The number that digits say; one of many digits is given as the most that can be asked."""
    digits = digits.lstrip("0") or "0"
    return int(digits) if len(digits) <= 5 else asked.LARGEST


def parted(words):
    """Name, digits, form and file, and the drill's words; None where they are no such words."""
    cut = words.index("--") if "--" in words else len(words)
    front, drill = words[:cut], words[cut + 1 :]
    good = len(front) in (2, 4) and drill and front[1].isdecimal() and front[1].isascii()
    if not good or (len(front) == 4 and front[2] not in FORMS):
        return None
    return front + [None, None] * (len(front) == 2), drill


def write(path, card, text):
    """Writes a picture, but not over the card."""
    if os.path.exists(path) and os.path.exists(card) and os.path.samefile(path, card):
        raise OSError("it is the card itself")
    with open(path, "w", encoding="utf-8", errors="replace") as file:
        file.write(text)


def tell(found):
    """Prints a refusal."""
    print("refused %d" % found.number)
    if found.most is not None:
        print(found.most, file=sys.stderr)
    return 1


def main(words):
    """Asks, draws and prints."""
    given = parted(words)
    if given is None:
        print(USAGE, file=sys.stderr)
        return 2
    (name, digits, form, path), drill = given
    most = number(digits)
    try:
        found = asked.reached(asked.Drill(drill, sys.stdin.buffer.read(asked.LARGEST)), most)
        if isinstance(found, asked.Refused):
            return tell(found)
        if form:
            write(path, name, FORMS[form](name, most, found))
    except asked.NoAnswer as error:
        print(error, file=sys.stderr)
        return 2
    except OSError as error:
        print("%s cannot be written: %s" % (path, error.strerror or error), file=sys.stderr)
        return 2
    print(*table.table(found), sep="\n")
    return 0


if __name__ == "__main__":
    sys.stdout.reconfigure(encoding="utf-8", errors="replace")
    sys.exit(main(sys.argv[1:]))
