#!/usr/bin/env python3
"""A weaving guide in a terminal, which loses no pick, over the library by ctypes:

    python3 by_ctypes.py LIBRIGTEMPLE.SO CARD KEPT [PROGRAM]
    python3 by_ctypes.py LIBRIGTEMPLE.SO CARD --names MASTER [SHED]

The same app is written in C, Rust, Python and JavaScript, and each goes on from another's file.

It shows the last move done and, behind it, what comes next: `last: none` or `last: 1 select 0`,
and `next: 2 revise 0` or, if that is all, `end: ` and rest, full, finished, stuck or idle. By
itself the guide tells what comes next, with PROGRAM the shed's own deliberation.
It reads a line with the number of the move that the weaver has made: that is when it is taken,
kept, and the one after it shown. Another line, such as a second touch of one screen, changes
nothing. The end of the input is the turn of the screen: it goes on then from the file KEPT.
It keeps one file, replaced in one step; numbers have their low byte first:
    4 bytes    the card's fingerprint: another card's place is not gone on with
    4          how many moves are done: two moves in a row may be alike
    2          the code of the last one, 65535 where none is done
    2, 2       how many bytes the program has, 0 for no program, and how many numbers remain
    those      the program, the numbers
    the rest   the place
What is refused of it is told and left as it is. Without a file the card begins.

The second command prints the name of each action: of the shed's sheet, or of the master's where the shed has none. A refusal ends the
program with status 1. HOW-TO-LINK.txt of the library's folder makes the shared object from the archive.

The symbols of the library are the sixteen functions `rigtemple_4_..._parts`, over the parts of a configuration: what rigtemple.h calls
`rigtemple_load` and so on is made of them in the header. Declare all their types: an undeclared length would be passed as 32 bits.
"""

import ctypes
import os
import struct
import sys
from ctypes import POINTER, byref, c_char_p, c_size_t, c_uint8, c_uint16

KINDS = ("select", "act", "revise")
COMING = ("move", "rest", "full")
DELIBERATION_ENDINGS = ("spent", "finished", "stuck", "full")
NO_CHOICE, MOST_IDLE, HEAD = 65535, 1000, "<IIHHH"
CARD = (c_char_p, c_size_t)
SETS_AND_PLAN = (POINTER(c_uint8), POINTER(c_uint8), POINTER(c_uint8))
READ = (*SETS_AND_PLAN, c_uint16, c_uint8, c_uint16)
LENT = (*SETS_AND_PLAN, POINTER(c_uint16), POINTER(c_uint8), POINTER(c_uint16))
DELIBERATED = (c_uint16, POINTER(c_uint16), POINTER(c_uint8), POINTER(c_uint8), POINTER(c_uint8))
CALLS = {
    "check": CARD,
    "load": (*CARD, *LENT),
    "grade": (*CARD, POINTER(c_uint8), POINTER(c_uint8), POINTER(c_uint16)),
    "list": (*CARD, *READ, POINTER(c_uint16), c_size_t, POINTER(c_uint16)),
    "next": (*CARD, *READ, POINTER(c_uint8), POINTER(c_uint16)),
    "take": (*CARD, *LENT, c_uint16, POINTER(c_uint16)),
    "run": (*CARD, *LENT, c_uint16, POINTER(c_uint16), POINTER(c_uint8)),
    "take_bounded": (*CARD, *LENT, c_uint16, POINTER(c_uint16)),
    "run_bounded": (*CARD, *LENT, c_uint16, POINTER(c_uint16), POINTER(c_uint8)),
    "deliberate": (*CARD, c_char_p, c_size_t, *LENT, *DELIBERATED),
    "go_on": (*CARD, c_char_p, c_size_t, c_char_p, c_size_t, *LENT, *DELIBERATED),
    "save": (*CARD, *READ, POINTER(c_uint8), c_size_t, POINTER(c_uint16)),
    "restore": (*CARD, c_char_p, c_size_t, *LENT),
    "text": (c_char_p, c_size_t, POINTER(c_uint8), c_size_t, POINTER(c_uint16), POINTER(c_size_t)),
    "print": (*CARD, c_uint16, POINTER(c_uint8), c_size_t, POINTER(c_uint16)),
    "name": (*CARD, c_char_p, c_size_t, c_char_p, c_size_t, c_uint16, POINTER(c_uint8), POINTER(c_uint16), POINTER(c_uint16)),
}


class Configuration:
    """The parts of a configuration."""

    def __init__(self):
        self.beliefs, self.goals, self.plan = (c_uint8 * 32)(), (c_uint8 * 32)(), (c_uint8 * 1024)()
        self.length, self.phase, self.finished = c_uint16(), c_uint8(), c_uint16()

    def read(self):
        return self.beliefs, self.goals, self.plan, self.length, self.phase, self.finished

    def lent(self):
        return self.beliefs, self.goals, self.plan, byref(self.length), byref(self.phase), byref(self.finished)


class Refused(SystemExit):
    """A refusal: it ends the program, where nobody looks at it."""


class Guide:
    """The calls on one card."""

    def __init__(self, library, card):
        self.library, self.card = ctypes.CDLL(library), card
        for call, types in CALLS.items():
            function = getattr(self.library, "rigtemple_4_%s_parts" % call)
            function.argtypes, function.restype = types, c_uint16

    def __call__(self, call, *words):
        answer = getattr(self.library, "rigtemple_4_%s_parts" % call)(self.card, len(self.card), *words)
        if answer != 0:
            raise Refused("%s is refused with %d" % (call, answer))

    def load(self):
        """The place that a weaver begins with: here a configuration is kept as its place from call to call."""
        c = Configuration()
        self("load", *c.lent())
        return self.saved(c)

    def restored(self, place):
        c = Configuration()
        self("restore", place, len(place), *c.lent())
        return c

    def saved(self, c):
        size, place = c_uint16(), (c_uint8 * 1100)()
        self("save", *c.read(), place, len(place), byref(size))
        return bytes(place[: size.value])

    def list(self, place):
        codes, entries = (c_uint16 * 768)(), c_uint16()
        self("list", *self.restored(place).read(), codes, len(codes), byref(entries))
        return codes[: entries.value]

    def next(self, place):
        """What comes next of the guide's own, in a word, and its code."""
        coming, choice = c_uint8(), c_uint16()
        self("next", *self.restored(place).read(), byref(coming), byref(choice))
        return COMING[coming.value], choice.value

    def take(self, place, choice):
        """The place after a move."""
        c, node = self.restored(place), c_uint16()
        self("take", *c.lent(), choice, byref(node))
        return self.saved(c)

    def deliberate(self, program, place, budget):
        """Moves by a program: how it ends, in a word, what remains then, and the place."""
        return self.deliberated("deliberate", (program, len(program)), place, budget)

    def go_on(self, program, numbers, place, budget):
        """The same from the numbers that remained."""
        return self.deliberated("go_on", (program, len(program), numbers, len(numbers)), place, budget)

    def deliberated(self, call, given, place, budget):
        c = self.restored(place)
        moves, ending, remaining, count = c_uint16(), c_uint8(), (c_uint8 * 128)(), c_uint8()
        self(call, *given, *c.lent(), budget, byref(moves), byref(ending), remaining, byref(count))
        return DELIBERATION_ENDINGS[ending.value], bytes(remaining[: count.value]), self.saved(c)


def read(name):
    with open(name, "rb") as file:
        return file.read()


def names(guide, master, shed=b""):
    """The name of each action, in the shed's language or in the master's."""
    guide("check")
    for action in range(int.from_bytes(guide.card[6:8], "little")):
        sheet, start, length = c_uint8(), c_uint16(), c_uint16()
        guide("name", shed, len(shed), master, len(master), action, byref(sheet), byref(start), byref(length))
        held = shed if sheet.value else master
        yield held[start.value : start.value + length.value].decode("utf-8")


def fingerprint(card):
    """The card's fingerprint: FNV-1a of 32 bits."""
    total = 2166136261
    for byte in card:
        total = (total ^ byte) * 16777619 % 2**32
    return total


class Weaving:
    """A weaving as far as it is done: how many moves, the last one's code, the program and what remains of it, and the place."""

    def __init__(self, moves, last, program, numbers, place):
        self.moves, self.last, self.program, self.numbers, self.place = moves, last, program, numbers, place

    def keep(self, guide, name):
        """Keeps it in one step: it is written beside the file, and then renamed."""
        head = struct.pack(HEAD, fingerprint(guide.card), self.moves, self.last, len(self.program), len(self.numbers))
        with open(name + ".beside", "wb") as file:
            file.write(head + self.program + self.numbers + self.place)
            file.flush()
            os.fsync(file.fileno())
        os.rename(name + ".beside", name)  # dies before it: the file is the former one; after it: the new one
        folder = os.open(os.path.dirname(name) or ".", os.O_RDONLY)
        os.fsync(folder)
        os.close(folder)


def restored(guide, kept):
    """The weaving that was kept: the program too is that one."""
    start = struct.calcsize(HEAD)
    if len(kept) < start:
        raise SystemExit("what was kept is cut off")
    card, moves, last, program, numbers = struct.unpack_from(HEAD, kept)
    if card != fingerprint(guide.card):
        raise SystemExit("what was kept is of another card")
    if len(kept) < start + program + numbers or (moves and last >= 768):
        raise SystemExit("what was kept is cut off, or is no such file")
    held = kept[start:]
    place = held[program + numbers :]
    guide.restored(place)
    return Weaving(moves, last, held[:program], held[program : program + numbers], place)


def begin(guide, name, program):
    """The weaving to go on with: the kept one, or the card's first where none was kept, of whose program the last entry remains, which
    is the whole. That is kept before anything is shown, so that a folder that cannot be written is told before anything is woven."""
    try:
        return restored(guide, read(name))
    except FileNotFoundError:
        pass
    w = Weaving(0, NO_CHOICE, b"", b"", guide.load())
    if program is not None:
        w.program = program
        _, w.numbers, _ = guide.deliberate(program, w.place, 0)
    w.keep(guide, name)
    return w


def made(guide, before, after):
    """The code of the move that a program made: the first of the list that leaves the same."""
    for choice in guide.list(before):
        try:
            if guide.take(before, choice) == after:
                return choice
        except Refused:
            continue  # its plan would get too long
    raise AssertionError("a program makes moves of the card")


def coming(guide, w):
    """What comes next: its code, or None and how the weaving ends. Nothing of it changes. A program's move is made on a copy, which comes
    with it; its code is that of a choice that leaves the same. One that changes nothing, as an idle one does, is passed and not shown, so
    many in a row."""
    if not w.program:
        word, choice = guide.next(w.place)
        return (choice, None) if word == "move" else (None, word)
    numbers = w.numbers
    for _ in range(MOST_IDLE):
        ending, numbers, place = guide.go_on(w.program, numbers, w.place, 1)
        if ending != "spent":
            return None, ending
        if place != w.place:
            choice = made(guide, w.place, place)
            return choice, Weaving(w.moves + 1, choice, w.program, numbers, place)
    return None, "idle"


def line_of(number, choice):
    return "%d %s %d" % (number, KINDS[choice // 256], choice % 256)


def show(guide, w, choice, end):
    """Shows the finished count, the last move done, and what comes next."""
    print("bands finished: %d" % guide.restored(w.place).finished.value)
    print("last: %s" % (line_of(w.moves, w.last) if w.moves else "none"))
    print("next: %s" % line_of(w.moves + 1, choice) if choice is not None else "end: %s" % end, flush=True)


def weave(guide, name, program=None):
    """Guides to the card's end or the turn of the screen. Beside the lines stands what becomes of the move that is shown as the next,
    number n, if the tablet dies there."""
    w = begin(guide, name, program)
    while True:
        # Dies here: n is not shown yet. What is kept is done up to n - 1, and n is shown then.
        choice, after = coming(guide, w)
        show(guide, w, choice, after)
        # Dies here, while the weaver makes n: the same screen is shown again, n - 1 as the last.
        line = sys.stdin.readline() if choice is not None else ""
        if not line:
            return
        # Dies from here on, n made and said to be: her touch is lost. The same screen is shown again, and as n - 1 is the last she sees
        # that n does not count yet: she does not make it twice, but says so once more.
        if line.strip() != str(w.moves + 1):
            continue
        if not w.program:
            after = Weaving(w.moves + 1, choice, b"", b"", guide.take(w.place, choice))
        after.keep(guide, name)
        # Dies from the rename in `keep` on: n is kept, and shown as the last beside n + 1.
        w = after


def main(library, card, *words):
    guide = Guide(library, read(card))
    if words[0] == "--names":
        for action, name in enumerate(names(guide, *map(read, words[1:]))):
            print(action, name)
    else:
        weave(guide, words[0], *map(read, words[1:]))


if __name__ == "__main__":
    named = sys.argv[3:4] == ["--names"]
    if len(sys.argv) not in ((5, 6) if named else (4, 5)):
        sys.exit(__doc__)
    main(*sys.argv[1:])
