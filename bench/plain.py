#!/usr/bin/env python3
"""The plain engine beside the first, call by call, through the drill (requests 15 to 18 beside 2, 4, 5 and 6).

    python3 bench/plain.py [--drill PROGRAM]

Instructions: valgrind's callgrind counts a drill that answers eleven requests and one that answers one; a tenth of the difference is a
request, what the drill reads and writes for it included, which is the same for both engines. A move is a hundredth of what a run of 109
takes more than a run of 9. Nanoseconds: of a move in runs of 709 less runs of 9, by the clock, the least of seven. It needs valgrind, and a
machine on which the drill runs by itself. Stack: bench/plain_stack.sh."""

import os
import re
import subprocess
import sys
import tempfile
import time

ROOT = os.path.dirname(os.path.dirname(os.path.abspath(__file__)))
CALLS = (("load", 2, 15), ("list", 4, 16), ("take", 5, 17), ("run of 9", 6, 18))
CARDS = ("stripe.card", "shared.card", "maximal.card", "widest.card")


def two(number):
    """A number of two bytes, low byte first."""
    return bytes((number % 256, number // 256))


class Drill:
    """The drill on one card."""

    def __init__(self, program, name):
        self.program = program
        with open(os.path.join(ROOT, "cards", name), "rb") as file:
            card = file.read()
        self.card = b"\0" + two(len(card)) + card
        loaded = self.answers(b"\2")
        self.image = loaded[2:]

    def answers(self, requests):
        """What is answered."""
        return subprocess.run([self.program], input=self.card + requests, stdout=subprocess.PIPE, check=True).stdout

    def request(self, number, budget=9):
        """A request by its number: a list into 768 entries, choice 0, a run."""
        if number in (2, 15):
            return bytes((number,))
        last = {4: 768, 16: 768, 5: 0, 17: 0}.get(number, budget)
        return bytes((number,)) + self.image + two(last)

    def under(self, tool, requests):
        """What valgrind's tool says of the drill over these requests."""
        with tempfile.NamedTemporaryFile() as file:
            file.write(self.card + requests)
            file.flush()
            file.seek(0)
            made = subprocess.run(["valgrind"] + tool + [self.program], stdin=file, stdout=subprocess.DEVNULL,
                                  stderr=subprocess.PIPE, text=True, check=True)
        return made.stderr

    def instructions(self, requests):
        """How many instructions the drill takes."""
        said = self.under(["--tool=callgrind", "--callgrind-out-file=/dev/null"], requests)
        return int(re.search(r"Collected : (\d+)", said).group(1))

    def seconds(self, requests):
        """The least of seven."""
        best = None
        for _ in range(7):
            start = time.perf_counter()
            self.answers(requests)
            taken = time.perf_counter() - start
            best = taken if best is None else min(best, taken)
        return best


def line(what, first, plain):
    """A row of the table."""
    print("%-34s %12d %12d %9.1f" % (what, first, plain, plain / first if first else 0))


def main():
    """Prints the two tables."""
    program = os.path.join(ROOT, "target", "bin", "drill")
    if len(sys.argv) == 3 and sys.argv[1] == "--drill":
        program = sys.argv[2]
    elif len(sys.argv) != 1:
        sys.exit("usage: plain.py [--drill PROGRAM]")
    drills = [(name, Drill(program, name)) for name in CARDS]
    print("%-34s %12s %12s %9s" % ("instructions of a request", "first", "plain", "times"))
    for name, drill in drills:
        for call, first, plain in CALLS:
            line("%s, %s" % (call, name), *[
                (drill.instructions(drill.request(n) * 11) - drill.instructions(drill.request(n))) // 10
                for n in (first, plain)])
    print("\n%-34s %12s %12s %9s" % ("of a move in a long run", "first", "plain", "times"))
    for name, drill in drills[1:]:
        line("instructions, " + name, *[
            (drill.instructions(drill.request(n, 109)) - drill.instructions(drill.request(n, 9))) // 100
            for n in (6, 18)])
        line("nanoseconds, " + name, *[
            1e9 * (drill.seconds(drill.request(n, 709) * 20) - drill.seconds(drill.request(n, 9) * 20)) / 14000
            for n in (6, 18)])


if __name__ == "__main__":
    main()
