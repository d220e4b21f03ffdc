#!/usr/bin/env python3
"""The weaver beside an example that is killed again and again, at random moments:

    python3 tests/kill.py [--kills N] [--seed N] [--fresh N] NAME=COMMAND...

A COMMAND is an example of examples/, which says in its head what it shows, reads and keeps; it is given a card and the file to keep in,
and then a program too. It is killed N times (500) or more without a program and as often with one, while the weaver works from what it
shows: she makes the move that is shown as the next, if she has not made it yet, and says that it is made, now and then twice. After a
restart she reads on the screen whether her last touch counts. What has to hold of each screen: the moves are those of one run by oracle/,
none counts as done that she has not made, and none that counted is lost; so none is skipped and none is made twice. At the end the kept
place is that of one run. In the last weavings the examples take turns with one file. Before all that, what no example goes on from:
another card's file, and damaged ones; and fresh cards by seed (50), with a turn of the screen. The last line is 'N passed, M failed'.
"""

import os
import random
import re
import select
import shlex
import shutil
import struct
import subprocess
import sys
import tempfile
import time
from typing import NamedTuple

ROOT = os.path.dirname(os.path.dirname(os.path.abspath(__file__)))
sys.path.insert(0, os.path.join(ROOT, "oracle"))

import cards  # noqa: E402
import deliberation  # noqa: E402
import guide  # noqa: E402
import programs  # noqa: E402
import schemes  # noqa: E402
import text  # noqa: E402

KINDS = ("select", "act", "revise")
SCREEN = re.compile(r"bands finished: (\d+)\n(?:open:.*\n)?last: (.*)\n(next|end): (.*)\n")
NO_CHOICE, MOST_IDLE = 65535, 1000
HEAD = "<IIHHH"

# A row of sixty picks, all alike, and a last one.
ROW = """atoms 1
action 1
action 1
do 0 if T add del
do 1 if T add 0 del
select if T goal G0 plan %s 1
begin beliefs goals 0 plan
""" % " ".join(60 * "0")
# Select, then while there is a plan: revise or else act.
BY_ROW = bytes((0, 0, 0, 0, 3, 0, 0, 0, 2, 0, 0, 0, 5, 2, 1, 0))
BY_GROWING = bytes((0, 0, 0, 0, 1, 0, 0, 0, 6, 1, 0, 0, 3, 0, 2, 0, 2, 0, 0, 0, 5, 4, 3, 0))
# The same of the jacquard card, of edition 2: entries 0 to 8 are its revisions and 9 is execute, of which entry 18 does the first that
# it can.
BY_JACQUARD = b"".join(bytes((1, k, 0, 0)) for k in range(9)) + bytes(4) + b"".join(bytes((6, 8 - k, 9 + k, 0)) for k in range(9))
BY_JACQUARD += bytes((3, 0, 18, 0, 2, 0, 0, 0, 5, 20, 19, 0))


# One after the other: the short ones first.
CYCLE = (0, 1, 3, 2)


class Fault(Exception):
    """What must not be."""


class Weaving(NamedTuple):
    """What one run makes of a card: its moves, its ending, and the place at its end."""

    name: str
    card: bytes
    program: bytes
    moves: list
    ending: str
    place: bytes
    finished: int


def own_moves(card, c, most):
    """The guide's own moves, so many at most, each as its kind and number with what it leaves; and the ending, None where there are more."""
    moves = []
    while len(moves) < most:
        choice = guide.guides_choice(card, c)
        after = None if choice is None else guide.after(card, c, *choice)
        if after is None:
            return moves, "rest" if choice is None else "full"
        moves.append((choice, after))
        c = after
    return moves, None


def leading(card, c, after):
    """The first move that leads from one configuration to another, as the examples tell it of a program."""
    enabled = ((kind, number) for kind in range(3) for number in guide.enabled_of_kind(card, c, kind))
    return next(choice for choice in enabled if guide.after(card, c, *choice) == after)


def program_moves(card, program, c, most):
    """A program's moves but those that change nothing, of which the examples pass so many in a row; the same of them."""
    entries = deliberation.entries_of(program)
    remaining, moves, idle, first = [len(entries) - 1], [], 0, None
    while len(moves) < most and idle < MOST_IDLE:
        first = first or deliberation.first_moves(entries, card, c)
        move = first[remaining[-1]] if remaining else None
        if move is None:
            return moves, "stuck" if remaining else "finished"
        after = c if move.transition is None else guide.after(card, c, *move.transition)
        if after is None:
            return moves, "full"
        remaining.pop()
        deliberation.put_back(remaining, move.left)
        idle = idle + 1 if after == c else 0
        if after != c:
            moves.append((leading(card, c, after), after))
            c, first = after, None
    return moves, "idle" if len(moves) < most else None


def weaving(name, card, program=b"", most=10000):
    """What one run makes of a card, of so many moves at most; where it ends, the oracle's calls for a whole run leave the same."""
    _, accepted = guide.judge(card)
    _, first = guide.load(card)
    if program:
        moves, ending = program_moves(accepted, program, first, most)
        whole = deliberation.deliberate(card, program, first, 65535)[1] if ending in ("finished", "stuck", "full") else None
    else:
        moves, ending = own_moves(accepted, first, most)
        whole = guide.run(card, first, 65535)[1] if ending is not None else None
    c = moves[-1][1] if moves else first
    if whole not in (None, c):
        raise SystemExit("kill.py: the oracle's run of %s is another" % name)
    return Weaving(name, card, program, [choice for choice, _ in moves], ending, guide.save(card, c, 1100)[1], c.finished)


def read(*names):
    with open(os.path.join(ROOT, *names), "rb") as file:
        return file.read()


def weavings():
    """The weavings without a program, and those with one."""
    stripe, teaching = read("cards", "stripe.card"), read("cards", "teaching.program")
    row = text.read(ROW.encode(), 24128)[-1]
    growing = text.read(read("cards", "growing.text"), 24128)[-1]
    jacquard = read("cards", "jacquard.card")
    own = [weaving("stripe", stripe), weaving("row", row), weaving("growing", growing), weaving("jacquard", jacquard)]
    by_program = [weaving("stripe", stripe, teaching), weaving("row", row, BY_ROW), weaving("growing", growing, BY_GROWING)]
    by_program.append(weaving("jacquard", jacquard, BY_JACQUARD))
    return [own[at] for at in CYCLE], [by_program[at] for at in CYCLE]


class Weaver:
    """She has made so many moves with her hands, said so of as many or one less, and read that so many count."""

    def __init__(self, weaving, met):
        self.weaving, self.met = weaving, met
        self.made = self.said = self.counted = 0
        lines = ["%d %s %d" % (at + 1, KINDS[kind], number) for at, (kind, number) in enumerate(weaving.moves)]
        self.last, self.coming = ["none"] + lines, [("next", line) for line in lines] + [("end", weaving.ending)]
        self.restarted = self.ended = False

    def check(self, screen):
        """How many moves a screen tells as done, if it is one that may be shown."""
        finished, last, what, coming = screen
        done = 0 if last == "none" else int(last.split()[0])
        shown = "last: %s, %s: %s" % (last, what, coming)
        if done > self.made:
            raise Fault("a move that was not made counts as done: %s" % shown)
        if done < self.counted:
            raise Fault("a move that counted is lost: %s" % shown)
        if last != self.last[done]:
            raise Fault("another move was the last one: %s" % shown)
        if self.coming[done] not in ((what, coming), ("end", None)):
            raise Fault("another move comes next: %s" % shown)
        if what == "end" and int(finished) != self.weaving.finished:
            raise Fault("%s bands are finished at the end" % finished)
        return done

    def sees(self, screen):
        """She reads a screen; the number of the move that comes next, 0 at the end."""
        done = self.check(screen)
        if self.restarted:
            lost, unseen = self.said > done, done > self.counted
            self.met["lost" if lost else "unseen" if unseen else "between"] += 1
        self.restarted, self.counted, self.ended = False, done, screen[2] == "end"
        return 0 if self.ended else done + 1


class Pace:
    """How long an example takes to its first screen, and from one to the next: what was seen of late."""

    def __init__(self):
        self.first, self.each = 0.1, 0.02

    def moment(self, random, first):
        """A moment to die at, from now on: before the first screen, or in the time of some moves."""
        return random.uniform(0, 1.1 * self.first) if first else random.uniform(0, 4 * self.each)

    def saw(self, first, seconds):
        if first:
            self.first += (seconds - self.first) / 8
        else:
            self.each += (seconds - self.each) / 8


class Life:
    """An example from its start to its death."""

    def __init__(self, command, room):
        self.errors = open(os.path.join(room, "errors"), "w+b")
        self.process = subprocess.Popen(command, stdin=subprocess.PIPE, stdout=subprocess.PIPE, stderr=self.errors, bufsize=0)
        self.held = ""

    def screens(self, seconds):
        """The screens that are shown in a time, at once where there are some; None where it ended, or [] where the time is over."""
        fd = self.process.stdout.fileno()
        if not select.select([fd], [], [], max(0, seconds))[0]:
            return []
        more = os.read(fd, 65536).decode()
        self.held += more
        found = list(SCREEN.finditer(self.held))
        if found:
            self.held = self.held[found[-1].end():]
        return [match.groups() for match in found] or (None if not more else self.screens(seconds))

    def say(self, number, twice):
        try:
            self.process.stdin.write(b"%d\n" % number * (2 if twice else 1))
        except BrokenPipeError:
            pass

    def die(self, weaver):
        """Kills it; what it showed before that is looked at, and the weaver does nothing more. Whether it was killed in time."""
        self.process.kill()
        status = self.process.wait()
        for screen in self.screens(0) or ():
            weaver.check(screen)
        self.close()
        return status == -9

    def end(self):
        """Waits until it has ended by itself, as it should at a card's end."""
        self.process.stdin.close()
        status = self.process.wait(20)
        self.errors.seek(0)
        told = self.errors.read().decode()
        self.close()
        if status != 0 or told:
            raise Fault("it ended with %d: %s" % (status, told.strip()))

    def close(self):
        for file in (self.process.stdin, self.process.stdout, self.errors):
            file.close()


def weave_one(life, weaver, number, random, dies):
    """She makes a move, if it is not made yet, and says so; where the tablet dies before that, it may be half made."""
    if not dies or random.random() < 0.5:
        weaver.made = max(weaver.made, number)
    if not dies:
        weaver.said = number
        life.say(number, random.random() < 0.1)


def live(life, weaver, random, pace):
    """One life of an example, to its death, which comes at a random moment, or to the card's end; whether it was killed."""
    early, at = random.random() < 0.2, time.monotonic()
    dies = at + (pace.moment(random, True) if early else 20)
    first, answered = True, 0
    while True:
        screens = life.screens(dies - time.monotonic())
        if screens == []:
            if first and not early:
                raise Fault("nothing is shown")
            return life.die(weaver)
        now = time.monotonic()
        if screens is None:
            life.end()
            if not weaver.ended:
                raise Fault("it ended before the card")
            return False
        pace.saw(first, now - at)
        if first and not early:
            dies = now + pace.moment(random, False)
        first, at = False, now
        for screen in screens:
            number = weaver.sees(screen)
            if number > answered:
                answered = number
                weave_one(life, weaver, number, random, random.random() < 0.1)


def kept_well(file, weaving):
    """At the end one file is kept, and its place is that of one run."""
    with open(file, "rb") as held:
        kept = held.read()
    _, moves, last, program, numbers = struct.unpack_from(HEAD, kept)
    place = kept[struct.calcsize(HEAD) + program + numbers:]
    wanted = 256 * weaving.moves[-1][0] + weaving.moves[-1][1] if weaving.moves else NO_CHOICE
    if (moves, last) != (len(weaving.moves), wanted) or place != weaving.place:
        raise Fault("what is kept at the end is not that of one run")


def weave(examples, weaving, random, paces, met):
    """A weaving to its end; how many deaths there were."""
    room = tempfile.mkdtemp()
    files = laid_out(room, weaving)
    weaver, died = Weaver(weaving, met), 0
    try:
        while not weaver.ended:
            name, command = random.choice(examples)
            life = Life(command + files, room)
            died += live(life, weaver, random, paces[name])
            met["beside"] += os.path.exists(files[1] + ".beside")
            weaver.restarted = True
        if weaver.made != len(weaving.moves):
            raise Fault("%d moves were made of %d" % (weaver.made, len(weaving.moves)))
        kept_well(files[1], weaving)
    except Fault as fault:
        raise Fault("%s, behind %d deaths and %d moves: %s" % (weaving.name, died, weaver.made, fault)) from None
    finally:
        shutil.rmtree(room)
    return died


def killed(what, examples, weavings, kills, seed, paces):
    """Kills examples so many times, in one weaving after the other; whether all held."""
    chosen, died, count, met = random.Random("%s %s" % (seed, what)), 0, 0, dict(lost=0, unseen=0, between=0, beside=0)
    began = time.monotonic()
    try:
        while died < kills:
            died += weave(examples, weavings[count % len(weavings)], chosen, paces, met)
            count += 1
    except Fault as fault:
        print("failed: %s: %s" % (what, fault))
        return 0
    took = time.monotonic() - began
    print(
        "%s: %d kills in %d weavings, %.0f s; the touch before was lost in %d, kept and not shown in %d, shown in %d; %d left a file beside"
        % (what, died, count, took, met["lost"], met["unseen"], met["between"], met["beside"])
    )
    return died


def damages(kept):
    """Damaged files, by what is wrong with them."""
    program, numbers = struct.unpack_from("<HH", kept, 10)
    number = struct.calcsize(HEAD) + program
    place = number + numbers
    yield "an empty one", b""
    yield "a head that is cut off", kept[:13]
    yield "a program that is cut off", kept[:20]
    yield "a place that is cut off", kept[:-1]
    yield "one byte more", kept + b"\0"
    yield "another fingerprint", bytes([kept[0] ^ 1]) + kept[1:]
    yield "a last move that is none", kept[:8] + b"\0\3" + kept[10:]
    yield "more numbers than there are", kept[:12] + b"\xff\xff" + kept[14:]
    yield "an entry of an unknown kind", kept[:14] + b"\7" + kept[15:]
    yield "a number that is no entry", kept[:number] + bytes([program // 4]) + kept[number + 1:]
    yield "a place with phase 3", kept[:place + 8] + b"\3" + kept[place + 9:]


def refuses(name, command, room):
    """What an example does not go on from is told, nothing is shown of it, and the file stays; how many of these there are."""
    own, other, program = (os.path.join(ROOT, "cards", file) for file in ("stripe.card", "maximal.card", "teaching.program"))
    file, count = os.path.join(room, "kept"), 0

    def run(card, lines):
        return subprocess.run(command + [card, file, program], input=lines, capture_output=True)

    begun = run(own, b"1\n2\n")
    kept = read(file)
    for what, held, card in [("another card's", kept, other)] + [(what, held, own) for what, held in damages(kept)]:
        with open(file, "wb") as out:
            out.write(held)
        ended = run(card, b"3\n4\n")
        if begun.returncode or not ended.returncode or ended.stdout or not ended.stderr or read(file) != held:
            raise Fault("%s: %s is gone on with: %s" % (name, what, ended))
        count += 1
    os.unlink(file)
    for held in (b"", b"\0\0\0", b"\7\0\0\0"):
        program = os.path.join(room, "program")
        with open(program, "wb") as out:
            out.write(held)
        ended = subprocess.run(command + [own, file, program], input=b"1\n", capture_output=True)
        if not ended.returncode or ended.stdout or os.path.exists(file):
            raise Fault("%s: %s is no program: %s" % (name, held, ended))
        count += 1
    return count


def fresh(examples, count, seed):
    """So many cards by seed, each woven by itself and by a program, for some moves and with a turn of the screen; how many weavings held, and
    how many did not."""
    passed = failed = 0
    for at in range(count):
        chosen = random.Random("%s fresh %d" % (seed, at))
        card = cards.card(cards.good_card(chosen, 4000))
        program = programs.program(schemes.some_entries(chosen, guide.judge(card)[1], guide.load(card)[1]))
        for program in (b"", program):
            one = weaving("fresh card %d" % at, card, program, chosen.choice((3, 10, 30)))
            for name, command in examples:
                try:
                    turned(command, one, chosen.randint(0, len(one.moves)))
                    passed += 1
                except Fault as fault:
                    print("failed: %s, seed %s, %s, %s: %s" % (one.name, seed, name, "with a program" if program else "by itself", fault))
                    failed += 1
    return passed, failed


def turned(command, weaving, turn):
    """A weaving with one turn of the screen, after so many moves: what is shown of it, and what is kept."""
    room = tempfile.mkdtemp()
    files = laid_out(room, weaving)
    weaver = Weaver(weaving, None)
    weaver.made, told = len(weaving.moves), []
    for said in (range(1, turn + 1), range(turn + 1, len(weaving.moves) + 1)):
        lines = "".join("%d\n" % number for number in said)
        ended = subprocess.run(command + files, input=lines.encode(), capture_output=True)
        told += [weaver.check(found.groups()) for found in SCREEN.finditer(ended.stdout.decode())]
        if ended.returncode or ended.stderr:
            raise Fault("it ended with %d: %s" % (ended.returncode, ended.stderr.decode().strip()))
    kept_well(files[1], weaving)
    shutil.rmtree(room)
    if told != [*range(turn + 1), *range(turn, len(weaving.moves) + 1)]:
        raise Fault("%s moves are shown as done" % told)


def laid_out(room, weaving):
    """The files of a weaving, as an example is given them: the card, the one to keep in and, where there is one, the program."""
    files = [os.path.join(room, name) for name in ("card", "kept", "program")]
    for name, held in ((files[0], weaving.card), (files[2], weaving.program)):
        with open(name, "wb") as file:
            file.write(held)
    return files if weaving.program else files[:2]


def refused(examples):
    """The refusals of each example; how many held, and how many did not."""
    passed = failed = 0
    room = tempfile.mkdtemp()
    for name, command in examples:
        try:
            passed += refuses(name, command, room)
        except Fault as fault:
            print("failed: %s" % fault)
            failed += 1
    shutil.rmtree(room)
    return passed, failed


def main():
    words, numbers = sys.argv[1:], {"--kills": 500, "--seed": 1, "--fresh": 50}
    while len(words) > 1 and words[0] in numbers:
        option, value, *words = words
        if not value.isdigit():
            raise SystemExit("kill.py: %s takes a number" % option)
        numbers[option] = int(value)
    kills, seed, cards_made = numbers.values()
    if not words or any("=" not in word for word in words):
        raise SystemExit(__doc__)
    examples = [(name, shlex.split(command)) for name, _, command in (word.partition("=") for word in words)]
    paces = {name: Pace() for name, _ in examples}
    passed, failed = map(sum, zip(refused(examples), fresh(examples, cards_made, seed)))
    print("what is refused, and %d fresh cards: %d passed" % (cards_made, passed))
    sys.stdout.flush()
    for told, these in zip(("without a program", "with a program"), weavings()):
        groups = [(name, [(name, command)]) for name, command in examples]
        for name, group in groups + ([("all in turn", examples)] if len(examples) > 1 else []):
            held = killed("%s, %s" % (name, told), group, these, kills, seed, paces)
            passed, failed = passed + held, failed + (held == 0)
            sys.stdout.flush()
    print("%d passed, %d failed" % (passed, failed))
    return failed != 0


if __name__ == "__main__":
    sys.exit(main())
