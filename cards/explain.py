#!/usr/bin/env python3
"""Says where in a text card the reason of its refusal stands. `./rigtemple` calls it; the refusal itself is the proved reader's.

    explain.py NAME 17 PLACE [BYTE ...] < TEXT    the line, what could have stood at the place, and a mark under it; the bytes that
                                                  could stand there are the reader's too
    explain.py NAME NUMBER < TEXT                 18, 25, 3 and 5 to 9: the line and the entry of each reason, the first ten of them

It judges nothing: a text that is refused with another number than 17 is one of docs/TEXT.md's grammar, and is taken apart as such.
Where it finds no reason it says so. Python 3, standard library only.
"""

import re
import sys
from typing import NamedTuple

MOST_TOLD = 10
HUGE = 10**18
# How much of a long line is shown on each side of the mark.
SIDE = 60

# ---- 17: what could have stood there

# The words of a line by its first word, and those that can begin a line.
WORDS = {
    b"atoms": (),
    b"action": (),
    b"do": ("if", "add", "del"),
    b"select": ("if", "goal", "plan"),
    b"revise": ("if", "to"),
    b"begin": ("beliefs", "goals", "plan"),
}
LATER_LINES = ("action", "do", "select", "revise", "begin")

SIGNS = {
    ord("\n"): "the end of the line",
    ord(" "): "a space",
    ord("#"): 'a remark ("#")',
    ord("T"): '"T"',
    ord("B"): '"B" and an atom',
    ord("G"): '"G" and an atom',
    ord("!"): '"!"',
    ord("("): '"("',
    ord(")"): '")"',
    ord("&"): '"&"',
    ord("|"): '"|"',
}
DIGITS, ENDS = set(b"0123456789"), b" #\n"
BYTE_NAMES = {9: "a tab", 10: "the end of the line", 13: "a CR (byte 13)", 32: "a space"}


def due_words(text, front):
    """The words that can be due on a line of which the front is there."""
    first = re.match(rb"[a-z]*", front)[0]
    if first != front:
        return WORDS.get(first, ())
    return LATER_LINES if re.search(rb"^atoms ", text, re.M) else ("atoms",)


def word_for(byte, text, front):
    """A small letter in words: the word that it begins, or the rest of the word that it goes on with."""
    begun = re.search(rb"[a-z]*$", front)[0].decode()
    for word in due_words(text, front):
        if word.startswith(begun + chr(byte)):
            return '"%s"' % word if not begun else '"%s" (of "%s")' % (word[len(begun) :], word)
    return '"%s"' % chr(byte)


def in_words(could, text, front):
    """The bytes that could stand at a place, in words: the words of the grammar, a digit, the signs, and what ends a line."""
    if len(could) > 128:
        return ["any byte of a remark", "the end of the line"]
    letters = sorted(byte for byte in could if chr(byte).islower())
    found = [word_for(byte, text, front) for byte in letters] + ["a digit"] * (DIGITS <= could)
    for byte in sorted(could - DIGITS - set(letters), key=lambda byte: (byte in ENDS, -byte)):
        found.append(SIGNS.get(byte, "byte %d" % byte) if front or byte != 10 else "an empty line")
    return found


def one_of(words):
    """Words in a row, "or" before the last."""
    return " or ".join(filter(None, [", ".join(words[:-1]), words[-1]])) if words else "nothing"


def here(text, place):
    """What is wrong at a place."""
    if place >= len(text):
        return "the text ends here; it could go on with"
    byte = text[place]
    name = BYTE_NAMES.get(byte) or ('"%s"' % chr(byte) if 32 < byte < 127 else "byte %d" % byte)
    if text.startswith(b"\xef\xbb\xbf", place):
        name = "a byte order mark"
    return "%s cannot stand here; it could be" % name


def shown(line):
    """A line as it is shown: a sign for each byte or letter that would not be seen as one."""
    return "".join(sign if sign.isprintable() else "?" for sign in line.decode("utf-8", "replace"))


def slip(name, text, place, could):
    """The words for 17."""
    begins = text.rfind(b"\n", 0, place) + 1
    ends = text.find(b"\n", place)
    line, front = text[begins : ends if ends >= 0 else len(text)], text[begins:place]
    row, column = text.count(b"\n", 0, place) + 1, place - begins + 1
    words = one_of(in_words(could, text[:begins], front))
    at = len(shown(front))
    cut = max(0, at - SIDE)
    yield "%s:%d:%d: %s %s" % (name, row, column, here(text, place), words)
    yield "    " + shown(line)[cut : at + SIDE]
    yield "    " + " " * (at - cut) + "^"


# ---- the other numbers: the lines of a text, taken apart


class Line(NamedTuple):
    """A line: its number from 1, its kind, its number among those of its kind from 0, and what stands in it, by name."""

    row: int
    kind: str
    number: int
    parts: dict


# What a line of each kind is called, by the word that it begins with.
CALLED = {"do": "specification", "select": "selection", "revise": "revision", "action": "action"}


def pattern(form):
    """The pattern of a line in which :n is a number, :l a list and :c a condition, after the name of the part."""
    for sign, group in ((":n", "[0-9]+"), (":l", "(?: [0-9]+)*"), (":c", "[^ ]+")):
        form = re.sub(r"<(\w+)%s>" % sign, r"(?P<\1>%s)" % group, form)
    return re.compile(form + "(?: #.*)?")


PATTERNS = {
    "atoms": pattern("atoms <atoms:n>"),
    "action": pattern("action <weight:n>"),
    "do": pattern("do <action:n> if <condition:c> add<add:l> del<del:l>"),
    "select": pattern("select if <belief:c> goal <goal:c> plan<plan:l>"),
    "revise": pattern("revise<head:l> if <condition:c> to<body:l>"),
    "begin": pattern("begin beliefs<beliefs:l> goals<goals:l> plan<plan:l>"),
}

# The parts that are conditions, plans and sets, each with what it is called.
BELIEF_CONDITIONS = {"condition": "its condition", "belief": "its belief condition"}
CONDITIONS = {**BELIEF_CONDITIONS, "goal": "its goal condition"}
PLANS = {"head": "its head", "body": "its body", "plan": "its plan"}
SETS = {"add": "add", "del": "del", "beliefs": "the beliefs", "goals": "the goals"}


def lines_of(text):
    """The lines of a text that are no notes."""
    counts = dict.fromkeys(PATTERNS, 0)
    for row, raw in enumerate(text.decode("latin-1").split("\n"), 1):
        for kind, form in PATTERNS.items():
            match = form.fullmatch(raw)
            if match:
                yield Line(row, kind, counts[kind], match.groupdict())
                counts[kind] += 1


def value(digits):
    """The number that digits say; one of over 18 digits, zeros in front aside, is given as HUGE."""
    digits = digits.lstrip("0")
    return int(digits or "0") if len(digits) <= 18 else HUGE


def parts_of(line, names):
    """The parts of a line that are of some sort: what each is called, and what stands there."""
    return [(called, line.parts[part]) for part, called in names.items() if part in line.parts]


def lists_of(line, names):
    """The lists of a line that are of some sort: what each is called, and its numbers."""
    return [(called, [value(word) for word in words.split()]) for called, words in parts_of(line, names)]


def depth(condition):
    """How deep brackets and "!" nest: an open "!" ends with the unit before which it stands."""
    open_signs, deepest = [], 0
    for token in re.findall(r"[BG][0-9]+|[T!()]", condition):
        if token in "!(":
            open_signs.append(token)
            deepest = max(deepest, len(open_signs))
            continue
        if token == ")":
            open_signs.pop()
        while open_signs and open_signs[-1] == "!":
            open_signs.pop()
    return deepest


def atoms_in(condition, letters="BG"):
    """The atoms of a condition."""
    return [value(digits) for digits in re.findall("[%s]([0-9]+)" % letters, condition)]


def nodes_in(condition):
    return len(re.findall("[TBG!&|]", condition))


# ---- the reasons: for each number, the lines and what is wrong there


def many(n):
    return format(n, ",") if n < HUGE else "a number of over 18 digits"


def over(numbers, most):
    return [n for n in numbers if n > most]


def nested(lines):
    """18: "brackets and ! together nest more than 32 deep in a condition" """
    for line in lines:
        for called, condition in parts_of(line, CONDITIONS):
            if depth(condition) > 32:
                yield line, "%s nests %d deep, and 32 is the most" % (called, depth(condition))


def large_numbers(line):
    """25: the numbers of a line that are too large for their fields."""
    for part, called, most in (
        ("atoms", "the number of atoms", 65535),
        ("weight", "its weight", 65535),
        ("action", "its action", 255),
    ):
        for n in over([value(line.parts[part])] if part in line.parts else [], most):
            yield line, "%s is %s, and the most that is read is %s" % (called, many(n), many(most))
    for called, condition in parts_of(line, CONDITIONS):
        for n in over(atoms_in(condition), 255):
            yield line, "%s has atom %s, and the most that is read is 255" % (called, many(n))
    for names, most in ((PLANS, 255), (SETS, 127)):
        for called, numbers in lists_of(line, names):
            for n in over(numbers, most):
                yield line, "%s: %s is over %d, the most that is read" % (called, many(n), most)


def large(lines):
    """25: "a number too large for its field, or more entries or pool bytes than edition 1 allows" """
    nodes = pool = 0
    for line in lines:
        yield from large_numbers(line)
        if line.number == 256:
            yield line, "it is the 257th line of its kind, and 256 are the most"
        before, before_pool = nodes, pool
        nodes += sum(nodes_in(condition) for _, condition in parts_of(line, CONDITIONS))
        pool += sum(len(numbers) for _, numbers in lists_of(line, PLANS))
        if before <= 256 < nodes:
            yield line, "with its conditions there are %d nodes, and 256 are the most" % nodes
        if before_pool <= 8192 < pool:
            yield line, "with its plans there are %s actions in all plans, and 8,192 are the most" % many(pool)


def counts(lines):
    """3: "no atoms or over 128, no action line, no condition at all" """
    if not 1 <= value(lines[0].parts["atoms"]) <= 128:
        yield lines[0], "there are %s atoms, and 1 to 128 are allowed" % many(value(lines[0].parts["atoms"]))
    if not any(line.kind == "action" for line in lines):
        yield lines[-1], "there is no action line before it"
    if not any(parts_of(line, CONDITIONS) for line in lines):
        yield lines[-1], "there is no do, select or revise line before it, so no condition"


def weights(lines):
    """5: "a weight of 0 or over 1,024" """
    for line in lines:
        if line.kind == "action" and not 1 <= value(line.parts["weight"]) <= 1024:
            yield line, "its weight is %s, and 1 to 1,024 are allowed" % many(value(line.parts["weight"]))


def known(lines):
    """The numbers of atoms and of actions that the card has."""
    return value(lines[0].parts["atoms"]), sum(line.kind == "action" for line in lines)


def no_such(what, n, count):
    return "there is no %s %d: the card has 0 to %d" % (what, n, count - 1)


def conditions(lines):
    """6: "an atom in a condition that the card doesn't have" """
    atoms, _ = known(lines)
    for line in lines:
        for called, condition in parts_of(line, CONDITIONS):
            for n in over(atoms_in(condition), atoms - 1):
                yield line, "%s: %s" % (called, no_such("atom", n, atoms))


def wrong_letters(line):
    """7: "G in a belief condition or B in a goal condition" """
    for called, condition in parts_of(line, BELIEF_CONDITIONS):
        for n in atoms_in(condition, "G"):
            yield line, "%s has G%d, and only a goal condition may say G" % (called, n)
    for n in atoms_in(line.parts.get("goal", ""), "B"):
        yield line, "its goal condition has B%d, and only a belief condition may say B" % n


def rules(lines):
    """7: "a do line with an unknown action, …, an empty select plan or head, a plan, head or body over 1,024" """
    _, actions = known(lines)
    for line in lines:
        if line.kind == "do":
            for n in over([value(line.parts["action"])], actions - 1):
                yield line, no_such("action", n, actions)
        yield from wrong_letters(line)
        for called, numbers in lists_of(line, PLANS):
            least = 1 if (line.kind, called) in (("select", "its plan"), ("revise", "its head")) else 0
            if not least <= len(numbers) <= 1024:
                yield line, "%s has %s actions, and %d to 1,024 are allowed" % (called, many(len(numbers)), least)


def plans(lines):
    """8: "an unknown action in a plan" """
    _, actions = known(lines)
    for line in lines:
        for called, numbers in lists_of(line, PLANS):
            for n in over(numbers, actions - 1):
                yield line, "%s: %s" % (called, no_such("action", n, actions))


def sets(lines):
    """9: "an unknown atom in a set" """
    atoms, _ = known(lines)
    for line in lines:
        for called, numbers in lists_of(line, SETS):
            for n in over(numbers, atoms - 1):
                yield line, "%s: %s" % (called, no_such("atom", n, atoms))


REASONS = {18: nested, 25: large, 3: counts, 5: weights, 6: conditions, 7: rules, 8: plans, 9: sets}


def entry(line):
    """What a line is called: "specification 1", "the start"."""
    return "%s %d" % (CALLED[line.kind], line.number) if line.kind in CALLED else {"begin": "the start"}.get(line.kind)


def reasons(name, text, number):
    """The words for a number other than 17."""
    found = list(REASONS[number](list(lines_of(text))))
    for line, why in found[:MOST_TOLD]:
        yield ": ".join(filter(None, ["%s:%d" % (name, line.row), entry(line), why]))
    if not found:
        yield "%s: the line is not found" % name
    if len(found) > MOST_TOLD:
        yield "%s: and %d more" % (name, len(found) - MOST_TOLD)


def main(words):
    """Prints the words; the exit status is 0 if there are any."""
    if len(words) < 2 or (words[1] == "17") != (len(words) > 2):
        print("usage: explain.py NAME NUMBER [PLACE [BYTE ...]] < TEXT", file=sys.stderr)
        return 2
    name, number, numbers = words[0], int(words[1]), [int(word) for word in words[2:]]
    text = sys.stdin.buffer.read()
    told = slip(name, text, numbers[0], set(numbers[1:])) if number == 17 else reasons(name, text, number)
    for line in told:
        print(line)
    return 0


if __name__ == "__main__":
    sys.stdout.reconfigure(errors="backslashreplace")
    sys.exit(main(sys.argv[1:]))
