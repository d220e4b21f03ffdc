"""Broken programs: each clause of 19 broken, and each limit just kept.

A damage makes the bytes of a program from the entries of a good one; the number beside it
is that of request 6, 0 where a limit is just kept.
"""

from damage import Damage
from programs import EXECUTE, apply, either, program, select, then, while_belief, while_plan

ENTRY_LIMIT = 128


def with_zeros(entries):
    """The bytes of entries, each of three bytes and 0, or of four."""
    return b"".join(bytes(entry).ljust(4, b"\0") for entry in entries)


def goal_conditions(card):
    """The nodes of a card that are no belief conditions: those with a goal atom."""
    found = []
    for own, (kind, a, b, _) in enumerate(card.nodes.entries):
        parts = {3: (a,), 4: (a, b), 5: (a, b)}.get(kind, ())
        if kind == 2 or any(part in found for part in parts):
            found.append(own)
    return found


def belief_conditions(card):
    """The nodes of a card that are belief conditions."""
    wrong = goal_conditions(card)
    return [node for node in range(len(card.nodes.entries)) if node not in wrong]


# --- how a program is damaged -----------------------------------------------


def cut(make):
    """A change of the bytes of a program."""
    return lambda random, card, entries: make(program(entries))


def put(make):
    """A change that puts one entry, made from its own number and the card: at the front,
    at the end or in the place of any, or with another at the end behind it, so that none
    uses it. None where the card has no such entry."""

    def change(random, card, entries):
        entries = list(entries)[:ENTRY_LIMIT - 2]
        own = random.choice((0, len(entries) - 1, len(entries), random.randrange(len(entries))))
        made = make(own, card)
        if made is None:
            return None
        entries[own:own + 1] = [made]
        return with_zeros(entries + [EXECUTE] * random.randrange(2))

    return change


def added(make):
    """A change that puts one entry at the end, so that it has a part to name; or with
    another behind it, so that none uses it. None where the card has no such entry."""

    def change(random, card, entries):
        entries = list(entries)[:ENTRY_LIMIT - 2]
        made = make(len(entries), card)
        if made is None:
            return None
        return with_zeros(entries + [made] + [EXECUTE] * random.randrange(2))

    return change


def first(make):
    """A change of the first entry."""
    return lambda random, card, entries: with_zeros([make(0, card)] + list(entries)[1:])


def many(count):
    """A change to so many entries: the first ones, or more of "execute" before them."""
    return lambda random, card, entries: program(
        [EXECUTE] * (count - len(entries)) + list(entries)[:count]
    )


def always(entry):
    """The same entry, whatever its own number and the card are."""
    return lambda own, card: entry


def rule(make, which, past):
    """An entry that names the rule `past` the last one of the card, or rule 255; None
    where the card has that rule."""

    def entry(own, card):
        count = len(getattr(card, which))
        named = count + past if past < 200 else past
        return make(named) if count <= named <= 255 else None

    return entry


def node(past):
    """A while under the node `past` the last one of the card, or node 255; None where
    the card has that node."""

    def entry(own, card):
        count = len(card.nodes.entries)
        named = count + past if past < 200 else past
        return while_belief(named, 0) if count <= named <= 255 else None

    return entry


def goal_node(at):
    """A while under a condition with a goal atom: the first such node of the card, the
    last, or one between."""

    def entry(own, card):
        found = goal_conditions(card)
        return while_belief(found[at % len(found)], 0) if found else None

    return entry


# --- 19 a program -----------------------------------------------------------

LENGTHS = [
    Damage("program: no bytes", 19, cut(lambda whole: b"")),
    Damage("program: 1 byte", 19, cut(lambda whole: whole[:1])),
    Damage("program: 3 bytes", 19, cut(lambda whole: whole[:3])),
    Damage("program: 5 bytes", 19, cut(lambda whole: bytes(5))),
    Damage("program: one byte less", 19, cut(lambda whole: whole[:-1])),
    Damage("program: two bytes less", 19, cut(lambda whole: whole[:-2])),
    Damage("program: one byte more", 19, cut(lambda whole: (whole + b"\0")[-509:])),
    Damage("program: two bytes more", 19, cut(lambda whole: (whole + b"\0\0")[-510:])),
    Damage("program: 511 bytes", 19, cut(lambda whole: bytes(511))),
    Damage("program: 513 bytes", 19, cut(lambda whole: bytes(513))),
    Damage("program: 129 entries", 19, many(129)),
    Damage("program: 256 entries", 19, many(256)),
    Damage("program: 1,023 bytes", 19, cut(lambda whole: bytes(1023))),
]

KINDS = [
    Damage("program: kind %d" % kind, 19, put(always((kind, 0, 0)))) for kind in (7, 8, 128, 255)
]

WHOLE_ENTRIES = (
    EXECUTE,
    apply(0),
    select(0),
    while_plan(0),
    while_belief(0, 0),
    then(0, 0),
    either(0, 0),
)


def zero_damages():
    """Bytes that are not used, or plain zeros, not 0."""
    for entry in WHOLE_ENTRIES:
        for byte in (1, 255):
            name = "program: kind %d, fourth byte %d" % (entry[0], byte)
            yield Damage(name, 19, added(always(entry + (byte,))))
    for byte in (1, 255):
        yield Damage("program: execute, a %d" % byte, 19, put(always((0, byte, 0))))
        yield Damage("program: execute, b %d" % byte, 19, put(always((0, 0, byte))))
        yield Damage("program: apply, b %d" % byte, 19, put(always((1, 0, byte))))
        yield Damage("program: select, b %d" % byte, 19, put(always((2, 0, byte))))
        name = "program: while the plan is not empty, a %d" % byte
        yield Damage(name, 19, added(always((3, byte, 0))))


def naming_damages():
    """Rules and nodes that the card has not, and conditions on goals."""
    for past, what in ((0, "one past the last"), (1, "two past the last"), (255, "255")):
        yield Damage("program: apply, %s" % what, 19, put(rule(apply, "revisions", past)))
        yield Damage("program: select, %s" % what, 19, put(rule(select, "selections", past)))
        yield Damage("program: while, node %s" % what, 19, added(node(past)))
    for at, what in ((0, "the first"), (1, "the second"), (2, "the third"), (-1, "the last")):
        yield Damage("program: while, %s goal condition" % what, 19, added(goal_node(at)))


PARTS = (
    ("while the plan is not empty", lambda part, low: while_plan(part)),
    ("while a belief condition", lambda part, low: while_belief(0, part)),
    ("sequence, left", lambda part, low: then(part, low)),
    ("sequence, right", lambda part, low: then(low, part)),
    ("choice, left", lambda part, low: either(part, low)),
    ("choice, right", lambda part, low: either(low, part)),
)


def part_damages():
    """Part numbers that are not lower than their own."""
    for name, make in PARTS:
        for what, part in (
            ("its own number", lambda own: own),
            ("a higher number", lambda own: own + 1),
            ("255", lambda own: 255),
        ):
            change = added(lambda own, card, make=make, part=part: make(part(own), 0))
            yield Damage("program: %s, %s" % (name, what), 19, change)
    for entry in WHOLE_ENTRIES[3:]:
        yield Damage("program: kind %d first" % entry[0], 19, first(always(entry)))


PROGRAM_DAMAGES = [
    *LENGTHS,
    *KINDS,
    *zero_damages(),
    *naming_damages(),
    *part_damages(),
]


# --- limits just kept -------------------------------------------------------


def last_rule(make, which):
    """An entry that names the card's last rule of a kind."""

    def entry(own, card):
        count = len(getattr(card, which))
        return make(count - 1) if count else None

    return entry


def last_belief(own, card):
    """A while under the last belief condition of the card."""
    found = belief_conditions(card)
    return while_belief(found[-1], 0) if found else None


def below(make):
    """An entry whose parts have the number right below its own."""
    return added(lambda own, card: make(own - 1))


PROGRAM_RANGES = [
    Damage("program range: 1 entry", 0, many(1)),
    Damage("program range: 127 entries", 0, many(127)),
    Damage("program range: 128 entries", 0, many(128)),
    Damage("program range: apply the last", 0, added(last_rule(apply, "revisions"))),
    Damage("program range: select the last", 0, added(last_rule(select, "selections"))),
    Damage("program range: while, the last belief condition", 0, added(last_belief)),
    Damage("program range: while, the entry before", 0, below(while_plan)),
    Damage("program range: sequence, the entry before", 0, below(lambda part: then(part, part))),
    Damage("program range: choice, the entry before", 0, below(lambda part: either(part, part))),
    Damage("program range: sequence, the entry before, right", 0, below(lambda p: then(0, p))),
    Damage("program range: choice, the entry before, left", 0, below(lambda p: either(p, 0))),
]
