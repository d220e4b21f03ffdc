"""The finished count by hand: takes, runs and places, the count that request 4 of
document 02 ("count the picks") gives for each written beside it; and the cards that
they are made on.
"""

from typing import NamedTuple

import cards
import guide
from cards import TRUE, Node
from closed import LONG_HEAD, START, STRIPE, configuration

# The counts that are handed in: at the beginning, and up to where it stops.
HANDED_IN = (0, 1, 255, 65533, 65534, 65535)


# --- the cards --------------------------------------------------------------


def emptying_card():
    """Four actions under "true", a selection rule and a specification or a revision
    rule for each way to empty the plan: action 0 has a specification, action 1 is
    revised to nothing, action 2 to action 1, action 3 to two of itself. Selection 0 is
    always enabled and makes the plan 0."""
    return cards.Description(
        atoms=1,
        weights=[1, 1, 2, 1],
        nodes=[Node(TRUE)],
        specifications=[cards.Specification(0, 0)],
        selections=[cards.Selection(0, 0, 0, 1), cards.Selection(0, 0, 0, 3)],
        revisions=[
            cards.Revision(0, 1, 1, 0, 0),
            cards.Revision(0, 2, 1, 1, 1),
            cards.Revision(0, 3, 1, 3, 2),
            cards.Revision(0, 0, 3, 5, 0),
        ],
        pool=bytes([0, 1, 2, 3, 3]),
    )


def revising_card():
    """A selection that is always enabled makes the plan 0 1; action 0 is revised to
    nothing and so is action 1: one transition in three leaves the plan empty, and it
    is a revision."""
    return cards.Description(
        atoms=1,
        weights=[1, 1],
        nodes=[Node(TRUE)],
        selections=[cards.Selection(0, 0, 0, 2)],
        revisions=[cards.Revision(0, 0, 1, 2, 0), cards.Revision(0, 1, 1, 0, 0)],
        pool=bytes([0, 1]),
    )


def busy_card():
    """A selection that is always enabled makes the plan 0, which a specification of
    action 0 empties: every second transition leaves the plan empty."""
    return cards.Description(
        atoms=1,
        weights=[1],
        nodes=[Node(TRUE)],
        specifications=[cards.Specification(0, 0)],
        selections=[cards.Selection(0, 0, 0, 1)],
        pool=bytes(1),
    )


EMPTYING = cards.card(emptying_card())
REVISING = cards.card(revising_card())
BUSY = cards.card(busy_card())


# --- takes ------------------------------------------------------------------


class Taken(NamedTuple):
    """A take: what it is, the card, the configuration, the choice, the number, and
    how many the finished count is more afterwards, but for its end at 65,535."""

    name: str
    card: bytes
    held: guide.Configuration
    choice: int
    number: int
    more: int


# "How many transitions have left the plan empty": the plan afterwards decides.
MOVES = [
    Taken("a last action", EMPTYING, configuration(plan=(0,)), 256, 0, 1),
    Taken("an action before another", EMPTYING, configuration(plan=(0, 0)), 256, 0, 0),
    Taken("a last action, phase 2", STRIPE, configuration((0, 1), (2,), (0,), 2), 256, 0, 1),
    Taken("a revision to nothing", EMPTYING, configuration(plan=(1,)), 512, 0, 1),
    Taken("a revision to nothing before another", EMPTYING, configuration(plan=(1, 1)), 512, 0, 0),
    Taken("a revision of three to nothing", EMPTYING, configuration(plan=(0, 1, 2)), 515, 0, 1),
    Taken("a revision of two to nothing", LONG_HEAD, configuration((3,), (), (3, 0)), 512, 0, 1),
    Taken("a revision to one action", EMPTYING, configuration(plan=(2,)), 513, 0, 0),
    Taken("a revision to two actions", EMPTYING, configuration(plan=(3,)), 514, 0, 0),
    Taken("a selection", EMPTYING, configuration(), 0, 0, 0),
    Taken("a selection of three", EMPTYING, configuration(phase=1), 1, 0, 0),
    Taken("the stripe card's selection", STRIPE, START, 0, 0, 0),
]

# "A refusal answers the number and the configuration as it came in."
REFUSED = [
    Taken("refused with 1", b"", configuration(plan=(0,)), 256, 1, 0),
    Taken("refused with 4", EMPTYING + b"\0", configuration(plan=(0,)), 256, 4, 0),
    Taken("refused with 13", EMPTYING, configuration(plan=(0,), phase=3), 256, 13, 0),
    Taken("refused with 14", EMPTYING, configuration(plan=(0,)), 257, 14, 0),
    Taken("refused with 15", EMPTYING, configuration(plan=(1,)), 256, 15, 0),
    Taken("refused with 15, empty", EMPTYING, configuration(), 512, 15, 0),
    Taken("refused with 16", STRIPE, configuration((), (), (3,)), 513, 16, 0),
    Taken("refused with 11", EMPTYING, configuration(plan=(3,) * 1024), 514, 11, 0),
]


def each_take():
    """Each take with each count handed in: the name, the card, the configuration, the
    choice, the number and the count afterwards."""
    for one in MOVES + REFUSED:
        long = one.held.length > 100
        for count in HANDED_IN[-1:] if long else HANDED_IN:
            name = "finished: %s, from %d" % (one.name, count)
            expected = min(65535, count + one.more)
            yield name, one.card, one.held._replace(finished=count), one.choice, one.number, expected


# --- runs -------------------------------------------------------------------


class Run(NamedTuple):
    """A run: the card, the configuration, the budget, and the count of transitions,
    the ending and the finished count that it answers."""

    card: bytes
    held: guide.Configuration
    budget: int
    count: int
    ending: int
    finished: int


def run_of(card, finished, budget, more, plan=(), phase=0):
    """A run that is spent, with the finished count that it begins with and so many
    more."""
    held = configuration(plan=plan, phase=phase, finished=finished)
    return Run(card, held, budget, budget, guide.SPENT, finished + more)


# On the busy card every second transition leaves the plan empty, and every third on
# the revising card: of 65,535 these are 32,767 and 21,845.
RUNS = [
    run_of(BUSY, 0, 0, 0),
    run_of(BUSY, 0, 1, 0),
    run_of(BUSY, 0, 2, 1),
    run_of(BUSY, 0, 3, 1),
    run_of(BUSY, 0, 1000, 500),
    run_of(BUSY, 0, 65535, 32767),
    run_of(BUSY, 7, 10, 5),
    run_of(BUSY, 7, 9, 5, (0,), 1),
    run_of(BUSY, 255, 2, 1),
    run_of(BUSY, 256, 3, 1),
    run_of(BUSY, 32768, 65535, 32767),
    run_of(BUSY, 65533, 0, 0),
    run_of(BUSY, 65533, 2, 1),
    run_of(BUSY, 65533, 4, 2),
    run_of(BUSY, 65533, 6, 2),
    run_of(BUSY, 65534, 1, 0),
    run_of(BUSY, 65534, 2, 1),
    run_of(BUSY, 65534, 3, 1),
    run_of(BUSY, 65534, 1000, 1),
    run_of(BUSY, 65535, 0, 0),
    run_of(BUSY, 65535, 1, 0, (0,), 1),
    run_of(BUSY, 65535, 2, 0),
    run_of(BUSY, 65535, 1000, 0),
    run_of(BUSY, 40000, 65535, 25535),
    run_of(REVISING, 0, 1, 0),
    run_of(REVISING, 0, 2, 0),
    run_of(REVISING, 0, 3, 1),
    run_of(REVISING, 43690, 65535, 21845),
    run_of(REVISING, 65534, 6, 1),
    run_of(REVISING, 65535, 1, 0, (1,), 2),
]

# The stripe card's six steps leave the plan empty once, with the last; at rest nothing
# is counted, and when the plan is full neither.
RUNS += [
    Run(STRIPE, START._replace(finished=count), budget, min(6, budget), ending, after)
    for count, budget, ending, after in (
        (0, 5, guide.SPENT, 0),
        (0, 6, guide.SPENT, 1),
        (0, 7, guide.REST, 1),
        (65534, 1000, guide.REST, 65535),
        (65535, 1000, guide.REST, 65535),
        (1, 1000, guide.REST, 2),
    )
]
RUNS += [
    Run(STRIPE, configuration((0, 2), phase=2, finished=count), 9, 0, guide.REST, count)
    for count in HANDED_IN
]
RUNS += [
    Run(EMPTYING, configuration(plan=(3,) * 1024, phase=2, finished=count), 9, 0, guide.FULL, count)
    for count in (1, 65535)
]


# --- places -----------------------------------------------------------------

# "It stands in bytes 10 and 11 of the place, which were zero, so old places read as
# count 0": the bytes 10 and 11, low byte first, and the count.
PLACE_COUNTS = (
    ("00 00", 0),
    ("01 00", 1),
    ("FF 00", 255),
    ("00 01", 256),
    ("01 01", 257),
    ("34 12", 0x1234),
    ("00 FF", 65280),
    ("FD FF", 65533),
    ("FE FF", 65534),
    ("FF FF", 65535),
)

# The place of P7 before its bytes 10 and 11, and after them.
BEFORE = bytes.fromhex("3350 0100 0200 2C00 0000")
BEHIND = b"\x0b" + bytes(15) + b"\x04" + bytes(15) + b"\x02\x00"


def each_place():
    """The place of P7 with each of the counts, and the configuration that it is."""
    for word, count in PLACE_COUNTS:
        place = BEFORE + bytes.fromhex(word) + BEHIND
        yield place, configuration((0, 1, 3), (2,), (2, 0), 0, count)
