"""The guide's own next move by hand: configurations, and what is told of each; and the card
on which an action and a revision that does not fit are both enabled.
"""

from typing import NamedTuple

import cards
import guide
from cards import TRUE, Node
from closed import START, STRIPE, configuration
from guide import FULL, MOVE, REST
from programs import SHED


class Next(NamedTuple):
    """A next move by hand: what it is, the card, the configuration, the answer's number, the
    ending and the code."""

    name: str
    card: bytes
    held: guide.Configuration
    number: int
    ending: int
    code: int


def crowded_card():
    """Under "true" action 0 has a specification, revision 0 makes 0 0 of 0, and revision 1
    makes nothing of 0."""
    return cards.Description(
        atoms=1,
        weights=[1],
        nodes=[Node(TRUE)],
        specifications=[cards.Specification(0, 0)],
        revisions=[cards.Revision(0, 0, 1, 0, 2), cards.Revision(0, 0, 1, 0, 0)],
        pool=bytes(2),
    )


CROWDED = cards.card(crowded_card())


def plan_of(action, count, phase):
    """A plan of one action again and again."""
    return configuration(plan=(action,) * count, phase=phase)


# Document 01's six steps and the rest after them.
STEPS = [
    Next("next: step 1", STRIPE, START, 0, MOVE, 0),
    Next("next: step 2", STRIPE, configuration((0, 3), (2,), (4,), 1), 0, MOVE, 512),
    Next("next: step 3", STRIPE, configuration((0, 3), (2,), (1, 3), 0), 0, MOVE, 257),
    Next("next: step 4", STRIPE, configuration((0, 1, 3), (2,), (3,), 2), 0, MOVE, 513),
    Next("next: step 5", STRIPE, configuration((0, 1, 3), (2,), (2, 0), 0), 0, MOVE, 258),
    Next("next: step 6", STRIPE, configuration((0, 1), (2,), (0,), 2), 0, MOVE, 256),
    Next("next: rest", STRIPE, configuration((0, 2), (), (), 2, 1), 0, REST, 0),
]

# "From phase p the kinds p, p+1, p+2 (modulo 3) are tried in turn": an action and a revision
# are enabled, or two selections.
PHASES = [
    Next("next: both, phase %d" % phase, SHED, configuration((), (), (0, 1, 2), phase), 0, MOVE, code)
    for phase, code in ((0, 256), (1, 256), (2, 515))
] + [
    Next("next: selections, phase %d" % phase, SHED, configuration(phase=phase), 0, MOVE, 0)
    for phase in range(3)
]

# A revision that leaves 1,025 actions is told as full, though a revision of a higher number
# or an action would fit; with 1,024 it is a move.
LENGTHS = [
    Next("next: full, phase %d" % phase, SHED, plan_of(3, 1024, phase), 0, FULL, 514)
    for phase in range(3)
] + [
    Next("next: just not full, phase %d" % phase, SHED, plan_of(3, 1023, phase), 0, MOVE, 514)
    for phase in range(3)
] + [
    Next("next: crowded, phase 0", CROWDED, plan_of(0, 1024, 0), 0, MOVE, 256),
    Next("next: crowded, phase 1", CROWDED, plan_of(0, 1024, 1), 0, MOVE, 256),
    Next("next: crowded, phase 2", CROWDED, plan_of(0, 1024, 2), 0, FULL, 512),
    Next("next: crowded, one less", CROWDED, plan_of(0, 1023, 2), 0, MOVE, 512),
    Next("next: empty plan, no selection", CROWDED, configuration(phase=2), 0, REST, 0),
]

STUCK = [
    Next("next: no revision and no specification", STRIPE, configuration((), (), (0,), 1), 0, REST, 0),
    Next("next: a condition is false", STRIPE, configuration((), (), (), 1), 0, REST, 0),
]

WRONG = [
    Next("next: phase 3", STRIPE, START._replace(phase=3), 13, 0, 0),
    Next("next: unknown action", STRIPE, configuration((), (), (5,)), 13, 0, 0),
    Next("next: unknown atom", STRIPE, configuration((4,)), 13, 0, 0),
    Next("next: a plan over 1,024", STRIPE, plan_of(0, 1024, 0)._replace(length=1025), 13, 0, 0),
    Next("next: after the plan's end", STRIPE, plan_of(4, 2, 0)._replace(length=1), 13, 0, 0),
    Next("next: a card of no bytes", b"", START, 1, 0, 0),
    Next("next: a card of no bytes, phase 3", b"", START._replace(phase=3), 1, 0, 0),
]

BY_HAND = STEPS + PHASES + LENGTHS + STUCK + WRONG
