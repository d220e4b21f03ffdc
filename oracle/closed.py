"""Closed moves: takes that are refused with 14, 15 or 16, or with a number that
comes before or after these, the number and the node that request 1 of document 02
gives for each written beside it by hand; and the cards that they are taken on.
"""

import itertools
from typing import NamedTuple

import cards
import guide
from cards import AND, BELIEVES, HAS_GOAL, NOT, OR, TRUE, Node


class Closed(NamedTuple):
    """A refused take: what is wrong, the card, the configuration, the choice, the
    number, and the node (0 but with 16)."""

    name: str
    card: bytes
    held: guide.Configuration
    choice: int
    number: int
    node: int


def configuration(beliefs=(), goals=(), plan=(), phase=0, finished=0):
    """A configuration from atoms and actions."""
    array = bytes(plan).ljust(guide.PLAN_LIMIT, b"\0")
    sets = cards.atoms_set(*beliefs), cards.atoms_set(*goals)
    return guide.Configuration(*sets, array, len(plan), phase, finished)


# --- the cards --------------------------------------------------------------


def long_head_card():
    """The stripe card of P5: revision 0 has the head 3 0, the empty body, and
    node 2 ("believes 3")."""
    description = cards.stripe_card()
    description.pool += bytes([3, 0])
    description.revisions[0] = cards.Revision(2, 5, 2, 0, 0)
    return description


def conditions_card():
    """Belief conditions over the atoms 0, 1 and 2, and a specification of action 0
    for each node: choice 256 + n judges node n."""
    nodes = [Node(BELIEVES, 0), Node(BELIEVES, 1), Node(BELIEVES, 2)]
    nodes += [Node(NOT, 0), Node(AND, 0, 1), Node(OR, 0, 1), Node(NOT, 4), Node(OR, 4, 2), Node(AND, 2, 5)]
    nodes += [Node(NOT, 8), Node(AND, 7, 9), Node(NOT, 10), Node(OR, 3, 10)]
    nodes += [Node(TRUE), Node(NOT, 13), Node(AND, 13, 14), Node(OR, 14, 13), Node(OR, 13, 0), Node(AND, 14, 0)]
    return cards.Description(
        atoms=3,
        weights=[1],
        nodes=nodes,
        specifications=[cards.Specification(0, n) for n in range(len(nodes))],
    )


def selections_card():
    """Selections under belief conditions over atom 0 and goal conditions over the
    atoms 0 and 1."""
    nodes = [Node(BELIEVES, 0), Node(HAS_GOAL, 0), Node(HAS_GOAL, 1)]
    nodes += [Node(NOT, 0), Node(AND, 1, 2), Node(OR, 1, 2), Node(TRUE)]
    conditions = ((0, 1), (3, 4), (0, 5), (6, 4), (0, 6))
    return cards.Description(
        atoms=2,
        weights=[1],
        nodes=nodes,
        selections=[cards.Selection(belief, goal, 0, 1) for belief, goal in conditions],
        pool=bytes(1),
    )


def high_nodes_card():
    """256 nodes, the last three of them "believes 0" (253), "true and 253" and
    "believes 1" (255), the others "true"; a specification for each of the last
    two."""
    last = [Node(BELIEVES, 0), Node(AND, 0, 253), Node(BELIEVES, 1)]
    return cards.Description(
        atoms=2,
        weights=[1],
        nodes=[Node(TRUE)] * 253 + last,
        specifications=[cards.Specification(0, 254), cards.Specification(0, 255)],
    )


def tall_card():
    """256 nodes, each from the second on "not k-1", with a specification for the
    last but one, which has the value of node 0, and one for the last."""
    return cards.Description(
        atoms=1,
        weights=[1],
        nodes=[Node(BELIEVES, 0)] + [Node(NOT, k - 1) for k in range(1, 256)],
        specifications=[cards.Specification(0, 254), cards.Specification(0, 255)],
    )


STRIPE = cards.card(cards.stripe_card())
LONG_HEAD = cards.card(long_head_card())
CONDITIONS = cards.card(conditions_card())
SELECTIONS = cards.card(selections_card())
SMALLEST = cards.card(cards.smallest_card())
SHARED = cards.card(cards.shared_nodes_card())
HIGH = cards.card(high_nodes_card())
TALL = cards.card(tall_card())


# --- 14: "no such rule or specification" ------------------------------------

# Selection 0 of the stripe card is enabled here: nothing but the code is wrong.
START = configuration(beliefs=(0, 3), goals=(2,))

# The stripe card has 1 selection rule, 3 specifications and 3 revision rules.
NO_SUCH_ENTRY = [
    Closed("closed: no such entry, %d" % code, STRIPE, START, code, 14, 0)
    for code in (1, 2, 255, 259, 260, 511, 515, 516, 767, 768, 769, 1023, 1024, 32768, 65280, 65535)
] + [
    Closed("closed: no such entry, %d of an empty section" % code, SMALLEST, guide.EMPTY, code, 14, 0)
    for code in (0, 256, 512)
]

# --- 15: "the plan's front doesn't fit" -------------------------------------

# Each with its condition true, and with it false: selection 0 has node 5 ("has goal
# 2"), specification 0 node 4 ("believes 1 and not believes 3") and the action 0,
# revision 1 node 2 ("believes 3") and the head 3.
UNFIT = [
    Closed("closed: front, %s, condition %s" % (what, value), card, configuration(*sets, plan), choice, 15, 0)
    for what, card, choice, plan, true in (
        ("a selection, not empty", STRIPE, 0, (4,), ((), (2,))),
        ("a selection, not empty but of action 0", STRIPE, 0, (0,), ((), (2,))),
        ("an action, empty", STRIPE, 256, (), ((1,), ())),
        ("an action, other first action", STRIPE, 256, (1,), ((1,), ())),
        ("an action, its own second", STRIPE, 256, (1, 0), ((1,), ())),
        ("a revision, empty", STRIPE, 513, (), ((3,), ())),
        ("a revision, other head", STRIPE, 513, (4,), ((3,), ())),
        ("a revision, its head second", STRIPE, 513, (4, 3), ((3,), ())),
        ("a head longer than the plan", LONG_HEAD, 512, (3,), ((3,), ())),
        ("a head of which the first action fits", LONG_HEAD, 512, (3, 1), ((3,), ())),
        ("a head of which the second action fits", LONG_HEAD, 512, (1, 0), ((3,), ())),
    )
    for value, sets in (("true", true), ("false", ((), ())))
]

# --- 16: "a condition is false, with the node" ------------------------------

FALSE = [
    # Revision 1's condition is node 2 itself: "for an atom, that node".
    Closed("P6", STRIPE, configuration(plan=(3,)), 513, 16, 2),
    # Revision 2's is node 3, "not 2": "for not, its child's".
    Closed("closed: false, a not", STRIPE, configuration((3,), (), (3,)), 514, 16, 2),
    # Specification 0's is node 4, "1 and 3", and the left, node 1, is false.
    Closed("closed: false, the left of an and", STRIPE, configuration((), (), (0,)), 256, 16, 1),
    # The left is false and the right, too: the left alone settles it.
    Closed("closed: false, both of an and", STRIPE, configuration((3,), (), (0,)), 256, 16, 1),
    # The left is true, so it is the right's; the right is node 3, "not 2", hence node
    # 2: neither the root nor a child of it.
    Closed("closed: false, below the right of an and", STRIPE, configuration((1, 3), (), (0,)), 256, 16, 2),
    # Selection 0: "true" holds, the goal condition is node 5 itself.
    Closed("closed: false, a goal condition", STRIPE, configuration(), 0, 16, 5),
    # A head of two actions fits, node 2 is false.
    Closed("closed: false, a head of two", LONG_HEAD, configuration((), (), (3, 0, 4)), 512, 16, 2),
]

# The selections under (belief condition, goal condition): 0 (0, 1), 1 (not 0, 1 and
# 2), 2 (0, 1 or 2), 3 (true, 1 and 2), 4 (0, true). Where both are false, the belief
# condition's is shown. A false "1 or 2" shows the right, node 2, as its left settles
# nothing; a false "1 and 2" shows node 1 where goal 0 is missing, else node 2.
FALSE += [
    Closed("closed: false, %s, choice %d" % (what, choice), SELECTIONS, configuration(*sets), choice, 16, node)
    for what, sets, nodes in (
        ("no belief, no goal", ((), ()), (0, 1, 0, 1, 0)),
        ("no belief, goal 0", ((), (0,)), (0, 2, 0, 2, 0)),
        ("no belief, goal 1", ((), (1,)), (0, 1, 0, 1, 0)),
        ("no belief, both goals", ((), (0, 1)), (0, None, 0, None, 0)),
        ("the belief, no goal", ((0,), ()), (1, 0, 2, 1, None)),
        ("the belief, goal 0", ((0,), (0,)), (None, 0, None, 2, None)),
        ("the belief, goal 1", ((0,), (1,)), (1, 0, None, 1, None)),
        ("the belief, both goals", ((0,), (0, 1)), (None, 0, None, None, None)),
    )
    for choice, node in enumerate(nodes)
    if node is not None
]

FALSE += [
    # 255 times "and" over the node before: the left is false all the way down.
    Closed("closed: false, shared nodes, an action", SHARED, configuration((), (), (0,)), 256, 16, 0),
    Closed("closed: false, shared nodes, a revision", SHARED, configuration((), (), (1,)), 512, 16, 0),
    # Node 254 has an even number of "not"s over node 0, node 255 an odd one.
    Closed("closed: false, 254 times not", TALL, configuration((), (), (0,)), 256, 16, 0),
    Closed("closed: false, 255 times not", TALL, configuration((0,), (), (0,)), 257, 16, 0),
    # "True and 253" with a false right, and the last node itself.
    Closed("closed: false, node 253", HIGH, configuration((1,), (), (0,)), 256, 16, 253),
    Closed("closed: false, node 255", HIGH, configuration((0,), (), (0,)), 257, 16, 255),
]

# --- the order: 13, 14, 15, 16, 11 ------------------------------------------

LONG = (0,) * 1023

ORDER = [
    Closed("closed: order, 13 before 14", STRIPE, configuration(phase=3), 768, 13, 0),
    Closed("closed: order, 13 before 15", STRIPE, configuration((), (2,), (4,), 3), 0, 13, 0),
    Closed("closed: order, 13 before 16", STRIPE, configuration((), (), (3,), 3), 513, 13, 0),
    Closed("closed: order, 14 on a plan of 1,024", STRIPE, configuration((3,), (), (3,) + LONG), 515, 14, 0),
    # Revision 1's body has one action more than its head.
    Closed("closed: order, 15 before 11", STRIPE, configuration((3,), (), (0,) + LONG), 513, 15, 0),
    Closed("closed: order, 16 before 11", STRIPE, configuration((), (), (3,) + LONG), 513, 16, 2),
    Closed("closed: order, 11", STRIPE, configuration((3,), (), (3,) + LONG), 513, 11, 0),
    Closed("closed: order, 4 before 14", STRIPE + b"\0", configuration(), 768, 4, 0),
    Closed("closed: order, 4 before 16", STRIPE + b"\0", configuration((), (), (3,)), 513, 4, 0),
]

ALL = NO_SUCH_ENTRY + UNFIT + FALSE + ORDER


# --- every node under every set of beliefs ----------------------------------

# The sets of beliefs over the atoms 0, 1 and 2, in the order of the table.
BELIEF_SETS = ((), (0,), (1,), (0, 1), (2,), (0, 2), (1, 2), (0, 1, 2))

# For each node of the conditions card and each of these sets: T or F, and the node
# that settles it.
SETTLED = (
    "F0 T0 F0 T0 F0 T0 F0 T0",  # 0: believes 0
    "F1 F1 T1 T1 F1 F1 T1 T1",  # 1: believes 1
    "F2 F2 F2 F2 T2 T2 T2 T2",  # 2: believes 2
    "T0 F0 T0 F0 T0 F0 T0 F0",  # 3: not 0
    "F0 F1 F0 T1 F0 F1 F0 T1",  # 4: 0 and 1; node 0 where it is false, else node 1
    "F1 T0 T1 T0 F1 T0 T1 T0",  # 5: 0 or 1; node 0 where it is true, else node 1
    "T0 T1 T0 F1 T0 T1 T0 F1",  # 6: not 4
    "F2 F2 F2 T1 T2 T2 T2 T1",  # 7: 4 or 2; where 4 is true its node 1, else node 2
    "F2 F2 F2 F2 F1 T0 T1 T0",  # 8: 2 and 5; node 2 where it is false, else 5's
    "T2 T2 T2 T2 T1 F0 F1 F0",  # 9: not 8
    "F2 F2 F2 T2 T1 F0 F1 F0",  # 10: 7 and 9; 7's where it is false, else 9's
    "T2 T2 T2 F2 F1 T0 T1 T0",  # 11: not 10
    "T0 F2 T0 T2 T0 F0 T0 F0",  # 12: 3 or 10; 3's where it is true, else 10's
    "T13 T13 T13 T13 T13 T13 T13 T13",  # 13: true
    "F13 F13 F13 F13 F13 F13 F13 F13",  # 14: not 13
    "F13 F13 F13 F13 F13 F13 F13 F13",  # 15: 13 and 14; the left is true: 14's
    "T13 T13 T13 T13 T13 T13 T13 T13",  # 16: 14 or 13; the left is false: node 13
    "T13 T13 T13 T13 T13 T13 T13 T13",  # 17: 13 or 0; the left is true
    "F13 F13 F13 F13 F13 F13 F13 F13",  # 18: 14 and 0; the left is false
)


def settled_table():
    """Each node of the conditions card under each set of beliefs: the node, the
    beliefs, whether it holds and which node settles it, by the table."""
    for node, row in enumerate(SETTLED):
        for beliefs, word in zip(BELIEF_SETS, row.split()):
            yield node, beliefs, word[0] == "T", int(word[1:])


def every_condition():
    """For each set of beliefs and each node of the conditions card, the
    configuration and the choice that judges the node."""
    for beliefs, node in itertools.product(BELIEF_SETS, range(len(SETTLED))):
        yield configuration(beliefs, (), (0,)), 256 + node
