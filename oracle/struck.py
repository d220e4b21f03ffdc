"""Goals and beliefs by hand: actions, loads, runs and places with believed goals, the
goals that request 5 of document 02 ("a goal falls when its fact is believed") leaves
for each written beside it; and the card that they are made on.
"""

import itertools

import cards
from cards import BELIEVES, HAS_GOAL, NOT, TRUE, Node
from closed import configuration

# The sets of the atoms 0 and 1, in the order of the table below.
SETS = ((), (0,), (1,), (0, 1))

# Actions, each with one specification under "true": Add and Del.
EFFECTS = (
    ((), ()),
    ((0,), ()),
    ((), (0,)),
    ((0,), (0,)),
    ((0, 1), (1,)),
    ((1,), (0,)),
)

# For each action and each set of beliefs before it: the beliefs after it, and which of
# the goals 0 and 1 stay. An atom in Add and Del is not believed and stays a goal; one
# believed long before falls by any action.
AFTER = (
    "-/01 0/1 1/0 01/-",  # 0: nothing
    "0/1 0/1 01/- 01/-",  # 1: Add 0
    "-/01 -/01 1/0 1/0",  # 2: Del 0
    "-/01 -/01 1/0 1/0",  # 3: Add 0, Del 0
    "0/1 0/1 0/1 0/1",  # 4: Add 0 and 1, Del 1
    "1/0 1/0 1/0 1/0",  # 5: Add 1, Del 0
)


def striking_card(beliefs=(), goals=()):
    """The actions; selections under "has goal 0" (plan 0), "has goal 1" (plan 2 0) and
    "not has goal 0" (plan 1); revisions of 0 0 to 1 under "true", and of 2 to nothing
    under "believes 0"."""
    return cards.Description(
        atoms=2,
        weights=[1] * len(EFFECTS),
        nodes=[
            Node(TRUE),
            Node(HAS_GOAL, 0),
            Node(HAS_GOAL, 1),
            Node(NOT, 1),
            Node(BELIEVES, 0),
        ],
        specifications=[
            cards.Specification(action, 0, cards.atoms_set(*add), cards.atoms_set(*delete))
            for action, (add, delete) in enumerate(EFFECTS)
        ],
        selections=[
            cards.Selection(0, 1, 1, 1),
            cards.Selection(0, 2, 0, 2),
            cards.Selection(0, 3, 3, 1),
        ],
        revisions=[cards.Revision(0, 1, 2, 3, 1), cards.Revision(4, 0, 1, 0, 0)],
        pool=bytes([2, 0, 0, 1]),
        beliefs=cards.atoms_set(*beliefs),
        goals=cards.atoms_set(*goals),
    )


STRIKING = cards.card(striking_card())


def atoms_in(word):
    """The atoms of a word of the table."""
    return tuple(int(digit) for digit in word if digit != "-")


# --- actions ----------------------------------------------------------------


def each_action():
    """Each action from each sets of beliefs and goals: the configuration, the choice,
    and the configuration after it. "After an action the goals are those not
    believed." """
    for action, row in enumerate(AFTER):
        for beliefs, word in zip(SETS, row.split()):
            after, stay = map(atoms_in, word.split("/"))
            for goals in SETS:
                left = [goal for goal in goals if goal in stay]
                held = configuration(beliefs, goals, (action, 5), 1, 7)
                yield held, 256 + action, configuration(after, left, (5,), 2, 7)


# --- selections and revisions -----------------------------------------------


def selection(beliefs, goals, n, plan):
    """A selection of rule n: nothing changes but the plan and the phase."""
    held = configuration(beliefs, goals, (), 0, 7)
    return held, n, configuration(beliefs, goals, plan, 1, 7)


def revision(beliefs, goals, n, plan, after):
    """A revision by rule n: nothing changes but the plan, the phase, and the finished
    count where the plan is left empty."""
    held = configuration(beliefs, goals, plan, 0, 7)
    return held, 512 + n, configuration(beliefs, goals, after, 0, 7 if after else 8)


# "Has goal" is true of a believed goal until the next action.
OTHERS = [
    selection((0,), (0,), 0, (0,)),
    selection((0, 1), (0,), 0, (0,)),
    selection((0, 1), (0, 1), 0, (0,)),
    selection((1,), (0,), 0, (0,)),
    selection((1,), (1,), 1, (2, 0)),
    selection((0, 1), (0, 1), 1, (2, 0)),
    selection((0, 1), (1,), 2, (1,)),
    selection((1,), (1,), 2, (1,)),
    revision((0,), (0,), 0, (0, 0), (1,)),
    revision((0, 1), (0, 1), 0, (0, 0, 3), (1, 3)),
    revision((0,), (0,), 1, (2,), ()),
    revision((0, 1), (0, 1), 1, (2,), ()),
    revision((0, 1), (1,), 1, (2, 2), (2,)),
]


# --- loads ------------------------------------------------------------------

# Atoms at the ends of bytes of a set: the card's number of atoms, initial beliefs and
# goals, and the goals that stay.
WIDE_LOADS = (
    (128, (0, 7, 8, 63, 64, 127), (0, 7, 8, 63, 64, 127), ()),
    (128, (7, 63, 127), (0, 7, 8, 63, 64, 127), (0, 8, 64)),
    (128, (0, 8, 64), (7, 63, 127), (7, 63, 127)),
    (128, (127,), (126, 127), (126,)),
    (256, (0, 127, 128, 191, 192, 255), (0, 127, 128, 191, 192, 255), ()),
    (256, (127, 191, 255), (0, 127, 128, 191, 192, 255), (0, 128, 192)),
    (256, (0, 128, 192), (127, 191, 255), (127, 191, 255)),
    (136, (135,), (7, 134, 135), (7, 134)),
    (129, (0,), (0, 128), (128,)),
    (129, (128,), (0, 128), (0,)),
    (9, (8,), (0, 8), (0,)),
    (9, tuple(range(9)), tuple(range(9)), ()),
)

# "A card started with the band already woven still asked for the band": the goals that
# stay of 0 and 1, for each set of initial beliefs.
STAY_AT_LOAD = ((0, 1), (1,), (0,), ())


def each_load():
    """Cards with believed initial goals: the card, and the beliefs and goals that it
    loads to."""
    for (beliefs, stay), goals in itertools.product(zip(SETS, STAY_AT_LOAD), SETS):
        left = [goal for goal in goals if goal in stay]
        yield cards.card(striking_card(beliefs, goals)), beliefs, left
    for atoms, beliefs, goals, left in WIDE_LOADS:
        description = cards.Description(
            layout=1 if atoms <= 128 else 2,
            atoms=atoms,
            weights=[1],
            nodes=[Node(TRUE)],
            beliefs=cards.atoms_set(*beliefs),
            goals=cards.atoms_set(*goals),
        )
        yield cards.card(description), beliefs, left


# --- runs and places --------------------------------------------------------

# From beliefs {0} and goals {0, 1}: selection 0 by the believed goal 0; action 0, by
# which goal 0 falls though the action does nothing; selection 1 by goal 1; action 2,
# which takes atom 0 out of the beliefs; action 0. Then goal 1 is there still, and
# selection 1 again.
FIRST = configuration((0,), (0, 1))
RUNS = [
    (FIRST, 0, FIRST),
    (FIRST, 1, configuration((0,), (0, 1), (0,), 1)),
    (FIRST, 2, configuration((0,), (1,), (), 2, 1)),
    (FIRST, 3, configuration((0,), (1,), (2, 0), 1, 1)),
    (FIRST, 4, configuration((), (1,), (0,), 2, 1)),
    (FIRST, 5, configuration((), (1,), (), 2, 2)),
    (FIRST, 6, configuration((), (1,), (2, 0), 1, 2)),
]

# From beliefs {0, 1} and goals {0, 1}, the plan 2 and phase 2: revision 1 to nothing,
# which strikes none; selection 0; action 0, by which both fall.
SECOND = configuration((0, 1), (0, 1), (2,), 2)
RUNS += [
    (SECOND, 1, configuration((0, 1), (0, 1), (), 0, 1)),
    (SECOND, 2, configuration((0, 1), (0, 1), (0,), 1, 1)),
    (SECOND, 3, configuration((0, 1), (), (), 2, 2)),
]

# Action 3 has atom 0 in Add and in Del: the goal stays, and selection 0 is next.
THIRD = configuration((), (0,), (3,), 1)
RUNS += [
    (THIRD, 1, configuration((), (0,), (), 2, 1)),
    (THIRD, 2, configuration((), (0,), (0,), 1, 1)),
]


def each_believed():
    """Configurations with each set of beliefs and each of goals: "restore strikes
    nothing", and 13 says nothing of believed goals."""
    for beliefs, goals in itertools.product(SETS, SETS):
        yield configuration(beliefs, goals, (), 0, 3)
