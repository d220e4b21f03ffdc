"""Request 10 of document 02 ("no dead button on bounded cards"): takes and runs on bounded
cards by hand, each with all that is answered; the cards that they are made on; and, by seed,
plans that weigh just so much and cards that are bounded or open.
"""

from dataclasses import replace
from typing import NamedTuple

import cards
import damage
import finished
import guide
from cards import TRUE, WEIGHT_LIMIT, Node
from closed import START, STRIPE, configuration
from guide import REST, SPENT

# --- the cards --------------------------------------------------------------


def stripe_with(**values):
    """The stripe card with some of its parts changed."""
    return cards.card(replace(cards.stripe_card(), **values))


# Action 4 of the stripe card weighs 1,024: just so the plan 4 of selection 0, and one more
# the plan 4 1.
HEAVY_WEIGHTS = [1, 1, 1, 3, 1024]
JUST_BOUNDED = stripe_with(weights=HEAVY_WEIGHTS, length=1)

# The offenders: "the initial plan, then selection rule n, then revision rule n".
OPEN_INITIAL_PLAN = stripe_with(weights=HEAVY_WEIGHTS, length=2)
OPEN_SELECTION = stripe_with(weights=HEAVY_WEIGHTS, selections=[cards.Selection(0, 5, 0, 2)])
OPEN_REVISION = stripe_with(
    revisions=[
        cards.Revision(0, 0, 1, 1, 2),
        cards.Revision(2, 2, 1, 2, 1),
        cards.Revision(3, 2, 1, 4, 1),
    ]
)


def long_body_card():
    """Under "true" revision 0 makes 1,023 times action 0, which weighs 1 each, of action 1,
    which weighs 1,024."""
    return cards.Description(
        atoms=1,
        weights=[1, 1024],
        nodes=[Node(TRUE)],
        specifications=[cards.Specification(0, 0)],
        revisions=[cards.Revision(0, 1023, 1, 0, 1023)],
        pool=bytes(1023) + b"\x01",
    )


LONG_BODY = cards.card(long_body_card())


# --- takes by hand ----------------------------------------------------------


class Taken(NamedTuple):
    """A take on a bounded card by hand: what it is, the card, the configuration, the choice,
    the number, the node and the configuration afterwards."""

    name: str
    card: bytes
    held: guide.Configuration
    choice: int
    number: int
    node: int
    after: guide.Configuration


def refused(name, card, held, choice, number, node=0):
    """A refused take: "a refusal answers the number and the configuration as it came in"."""
    return Taken("bounded, refused: " + name, card, held, choice, number, node, held)


# Document 01's six steps: each from where the one before has left it.
STEPS = [
    START,
    configuration((0, 3), (2,), (4,), 1),
    configuration((0, 3), (2,), (1, 3), 0),
    configuration((0, 1, 3), (2,), (3,), 2),
    configuration((0, 1, 3), (2,), (2, 0), 0),
    configuration((0, 1), (2,), (0,), 2),
    configuration((0, 2), (), (), 2, 1),
]
STEP_CHOICES = (0, 512, 257, 513, 258, 256)

# 204 stripes weigh 1,020, a pick 3 and a weave 1: 1,024. 205 stripes weigh 1,025.
STRIPES = (4,) * 204
JUST_LIGHT = STRIPES + (3, 0)
JUST_HEAVY = STRIPES + (4,)

TAKES = [
    Taken("bounded: step %d" % (at + 1), STRIPE, STEPS[at], choice, 0, 0, STEPS[at + 1])
    for at, choice in enumerate(STEP_CHOICES)
] + [
    Taken(
        "bounded: a plan of 1,024, revised",
        STRIPE,
        configuration((), (), JUST_LIGHT, 1, 7),
        512,
        0,
        0,
        configuration((), (), (1, 3) + JUST_LIGHT[1:], 0, 7),
    ),
    Taken(
        "bounded: 1,024 weaves",
        STRIPE,
        configuration((1,), (2,), (0,) * 1024),
        256,
        0,
        0,
        configuration((2,), (), (0,) * 1023, 2),
    ),
    Taken(
        "bounded: one action of 1,024",
        JUST_BOUNDED,
        configuration((), (), (4,), 2),
        512,
        0,
        0,
        configuration((), (), (1, 3), 0),
    ),
    Taken(
        "bounded: a selection of 1,024",
        JUST_BOUNDED,
        configuration((), (2,), (), 2, 9),
        0,
        0,
        0,
        configuration((), (2,), (4,), 1, 9),
    ),
    Taken(
        "bounded: a body of 1,023 actions",
        LONG_BODY,
        configuration((), (), (1,)),
        512,
        0,
        0,
        configuration((), (), (0,) * 1023, 0),
    ),
]

# "14 no such rule or specification; 15 the plan's front doesn't fit; 16 a condition is
# false", with plans of up to 1,024.
CLOSED = [
    refused("no selection", STRIPE, START, 1, 14),
    refused("no specification", STRIPE, START, 259, 14),
    refused("no revision", STRIPE, START, 515, 14),
    refused("no kind", STRIPE, START, 65535, 14),
    refused("no selection, a plan of 1,024", STRIPE, configuration((), (), JUST_LIGHT), 1, 14),
    refused("selection, not empty", STRIPE, STEPS[1], 0, 15),
    refused("action, empty", STRIPE, START, 257, 15),
    refused("other first action", STRIPE, configuration((), (), JUST_LIGHT), 256, 15),
    refused("other head", STRIPE, configuration((), (), JUST_LIGHT), 513, 15),
    refused("P6", STRIPE, configuration((), (), (3,)), 513, 16, 2),
    refused("a false goal condition", STRIPE, configuration(), 0, 16, 5),
    refused("a false precondition", STRIPE, configuration((), (), (0,) * 1024), 256, 16, 1),
]


def each_choice(name, card, held, number, choices=(0, 256, 512, 513, 1, 65535)):
    """A configuration with any choice: 1 to 9, 13 and 22 do not look at it."""
    return [refused("%s, choice %d" % (name, choice), card, held, choice, number) for choice in choices]


# "22 the card is open or the plan too heavy", whatever the choice is.
HEAVY = (
    each_choice("a plan of 1,025", STRIPE, configuration((), (), JUST_HEAVY), 22)
    + each_choice("1,023 actions of 1,025", STRIPE, configuration((1,), (), (0,) * 1022 + (3,)), 22, (256,))
    + each_choice("1,024 and 1", JUST_BOUNDED, configuration((), (), (4, 0)), 22)
    + each_choice("1 and 1,024", JUST_BOUNDED, configuration((1,), (), (0, 4)), 22, (256, 512))
    + each_choice("a plan of 65,536", JUST_BOUNDED, configuration((), (), (4,) * 64), 22, (512, 0))
    + each_choice("a plan of 65,537", JUST_BOUNDED, configuration((), (), (4,) * 64 + (0,)), 22, (512,))
    + each_choice("a plan of 66,560", JUST_BOUNDED, configuration((), (), (4,) * 65), 22, (512,))
    + each_choice("a plan of 1,048,576", JUST_BOUNDED, configuration((), (), (4,) * 1024), 22, (512,))
)
OPEN = (
    each_choice("an open initial plan", OPEN_INITIAL_PLAN, START, 22)
    + each_choice("an open selection", OPEN_SELECTION, START, 22)
    + each_choice("an open revision", OPEN_REVISION, START, 22)
    + each_choice("an open revision, a plan", OPEN_REVISION, configuration((3,), (), (3,)), 22)
    + each_choice("open and heavy", OPEN_REVISION, configuration((), (), JUST_HEAVY), 22, (512,))
    + each_choice("open and full", finished.EMPTYING, configuration((), (), (3,) * 1024), 22, (514,))
    + each_choice("open, any plan", finished.EMPTYING, configuration((), (), (0,)), 22, (256, 257, 512))
)

# "After 13", which is after 1 to 9.
BEFORE = (
    each_choice("phase 3", STRIPE, START._replace(phase=3), 13, (0, 65535))
    + each_choice("open, phase 3", OPEN_REVISION, START._replace(phase=3), 13, (0, 65535))
    + each_choice("heavy, phase 3", STRIPE, configuration((), (), JUST_HEAVY, 3), 13, (512,))
    + each_choice("open, an unknown action", OPEN_REVISION, configuration((), (), (5,)), 13, (0,))
    + each_choice("a card of no bytes", b"", START, 1, (0,))
    + each_choice("a card of no bytes, phase 3", b"", START._replace(phase=3), 1, (0,))
    + each_choice("open, a byte too many", OPEN_REVISION + b"\0", START, 4, (0,))
)

ALL_TAKES = TAKES + CLOSED + HEAVY + OPEN + BEFORE


# --- runs by hand -----------------------------------------------------------


class Run(NamedTuple):
    """A run on a bounded card by hand: what it is, the card, the configuration, the budget,
    the number, the configuration afterwards, the count and the ending."""

    name: str
    card: bytes
    held: guide.Configuration
    budget: int
    number: int
    after: guide.Configuration
    count: int
    ending: int


def refused_run(name, card, held, number, budget=9):
    """A refused run."""
    return Run("bounded run, refused: " + name, card, held, budget, number, held, 0, 0)


RUNS = [
    Run("bounded run: budget %d" % budget, STRIPE, START, budget, 0, STEPS[count], count, ending)
    for budget, count, ending in (
        (0, 0, SPENT),
        (1, 1, SPENT),
        (2, 2, SPENT),
        (5, 5, SPENT),
        (6, 6, SPENT),
        (7, 6, REST),
        (1000, 6, REST),
        (65535, 6, REST),
    )
] + [
    Run("bounded run: at rest", STRIPE, STEPS[6], 1, 0, STEPS[6], 0, REST),
    Run("bounded run: budget 0 at rest", STRIPE, STEPS[6], 0, 0, STEPS[6], 0, SPENT),
    Run(
        "bounded run: a plan of 1,024",
        STRIPE,
        configuration((), (), JUST_LIGHT, 1),
        2,
        0,
        configuration((1,), (), (3,) + JUST_LIGHT[1:], 2),
        2,
        SPENT,
    ),
    Run(
        "bounded run: 1,024 weaves",
        STRIPE,
        configuration((1,), (2,), (0,) * 1024),
        3,
        0,
        configuration((2,), (), (0,) * 1023, 2),
        1,
        REST,
    ),
    Run(
        "bounded run: as many transitions as it weighs",
        LONG_BODY,
        configuration((), (), (1,), 1, 65535),
        1025,
        0,
        configuration((), (), (), 2, 65535),
        1024,
        REST,
    ),
    Run(
        "bounded run: a selection for ever",
        finished.BUSY,
        configuration(),
        65535,
        0,
        configuration((), (), (0,), 1, 32767),
        65535,
        SPENT,
    ),
]

REFUSED_RUNS = [
    refused_run("a plan of 1,025", STRIPE, configuration((), (), JUST_HEAVY), 22),
    refused_run("a plan of 1,025, budget 0", STRIPE, configuration((), (), JUST_HEAVY), 22, 0),
    refused_run("1,024 and 1", JUST_BOUNDED, configuration((), (), (4, 0)), 22),
    refused_run("a plan of 65,536", JUST_BOUNDED, configuration((), (), (4,) * 64), 22),
    refused_run("a plan of 66,560", JUST_BOUNDED, configuration((), (), (4,) * 65), 22),
    refused_run("an open initial plan", OPEN_INITIAL_PLAN, START, 22),
    refused_run("an open selection", OPEN_SELECTION, START, 22),
    refused_run("an open revision", OPEN_REVISION, START, 22),
    refused_run("an open revision, budget 0", OPEN_REVISION, START, 22, 0),
    refused_run("an open revision, at rest", OPEN_REVISION, STEPS[6], 22),
    refused_run("open and full", finished.EMPTYING, configuration((), (), (3,) * 1024, 2), 22),
    refused_run("phase 3", STRIPE, START._replace(phase=3), 13),
    refused_run("open, phase 3", OPEN_REVISION, START._replace(phase=3), 13),
    refused_run("heavy, phase 3", STRIPE, configuration((), (), JUST_HEAVY, 3), 13),
    refused_run("a card of no bytes", b"", START, 1),
    refused_run("open, a byte too many", OPEN_REVISION + b"\0", START, 4),
]

ALL_RUNS = RUNS + REFUSED_RUNS


# --- plans that weigh just so much, by seed ---------------------------------

# What plans are made to weigh: around 1,024, and where two bytes of the sum look light.
WEIGHTS = (1023, 1024, 1024, 1024, 1025, 1025, 1025, 1026, 65535, 65536, 65537, 66560, 66561, 131072)

# Up to so much is left to be made of any actions.
LEFT = 2 * WEIGHT_LIMIT


def fillings(random, weights, weight):
    """Actions that weigh just so much, in any order; None where there are none. The bits of
    `sums` are what some of the actions weigh together."""
    usable = random.sample(range(len(weights)), min(5, len(weights)))
    usable.append(weights.index(min(weights)))
    heaviest, found = weights.index(max(weights)), []
    if weight > guide.PLAN_LIMIT * weights[heaviest]:
        return None
    while weight > LEFT:
        found.append(heaviest)
        weight -= weights[heaviest]
    sums = 1
    for action in usable:
        step = weights[action]
        while step <= weight:
            sums |= sums << step
            step *= 2
    if not sums >> weight & 1:
        return None
    while weight:
        fitting = [action for action in usable if weights[action] <= weight]
        found.append(random.choice([one for one in fitting if sums >> weight - weights[one] & 1]))
        weight -= weights[found[-1]]
    random.shuffle(found)
    return bytes(found)


def weighing(random, accepted, weight):
    """A configuration whose plan weighs just so much and whose front fits some entry, where
    that is light enough; None where no such plan is found."""
    fronts = [bytes([entry.action]) for entry in accepted.specifications]
    fronts += [rule.head for rule in accepted.revisions]
    fronts = [front for front in fronts if guide.weigh(accepted, front) <= weight]
    front = random.choice(fronts or [b""])
    rest = fillings(random, accepted.weights, weight - guide.weigh(accepted, front))
    if rest is None or len(front + rest) > guide.PLAN_LIMIT:
        return None
    return guide.Configuration(
        damage.random_atoms(random, accepted.atoms),
        damage.random_atoms(random, accepted.atoms),
        damage.padded(front + rest),
        len(front + rest),
        random.randrange(3),
        damage.random_count(random),
    )


# --- bounded and open cards, by seed ----------------------------------------


def temper_weights(random, description):
    """Other weights: of ones, of ones and heavy ones, or any."""
    style, count = random.random(), len(description.weights)
    if style < 0.2:
        description.weights = [1] * count
    elif style < 0.5:
        description.weights = [random.choice((1, 1, 2, 1024)) for _ in range(count)]
    elif style < 0.7:
        description.weights = [random.choice((1, 64, 128, 1023, 1024)) for _ in range(count)]


def temper_light_heads(random, description):
    """A bounded card whose revisions make the plan longer where they can: heads of one
    action, and bodies as long as they may be."""
    made = []
    for rule in description.revisions:
        length = min(guide.PLAN_LIMIT, len(description.pool) - rule.body_start)
        made.append(replace(rule, head_length=1, body_length=length))
    description.revisions = made
    cards.temper_bounded(random, description)


OPEN_TEMPERS = (
    cards.temper_heavy_initial_plan,
    cards.temper_heavy_selection,
    cards.temper_heavy_revision,
    cards.temper_growing,
)
BOUNDED_TEMPERS = (cards.temper_bounded, cards.temper_bounded, temper_light_heads)


def some_card(random, largest):
    """A good card: two in three bounded, the others open or at the edge of it."""
    style = random.random()
    description = cards.good_card(random, largest)
    temper_weights(random, description)
    if style < 0.65:
        random.choice(BOUNDED_TEMPERS)(random, description)
    elif style < 0.8:
        cards.temper_weight_edge(random, description)
    else:
        random.choice(OPEN_TEMPERS)(random, description)
    return cards.card(description)
