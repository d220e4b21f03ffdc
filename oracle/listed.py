"""Request 11 of document 02 ("how much the list looks at"): lists by hand, each with how many
choices, how many conditions judged and how many goals open are told; the cards that they are
about; and, by seed, cards of which a list judges many conditions, and goals.
"""

from typing import NamedTuple

import cards
import damage
import guide
from cards import AND, BELIEVES, HAS_GOAL, NOT, TRUE, Node
from closed import CONDITIONS, SELECTIONS, STRIPE, configuration
from weighed import STEPS

# --- the cards --------------------------------------------------------------


def heads_card():
    """Action 0 has specifications under "true", "believes 0" and its "not", action 1 has one
    under "true", and action 2 has none. The heads of the revisions are, in turn: 0; 0 1;
    0 1 2; 0 1 2 0; 1; 1 2; 0 1 2 0 1; 0; 0 1. There is no selection."""
    heads = ((0, 0, 1), (1, 0, 2), (2, 0, 3), (0, 0, 4), (0, 1, 1), (1, 1, 2), (0, 0, 5), (1, 3, 1), (1, 3, 2))
    return cards.Description(
        atoms=2,
        weights=[1, 1, 1],
        nodes=[Node(TRUE), Node(BELIEVES, 0), Node(NOT, 1)],
        specifications=[cards.Specification(*entry) for entry in ((0, 0), (0, 1), (0, 2), (1, 0))],
        revisions=[cards.Revision(node, start, length, 0, 0) for node, start, length in heads],
        pool=bytes([0, 1, 2, 0, 1]),
    )


def busiest_card(count=256):
    """So many entries of each kind, 256 at most: specifications of action 0 and revisions of
    0 under "believes 0", and selections under "believes 0" and "has goal 0"."""
    return cards.Description(
        atoms=1,
        weights=[1],
        nodes=[Node(BELIEVES, 0), Node(HAS_GOAL, 0)],
        specifications=[cards.Specification(0, 0)] * count,
        selections=[cards.Selection(0, 1, 0, 1)] * count,
        revisions=[cards.Revision(0, 0, 1, 0, 0)] * count,
        pool=bytes(1),
    )


def selecting_card():
    """256 selections, of which every third is under "true", the next under "believes 0" and
    the next under its "not"; all of them under the goal "true"."""
    return cards.Description(
        atoms=1,
        weights=[1],
        nodes=[Node(TRUE), Node(BELIEVES, 0), Node(NOT, 1)],
        selections=[cards.Selection(n % 3, 0, 0, 1) for n in range(256)],
        pool=bytes(1),
    )


HEADS = cards.card(heads_card())
BUSIEST = cards.card(busiest_card())
SELECTING = cards.card(selecting_card())
HIGH_ATOMS = cards.card(cards.high_atoms_card())
ALL_ATOMS = tuple(range(256))


# --- lists by hand ----------------------------------------------------------


class Listed(NamedTuple):
    """A list by hand: what it is, the card, the configuration, the room, the number, how many
    choices, how many conditions judged and how many goals open."""

    name: str
    card: bytes
    held: guide.Configuration
    room: int
    number: int
    count: int
    judged: int
    goals: int


# At the start and at rest selection 0 is judged, and "true" holds, so its goal condition is
# too. The plan 3 is judged by the revisions 1 and 2; the others by one entry each.
OF_STEPS = [
    Listed("listed: step %d" % (at + 1), STRIPE, STEPS[at], 2, 0, 1, judged, 1)
    for at, judged in enumerate((2, 1, 1, 2, 1, 1))
] + [
    Listed("listed: at rest", STRIPE, STEPS[6], 2, 0, 0, 2, 0),
    Listed("listed: at rest, a goal", STRIPE, configuration((0, 2), (0, 1)), 2, 0, 0, 2, 2),
    Listed("listed: no entry for the plan", HEADS, configuration((), (), (2,)), 2, 0, 0, 0, 0),
]

# The belief conditions of the selections are "believes 0", its "not", "believes 0", "true"
# and "believes 0": with atom 0 believed all hold but one, and else two of them.
OF_EMPTY_PLANS = [
    Listed("listed: two of five believed", SELECTIONS, configuration((), (0, 1)), 5, 0, 2, 7, 2),
    Listed("listed: four of five believed", SELECTIONS, configuration((0,), (0, 1)), 5, 0, 4, 9, 2),
    Listed("listed: four of five, no goal", SELECTIONS, configuration((0,)), 5, 0, 1, 9, 0),
    Listed("listed: two of five, one goal", SELECTIONS, configuration((1,), (1,)), 5, 0, 0, 7, 1),
    Listed("listed: an empty plan, no selection", HEADS, configuration((0,), (1,)), 5, 0, 0, 0, 1),
    Listed("listed: 256 selections, none believed", BUSIEST, configuration((), (0,)), 0, 0, 0, 256, 1),
    Listed("listed: 256 selections, all believed", BUSIEST, configuration((0,)), 0, 0, 0, 512, 0),
    Listed("listed: 256 selections enabled", BUSIEST, configuration((0,), (0,)), 256, 0, 256, 512, 1),
    Listed("listed: every third not believed", SELECTING, configuration(), 171, 0, 171, 427, 0),
    Listed("listed: every other third", SELECTING, configuration((0,), (0,)), 171, 0, 171, 427, 1),
]

# "One for each specification of the first action and one for each revision rule whose head is
# a prefix": a head that is longer than the plan is none, though the bytes after the plan's
# end are those of action 0.
OF_PLANS = [
    Listed("listed: 19 specifications", CONDITIONS, configuration((), (), (0,)), 19, 0, 8, 19, 0),
    Listed("listed: heads of one", HEADS, configuration((), (), (0,)), 9, 0, 3, 5, 0),
    Listed("listed: another second action", HEADS, configuration((), (), (0, 2)), 9, 0, 3, 5, 0),
    Listed("listed: heads of one and two", HEADS, configuration((), (1,), (0, 1)), 9, 0, 3, 7, 1),
    Listed("listed: heads up to three", HEADS, configuration((), (), (0, 1, 2)), 9, 0, 4, 8, 0),
    Listed("listed: heads up to three, believed", HEADS, configuration((0,), (), (0, 1, 2)), 9, 0, 6, 8, 0),
    Listed("listed: heads up to four", HEADS, configuration((), (), (0, 1, 2, 0)), 9, 0, 5, 9, 0),
    Listed("listed: heads up to five", HEADS, configuration((), (), (0, 1, 2, 0, 1, 2)), 9, 0, 6, 10, 0),
    Listed("listed: another first action", HEADS, configuration((), (), (1, 2)), 9, 0, 2, 3, 0),
    Listed("listed: 512 conditions, all false", BUSIEST, configuration((), (0,), (0, 0)), 0, 0, 0, 512, 1),
    Listed("listed: 512 conditions, all true", BUSIEST, configuration((0,), (), (0,)), 512, 0, 512, 512, 0),
]

# "A count of set bits": every goal counts, believed or not, of all bytes of the set.
OF_GOALS = [
    Listed("listed: all atoms are goals", HIGH_ATOMS, configuration((), ALL_ATOMS), 1, 0, 1, 2, 256),
    Listed("listed: all atoms believed", HIGH_ATOMS, configuration(ALL_ATOMS, ALL_ATOMS), 1, 0, 1, 2, 256),
    Listed("listed: the lower half", HIGH_ATOMS, configuration((), ALL_ATOMS[:128]), 1, 0, 1, 2, 128),
    Listed("listed: the upper half", HIGH_ATOMS, configuration((), ALL_ATOMS[128:]), 1, 0, 1, 2, 128),
    Listed("listed: every other atom", HIGH_ATOMS, configuration((), ALL_ATOMS[::2]), 1, 0, 0, 2, 128),
    Listed("listed: but for one", HIGH_ATOMS, configuration((), ALL_ATOMS[:-1]), 1, 0, 1, 2, 255),
    Listed("listed: the last atom", HIGH_ATOMS, configuration((), (255,)), 1, 0, 1, 2, 1),
] + [
    Listed("listed: goal %d" % atom, HIGH_ATOMS, configuration((), (atom, 1)), 1, 0, 0, 2, 2)
    for atom in (0, 7, 8, 15, 16, 31, 32, 63, 64, 126, 128, 191, 192, 254)
]

# "Any count in a refusal is 0", with 12 too.
REFUSED = [
    Listed("listed, refused: no room", STRIPE, STEPS[0], 0, 12, 0, 0, 0),
    Listed("listed, refused: room 511", BUSIEST, configuration((0,), (0,), (0,)), 511, 12, 0, 0, 0),
    Listed("listed, refused: room 255", BUSIEST, configuration((0,), (0,)), 255, 12, 0, 0, 0),
    Listed("listed, refused: room 5 of 6", HEADS, configuration((0,), (1,), (0, 1, 2)), 5, 12, 0, 0, 0),
    Listed("listed, refused: phase 3", STRIPE, STEPS[0]._replace(phase=3), 2, 13, 0, 0, 0),
    Listed("listed, refused: unknown goal", STRIPE, configuration((), (2, 4)), 2, 13, 0, 0, 0),
    Listed("listed, refused: a card of no bytes", b"", STEPS[0], 2, 1, 0, 0, 0),
    Listed("listed, refused: a byte too many", STRIPE + b"\0", STEPS[0], 2, 4, 0, 0, 0),
]

BY_HAND = OF_STEPS + OF_EMPTY_PLANS + OF_PLANS + OF_GOALS + REFUSED


# --- cards and goals by seed ------------------------------------------------


def belief_nodes(random, atoms):
    """ "True", and belief conditions of which about half hold."""
    nodes = [Node(TRUE)] + [Node(BELIEVES, random.randrange(atoms)) for _ in range(3)]
    return nodes + [Node(NOT, 1), Node(NOT, 2), Node(AND, 3, 4)]


def crowded_card(random, most, edition):
    """A card with up to `most` entries of each kind, mostly of one action and with heads that
    begin alike: the pool is a few actions again and again, often only action 0, which is
    also what lies after a plan's end."""
    atoms = random.choice((1, 4, 9, cards.most_atoms(edition), cards.most_atoms(edition)))
    actions = random.choice((1, 2, 3))
    word = random.choice(((0,), (0, 0, 1), (1, 0), (0, 1, 0, 2), (2, 0, 0)))
    pool = bytes(action % actions for action in word * 10)[:random.randint(8, 24)]
    nodes = belief_nodes(random, atoms) + [Node(HAS_GOAL, random.randrange(atoms))]
    entries = [random.choice((0, 1, 3, most // 2, most - 1, most)) for _ in range(3)]
    revisions = []
    for _ in range(entries[2]):
        start = random.choice((0, 0, 0, random.randrange(len(pool))))
        length = min(random.choice((1, 1, 2, 3, 4, 6, 20)), len(pool) - start)
        revisions.append(cards.Revision(random.randrange(7), start, length, 0, random.randrange(3)))
    return cards.Description(
        layout=edition,
        atoms=atoms,
        weights=[1] * actions,
        nodes=nodes,
        specifications=[
            cards.Specification(random.choice((0, 0, actions - 1)), random.randrange(7))
            for _ in range(entries[0])
        ],
        selections=[
            cards.Selection(random.randrange(7), random.choice((0, 7)), 0, random.randint(1, 3))
            for _ in range(entries[1])
        ],
        revisions=revisions,
        pool=pool,
        length=random.randint(0, 3),
        beliefs=cards.some_atoms(random, atoms),
        goals=cards.some_atoms(random, atoms),
    )


def around_a_head(random, accepted):
    """A plan around some head: just it, with more behind it, without its last action, or with
    another one in its place; empty where the card has none."""
    if not accepted.revisions:
        return b""
    head = random.choice(accepted.revisions).head
    other = bytes([random.randrange(accepted.actions)])
    behind = bytes(random.choices(range(accepted.actions), k=random.choice((1, 2, 9))))
    return random.choice((head, head + behind, head[:-1], head[:-1] + other))[:guide.PLAN_LIMIT]


def some_goals(random, atoms):
    """Goals: none, one, all, all but one, every other, or any."""
    one = random.choice((0, atoms - 1, random.randrange(atoms)))
    several = ((), (one,), range(atoms), (k for k in range(atoms) if k != one), range(one % 2, atoms, 2))
    if random.random() < 0.5:
        return cards.atoms_set(*random.choice(several))
    return damage.random_atoms(random, atoms)


def some_held(random, accepted):
    """A configuration with an empty plan, or with one around a head or of some action."""
    plan = random.choice((b"", around_a_head(random, accepted), around_a_head(random, accepted)))
    if random.random() < 0.1:
        plan = bytes(random.choices(range(accepted.actions), k=random.choice((1, 2, 1024))))
    return guide.Configuration(
        damage.random_atoms(random, accepted.atoms),
        some_goals(random, accepted.atoms),
        damage.padded(plan),
        len(plan),
        random.randrange(3),
        damage.random_count(random),
    )
