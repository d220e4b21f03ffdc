"""Request 13 of document 02 ("where can this card end?"): reaches by hand, each with all that is
listed; and the cards that they are about.
"""

from typing import NamedTuple

import cards
import guide
import reach
from cards import TRUE, Node
from closed import START, STRIPE, configuration
from weighed import STEP_CHOICES, STEPS

# --- cards of revisions -----------------------------------------------------


def in_pool(pool, plan):
    """Start and length of a plan in a pool that it is put into where it is not there yet."""
    start = pool.find(bytes(plan))
    if start < 0:
        start = len(pool)
        pool += bytes(plan)
    return start, len(plan)


def revisions_card(edges, actions, edition=1, **others):
    """A card with a revision for each of some edges, a head and a body: revision n, under
    "true", makes the body of edge n of its head. It has one atom, unless told others."""
    pool = bytearray()
    revisions = [cards.Revision(0, *in_pool(pool, head), *in_pool(pool, body)) for head, body in edges]
    values = {"atoms": 1, "nodes": [Node(TRUE)], **others}
    weights = [1] * actions
    return cards.Description(layout=edition, weights=weights, revisions=revisions, pool=bytes(pool), **values)


def between(*edges):
    """Edges between plans of one action."""
    return [((u,), (v,)) for u, v in edges]


def ring(count):
    """Edges of a ring of plans of one action: 2k is from k to the next, 2k + 1 from k to the
    one before it."""
    return between(*((k, (k + step) % count) for k in range(count) for step in (1, -1)))


def star_card(count):
    """So many selections under "true", selection k of the plan k; the plans have no move."""
    return cards.Description(
        atoms=1,
        weights=[1] * count,
        nodes=[Node(TRUE)],
        selections=[cards.Selection(0, 0, k, 1) for k in range(count)],
        pool=bytes(range(count)),
    )


# Two lists of two choices to 3: by 1 and by 2.
DIAMOND = cards.card(revisions_card(between((0, 1), (0, 2), (1, 3), (2, 3)), 4))

# The same, and the last choice of the first list has the greater number.
CROSSED = cards.card(revisions_card(between((0, 1), (0, 2), (2, 3), (1, 3), (2, 4), (1, 5)), 6))

# A list of three choices to 3 with low numbers, and one of a single choice with the greatest.
SHORT_CUT = cards.card(revisions_card(between((0, 1), (1, 2), (2, 3), (0, 3)), 4))

# A choice that leads back, one that stays, and two that lead to the same.
LOOPS = cards.card(revisions_card(between((0, 0), (0, 1), (0, 1), (1, 0), (1, 1)), 2))

# 0 becomes 0 0: all plans are zeros.
ZEROS = cards.card(revisions_card([((0,), (0, 0))], 1))

# The same actions in another order: 0 1 2 and its turns, each made of the one before.
TURNS = cards.card(revisions_card([((0, 1, 2), (1, 2, 0)), ((1, 2, 0), (2, 0, 1)), ((2, 0, 1), (0, 2, 1))], 3))

RINGS = {count: cards.card(revisions_card(ring(count), count)) for count in (31, 32, 33, 40)}
STARS = {count: cards.card(star_card(count)) for count in (30, 31, 32)}

# 256 revisions of 0 to 1, and the last of them to 2: its code is 767.
LAST = cards.card(revisions_card(between(*[(0, 1)] * 255, (0, 2)), 3))


# --- cards of all kinds -----------------------------------------------------


def around_card():
    """Action 0 has a specification, and revision 0 makes nothing of 0: both leave the same
    empty plan, in another phase. Selection 0 makes it 0 again, one more finished."""
    return cards.Description(
        atoms=1,
        weights=[1],
        nodes=[Node(TRUE)],
        specifications=[cards.Specification(0, 0)],
        selections=[cards.Selection(0, 0, 0, 1)],
        revisions=[cards.Revision(0, 0, 1, 0, 0)],
        pool=bytes(1),
    )


def high_card():
    """Action 0 has specifications that add 255, 254, 128, 127, nothing, and both 0 and 255; the
    last deletes 255 again. Revision 0 makes 0 0 of it."""
    added = ((255,), (254,), (128,), (127,), (), (0, 255))
    entries = [cards.Specification(0, 0, cards.atoms_set(*some)) for some in added]
    entries[-1] = cards.Specification(0, 0, cards.atoms_set(0, 255), cards.atoms_set(255))
    return revisions_card([((0,), (0, 0))], 1, 2, atoms=256, specifications=entries)


def goals_card():
    """Action 0 has specifications that add 130 and that add 255, action 1 has one that deletes
    both: "goals are struck by the beliefs", and the beliefs end alike."""
    return cards.Description(
        layout=2,
        atoms=256,
        weights=[1, 1],
        nodes=[Node(TRUE)],
        specifications=[
            cards.Specification(0, 0, cards.atoms_set(130)),
            cards.Specification(0, 0, cards.atoms_set(255)),
            cards.Specification(1, 0, cards.NO_ATOMS, cards.atoms_set(130, 255)),
        ],
    )


def long_plans_card():
    """Selections of 1,024, 768 and 512 zeros, whose lengths have a low byte of 0, as that of the
    empty plan; of 1,023 zeros and a 1; and of 511 zeros, a 1, and a zero or two."""
    plans = (2, 1024), (3, 1024), (2, 768), (2, 512), (515, 513), (515, 514)
    return cards.Description(
        atoms=1,
        weights=[1, 1],
        nodes=[Node(TRUE)],
        selections=[cards.Selection(0, 0, *plan) for plan in plans],
        pool=bytes(1026) + b"\x01" + bytes(2),
    )


def many_and_full_card(count):
    """So many revisions of 0, each to another plan of one action, and one to 0 0."""
    edges = between(*((0, k) for k in range(1, count + 1))) + [((0,), (0, 0))]
    return revisions_card(edges, 33)


def full_and_many_card(count):
    """The same, the one to 0 0 first."""
    edges = [((0,), (0, 0))] + between(*((0, k) for k in range(1, count + 1)))
    return revisions_card(edges, 33)


AROUND = cards.card(around_card())
HIGH = cards.card(high_card())
GOALS = cards.card(goals_card())
LONG_PLANS = cards.card(long_plans_card())
MANY_AND_FULL = {count: cards.card(many_and_full_card(count)) for count in (31, 32)}
FULL_AND_MANY = cards.card(full_and_many_card(32))
# A ring of 33, and first of all 0 to 0 0: the 33rd is reached by 16 transitions alone.
FULL_RING = cards.card(revisions_card([((0,), (0, 0))] + ring(33), 33))


# --- reaches by hand --------------------------------------------------------


class Reached(NamedTuple):
    """A reach by hand: what it is, the card, the configuration, d, the room, the number, and
    what is listed: each with its choices and a configuration of that beliefs, goals and
    plan."""

    name: str
    card: bytes
    held: guide.Configuration
    d: int
    room: int
    number: int
    listed: tuple


def done(name, card, held, d, *listed, room=reach.ROOM):
    """A reach that is done."""
    return Reached("reached: " + name, card, held, d, room, 0, listed)


def refused(name, number, card, held, d, room=reach.ROOM):
    """A refused reach."""
    return Reached("reached, refused: " + name, card, held, d, room, number, ())


def plan(*actions):
    """A configuration of which just the plan is not empty."""
    return configuration((), (), actions)


def ones(*lists):
    """What is listed where the plans are of one action: for each its choices and the action."""
    return [(choices, plan(action)) for choices, action in lists]


# "Document 01's six steps", a choice each.
OF_STEPS = [
    done(
        "%d of the six steps" % d,
        STRIPE,
        START,
        d,
        *((STEP_CHOICES[:t], STEPS[t]) for t in range(min(d, 6) + 1)),
        room=room,
    )
    for d, room in ((0, 35968), (1, 35969), (5, 35968), (6, 36100), (7, 35968), (16, 35968))
]

OF_REVISIONS = [
    done("a diamond", DIAMOND, plan(0), 2, *ones(((), 0), ((512,), 1), ((513,), 2), ((512, 514), 3))),
    done(
        "the first list ends higher",
        CROSSED,
        plan(0),
        16,
        *ones(((), 0), ((512,), 1), ((513,), 2), ((512, 515), 3), ((512, 517), 5), ((513, 516), 4)),
    ),
    done("a short cut", SHORT_CUT, plan(0), 3, *ones(((), 0), ((512,), 1), ((515,), 3), ((512, 513), 2))),
    done("a choice that leads back", LOOPS, plan(0), 16, *ones(((), 0), ((513,), 1))),
    done("the last of 256", LAST, plan(0), 16, *ones(((), 0), ((512,), 1), ((767,), 2))),
    done(
        "plans of zeros",
        ZEROS,
        plan(0),
        16,
        *(((512,) * t, plan(*[0] * (t + 1))) for t in range(17)),
    ),
    done(
        "the same actions in another order",
        TURNS,
        plan(0, 1, 2, 2),
        4,
        ((), plan(0, 1, 2, 2)),
        ((512,), plan(1, 2, 0, 2)),
        ((512, 513), plan(2, 0, 1, 2)),
        ((512, 513, 514), plan(0, 2, 1, 2)),
    ),
]


def around_the_ring(count, d):
    """What is listed from 0 on a ring: to the one side and to the other, and what lies just
    across only by the side whose first choice is lower."""
    lists = [((), 0)]
    for t in range(1, d + 1):
        if 2 * t <= count:
            lists.append((tuple(512 + 2 * k for k in range(t)), t))
        if 2 * t < count:
            back = (513,) + tuple(513 + 2 * (count - k) for k in range(1, t))
            lists.append((back, count - t))
    return ones(*lists)


OF_RINGS = [
    done("a ring of 40, d 15: 31", RINGS[40], plan(0), 15, *around_the_ring(40, 15)),
    done("a ring of 32: 32", RINGS[32], plan(0), 16, *around_the_ring(32, 16)),
    done("a ring of 31", RINGS[31], plan(0), 16, *around_the_ring(31, 16)),
    refused("a ring of 33: 33", 24, RINGS[33], plan(0), 16),
    refused("a ring of 40, d 16: 33", 24, RINGS[40], plan(0), 16),
]

OF_STARS = [
    done(
        "a star of 31: 32",
        STARS[31],
        plan(),
        1,
        ((), plan()),
        *(((k,), plan(k)) for k in range(31)),
    ),
    refused("a star of 32: 33", 24, STARS[32], plan(), 1),
    done("a star of 32, d 0", STARS[32], plan(), 0, ((), plan())),
]

# "Phase and finished count ignored": neither those handed in nor those on the way matter.
OF_PHASES = [
    done(
        "around, phase %d" % phase,
        AROUND,
        configuration((), (0,), (0,), phase, finished),
        d,
        ((), configuration((), (0,), (0,))),
        ((256,), configuration((), (0,))),
    )
    for phase, finished, d in ((0, 0, 1), (2, 65535, 16))
]

OF_SETS = [
    done(
        "beliefs that differ in one atom, and the revision behind them",
        HIGH,
        configuration((100,), (), (0,)),
        1,
        ((), configuration((100,), (), (0,))),
        ((256,), configuration((100, 255))),
        ((257,), configuration((100, 254))),
        ((258,), configuration((100, 128))),
        ((259,), configuration((100, 127))),
        ((260,), configuration((100,))),
        ((261,), configuration((0, 100))),
        ((512,), configuration((100,), (), (0, 0))),
    ),
    done(
        "goals that differ",
        GOALS,
        configuration((), (130, 255), (0, 1)),
        16,
        ((), configuration((), (130, 255), (0, 1))),
        ((256,), configuration((130,), (255,), (1,))),
        ((257,), configuration((255,), (130,), (1,))),
        ((256, 258), configuration((), (255,))),
        ((257, 258), configuration((), (130,))),
    ),
    done(
        "no goals, so a diamond",
        GOALS,
        plan(0, 1),
        16,
        ((), plan(0, 1)),
        ((256,), configuration((130,), (), (1,))),
        ((257,), configuration((255,), (), (1,))),
        ((256, 258), plan()),
    ),
    done(
        "a believed goal handed in",
        GOALS,
        configuration((130,), (130, 255), (1,)),
        1,
        ((), configuration((130,), (130, 255), (1,))),
        ((258,), configuration((), (130, 255))),
    ),
]


def zeros(length):
    """A plan of so many actions 0."""
    return plan(*[0] * length)


# "Then 11 if one reachable in fewer than d transitions has a transition that doesn't fit": a
# plan of 1,024 is reached in two, and one more does not fit.
OF_LENGTHS = [
    done("full, d 0", ZEROS, zeros(1024), 0, ((), zeros(1024))),
    refused("full, d 1", 11, ZEROS, zeros(1024), 1),
    done(
        "full at d",
        ZEROS,
        zeros(1022),
        2,
        ((), zeros(1022)),
        ((512,), zeros(1023)),
        ((512, 512), zeros(1024)),
    ),
    refused("full at d - 1", 11, ZEROS, zeros(1022), 3),
    refused("full at d - 14", 11, ZEROS, zeros(1022), 16),
    refused("32 and full", 11, MANY_AND_FULL[31], zeros(1024), 1),
    refused("33 and full", 24, MANY_AND_FULL[32], zeros(1024), 1),
    refused("full and 33", 24, FULL_AND_MANY, zeros(1024), 1),
    refused("full, and 33 at d", 24, FULL_RING, zeros(1024), 16),
    refused("full, and 31 at d", 11, FULL_RING, zeros(1024), 15),
    done(
        "long plans",
        LONG_PLANS,
        plan(),
        16,
        ((), plan()),
        ((0,), zeros(1024)),
        ((1,), plan(*[0] * 1023, 1)),
        ((2,), zeros(768)),
        ((3,), zeros(512)),
        ((4,), plan(*[0] * 511, 1, 0)),
        ((5,), plan(*[0] * 511, 1, 0, 0)),
    ),
]

# Each refusal before the next: 1 to 9, 13, 23, 12, 24, 11.
WRONG = plan(33)
IN_ORDER = [
    refused("a card of no bytes", 1, b"", WRONG, 17, 0),
    refused("a byte too many", 4, STARS[32] + b"\0", WRONG, 17, 0),
    refused("an unknown action and d 17", 13, STARS[32], WRONG, 17, 0),
    refused("an unknown action", 13, STARS[32], WRONG, 16, 500),
    refused("phase 3", 13, STARS[32], plan()._replace(phase=3), 17, 3),
    refused("a byte after the plan's end", 13, STARS[32], plan(1, 2)._replace(length=1), 0, 0),
    refused("d 17 and no room", 23, STARS[32], plan(), 17, 0),
    refused("d 18", 23, STARS[32], plan(), 18, 9),
    refused("d 256", 23, STARS[32], plan(), 256, 9),
    refused("d 272", 23, STARS[32], plan(), 272, 9),
    refused("d 65,535", 23, STARS[32], plan(), 65535, 9),
    refused("no room", 12, STARS[32], plan(), 0, 0),
    refused("room for one", 12, STRIPE, START, 0, 1124),
    refused("room for seven", 12, STRIPE, START, 16, 7868),
    refused("a byte less, and 33", 12, STARS[32], plan(), 1, 35967),
    refused("little room, and full", 12, ZEROS, zeros(1024), 16, 1123),
]

BY_HAND = OF_STEPS + OF_REVISIONS + OF_RINGS + OF_STARS + OF_PHASES + OF_SETS + OF_LENGTHS + IN_ORDER
