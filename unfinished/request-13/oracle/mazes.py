"""Request 13 of document 02 ("where can this card end?"), by seed: cards of which few, about 32
and many configurations are reached, most of them by several lists; the configurations to
reach them from; and how far, and in how much room.
"""

import itertools
from typing import NamedTuple

import cards
import damage
import drill
import guide
import reach
from cards import BELIEVES, NOT, TRUE, Node
from reached import in_pool


class Maze(NamedTuple):
    """A card, and configurations to reach others from."""

    description: cards.Description
    starts: list


# How many places a maze has: few, about 32, more.
COUNTS = (2, 3, 4, 5, 6, 8, 12, 20, 30, 31, 31, 32, 32, 33, 33, 34, 50)


def some_atoms(random, edition, count):
    """So many of the atoms of a card of an edition; of edition 2, half of them from 128 on."""
    most = cards.most_atoms(edition)
    low = random.choice((0, most // 2))
    return random.sample(range(low, most), count)


def atoms_of(atoms):
    """How many atoms a card has that has these."""
    return max(atoms) + 1


# --- places as plans --------------------------------------------------------


def one_action_each(random, count):
    """Plans of one action, each another."""
    return [(k,) for k in range(count)]


def other_orders(random, count):
    """Plans of the same actions, each in another order."""
    actions = random.sample(range(8), 4 if count <= 24 else 5)
    return random.sample(list(itertools.permutations(actions)), count)


def other_words(random, count):
    """Plans of two actions, of which many begin as others do; those of zeros alone differ
    from others in their length only."""
    words = [word for size in range(1, 6) for word in itertools.product((0, 1), repeat=size)]
    return random.sample(words, count)


def edges_between(random, count):
    """Edges from place 0 to every other one, and more of them anywhere: two lists of one
    length to one place, short cuts, and ways back. Which of them has the lower number is
    any."""
    near = random.choice((1, 2, 3, count))
    edges = [(random.randrange(max(0, k - near), k), k) for k in range(1, count)]
    more = random.choice((0, 1, count // 2, count, 2 * count))
    edges += [(random.randrange(count), random.randrange(count)) for _ in range(more)]
    random.shuffle(edges)
    return edges


def lengthened(random, body, share):
    """A body, or in a share of them one with a few actions more."""
    return body + (0,) * random.choice((1, 1, 2, 3)) if random.random() < share else body


def some_tail(random, front, actions):
    """What stands behind a front: mostly nothing, a few actions, or so many that the plan is
    nearly full."""
    most = guide.PLAN_LIMIT - len(front)
    full = most - random.choice((0, 0, 1, 1, 2, 3, 5))
    size = random.choice((0, 0, 0, 1, 3, full, full))
    return tuple(random.choices(range(actions), k=size))


def some_start(random, plan, beliefs=cards.NO_ATOMS, goals=cards.NO_ATOMS):
    """A configuration with a plan, in any phase and with any finished count."""
    plan, phase = bytes(plan), random.randrange(3)
    return guide.Configuration(
        beliefs, goals, damage.padded(plan), len(plan), phase, damage.random_count(random)
    )


def ways_out(random, atoms, places, pool):
    """Specifications that leave the plan of a place, with another belief, and selections that
    lead to one: none of both, or a few."""
    if random.random() < 0.5:
        return [], []
    sets = [cards.NO_ATOMS] + [cards.atoms_set(atom) for atom in atoms]
    fronts = [place[0] for place in places]
    entries = [
        cards.Specification(random.choice(fronts), random.randrange(3), *random.choices(sets, k=2))
        for _ in range(random.randint(1, 3))
    ]
    rules = [
        cards.Selection(random.randrange(3), 0, *in_pool(pool, random.choice(places)))
        for _ in range(random.randint(0, 2))
    ]
    return entries, rules


def maze_of_plans(random, edition):
    """Places that are plans, and revisions from one to another; in some mazes a revision now
    and then lengthens the plan, or has a condition, and there are ways out."""
    count = random.choice(COUNTS)
    places = random.choice((one_action_each, one_action_each, other_orders, other_words))(random, count)
    actions, pool = 1 + max(map(max, places)), bytearray()
    longer, guarded = random.choice((0, 0, 0.05, 0.2, 0.4)), random.choice((0, 0, 0, 0.3))
    revisions = []
    for u, v in edges_between(random, count):
        both = in_pool(pool, places[u]) + in_pool(pool, lengthened(random, places[v], longer))
        node = random.randrange(1, 3) if random.random() < guarded else 0
        revisions.append(cards.Revision(node, *both))
    atoms = some_atoms(random, edition, 2)
    entries, rules = ways_out(random, atoms, places, pool)
    sets = [cards.NO_ATOMS, cards.atoms_set(atoms[0]), cards.atoms_set(*atoms)]
    fronts = [places[0]] * 4 + [random.choice(places)]
    plans = [front + some_tail(random, front, actions) for front in fronts]
    starts = [some_start(random, plan, *random.choices(sets, k=2)) for plan in plans]
    made = cards.Description(
        layout=edition,
        atoms=atoms_of(atoms),
        weights=[1] * actions,
        nodes=[Node(TRUE), Node(BELIEVES, atoms[0]), Node(NOT, 1)],
        specifications=entries,
        selections=rules,
        revisions=revisions[:256],
        pool=bytes(pool),
    )
    return Maze(made, starts)


def maze_of_long_plans(random, edition):
    """Selections of long plans out of zeros among which stands an action 1, or two: they are
    the same actions in another order, and differ far from the front, in their last action or
    in their length only. In some of them the front can be left, one action at a time or half
    of the plan at once, or become a long plan, too."""
    size = random.choice((200, 520, 1030, 1030, 1060))
    pool, longest = bytearray(size), min(size, guide.PLAN_LIMIT)
    for _ in range(random.choice((0, 1, 1, 2))):
        pool[random.choice((min(size - 1, longest), size - 1, size // 2, random.randrange(size)))] = 1

    def long_plan(rest=0):
        length = longest - rest - random.choice((0, 0, 1, 2, 8))
        last = min(40, size - length)
        return min(last, random.choice((0, 1, random.randint(0, last)))), length

    rules = [cards.Selection(0, 0, *long_plan()) for _ in range(random.choice((2, 4, 9, 31, 32)))]
    entries = [cards.Specification(0, 0)] * random.choice((0, 1))
    revisions = [cards.Revision(0, 0, random.choice((1, size // 2)), 0, 0)] * random.choice((0, 0, 1))
    revisions += [cards.Revision(0, 0, 1, *long_plan(3)) for _ in range(random.choice((0, 0, 1, 3)))]
    made = cards.Description(
        layout=edition,
        atoms=1,
        weights=[1, 1],
        nodes=[Node(TRUE)],
        specifications=entries,
        selections=rules,
        revisions=revisions,
        pool=bytes(pool),
    )
    start, length = long_plan()
    plans = (), (), (0,), (0, 0, 1), pool[start:start + length]
    return Maze(made, [some_start(random, plan) for plan in plans])


# --- places as beliefs and goals --------------------------------------------


def maze_of_beliefs(random, edition):
    """Places that are atoms, one believed at a time: specifications of one action from one to
    another. What has been believed is no goal any more, where there are goals. In some of
    them the action becomes two, and a selection begins again."""
    count = random.choice((2, 3, 3, 4, 6, 9))
    atoms = some_atoms(random, edition, count)
    entries = [
        cards.Specification(0, u, cards.atoms_set(atoms[v]), cards.atoms_set(atoms[u] if u != v else atoms[0]))
        for u, v in edges_between(random, count)
    ]
    true = count
    revisions = [cards.Revision(true, 0, 1, 0, 2)] if random.random() < 0.3 else []
    rules = [cards.Selection(true, true, 0, random.randint(1, 2))] if random.random() < 0.3 else []
    goals = [cards.NO_ATOMS, cards.atoms_set(*atoms), cards.atoms_set(*atoms[1:3])]
    starts = [
        some_start(random, (0,) * size, cards.atoms_set(random.choice(atoms)), random.choice(goals))
        for size in random.choices((1, 2, 3, 5, 16, 20, 1022, 1024), k=4)
    ]
    made = cards.Description(
        layout=edition,
        atoms=atoms_of(atoms),
        weights=[1],
        nodes=[Node(BELIEVES, atom) for atom in atoms] + [Node(TRUE)],
        specifications=entries,
        selections=rules,
        revisions=revisions,
        pool=bytes(2),
    )
    return Maze(made, starts)


def maze_of_switches(random, edition):
    """A selection for each of some actions and specifications that put its atom in and take it
    out: whichever order they are in, the same is believed, and the finished count counts
    them. Three of them, put in and taken out, have just 32 configurations, where no goal
    is struck."""
    count = random.choice((1, 2, 2, 3, 3, 3, 3, 4))
    atoms = some_atoms(random, edition, count)
    sets = [cards.atoms_set(atom) for atom in atoms]
    entries = [cards.Specification(k, 0, held) for k, held in enumerate(sets)]
    entries += [cards.Specification(k, 0, cards.NO_ATOMS, held) for k, held in enumerate(sets)]
    if random.random() < 0.4:
        entries.remove(random.choice(entries))
    random.shuffle(entries)
    rules = [cards.Selection(0, 0, k, 1) for k in range(count)]
    if random.random() < 0.2:
        rules.append(cards.Selection(0, 0, 0, count))
    random.shuffle(rules)
    made = cards.Description(
        layout=edition,
        atoms=atoms_of(atoms),
        weights=[1] * count,
        nodes=[Node(TRUE)],
        specifications=entries,
        selections=rules,
        pool=bytes(range(count)),
    )
    goals = random.choice([cards.NO_ATOMS, cards.NO_ATOMS, cards.atoms_set(*atoms)])
    starts = [some_start(random, plan, goals=goals) for plan in ((), (), (0,))]
    return Maze(made, starts)


MAZES = (maze_of_plans,) * 5 + (maze_of_long_plans, maze_of_beliefs, maze_of_beliefs, maze_of_switches)


def some_maze(random, edition):
    """A maze of some sort, of a card of an edition."""
    return random.choice(MAZES)(random, edition)


# --- how far, and in how much room ------------------------------------------

# A longer card is not searched again and again.
LONG_CARD = 4000


def outcome(card, held, d):
    """The number that a reach in enough room is answered with."""
    return reach.reach(card, held, d, reach.ROOM)[0]


def turning_points(card, held):
    """Each d at which the answer's number turns, and the last before it; 16 where there is
    none."""
    numbers = []
    for d in range(reach.TRANSITIONS_LIMIT + 1):
        numbers.append(outcome(card, held, d))
        if numbers[-1] not in (guide.DONE, guide.PLAN_FULL):
            break
    turns = [d for d in range(1, len(numbers)) if numbers[d] != numbers[d - 1]]
    return [d - back for d in turns for back in (0, 1)] or [reach.TRANSITIONS_LIMIT]


def some_d(random, card, held):
    """How far: where the answer turns, any from 0 to 16, and now and then more."""
    style = random.random()
    if style < 0.08:
        return random.choice((17, 17, 17, 18, 32, 255, 256, 272, 32768, 65535))
    if style < 0.3:
        return random.randrange(reach.TRANSITIONS_LIMIT + 1)
    if len(card) > LONG_CARD:
        return random.choice((0, 1, 1, 2, 3, 16))
    return random.choice(turning_points(card, held))


def some_room(random):
    """A room: mostly just the one for 32, a little more, or less, as if for those alone that
    are reached."""
    style = random.random()
    if style < 0.75:
        return reach.ROOM
    if style < 0.87:
        most = drill.REACH_ROOM_LIMIT
        return random.choice((reach.ROOM + 1, most, random.randint(reach.ROOM, most)))
    short = 0, 1, reach.ENTRY - 1, reach.ENTRY, 7 * reach.ENTRY, reach.ROOM - reach.ENTRY, reach.ROOM - 1
    return random.choice(short + (random.randrange(reach.ROOM),))
