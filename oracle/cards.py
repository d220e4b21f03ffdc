"""Cards and places described in plain values, laid out as document 01 and request 9 of
document 02 ("more facts") say, in edition 1 or 2.

A description can also say what the document forbids (a wrong mark, an offset
written over, bytes too many), so that damages are made from descriptions too.
"""

import struct
from dataclasses import dataclass, field, replace

# The longest card of any edition, and the longest of each.
CARD_LIMIT = 32352
CARD_LIMITS = {1: 24128, 2: 32352}
EDITIONS = (1, 2)
PLAN_LIMIT = 1024
WEIGHT_LIMIT = 1024

TRUE, BELIEVES, HAS_GOAL, NOT, AND, OR = range(6)

SMALLEST_CARD = 70
SMALLEST_CARDS = {1: 70, 2: 102}


def atoms_set(*atoms):
    """ "Atom k is bit (k modulo 8) of byte (k divided by 8)." The set is 32 bytes here, as
    in edition 2; laid out in edition 1 it is the first 16 of them."""
    return sum(1 << atom for atom in set(atoms)).to_bytes(32, "little")


NO_ATOMS = atoms_set()


def set_bytes(edition):
    """ "A set of atoms is 16 bytes"; "edition 2 has sets of 32 bytes"."""
    return 16 * edition


def most_atoms(edition):
    """The most atoms of a card: 128, and 256 in edition 2."""
    return 128 * edition


def place_header(edition):
    """Where a place's plan starts: at 44, and "at 76" in edition 2."""
    return 12 + 2 * set_bytes(edition)


def card_header(edition):
    """Where a card's weights start: at 64, and at 96 in edition 2."""
    return 32 + 2 * set_bytes(edition)


# --- a card's description ---------------------------------------------------


@dataclass(frozen=True)
class Node:
    """ "Node, 4 bytes: kind, a, b, 0." """

    kind: int
    a: int = 0
    b: int = 0
    zero: int = 0


@dataclass(frozen=True)
class Specification:
    """ "Specification, 36 bytes: action, node, 0, 0, Add, Del"; 68 in edition 2."""

    action: int
    node: int
    add: bytes = NO_ATOMS
    delete: bytes = NO_ATOMS
    zero_2: int = 0
    zero_3: int = 0


@dataclass(frozen=True)
class Selection:
    """ "Selection rule, 8 bytes: belief node, goal node, start, length
    (1..1,024), zero number." """

    belief_node: int
    goal_node: int
    start: int
    length: int
    zero: int = 0


@dataclass(frozen=True)
class Revision:
    """ "Revision rule, 12 bytes: node, 0, head start, head length (1..1,024),
    body start, body length (0..1,024), zero number." """

    node: int
    head_start: int
    head_length: int
    body_start: int
    body_length: int
    zero_1: int = 0
    zero: int = 0


@dataclass
class Description:
    """A card. `layout` is the edition in which it is laid out, `edition` the number that
    stands for it where that is another, `entries` the edition of the specifications'
    size where that is another. `header` holds numbers written over those of the header,
    by where they stand; `rest` is put after the pool; `cut`, if any, is how many bytes
    are kept."""

    atoms: int
    weights: list
    nodes: list
    specifications: list = field(default_factory=list)
    selections: list = field(default_factory=list)
    revisions: list = field(default_factory=list)
    pool: bytes = b""
    start: int = 0
    length: int = 0
    beliefs: bytes = NO_ATOMS
    goals: bytes = NO_ATOMS
    mark: bytes = b"\x33\x41"
    layout: int = 1
    edition: int = None
    entries: int = None
    header: dict = field(default_factory=dict)
    rest: bytes = b""
    cut: int = None


def copied(description):
    """A description of the same card that can be changed by itself."""
    return replace(
        description,
        weights=list(description.weights),
        nodes=list(description.nodes),
        specifications=list(description.specifications),
        selections=list(description.selections),
        revisions=list(description.revisions),
        header=dict(description.header),
    )


def node_bytes(node):
    """The 4 bytes of a node."""
    return bytes([node.kind, node.a, node.b, node.zero])


def specification_bytes(entry, edition):
    """The 36 bytes of a specification, or 68 of edition 2."""
    sets = entry.add[:set_bytes(edition)] + entry.delete[:set_bytes(edition)]
    return bytes([entry.action, entry.node, entry.zero_2, entry.zero_3]) + sets


def selection_bytes(entry):
    """The 8 bytes of a selection rule."""
    return struct.pack(
        "<BBHHH", entry.belief_node, entry.goal_node, entry.start, entry.length, entry.zero
    )


def revision_bytes(entry):
    """The 12 bytes of a revision rule."""
    return struct.pack(
        "<BBHHHHH",
        entry.node,
        entry.zero_1,
        entry.head_start,
        entry.head_length,
        entry.body_start,
        entry.body_length,
        entry.zero,
    )


def sections(description):
    """ "The sections follow the weights in the header's order": for each section
    the number of its entries or bytes, and its bytes."""
    edition = description.entries or description.layout
    return [
        (len(description.nodes), b"".join(map(node_bytes, description.nodes))),
        (
            len(description.specifications),
            b"".join(specification_bytes(entry, edition) for entry in description.specifications),
        ),
        (len(description.selections), b"".join(map(selection_bytes, description.selections))),
        (len(description.revisions), b"".join(map(revision_bytes, description.revisions))),
        (len(description.pool), bytes(description.pool)),
    ]


def header_bytes(description, parts):
    """The 64 bytes of the header, by the table of "The card, edition 1"; 96 in edition 2."""
    offset = card_header(description.layout) + 2 * len(description.weights)
    edition = description.layout if description.edition is None else description.edition
    numbers = [edition, description.atoms, len(description.weights)]
    for count, part in parts:
        numbers += [count, offset]
        offset += len(part)
    numbers += [description.start, description.length]
    header = bytearray(description.mark + struct.pack("<15H", *numbers))
    for at, value in sorted(description.header.items()):
        struct.pack_into("<H", header, at, value)
    size = set_bytes(description.layout)
    return bytes(header) + description.beliefs[:size] + description.goals[:size]


def card(description):
    """The bytes of a card: header, weights, the sections "with no gap"."""
    parts = sections(description)
    weights = struct.pack("<%dH" % len(description.weights), *description.weights)
    whole = header_bytes(description, parts) + weights
    whole += b"".join(part for _, part in parts) + description.rest
    return whole if description.cut is None else whole[:description.cut]


# --- a place's description --------------------------------------------------


@dataclass
class PlaceDescription:
    """A place: "bytes 33 50 hex; edition 1 at 2; plan length L at 4; plan offset
    44 at 6; phase at 8; ... beliefs at 12; goals at 28; the plan's L bytes at 44",
    and the finished count "in bytes 10 and 11"; in edition 2 with goals at 44 and the
    plan at 76. `layout` is the edition in which it is laid out, `edition` and `offset`
    stand for its own where they are others, `length` for L where it is not the plan's
    own."""

    plan: bytes = b""
    phase: int = 0
    beliefs: bytes = NO_ATOMS
    goals: bytes = NO_ATOMS
    mark: bytes = b"\x33\x50"
    layout: int = 1
    edition: int = None
    length: int = None
    offset: int = None
    finished: int = 0
    rest: bytes = b""
    cut: int = None


def place(description):
    """The bytes of a place."""
    length = len(description.plan) if description.length is None else description.length
    edition = description.layout if description.edition is None else description.edition
    header, size = place_header(description.layout), set_bytes(description.layout)
    offset = header if description.offset is None else description.offset
    numbers = (edition, length, offset, description.phase, description.finished)
    whole = description.mark + struct.pack("<5H", *numbers)
    whole += description.beliefs[:size] + description.goals[:size]
    whole += description.plan + description.rest
    return whole if description.cut is None else whole[:description.cut]


# --- cards of the other edition ---------------------------------------------


def renamed(description, name):
    """The same card with other atoms, in place: atom k is `name(k)`."""

    def others(held):
        return atoms_set(*(name(k) for k in range(256) if held[k // 8] >> k % 8 & 1))

    description.nodes = [
        replace(node, a=name(node.a)) if node.kind in (BELIEVES, HAS_GOAL) else node
        for node in description.nodes
    ]
    description.beliefs, description.goals = map(others, (description.beliefs, description.goals))
    description.specifications = [
        replace(entry, add=others(entry.add), delete=others(entry.delete))
        for entry in description.specifications
    ]


def with_atoms(description, atoms):
    """The same card with so many atoms at most, in place."""
    if description.atoms > atoms:
        description.atoms = atoms
        renamed(description, lambda k: k % atoms)


def in_edition(description, edition):
    """The same card laid out in an edition, in place, with as many atoms as that can have."""
    description.layout = edition
    with_atoms(description, most_atoms(edition))
    return description


def spread(random, description, most=256):
    """The same card of edition 2 with 129 to `most` atoms, and its own anywhere among
    them, in place."""
    count = random.randint(129, most)
    if description.atoms <= count:
        among = random.sample(range(count), description.atoms)
        high = random.randrange(len(among))
        if max(among) < 128:
            among[high] = random.randrange(128, count)
        description.atoms = count
        renamed(description, lambda k: among[k])


def some_edition(random, largest, least=SMALLEST_CARDS[2]):
    """Edition 2 about half the time, where `least` bytes, its least, are at most
    `largest`."""
    return 2 if largest >= least and random.random() < 0.5 else 1


# --- cards the document or the drill names ----------------------------------


def stripe_card():
    """ "The stripe card", 255 bytes."""
    return Description(
        atoms=4,
        weights=[1, 1, 1, 3, 5],
        nodes=[
            Node(TRUE),
            Node(BELIEVES, 1),
            Node(BELIEVES, 3),
            Node(NOT, 2),
            Node(AND, 1, 3),
            Node(HAS_GOAL, 2),
        ],
        specifications=[
            Specification(0, 4, add=atoms_set(2), delete=atoms_set(1)),
            Specification(1, 0, add=atoms_set(1)),
            Specification(2, 2, delete=atoms_set(3)),
        ],
        selections=[Selection(0, 5, 0, 1)],
        revisions=[
            Revision(0, 0, 1, 1, 2),
            Revision(2, 2, 1, 3, 2),
            Revision(3, 2, 1, 4, 1),
        ],
        pool=bytes([4, 1, 3, 2, 0]),
        beliefs=atoms_set(0, 3),
        goals=atoms_set(2),
    )


def smallest_card():
    """One atom, one action, one node and nothing else: 70 bytes."""
    return Description(atoms=1, weights=[1], nodes=[Node(TRUE)])


def shared_nodes_card():
    """256 nodes, each from the second on "k-1 and k-1", used by an entry of each
    kind."""
    nodes = [Node(BELIEVES, 0)] + [Node(AND, k - 1, k - 1) for k in range(1, 256)]
    return Description(
        atoms=1,
        weights=[1, 2],
        nodes=nodes,
        specifications=[Specification(0, 255)],
        revisions=[Revision(255, 0, 1, 1, 1)],
        pool=bytes([1, 0]),
        length=1,
        beliefs=atoms_set(0),
    )


def maximal_card(edition=1):
    """Every section at its most: 24,128 bytes, and 32,352 in edition 2."""
    atoms = most_atoms(edition)
    nodes = [Node(TRUE), Node(BELIEVES, atoms - 1), Node(HAS_GOAL, atoms - 1)]
    nodes += [Node(OR, 0, k - 1) for k in range(3, 255)] + [Node(OR, 0, 1)]
    return Description(
        layout=edition,
        atoms=atoms,
        weights=[1 + 4 * k % WEIGHT_LIMIT for k in range(256)],
        nodes=nodes,
        specifications=[
            Specification(k, 255, add=atoms_set(own), delete=atoms_set(atoms - 1 - own))
            for k, own in enumerate(k * atoms // 256 for k in range(256))
        ],
        selections=[Selection(255, 2, 32 * k % 7169, PLAN_LIMIT) for k in range(256)],
        revisions=[Revision(255, k, 1, 8192 - k, k) for k in range(256)],
        pool=bytes(k * 7 % 256 for k in range(8192)),
        start=7168,
        length=PLAN_LIMIT,
        beliefs=atoms_set(*range(atoms // 2)),
        goals=atoms_set(*range(atoms)),
    )


def high_atoms_card():
    """An edition 2 card of 256 atoms whose conditions, sets and goals are on atoms of both
    halves: 0, 100 and 127, 128 and 255."""
    return Description(
        layout=2,
        atoms=256,
        weights=[1, 1, 2, 6],
        nodes=[
            Node(TRUE),
            Node(BELIEVES, 128),
            Node(BELIEVES, 100),
            Node(NOT, 1),
            Node(AND, 1, 2),
            Node(HAS_GOAL, 255),
            Node(HAS_GOAL, 127),
            Node(OR, 5, 6),
        ],
        specifications=[
            Specification(0, 4, add=atoms_set(255, 127), delete=atoms_set(128)),
            Specification(1, 0, add=atoms_set(128)),
            Specification(2, 3, add=atoms_set(100), delete=atoms_set(127, 255)),
        ],
        selections=[Selection(0, 7, 0, 1)],
        revisions=[Revision(3, 0, 1, 1, 3), Revision(1, 0, 1, 3, 1)],
        pool=bytes([3, 2, 1, 0]),
        beliefs=atoms_set(0, 127),
        goals=atoms_set(127, 255),
    )


def smallest_of_edition_2():
    """The smallest card, in edition 2: 102 bytes."""
    return in_edition(smallest_card(), 2)


def stripe_of_edition_2():
    """The stripe card in edition 2, with its four atoms: 383 bytes."""
    return in_edition(stripe_card(), 2)


def maximal_of_edition_2():
    """Every section at its most: 32,352 bytes."""
    return maximal_card(2)


# --- sizes ------------------------------------------------------------------


@dataclass
class Sizes:
    """How many of each a card holds."""

    atoms: int
    actions: int
    nodes: int
    specifications: int
    selections: int
    revisions: int
    pool: int
    edition: int = 1

    def card_bytes(self):
        """The bytes of a card of these sizes."""
        return (
            card_header(self.edition)
            + 2 * self.actions
            + 4 * self.nodes
            + (4 + 2 * set_bytes(self.edition)) * self.specifications
            + 8 * self.selections
            + 12 * self.revisions
            + self.pool
        )


LEAST = Sizes(1, 1, 1, 0, 0, 0, 0)
MOST = {edition: Sizes(most_atoms(edition), 256, 256, 256, 256, 256, 8192, edition) for edition in EDITIONS}
SIZE_NAMES = ("atoms", "actions", "nodes", "specifications", "selections", "revisions", "pool")


# How many atoms a small card has.
SMALL_ATOMS = {
    1: (1, 2, 3, 4, 5, 8, 9, 16, 127, 128),
    2: (1, 2, 3, 5, 8, 16, 127, 128, 129, 130, 136, 192, 255, 256),
}


def small_sizes(random, edition):
    """Sizes of a small card."""
    return Sizes(
        random.choice(SMALL_ATOMS[edition]),
        random.randint(1, 6),
        random.randint(1, 12),
        random.randint(0, 8),
        random.randint(0, 4),
        random.randint(0, 5),
        random.choice((0, 1, 2, 6, 12, 20, 30, 40, 60)),
        edition,
    )


def lively_sizes(random, edition):
    """Sizes of a small card with something of everything."""
    return Sizes(
        random.randint(2, 6),
        random.randint(2, 6),
        random.randint(4, 14),
        random.randint(3, 9),
        random.randint(1, 4),
        random.randint(1, 5),
        random.randint(8, 50),
        edition,
    )


def middle_sizes(random, edition):
    """Sizes of a card between the small and the maximal ones."""
    return Sizes(
        random.randint(1, most_atoms(edition)),
        random.randint(1, 60),
        random.randint(2, 100),
        random.randint(0, 60),
        random.randint(0, 60),
        random.randint(0, 60),
        random.choice((0, 100, 1023, 1024, 1025, 3000)),
        edition,
    )


def edge_sizes(random, edition):
    """Sizes each at its least, at its most, or small."""
    sizes = small_sizes(random, edition)
    for name in SIZE_NAMES:
        where = random.randrange(4)
        if where == 0:
            setattr(sizes, name, getattr(LEAST, name))
        elif where == 1:
            setattr(sizes, name, getattr(MOST[edition], name))
    return sizes


def one_edge_sizes(random, edition):
    """Sizes of a lively card with one of them at its most."""
    sizes = lively_sizes(random, edition)
    name = random.choice(SIZE_NAMES)
    setattr(sizes, name, getattr(MOST[edition], name))
    return sizes


def least_sizes(random, edition):
    """Sizes of the smallest card."""
    return replace(LEAST, edition=edition)


def most_sizes(random, edition):
    """Sizes of the maximal card."""
    return replace(MOST[edition])


# The shapes of good cards, each with how many of a hundred have it.
SHAPES = (
    (2, least_sizes),
    (62, lively_sizes),
    (16, small_sizes),
    (8, one_edge_sizes),
    (5, middle_sizes),
    (5, edge_sizes),
    (2, most_sizes),
)


def some_sizes(random, largest, edition):
    """Sizes of some shape whose card has at most `largest` bytes."""
    if largest < SMALLEST_CARDS[edition]:
        raise ValueError("the smallest card has %d bytes" % SMALLEST_CARDS[edition])
    shares = [share for share, _ in SHAPES]
    shapes = [shape for _, shape in SHAPES]
    for _ in range(60):
        sizes = random.choices(shapes, shares)[0](random, edition)
        if sizes.card_bytes() <= largest:
            return sizes
    return least_sizes(random, edition)


# --- the seeded generator of good cards -------------------------------------


@dataclass
class Conditions:
    """The nodes made so far; which of them are belief conditions, and which goal
    conditions."""

    nodes: list = field(default_factory=list)
    belief: list = field(default_factory=list)
    goal: list = field(default_factory=list)


def add_node(conditions, node):
    """Puts a node after the others and says of which kind its condition is. "A
    belief condition contains no goal atom, and a goal condition no belief atom." """
    own = len(conditions.nodes)
    children = {TRUE: (), BELIEVES: (), HAS_GOAL: (), NOT: (node.a,)}.get(node.kind, (node.a, node.b))
    if node.kind != HAS_GOAL and all(child in conditions.belief for child in children):
        conditions.belief.append(own)
    if node.kind != BELIEVES and all(child in conditions.goal for child in children):
        conditions.goal.append(own)
    conditions.nodes.append(node)


def leaf(random, kind, atoms):
    """A node without children."""
    return Node(TRUE) if kind == TRUE else Node(kind, random.randrange(atoms))


def compound(random, conditions):
    """A node over lower ones: mostly all of one kind, now and then mixed."""
    if random.random() < 0.15:
        children = range(len(conditions.nodes))
    else:
        children = random.choice((conditions.belief, conditions.goal))
    kind = random.choice((NOT, AND, OR))
    a = random.choice(children[-6:])
    b = 0 if kind == NOT else random.choice(children)
    return Node(kind, a, b)


def make_conditions(random, sizes):
    """The nodes of a card. With two nodes or more there is a condition of each
    kind; a single node under entries is "true", which is of both kinds."""
    conditions = Conditions()
    if sizes.nodes == 1:
        used = sizes.specifications + sizes.selections + sizes.revisions
        kind = TRUE if used else random.choice((TRUE, BELIEVES, HAS_GOAL))
        add_node(conditions, leaf(random, kind, sizes.atoms))
        return conditions
    first = [random.choice((TRUE, BELIEVES)), random.choice((TRUE, HAS_GOAL))]
    random.shuffle(first)
    for kind in first:
        add_node(conditions, leaf(random, kind, sizes.atoms))
    while len(conditions.nodes) < sizes.nodes:
        if random.random() < 0.4:
            kind = random.choice((TRUE, BELIEVES, HAS_GOAL, BELIEVES))
            add_node(conditions, leaf(random, kind, sizes.atoms))
        else:
            add_node(conditions, compound(random, conditions))
    return conditions


def some_condition(random, conditions, among):
    """A node of a kind; a "true" one more often than the others, where there is
    one."""
    plain = [n for n in among if conditions.nodes[n].kind == TRUE]
    if plain and random.random() < 0.35:
        return random.choice(plain)
    return random.choice(among)


def some_atoms(random, atoms, most=3):
    """A set of a few atoms; seldom of many."""
    if random.random() < 0.05:
        return atoms_set(*(k for k in range(atoms) if random.random() < 0.5))
    chosen = [random.randrange(atoms) for _ in range(random.randint(0, most))]
    if chosen and random.random() < 0.2:
        chosen.append(atoms - 1)
    return atoms_set(*chosen)


def some_plan(random, pool, least, usual):
    """Start and length of a plan in a pool of some bytes: mostly short, now and
    then up to the pool's end, or as long as a plan can be."""
    most = min(pool, PLAN_LIMIT)
    if most < least:
        return random.randint(0, pool), 0
    where = random.random()
    if where < 0.05:
        length = most
    elif where < 0.1:
        length = random.randint(least, most)
    else:
        length = min(most, max(least, random.choice(usual)))
    if random.random() < 0.15:
        return pool - length, length
    return random.randint(0, pool - length), length


def make_specifications(random, sizes, conditions, palette):
    """The specifications: several for an action, none for the abstract ones,
    Add and Del now and then with the same atoms."""
    made = []
    concrete = [action for action in palette if random.random() < 0.75] or palette[:1]
    for _ in range(sizes.specifications):
        action = random.choice(concrete)
        if made and random.random() < 0.3:
            action = made[-1].action
        if random.random() < 0.05:
            action = random.randrange(sizes.actions)
        add, delete = some_atoms(random, sizes.atoms), some_atoms(random, sizes.atoms, 2)
        if random.random() < 0.15:
            delete = bytes(x | y for x, y in zip(add, delete))
        node = some_condition(random, conditions, conditions.belief)
        made.append(Specification(action, node, add, delete))
    return made


def make_selections(random, sizes, conditions):
    """The selection rules."""
    made = []
    for _ in range(sizes.selections):
        belief = some_condition(random, conditions, conditions.belief)
        goal = some_condition(random, conditions, conditions.goal)
        made.append(Selection(belief, goal, *some_plan(random, sizes.pool, 1, (1, 2, 3, 5, 8))))
    return made


def make_revisions(random, sizes, conditions):
    """The revision rules: short heads, some empty bodies."""
    made = []
    for _ in range(sizes.revisions):
        node = some_condition(random, conditions, conditions.belief)
        head = some_plan(random, sizes.pool, 1, (1, 1, 1, 1, 2, 2, 3))
        body = some_plan(random, sizes.pool, 0, (0, 1, 1, 2, 2, 3, 4))
        made.append(Revision(node, *head, *body))
    return made


def make_weights(random, count):
    """The weights, "each action weighs 1 to 1,024"."""
    style = random.random()
    if style < 0.6:
        return [random.randint(1, 9) for _ in range(count)]
    if style < 0.8:
        return [random.choice((1, 2, 3, 100, 500, 511, 512, 513)) for _ in range(count)]
    return [random.choice((1, 1023, 1024, random.randint(1, 1024))) for _ in range(count)]


def make_card(random, sizes):
    """A good card of some sizes, of no particular temper. Without a pool there
    is no plan of length 1 and so no rule."""
    if sizes.pool == 0:
        sizes.selections = sizes.revisions = 0
    return card_under(random, sizes, make_conditions(random, sizes))


def card_under(random, sizes, conditions):
    """A good card of some sizes, its entries under some of the conditions."""
    palette = random.sample(range(sizes.actions), random.randint(1, min(sizes.actions, 6)))
    if sizes.actions > 6 and random.random() < 0.3:
        palette = list(range(sizes.actions))
    pool = bytes(random.choice(palette) for _ in range(sizes.pool))
    start, length = some_plan(random, sizes.pool, 0, (0, 0, 1, 2, 4))
    return Description(
        layout=sizes.edition,
        atoms=sizes.atoms,
        weights=make_weights(random, sizes.actions),
        nodes=conditions.nodes,
        specifications=make_specifications(random, sizes, conditions, palette),
        selections=make_selections(random, sizes, conditions),
        revisions=make_revisions(random, sizes, conditions),
        pool=pool,
        start=start,
        length=length,
        beliefs=some_atoms(random, sizes.atoms),
        goals=some_atoms(random, sizes.atoms),
    )


# --- nested conditions ------------------------------------------------------


def nested_node(random, conditions):
    """A node over one or two of the latest of one kind."""
    children = random.choice((conditions.belief, conditions.goal))[-6:]
    kind = random.choice((NOT, AND, AND, OR, OR))
    return Node(kind, random.choice(children), 0 if kind == NOT else random.choice(children))


def nested_conditions(random, atoms, count):
    """So many nodes: a third of them without children and of both kinds, the
    others over one another."""
    conditions = Conditions()
    kinds = [BELIEVES, HAS_GOAL]
    kinds += random.choices((TRUE, BELIEVES, BELIEVES, HAS_GOAL, HAS_GOAL), k=count // 3 - 2)
    for kind in kinds:
        add_node(conditions, leaf(random, kind, atoms))
    while len(conditions.nodes) < count:
        add_node(conditions, nested_node(random, conditions))
    return conditions


def nested_card(random):
    """A small card whose entries have conditions of "not", "and" and "or" over
    one another, so that what settles a condition is often deep below it."""
    sizes = lively_sizes(random, 1)
    sizes.nodes = random.randint(12, 30)
    made = nested_conditions(random, sizes.atoms, sizes.nodes)
    return card_under(random, sizes, Conditions(made.nodes, made.belief[-8:], made.goal[-8:]))


# --- tempers ----------------------------------------------------------------


def weight_in_pool(description, start, length):
    """What a plan of the pool weighs: "the sum of its actions, each occurrence
    counted"."""
    return sum(description.weights[action] for action in description.pool[start:start + length])


def lighter(description, start, length, most, least):
    """The greatest length, at most `length` and at least `least`, of a plan that
    weighs at most `most`."""
    while length > least and weight_in_pool(description, start, length) > most:
        length -= 1
    return length


def temper_wild(random, description):
    """The card as it was made."""


def temper_bounded(random, description):
    """Makes the card bounded: "the initial plan and every selection plan weigh
    at most 1,024 and every revision body weighs less than its head"."""
    description.length = lighter(description, description.start, description.length, WEIGHT_LIMIT, 0)
    description.selections = [
        replace(rule, length=lighter(description, rule.start, rule.length, WEIGHT_LIMIT, 1))
        for rule in description.selections
    ]
    made = []
    for rule in description.revisions:
        head = weight_in_pool(description, rule.head_start, rule.head_length)
        body = lighter(description, rule.body_start, rule.body_length, head - 1, 0)
        made.append(replace(rule, body_length=body))
    description.revisions = made


def temper_heavy_initial_plan(random, description):
    """A bounded card but for the initial plan, if the pool is long enough."""
    temper_bounded(random, description)
    description.start, description.length = some_plan(random, len(description.pool), 0, (2, 3, 8, 200))
    for action in description.pool[description.start:description.start + description.length]:
        description.weights[action] = random.choice((400, 512, 513, 1024))


def temper_heavy_selection(random, description):
    """A bounded card but for some selection plans, if there are any."""
    temper_bounded(random, description)
    for at, rule in enumerate(description.selections):
        if random.random() < 0.5:
            start, length = some_plan(random, len(description.pool), 1, (2, 3, 8, 200))
            description.selections[at] = replace(rule, start=start, length=length)
            if random.random() < 0.5:
                description.weights[description.pool[start]] = 1024
    description.length = 0


def temper_heavy_revision(random, description):
    """A bounded card but for one revision, whose body is its head: it weighs as
    much, not less."""
    temper_bounded(random, description)
    if description.revisions:
        at = random.randrange(len(description.revisions))
        rule = description.revisions[at]
        same = replace(rule, body_start=rule.head_start, body_length=rule.head_length)
        description.revisions[at] = same


def temper_weight_edge(random, description):
    """The initial plan and the selection plans weigh 1,024 or 1,025 exactly,
    and the first action is in them."""
    if len(description.pool) < 2 or len(description.weights) < 2:
        return
    description.pool = bytes([0, 1]) + description.pool[2:]
    description.weights[0] = random.randint(1, 1023)
    description.weights[1] = 1024 - description.weights[0] + random.randint(0, 1)
    description.start, description.length = 0, random.choice((0, 2))
    description.selections = [
        replace(rule, start=random.choice((0, 1)), length=1) for rule in description.selections
    ]
    if description.selections:
        at = random.randrange(len(description.selections))
        description.selections[at] = replace(description.selections[at], start=0, length=2)
    temper_light_revisions(random, description)


def temper_light_revisions(random, description):
    """Every revision of one action to nothing, so that none offends."""
    description.revisions = [replace(rule, body_length=0) for rule in description.revisions]


def first_true(description):
    """A node that is "true"; node 0 is made so, if there is none that can be."""
    for n, node in enumerate(description.nodes):
        if node.kind == TRUE:
            return n
    description.nodes[0] = Node(TRUE)
    return 0


def temper_growing(random, description):
    """A revision that grows the plan each time, so that a run may end full."""
    if not description.revisions or not description.pool:
        return
    always = first_true(description)
    start = random.randrange(len(description.pool))
    first = description.pool[start]
    length = min(PLAN_LIMIT, len(description.pool) - start)
    at = random.randrange(len(description.revisions))
    description.revisions[at] = Revision(always, start, 1, start, length)
    description.start, description.length = start, 1
    if random.random() < 0.6:
        description.specifications = [
            replace(entry, action=(first + 1) % len(description.weights))
            if entry.action == first
            else entry
            for entry in description.specifications
        ]


def temper_endless(random, description):
    """A selection that is always enabled, and a specification that always is for
    each action of its plan that has one: the run does not rest by itself."""
    if not description.selections:
        return
    always = first_true(description)
    rule = description.selections[0]
    description.selections[0] = replace(
        rule, belief_node=always, goal_node=always, length=min(rule.length, 3)
    )
    plan = description.pool[rule.start:rule.start + min(rule.length, 3)]
    for at, action in enumerate(plan):
        if at < len(description.specifications):
            entry = description.specifications[-1 - at]
            changed = replace(entry, action=action, node=always)
            description.specifications[-1 - at] = changed


def temper_later_specification(random, description):
    """Two specifications of one action, the first under a condition that fails
    for the initial beliefs, the later one under "true"."""
    if len(description.specifications) < 2 or not description.pool:
        return
    always = first_true(description)
    never = [
        n
        for n, node in enumerate(description.nodes)
        if node.kind == BELIEVES and not description.beliefs[node.a // 8] >> node.a % 8 & 1
    ]
    if not never:
        return
    action = description.pool[0]
    entries = description.specifications
    entries[0] = replace(entries[0], action=action, node=random.choice(never))
    entries[-1] = replace(entries[-1], action=action, node=always)
    description.start, description.length = 0, min(3, len(description.pool))


def temper_striving(random, description):
    """Selections under "has goal p", and for the last action of each plan a
    specification that is always enabled and adds p: the goals go one by one and
    the card comes to rest."""
    goals = [n for n, node in enumerate(description.nodes) if node.kind == HAS_GOAL]
    always = first_true(description)
    goals = [n for n in goals if n != always]
    if not goals:
        return
    for at, rule in enumerate(description.selections):
        wanted = random.choice(goals)
        atom = description.nodes[wanted].a
        description.selections[at] = replace(rule, belief_node=always, goal_node=wanted)
        if at < len(description.specifications):
            entry = description.specifications[at]
            last = description.pool[rule.start + rule.length - 1]
            changed = replace(entry, action=last, node=always, add=atoms_set(atom))
            description.specifications[at] = changed
    description.goals = atoms_set(*(description.nodes[n].a for n in goals))


TEMPERS = (
    temper_wild,
    temper_wild,
    temper_striving,
    temper_striving,
    temper_striving,
    temper_bounded,
    temper_bounded,
    temper_heavy_initial_plan,
    temper_heavy_selection,
    temper_heavy_revision,
    temper_weight_edge,
    temper_growing,
    temper_growing,
    temper_endless,
    temper_endless,
    temper_later_specification,
)


# --- woven cards: abstract actions, several specifications, goals reached ----


@dataclass
class Weave:
    """What a woven card is made from: the first `concrete` actions have
    specifications, the others are abstract; `believes`, `denies` and `wants` are
    the nodes "believes k", "not believes k" and "has goal g"."""

    atoms: int
    goals: list
    concrete: int
    actions: int
    nodes: list
    believes: list
    denies: list
    wants: list
    pool: bytearray


def start_weave(random):
    """The atoms, goals, actions and nodes of a woven card."""
    atoms = random.randint(3, 9)
    goals = random.sample(range(atoms), random.randint(1, 3))
    concrete = random.randint(2, 4)
    tested = random.sample(range(atoms), random.randint(1, 3))
    count = len(tested)
    nodes = [Node(TRUE)] + [Node(BELIEVES, atom) for atom in tested]
    nodes += [Node(NOT, 1 + k) for k in range(count)] + [Node(HAS_GOAL, goal) for goal in goals]
    return Weave(
        atoms,
        goals,
        concrete,
        concrete + random.randint(1, 3),
        nodes,
        [1 + k for k in range(count)],
        [1 + count + k for k in range(count)],
        [1 + 2 * count + k for k in range(len(goals))],
        bytearray(),
    )


def plan_in_pool(weave, plan):
    """Start and length of a plan in the pool; "plans may overlap", so it is put
    there only if it is not there yet."""
    start = weave.pool.find(bytes(plan))
    if start < 0:
        start = len(weave.pool)
        weave.pool += bytes(plan)
    return start, len(plan)


def woven_specifications(random, weave):
    """One to two specifications for each concrete action, of which one is always
    enabled, the first or the later one; action k reaches goal k."""
    made = []
    for action in range(weave.concrete):
        k = random.randrange(len(weave.believes))
        pairs = [
            (0,),
            (weave.believes[k], weave.denies[k]),
            (weave.denies[k], weave.believes[k]),
            (weave.believes[k], 0),
        ]
        for node in random.choice(pairs):
            add, delete = some_atoms(random, weave.atoms, 1), some_atoms(random, weave.atoms, 2)
            if action < len(weave.goals):
                goal = atoms_set(weave.goals[action])
                add = bytes(x | y for x, y in zip(add, goal))
            made.append(Specification(action, node, add, delete))
    return made


def woven_selections(random, weave):
    """A selection for each goal; the last action of its plan reaches it."""
    made = []
    for k, wanted in enumerate(weave.wants):
        plan = [random.randrange(weave.actions) for _ in range(random.randint(1, 5))]
        plan.append(k % weave.concrete)
        made.append(Selection(0, wanted, *plan_in_pool(weave, plan)))
    return made


def woven_revisions(random, weave):
    """Revisions of each abstract action to concrete ones or to nothing, now and
    then under a condition and with a second action in the head."""
    made = []
    for action in range(weave.concrete, weave.actions):
        body = [random.randrange(weave.concrete) for _ in range(random.randint(0, 4))]
        k = random.randrange(len(weave.believes))
        if random.random() < 0.4:
            head = [action, random.randrange(weave.actions)]
            other = plan_in_pool(weave, head) + plan_in_pool(weave, body[1:])
            made.append(Revision(random.choice((0, weave.believes[k])), *other))
        both = plan_in_pool(weave, [action]) + plan_in_pool(weave, body)
        if random.random() < 0.5:
            nothing = both[:2] + (random.randint(0, len(weave.pool)), 0)
            made.append(Revision(weave.believes[k], *nothing))
            made.append(Revision(weave.denies[k], *both))
        else:
            made.append(Revision(0, *both))
    return made


def woven_card(random):
    """A small card in the manner of the stripe card: it selects, acts and
    revises for some while and, when its goals are reached, mostly rests."""
    weave = start_weave(random)
    specifications = woven_specifications(random, weave)
    selections = woven_selections(random, weave)
    revisions = woven_revisions(random, weave)
    start, length = plan_in_pool(weave, [weave.actions - 1] * random.randint(0, 2))
    abstract = weave.actions - weave.concrete
    light = [random.randint(1, 3) for _ in range(weave.concrete)]
    return Description(
        atoms=weave.atoms,
        weights=light + [random.choice((2, 10, 15, 20)) for _ in range(abstract)],
        nodes=weave.nodes,
        specifications=specifications,
        selections=selections,
        revisions=revisions,
        pool=bytes(weave.pool),
        start=start,
        length=length,
        beliefs=some_atoms(random, weave.atoms),
        goals=atoms_set(*weave.goals),
    )


def lively_card(random, edition):
    """A small card in which much goes on, laid out in an edition; of edition 2, half of
    them have their atoms anywhere among 129 to 256."""
    description = in_edition(random.choice((woven_card, nested_card))(random), edition)
    if random.random() < 0.25:
        random.choice(TEMPERS)(random, description)
    if edition == 2 and random.random() < 0.5:
        spread(random, description)
    return description


def good_card(random, largest=CARD_LIMIT, edition=None):
    """A good card of some shape and temper, of at most `largest` bytes; of an edition, or
    of either."""
    edition = edition or some_edition(random, largest)
    if random.random() < 0.6:
        description = lively_card(random, edition)
        if len(card(description)) <= largest:
            return description
    description = make_card(random, some_sizes(random, largest, edition))
    random.choice(TEMPERS)(random, description)
    return description


def roomy_sizes(random, edition):
    """Sizes of a lively card, now and then of a larger one, all with room below
    their most; its pool can be a plan."""
    if random.random() < 0.92:
        return lively_sizes(random, edition)
    return Sizes(
        random.randint(2, most_atoms(edition) - 2),
        random.randint(2, 120),
        random.randint(4, 200),
        random.randint(3, 200),
        random.randint(1, 200),
        random.randint(1, 200),
        random.randint(8, 1000),
        edition,
    )


# The least that a roomy card of edition 2 has.
ROOMY = 348


def roomy_card(random, largest=CARD_LIMIT, edition=None):
    """A good card of an edition, or of either, with an entry of each kind, with a
    condition of each kind, and with room below each most: what the damages start from. The
    stripe card, where none is small enough."""
    edition = edition or some_edition(random, largest, ROOMY)
    for _ in range(60):
        sizes = roomy_sizes(random, edition)
        if sizes.card_bytes() <= largest:
            description = make_card(random, sizes)
            if random.random() < 0.5:
                temper_bounded(random, description)
            if edition == 2 and random.random() < 0.5:
                spread(random, description, 254)
            return description
    return in_edition(stripe_card(), edition)
