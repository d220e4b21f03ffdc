"""Damages: what document 01's refusals and those of request 9 of document 02 are given
for, each clause broken alone, two at once, and each range just inside and just outside.

A damage changes a description in place. The expected number is the document's,
written beside the damage.
"""

from dataclasses import replace
from typing import Callable, NamedTuple

import cards
import guide
from cards import AND, BELIEVES, HAS_GOAL, NOT, OR, TRUE, Node


class Damage(NamedTuple):
    """A damage: its name, the number the document gives for it (0 for a value
    just inside a range), and the change to a description."""

    name: str
    number: int
    change: Callable


def damaged_card(random, description, *damages):
    """The bytes of a described card after some damages. The lowest row is
    changed last, so that no other change covers it."""
    description = cards.copied(description)
    for damage in sorted(damages, key=lambda damage: -row_of(damage)):
        damage.change(random, description)
    return cards.card(description)


# --- small changes to a description -----------------------------------------


def put(**values):
    """A change of fields of the description itself; a value may be computed from
    the description."""

    def change(random, description):
        for name, value in values.items():
            setattr(description, name, value(description) if callable(value) else value)

    return change


def header(at, value):
    """A change of the number at `at` of the header alone."""

    def change(random, description):
        found = value(description) if callable(value) else value
        description.header[at] = found % 65536

    return change


def some_index(random, entries):
    """The first, the last or any index of a list."""
    return random.choice((0, len(entries) - 1, random.randrange(len(entries))))


def entry(section, **values):
    """A change of fields of one entry of a section; a value may be computed from
    the description."""

    def change(random, description):
        entries = getattr(description, section)
        at = some_index(random, entries)
        found = {
            name: value(description) if callable(value) else value for name, value in values.items()
        }
        entries[at] = replace(entries[at], **found)

    return change


def actions(description):
    """The number of actions."""
    return len(description.weights)


def nodes(description):
    """The number of nodes."""
    return len(description.nodes)


def atoms(description):
    """The number of atoms."""
    return description.atoms


def pool(description):
    """The pool's bytes."""
    return len(description.pool)


def more(count, value):
    """`value` more than a number of the description."""
    return lambda description: count(description) + value


# --- editions ---------------------------------------------------------------


def of_edition(edition, made):
    """A change of a card that is laid out in an edition first."""

    def change(random, description):
        cards.in_edition(description, edition)
        made(random, description)

    return change


def other_edition(description):
    """The edition that a card is not laid out in."""
    return 3 - description.layout


def card_header(description):
    """The bytes of the header."""
    return cards.card_header(description.layout)


def last_bit(description):
    """The last bit of a set."""
    return cards.most_atoms(description.layout) - 1


# --- 1 short, before 2 ------------------------------------------------------

TINY_DAMAGES = [Damage("short: %d bytes" % size, 1, put(cut=size)) for size in (0, 1, 2, 3)]

# --- 1 short, after 2 -------------------------------------------------------

SHORT_DAMAGES = [
    Damage("short: %d bytes of edition %d" % (size, edition), 1, of_edition(edition, put(cut=size)))
    for edition, sizes in ((1, (4, 5, 32, 48, 62, 63)), (2, (4, 63, 64, 65, 94, 95)))
    for size in sizes
] + [
    Damage("short: %d bytes of edition 1, edition 2 said" % size, 1, of_edition(1, put(cut=size, edition=2)))
    for size in (64, 70, 95)
]

# --- 2 mark -----------------------------------------------------------------

MARK_DAMAGES = [
    Damage("mark: first byte", 2, put(mark=b"\x32\x41")),
    Damage("mark: second byte", 2, put(mark=b"\x33\x40")),
    Damage("mark: bytes turned", 2, put(mark=b"\x41\x33")),
    Damage("mark: a place's", 2, put(mark=b"\x33\x50")),
    Damage("mark: zeros", 2, put(mark=b"\0\0")),
] + [
    Damage("mark: edition %d" % edition, 2, put(edition=edition))
    for edition in (0, 3, 256, 257, 258, 512, 65535)
]

# --- 3 count ----------------------------------------------------------------

COUNT_HEADERS = (
    ("atoms", 4, (0, 257, 512, 65535)),
    ("actions", 6, (0, 257, 512, 65535)),
    ("nodes", 8, (0, 257, 512, 65535)),
    ("specifications", 12, (257, 512, 65535)),
    ("selections", 16, (257, 512, 65535)),
    ("revisions", 20, (257, 512, 65535)),
    ("pool", 24, (8193, 16384, 65535)),
)


def no_atoms_at_all(random, description):
    """No atom, no condition with an atom, no set with one."""
    description.atoms = 0
    description.nodes = [Node(TRUE)] * len(description.nodes)
    description.beliefs = description.goals = cards.NO_ATOMS
    description.specifications = [
        replace(entry, add=cards.NO_ATOMS, delete=cards.NO_ATOMS)
        for entry in description.specifications
    ]


def no_rules(description):
    """No entry but nodes, and no initial plan."""
    description.specifications = []
    description.selections = []
    description.revisions = []
    description.start = description.length = 0


def no_actions_at_all(random, description):
    """No action, hence no pool byte and no entry with one."""
    no_rules(description)
    description.weights = []
    description.pool = b""


def no_nodes_at_all(random, description):
    """No node, hence no entry with one."""
    no_rules(description)
    description.nodes = []


def fill_up(section, count):
    """A change that repeats a section's last entry, or a weight, or a pool byte,
    up to some number of them."""

    def change(random, description):
        held = getattr(description, section)
        setattr(description, section, held + held[-1:] * (count - len(held)))

    return change


def fill_up_nodes(count):
    """A change that puts "true" nodes at the end, up to some number of them."""

    def change(random, description):
        description.nodes += [Node(TRUE)] * (count - len(description.nodes))

    return change


def wide_card_of_edition_1(random, description):
    """A card of edition 2 with over 128 atoms, edition 1 said."""
    cards.in_edition(description, 2)
    description.atoms = max(129, description.atoms)
    description.edition = 1


COUNT_DAMAGES = [
    Damage("count: header says %s %d" % (name, value), 3, header(at, value))
    for name, at, values in COUNT_HEADERS
    for value in values
] + [
    Damage("count: header says atoms %d in edition 1" % value, 3, of_edition(1, header(4, value)))
    for value in (129, 130, 255, 256)
] + [
    Damage("count: over 128 atoms, edition 1 said", 3, wide_card_of_edition_1),
    Damage("count: no atoms, alone", 3, no_atoms_at_all),
    Damage("count: no actions, alone", 3, no_actions_at_all),
    Damage("count: no nodes, alone", 3, no_nodes_at_all),
    Damage("count: 257 actions, alone", 3, fill_up("weights", 257)),
    Damage("count: 257 nodes, alone", 3, fill_up_nodes(257)),
    Damage("count: 257 specifications, alone", 3, fill_up("specifications", 257)),
    Damage("count: 257 selections, alone", 3, fill_up("selections", 257)),
    Damage("count: 257 revisions, alone", 3, fill_up("revisions", 257)),
    Damage("count: pool of 8,193, alone", 3, fill_up("pool", 8193)),
]

# --- 4 offsets --------------------------------------------------------------


def offset_of(at):
    """The required offset that stands at `at` of the header."""

    def required(description):
        return guide.number(cards.card(replace(description, header={}, cut=None)), at)

    return required


def length_of(at):
    """The number of a section's entries or bytes that stands at `at`."""
    return offset_of(at)


OFFSET_NAMES = (
    ("nodes", 10),
    ("specifications", 14),
    ("selections", 18),
    ("revisions", 22),
    ("pool", 26),
)


def turned_offsets(one, other):
    """A change that writes two sections' offsets the wrong way round."""

    def change(random, description):
        first, second = offset_of(one)(description), offset_of(other)(description)
        description.header[one], description.header[other] = second, first

    return change


def gap_before_pool(random, description):
    """One byte between the revisions and the pool, the pool's offset with it."""
    description.header[26] = offset_of(26)(description) + 1
    description.header[24] = pool(description)
    description.rest = description.pool[-1:]
    description.pool = b"\0" + description.pool[:-1]


def empty_section_without_offset(section, at):
    """A change that empties a section and writes 0 for its offset."""

    def change(random, description):
        setattr(description, section, [])
        description.header[at] = 0

    return change


def longest_and_one(random, description):
    """One byte more than any card of the edition: 24,129 bytes in all, or 32,353."""
    longest = cards.CARD_LIMITS[description.layout]
    description.rest = bytes(longest + 1 - len(cards.card(description)))


def other_edition_said(random, description):
    """The other edition said, of a card that could have that one's atoms."""
    cards.with_atoms(description, cards.most_atoms(1))
    description.edition = other_edition(description)


def offsets_of_the_other_edition(random, description):
    """Each section's offset as the other edition has it."""
    laid_out = replace(description, layout=other_edition(description), header={}, cut=None)
    held = cards.card(laid_out)
    for _, at in OFFSET_NAMES:
        description.header[at] = guide.number(held, at)


def one_byte_less(random, description):
    """The last byte of the card gone."""
    description.cut = len(cards.card(description)) - 1


OFFSET_DAMAGES = (
    [
        Damage("offsets: %s %+d" % (name, by), 4, header(at, more(offset_of(at), by)))
        for name, at in OFFSET_NAMES
        for by in (1, -1, 256, -256, 4, 32768)
    ]
    + [
        Damage("offsets: %s %d" % (name, value), 4, header(at, value))
        for name, at in OFFSET_NAMES
        for value in (0, 64, 96, 65535)
    ]
    + [
        Damage("offsets: header says one of %s more" % name, 4, header(at, more(length_of(at), 1)))
        for name, at, _ in COUNT_HEADERS
        if name != "atoms"
    ]
    + [
        Damage("offsets: header says one of %s less" % name, 4, header(at, more(length_of(at), -1)))
        for name, at, _ in COUNT_HEADERS
        if name not in ("atoms", "actions", "nodes")
    ]
    + [
        Damage("offsets: no specifications, offset 0", 4, empty_section_without_offset("specifications", 14)),
        Damage("offsets: no selections, offset 0", 4, empty_section_without_offset("selections", 18)),
        Damage("offsets: no revisions, offset 0", 4, empty_section_without_offset("revisions", 22)),
        Damage("offsets: nodes and pool turned", 4, turned_offsets(10, 26)),
        Damage("offsets: specifications and selections turned", 4, turned_offsets(14, 18)),
        Damage("offsets: selections and revisions turned", 4, turned_offsets(18, 22)),
        Damage("offsets: a gap before the pool", 4, gap_before_pool),
        Damage("offsets: one byte more", 4, put(rest=b"\0")),
        Damage("offsets: 256 bytes more", 4, put(rest=bytes(256))),
        Damage("offsets: one byte less", 4, one_byte_less),
        Damage("offsets: the header alone", 4, put(cut=card_header)),
        Damage("offsets: the header and one byte", 4, put(cut=more(card_header, 1))),
        Damage("offsets: 24,129 bytes", 4, of_edition(1, longest_and_one)),
        Damage("offsets: 32,353 bytes", 4, of_edition(2, longest_and_one)),
        Damage("offsets: edition 2 said of edition 1", 4, of_edition(1, other_edition_said)),
        Damage("offsets: edition 1 said of edition 2", 4, of_edition(2, other_edition_said)),
        Damage("offsets: those of edition 2 in edition 1", 4, of_edition(1, offsets_of_the_other_edition)),
        Damage("offsets: those of edition 1 in edition 2", 4, of_edition(2, offsets_of_the_other_edition)),
        Damage("offsets: specifications of 68 in edition 1", 4, of_edition(1, put(entries=2))),
        Damage("offsets: specifications of 36 in edition 2", 4, of_edition(2, put(entries=1))),
    ]
)

# --- 5 weight ---------------------------------------------------------------


def weight(value):
    """A change of one weight."""

    def change(random, description):
        description.weights[some_index(random, description.weights)] = value

    return change


WEIGHT_DAMAGES = [
    Damage("weight: %d" % value, 5, weight(value)) for value in (0, 1025, 1280, 2048, 32768, 65535)
]

# --- 6 node -----------------------------------------------------------------


def node(make):
    """A change that puts one node, made from its own number and the description:
    at the end, where no entry uses it, or in the place of another."""

    def change(random, description):
        own = random.choice((nodes(description), random.randrange(nodes(description))))
        description.nodes[own:own + 1] = [make(own, description)]

    return change


def last_node(make):
    """A change that puts one node at the end, where no entry uses it."""

    def change(random, description):
        description.nodes.append(make(nodes(description), description))

    return change


def leaf_damages():
    """Nodes of the kinds 0, 1, 2 and of no kind that break their rule."""
    made = [
        Damage("node: kind %d" % kind, 6, node(lambda own, d, kind=kind: Node(kind)))
        for kind in (6, 7, 128, 255)
    ]
    for a, b in ((1, 0), (0, 1), (255, 0), (0, 255)):
        made.append(Damage("node: true, a %d, b %d" % (a, b), 6, node(lambda own, d, a=a, b=b: Node(TRUE, a, b))))
    for kind, name in ((BELIEVES, "believes"), (HAS_GOAL, "has goal")):
        made += [
            Damage("node: %s, b 1" % name, 6, node(lambda own, d, k=kind: Node(k, 0, 1))),
            Damage("node: %s, b 255" % name, 6, node(lambda own, d, k=kind: Node(k, 0, 255))),
            Damage("node: %s the number of atoms" % name, 6, node(lambda own, d, k=kind: Node(k, d.atoms))),
            Damage("node: %s 128" % name, 6, of_edition(1, node(lambda own, d, k=kind: Node(k, 128)))),
            Damage("node: %s 255" % name, 6, node(lambda own, d, k=kind: Node(k, 255))),
        ]
    return made


def child_damages():
    """Nodes of the kinds 3, 4, 5 that break their rule."""
    made = [
        Damage("node: not, own number", 6, node(lambda own, d: Node(NOT, own))),
        Damage("node: not, a higher number", 6, node(lambda own, d: Node(NOT, own + 1))),
        Damage("node: not 255", 6, node(lambda own, d: Node(NOT, 255))),
        Damage("node: not, b 1", 6, last_node(lambda own, d: Node(NOT, 0, 1))),
        Damage("node: not, b 255", 6, last_node(lambda own, d: Node(NOT, 0, 255))),
    ]
    for kind, name in ((AND, "and"), (OR, "or")):
        made += [
            Damage("node: %s, a own number" % name, 6, last_node(lambda own, d, k=kind: Node(k, own, 0))),
            Damage("node: %s, b own number" % name, 6, last_node(lambda own, d, k=kind: Node(k, 0, own))),
            Damage("node: %s, both own number" % name, 6, node(lambda own, d, k=kind: Node(k, own, own))),
            Damage("node: %s, a higher" % name, 6, node(lambda own, d, k=kind: Node(k, own + 1, 0))),
            Damage("node: %s, b higher" % name, 6, node(lambda own, d, k=kind: Node(k, 0, own + 1))),
            Damage("node: %s, a 255" % name, 6, node(lambda own, d, k=kind: Node(k, 255, 0))),
            Damage("node: %s, b 255" % name, 6, node(lambda own, d, k=kind: Node(k, 0, 255))),
        ]
    return made


def first_node_not_itself(random, description):
    """ "Node 0 not 0." """
    description.nodes[0] = Node(NOT, 0)


NODE_DAMAGES = (
    leaf_damages()
    + child_damages()
    + [
        Damage(
            "node: kind %d, fourth byte %d" % (kind, zero),
            6,
            last_node(lambda own, d, kind=kind, zero=zero: Node(kind, 0, 0, zero)),
        )
        for kind in range(6)
        for zero in (1, 255)
    ]
    + [Damage("node: node 0 is not 0", 6, first_node_not_itself)]
)

# --- 7 rule -----------------------------------------------------------------


def atom_node(kind, shape):
    """A change that puts a node with an atom of a kind at the end, bare or below
    others; answers nothing, the last node is the one."""

    def change(random, description):
        first = nodes(description)
        description.nodes.append(Node(kind, random.randrange(description.atoms)))
        if shape == "not":
            description.nodes.append(Node(NOT, first))
        elif shape == "and, left":
            description.nodes += [Node(TRUE), Node(AND, first, first + 1)]
        elif shape == "or, right":
            description.nodes += [Node(TRUE), Node(OR, first + 1, first)]
        elif shape == "deep":
            description.nodes += [Node(NOT, first), Node(OR, first + 1, 0), Node(AND, 0, first + 2)]
        elif shape == "mixed":
            other = BELIEVES if kind == HAS_GOAL else HAS_GOAL
            description.nodes += [Node(other, 0), Node(OR, first + 1, first)]

    return change


def wrong_kind(section, name, kind, shape):
    """A change that lets an entry use a condition with an atom of the wrong
    kind."""
    make, use = atom_node(kind, shape), entry(section, **{name: more(nodes, -1)})

    def change(random, description):
        make(random, description)
        use(random, description)

    return change


CONDITION_FIELDS = (
    ("specifications", "node", HAS_GOAL),
    ("selections", "belief_node", HAS_GOAL),
    ("selections", "goal_node", BELIEVES),
    ("revisions", "node", HAS_GOAL),
)

CONDITION_SHAPES = ("bare", "not", "and, left", "or, right", "deep", "mixed")

# Each plan of the card: section or "initial", start field, length field, least
# length.
PLAN_FIELDS = (
    ("initial", "start", "length", 0),
    ("selections", "start", "length", 1),
    ("revisions", "head_start", "head_length", 1),
    ("revisions", "body_start", "body_length", 0),
)


def plan_change(section, start_name, length_name, start, length):
    """A change of one plan's start and length."""
    values = {start_name: start, length_name: length}
    return put(**values) if section == "initial" else entry(section, **values)


def plan_damages():
    """Each plan outside the pool, or with a length out of range. The sum is a
    true sum: 65,535 plus 1 does not come round to 0."""
    wrong = [
        ("one past the pool", pool, 1),
        ("the whole pool and one", 0, more(pool, 1)),
        ("all but the first, and one", 1, pool),
        ("start past the pool", more(pool, 1), 1),
        ("start 65,535, length 1", 65535, 1),
        ("start 65,535, length 2", 65535, 2),
        ("start 64,512, length 1,024", 64512, 1024),
        ("start 64,513, length 1,024", 64513, 1024),
        ("length 1,025", 0, 1025),
        ("length 65,535", 0, 65535),
        ("start 1, length 65,535", 1, 65535),
        ("start 32,768, length 32,768", 32768, 32768),
    ]
    made = []
    for section, start_name, length_name, least in PLAN_FIELDS:
        name = "%s %s" % (section, length_name)
        for what, start, length in wrong + empty_plans(least):
            change = plan_change(section, start_name, length_name, start, length)
            made.append(Damage("rule: %s: %s" % (name, what), 7, change))
    return made


def empty_plans(least):
    """The empty plans that a plan with this least length may not be."""
    if least == 1:
        return [("length 0", 0, 0), ("length 0 at the end", pool, 0)]
    return [("empty past the pool", more(pool, 1), 0), ("empty at 65,535", 65535, 0)]


def long_plan(section, start_name, length_name, length):
    """A change that gives a plan a length over a pool that holds it."""
    change_plan = plan_change(section, start_name, length_name, 0, length)

    def change(random, description):
        fill_up("pool", 1030)(random, description)
        change_plan(random, description)

    return change


RULE_DAMAGES = (
    [
        Damage("rule: specification's action the number of actions", 7, entry("specifications", action=actions)),
        Damage("rule: specification's action 255", 7, entry("specifications", action=255)),
        Damage("rule: specification's third byte 1", 7, entry("specifications", zero_2=1)),
        Damage("rule: specification's third byte 255", 7, entry("specifications", zero_2=255)),
        Damage("rule: specification's fourth byte 1", 7, entry("specifications", zero_3=1)),
        Damage("rule: specification's fourth byte 255", 7, entry("specifications", zero_3=255)),
        Damage("rule: selection's zero number 1", 7, entry("selections", zero=1)),
        Damage("rule: selection's zero number 256", 7, entry("selections", zero=256)),
        Damage("rule: revision's second byte 1", 7, entry("revisions", zero_1=1)),
        Damage("rule: revision's second byte 255", 7, entry("revisions", zero_1=255)),
        Damage("rule: revision's zero number 1", 7, entry("revisions", zero=1)),
        Damage("rule: revision's zero number 256", 7, entry("revisions", zero=256)),
    ]
    + [
        Damage("rule: %s %s %s" % (section, name, what), 7, entry(section, **{name: value}))
        for section, name, _ in CONDITION_FIELDS
        for what, value in (("the number of nodes", nodes), ("255", 255))
    ]
    + [
        Damage(
            "rule: %s %s of the wrong kind, %s" % (section, name, shape),
            7,
            wrong_kind(section, name, kind, shape),
        )
        for section, name, kind in CONDITION_FIELDS
        for shape in CONDITION_SHAPES
    ]
    + plan_damages()
    + [
        Damage(
            "rule: %s %s 1,025 in a long pool" % (section, length_name),
            7,
            long_plan(section, start_name, length_name, 1025),
        )
        for section, start_name, length_name, _ in PLAN_FIELDS
    ]
)

# --- 8 action byte ----------------------------------------------------------


def pool_byte(value):
    """A change of one byte of the pool."""

    def change(random, description):
        at = some_index(random, description.pool)
        found = value(description) if callable(value) else value
        description.pool = description.pool[:at] + bytes([found]) + description.pool[at + 1:]

    return change


def unused_pool_byte(random, description):
    """A wrong byte at the pool's end, in no plan."""
    description.pool += bytes([actions(description)])


ACTION_BYTE_DAMAGES = [
    Damage("action byte: the number of actions", 8, pool_byte(actions)),
    Damage("action byte: one more", 8, pool_byte(more(actions, 1))),
    Damage("action byte: 128", 8, pool_byte(128)),
    Damage("action byte: 255", 8, pool_byte(255)),
    Damage("action byte: in no plan", 8, unused_pool_byte),
]

# --- 9 atom -----------------------------------------------------------------


def with_atom(held, atom):
    """A set with one atom more."""
    return bytes(x | y for x, y in zip(held, cards.atoms_set(atom)))


def set_atom(section, name, atom):
    """A change that puts one atom into a set of the card."""

    def change(random, description):
        found = atom(description) if callable(atom) else atom
        if section == "initial":
            setattr(description, name, with_atom(getattr(description, name), found))
            return
        entries = getattr(description, section)
        at = some_index(random, entries)
        entries[at] = replace(entries[at], **{name: with_atom(getattr(entries[at], name), found)})

    return change


def few_atoms(made):
    """A change of a card of edition 2 that has at most 128 atoms."""

    def change(random, description):
        cards.in_edition(description, 2)
        cards.with_atoms(description, 128)
        made(random, description)

    return change


SET_FIELDS = (
    ("initial", "beliefs"),
    ("initial", "goals"),
    ("specifications", "add"),
    ("specifications", "delete"),
)

ATOM_DAMAGES = [
    Damage("atom: %s %s, %s" % (section, name, what), 9, set_atom(section, name, atom))
    for section, name in SET_FIELDS
    for what, atom in (("the number of atoms", atoms), ("one more", more(atoms, 1)), ("the last bit", last_bit))
] + [
    Damage("atom: %s %s, %d of edition 2" % (section, name, atom), 9, few_atoms(set_atom(section, name, atom)))
    for section, name in SET_FIELDS
    for atom in (128, 135, 192, 255)
]

# The rows in the order in which they are tested: "a file under 4 bytes is 1, then a wrong
# mark or edition is 2, then one shorter than its edition's header is 1", then 3 to 9.
CARD_ROWS = (
    TINY_DAMAGES,
    MARK_DAMAGES,
    SHORT_DAMAGES,
    COUNT_DAMAGES,
    OFFSET_DAMAGES,
    WEIGHT_DAMAGES,
    NODE_DAMAGES,
    RULE_DAMAGES,
    ACTION_BYTE_DAMAGES,
    ATOM_DAMAGES,
)
CARD_DAMAGES = [damage for row in CARD_ROWS for damage in row]

# "They are tested in the table's order": every two different rows at once.
CARD_PAIRS = [(low, high) for high in range(len(CARD_ROWS)) for low in range(high)]


def row_of(damage):
    """The row of a damage of a card or a place in the order; 0 for a value inside a range."""
    return ROW_OF_NAME.get(damage.name, 0)


def damages_of(number):
    """The damages of a card that a refusal is given for."""
    return [damage for damage in CARD_DAMAGES if damage.number == number]


def changes_a_count(damage):
    """Whether a damage of the offsets changes how many entries a section has, or
    is said to have, and so could cover a damage of the count."""
    return damage.name.startswith(("offsets: header says", "offsets: no "))


def lays_out_anew(damage):
    """Whether a damage changes the edition that a card is laid out in, or the one that is
    said, and so could cover another that does."""
    return "edition" in damage.name


def pair_of_damages(random, low, high):
    """Two damages of different rows, neither covering the other."""
    first, others = random.choice(CARD_ROWS[low]), CARD_ROWS[high]
    if CARD_ROWS[low] is COUNT_DAMAGES:
        others = [damage for damage in others if not changes_a_count(damage)]
    if CARD_ROWS[low] not in (TINY_DAMAGES, MARK_DAMAGES):
        others = [damage for damage in others if not lays_out_anew(damage)]
    return first, random.choice(others)


# --- ranges, just inside and just outside -----------------------------------


def one_atom(random, description):
    """One atom; conditions and sets with no other."""
    description.atoms = 1
    description.nodes = [
        replace(n, a=0) if n.kind in (BELIEVES, HAS_GOAL) else n for n in description.nodes
    ]
    description.beliefs = bytes([description.beliefs[0] & 1]) + bytes(31)
    description.goals = bytes([description.goals[0] & 1]) + bytes(31)
    description.specifications = [
        replace(
            e, add=bytes([e.add[0] & 1]) + bytes(31), delete=bytes([e.delete[0] & 1]) + bytes(31)
        )
        for e in description.specifications
    ]


def all_atoms(edition, count):
    """A change to so many atoms, the last one in a condition and in every kind of set."""

    def change(random, description):
        cards.in_edition(description, edition)
        cards.with_atoms(description, count)
        description.atoms, last = count, count - 1
        description.nodes += [Node(BELIEVES, last), Node(HAS_GOAL, last)]
        for section, name in SET_FIELDS:
            set_atom(section, name, last)(random, description)

    return change


def one_action(random, description):
    """One action, in every place where an action stands."""
    description.weights = description.weights[:1]
    description.pool = bytes(len(description.pool))
    description.specifications = [replace(e, action=0) for e in description.specifications]


def all_actions(random, description):
    """256 actions, the last one in the pool and in a specification."""
    fill_up("weights", 256)(random, description)
    pool_byte(255)(random, description)
    entry("specifications", action=255)(random, description)


def one_node(random, description):
    """One node, "true", under every entry."""
    description.nodes = [Node(TRUE)]
    description.specifications = [replace(e, node=0) for e in description.specifications]
    description.selections = [
        replace(e, belief_node=0, goal_node=0) for e in description.selections
    ]
    description.revisions = [replace(e, node=0) for e in description.revisions]


def all_nodes(random, description):
    """256 nodes, the last one under an entry of each kind."""
    fill_up_nodes(256)(random, description)
    entry("specifications", node=255)(random, description)
    entry("selections", belief_node=255, goal_node=255)(random, description)
    entry("revisions", node=255)(random, description)


def no_pool(random, description):
    """No pool, hence no rule, and the empty initial plan at 0."""
    description.pool = b""
    description.selections = []
    description.revisions = []
    description.start = description.length = 0


RANGES_OF_COUNTS = [
    Damage("range: 1 atom of edition 1", 0, of_edition(1, one_atom)),
    Damage("range: 1 atom of edition 2", 0, of_edition(2, one_atom)),
    Damage("range: 128 atoms of edition 1", 0, all_atoms(1, 128)),
    Damage("range: 127 atoms of edition 2", 0, all_atoms(2, 127)),
    Damage("range: 128 atoms of edition 2", 0, all_atoms(2, 128)),
    Damage("range: 129 atoms of edition 2", 0, all_atoms(2, 129)),
    Damage("range: 136 atoms of edition 2", 0, all_atoms(2, 136)),
    Damage("range: 255 atoms of edition 2", 0, all_atoms(2, 255)),
    Damage("range: 256 atoms of edition 2", 0, all_atoms(2, 256)),
    Damage("range: 1 action", 0, one_action),
    Damage("range: 256 actions", 0, all_actions),
    Damage("range: 1 node", 0, one_node),
    Damage("range: 256 nodes", 0, all_nodes),
    Damage("range: 0 specifications", 0, put(specifications=lambda d: [])),
    Damage("range: 0 selections", 0, put(selections=lambda d: [])),
    Damage("range: 0 revisions", 0, put(revisions=lambda d: [])),
    Damage("range: 256 specifications", 0, fill_up("specifications", 256)),
    Damage("range: 256 selections", 0, fill_up("selections", 256)),
    Damage("range: 256 revisions", 0, fill_up("revisions", 256)),
    Damage("range: pool of 0", 0, no_pool),
    Damage("range: pool of 8,192", 0, fill_up("pool", 8192)),
    Damage("range: edition 1", 0, of_edition(1, put(edition=1))),
    Damage("range: edition 2", 0, of_edition(2, put(edition=2))),
    Damage("range: weight 1", 0, weight(1)),
    Damage("range: weight 1,024", 0, weight(1024)),
    Damage("range: weight 1,023", 0, weight(1023)),
]

RANGES_OF_NODES = [
    Damage("range: believes the last atom", 0, last_node(lambda own, d: Node(BELIEVES, d.atoms - 1))),
    Damage("range: has goal the last atom", 0, last_node(lambda own, d: Node(HAS_GOAL, d.atoms - 1))),
    Damage("range: not the node before", 0, last_node(lambda own, d: Node(NOT, own - 1))),
    Damage("range: and, the nodes before", 0, last_node(lambda own, d: Node(AND, own - 1, own - 1))),
    Damage("range: or, the nodes before", 0, last_node(lambda own, d: Node(OR, own - 1, own - 1))),
    Damage("range: and, the first node", 0, last_node(lambda own, d: Node(AND, 0, own - 1))),
    Damage("range: or, the first node", 0, last_node(lambda own, d: Node(OR, own - 1, 0))),
    Damage("range: true at the end", 0, last_node(lambda own, d: Node(TRUE))),
]


def last_node_used(section, name):
    """A change that lets an entry use the last node, which is "true"."""
    use = entry(section, **{name: more(nodes, -1)})

    def change(random, description):
        description.nodes.append(Node(TRUE))
        use(random, description)

    return change


def mixed_node_unused(random, description):
    """A node with both kinds of atoms that no entry uses."""
    first = nodes(description)
    description.nodes += [Node(BELIEVES, 0), Node(HAS_GOAL, 0), Node(AND, first, first + 1)]


RANGES_OF_RULES = [
    Damage("range: the last action in a specification", 0, entry("specifications", action=more(actions, -1))),
    Damage("range: the last action in the pool", 0, pool_byte(more(actions, -1))),
    Damage("range: a mixed node unused", 0, mixed_node_unused),
] + [
    Damage("range: the last node in %s %s" % (section, name), 0, last_node_used(section, name))
    for section, name, _ in CONDITION_FIELDS
] + [
    Damage("range: the last atom in %s %s" % (section, name), 0, set_atom(section, name, more(atoms, -1)))
    for section, name in SET_FIELDS
]


def plan_ranges():
    """Each plan with its starts and lengths just inside."""
    made = []
    for section, start_name, length_name, least in PLAN_FIELDS:
        inside = [
            ("the last byte of the pool", more(pool, -1), 1),
            ("the whole pool", 0, pool),
            ("all but the first", 1, more(pool, -1)),
            ("the first byte", 0, 1),
        ]
        if least == 0:
            inside += [("empty at the pool's end", pool, 0), ("empty at 0", 0, 0)]
        for what, start, length in inside:
            change = plan_change(section, start_name, length_name, start, length)
            made.append(Damage("range: %s %s: %s" % (section, length_name, what), 0, change))
        for length in (1023, 1024):
            change = long_plan(section, start_name, length_name, length)
            made.append(Damage("range: %s %s %d" % (section, length_name, length), 0, change))
    return made


CARD_RANGES = RANGES_OF_COUNTS + RANGES_OF_NODES + RANGES_OF_RULES + plan_ranges()


# --- places -----------------------------------------------------------------


def damaged_place(random, card, description, *damages):
    """The bytes of a described place after some damages, or None where the card
    leaves no room for one of them. The lowest row is changed last."""
    description = replace(description)
    for damage in sorted(damages, key=lambda damage: -row_of(damage)):
        if damage.change(random, card, description) is False:
            return None
    return cards.place(description)


def place_put(**values):
    """A change of fields of a place."""

    def change(random, card, description):
        for name, value in values.items():
            setattr(description, name, value(description) if callable(value) else value)

    return change


def place_action(above):
    """A change of a plan byte to the number of actions and `above` more; none
    where the card has too many actions for that."""

    def change(random, card, description):
        if card.actions + above > 255:
            return False
        plan = bytearray(description.plan or b"\0")
        plan[some_index(random, plan)] = card.actions + above
        description.plan = bytes(plan)
        return True

    return change


def place_atom(name, above):
    """A change that puts an atom, the number of atoms and `above` more, into a
    set; none where there is no such bit."""

    def change(random, card, description):
        if card.atoms + above > cards.most_atoms(description.layout) - 1:
            return False
        setattr(description, name, with_atom(getattr(description, name), card.atoms + above))
        return True

    return change


def place_of_action(value):
    """A change of a plan byte to a value, where the card has it not."""

    def change(random, card, description):
        if value < card.actions:
            return False
        description.plan = (description.plan or b"\0")[:-1] + bytes([value])
        return True

    return change


def place_of_atom(name, atom):
    """A change that puts an atom into a set, where there is such a bit and the card has it
    not."""

    def change(random, card, description):
        if not card.atoms <= atom < cards.most_atoms(description.layout):
            return False
        setattr(description, name, with_atom(getattr(description, name), atom))
        return True

    return change


def place_of_edition(edition, made):
    """A change of a place that is laid out in an edition; none where that is not its
    card's."""

    def change(random, card, description):
        return False if description.layout != edition else made(random, card, description)

    return change


def place_header(description):
    """The bytes of the header of a place."""
    return cards.place_header(description.layout)


def other_place_header(description):
    """The bytes of the header of a place of the other edition."""
    return cards.place_header(other_edition(description))


def plan_length(by):
    """L, `by` away from the plan's bytes."""
    return lambda description: max(0, len(description.plan) + by)


def longer_plan(random, card, description):
    """A plan of 1,025 with as many bytes."""
    description.plan = (description.plan + bytes(1025))[:1025]
    description.length = None


TINY_PLACES = [
    Damage("place short: %d bytes" % size, 1, place_put(cut=size)) for size in (0, 1, 2, 3)
]

PLACE_MARKS = (
    [
        Damage("place mark: %s" % mark.hex(), 2, place_put(mark=mark))
        for mark in (b"\x32\x50", b"\x33\x51", b"\x50\x33", b"\x33\x41", b"\0\0")
    ]
    + [
        Damage("place mark: edition %d" % edition, 2, place_put(edition=edition))
        for edition in (0, 3, 256, 257, 258, 512, 65535)
    ]
    + [
        Damage("place mark: the other edition said", 2, place_put(edition=other_edition)),
        Damage("place mark: a place of the other edition", 2, place_put(layout=other_edition)),
        Damage("place mark: the other edition's header", 2, place_put(layout=other_edition, plan=b"")),
    ]
)

SHORT_PLACES = [
    Damage(
        "place short: %d bytes of edition %d" % (size, edition),
        1,
        place_of_edition(edition, place_put(cut=size)),
    )
    for edition, sizes in ((1, (4, 5, 12, 28, 42, 43)), (2, (4, 12, 43, 44, 45, 74, 75)))
    for size in sizes
]

PLACE_COUNTS = (
    [
        Damage("place count: L 1,025 alone", 3, longer_plan),
        Damage("place count: L 1,025", 3, place_put(length=1025)),
        Damage("place count: L 65,535", 3, place_put(length=65535)),
    ]
    + [
        Damage("place count: phase %d" % phase, 3, place_put(phase=phase))
        for phase in (3, 4, 255, 256, 258, 512, 65535)
    ]
)

PLACE_OFFSETS = (
    [
        Damage("place offsets: offset %d" % offset, 4, place_put(offset=offset))
        for offset in (0, 43, 45, 75, 77, 256, 300, 332, 65535)
    ]
    + [Damage("place offsets: the other edition's", 4, place_put(offset=other_place_header))]
    + [
        Damage("place offsets: one byte more", 4, place_put(rest=b"\0")),
        Damage("place offsets: many bytes more", 4, place_put(rest=bytes(1500))),
        Damage(
            "place offsets: L one more",
            4,
            place_put(plan=lambda d: d.plan[:1023], length=plan_length(1)),
        ),
        Damage("place offsets: L one less", 4, place_put(plan=lambda d: d.plan or b"\0", length=plan_length(-1))),
        Damage("place offsets: L 256 more", 4, place_put(plan=lambda d: d.plan[:700], length=plan_length(256))),
        Damage("place offsets: header alone, L 1", 4, place_put(plan=b"", length=1)),
        Damage("place offsets: header alone, L 1,024", 4, place_put(plan=b"", length=1024)),
    ]
)

PLACE_ACTION_BYTES = [
    Damage("place action byte: the number of actions", 8, place_action(0)),
    Damage("place action byte: one more", 8, place_action(1)),
    Damage("place action byte: 255", 8, place_of_action(255)),
    Damage("place action byte: 128", 8, place_of_action(128)),
]

PLACE_ATOMS = (
    [
        Damage("place atom: beliefs, the number of atoms", 9, place_atom("beliefs", 0)),
        Damage("place atom: beliefs, one more", 9, place_atom("beliefs", 1)),
        Damage("place atom: goals, the number of atoms", 9, place_atom("goals", 0)),
        Damage("place atom: goals, one more", 9, place_atom("goals", 1)),
    ]
    + [
        Damage("place atom: %s, %d" % (name, atom), 9, place_of_atom(name, atom))
        for name in ("beliefs", "goals")
        for atom in (127, 128, 192, 255)
    ]
)

# The rows of a place in the order in which they are tested.
PLACE_ROWS = (
    TINY_PLACES,
    PLACE_MARKS,
    SHORT_PLACES,
    PLACE_COUNTS,
    PLACE_OFFSETS,
    PLACE_ACTION_BYTES,
    PLACE_ATOMS,
)
PLACE_DAMAGES = [damage for row in PLACE_ROWS for damage in row]

# The row of each damage, by its name.
ROW_OF_NAME = {
    damage.name: at for rows in (CARD_ROWS, PLACE_ROWS) for at, row in enumerate(rows, 1) for damage in row
}


def place_long(length):
    """A change to a plan of some length, of the card's last action."""

    def change(random, card, description):
        description.plan = bytes([card.actions - 1]) * length

    return change


# Finished counts: each of bytes 10 and 11 zero and not zero, and around 65,535.
COUNTS = (0, 1, 2, 255, 256, 257, 65280, 65533, 65534, 65535)


PLACE_RANGES = [
    Damage("place range: plan of %d" % length, 0, place_long(length)) for length in (0, 1, 1023, 1024)
] + [
    Damage("place range: phase %d" % phase, 0, place_put(phase=phase)) for phase in (0, 1, 2)
] + [
    Damage("place range: finished %d" % count, 0, place_put(finished=count)) for count in COUNTS
] + [
    Damage("place range: the last atom believed", 0, place_atom("beliefs", -1)),
    Damage("place range: the last atom a goal", 0, place_atom("goals", -1)),
    Damage("place range: the last action", 0, place_action(-1)),
]

# Every two different rows of a place at once.
PLACE_PAIRS = [(low, high) for high in range(len(PLACE_ROWS)) for low in range(high)]


def pair_of_place_damages(random, low, high):
    """Two damages of different rows of a place."""
    return random.choice(PLACE_ROWS[low]), random.choice(PLACE_ROWS[high])


# --- configurations ---------------------------------------------------------


def padded(plan):
    """A plan as the array of 1,024 bytes."""
    return plan.ljust(guide.PLAN_LIMIT, b"\0")


def with_length(length):
    """The same configuration, with another length over the same array."""
    return lambda random, card, held: held._replace(length=length)


def with_phase(phase):
    """The same configuration in another phase."""
    return lambda random, card, held: held._replace(phase=phase)


def with_finished(count):
    """The same configuration with another finished count."""
    return lambda random, card, held: held._replace(finished=count)


def with_action(above):
    """One byte of the plan changed to the number of actions and `above` more; a
    plan of one action, if it was empty. None where the card has no room."""

    def change(random, card, held):
        if card.actions + above > 255:
            return None
        plan = bytearray(held.plan[:held.length] or b"\0")
        plan[some_index(random, plan)] = card.actions + above
        return held._replace(plan=padded(bytes(plan)), length=len(plan))

    return change


def with_belief_or_goal(name, above):
    """The atom with the number of atoms and `above` more put into a set; None
    where there is no such bit."""

    def change(random, card, held):
        if card.atoms + above > 255:
            return None
        return held._replace(**{name: with_atom(getattr(held, name), card.atoms + above)})

    return change


def with_atom_of(name, atom):
    """An atom put into a set; None where the card has it."""

    def change(random, card, held):
        if atom < card.atoms:
            return None
        return held._replace(**{name: with_atom(getattr(held, name), atom)})

    return change


def with_byte_after_end(where):
    """A byte that is not zero right after the plan's end, or at the array's end;
    None where the plan fills the array."""

    def change(random, card, held):
        at = held.length if where == "end" else guide.PLAN_LIMIT - 1
        if held.length >= guide.PLAN_LIMIT:
            return None
        plan = bytearray(held.plan)
        plan[at] = random.choice((1, 255, card.actions % 256 or 1))
        return held._replace(plan=bytes(plan))

    return change


def with_length_less(random, card, held):
    """The length one less over a plan whose last byte is not zero; None where it
    is zero or the plan is empty."""
    if held.length == 0 or held.plan[held.length - 1] == 0:
        return None
    return held._replace(length=held.length - 1)


def with_full_array(random, card, held):
    """A plan that fills the array, and a length of 1,025."""
    return held._replace(plan=bytes([card.actions - 1]) * 1024, length=1025)


def with_long_plan(length):
    """A plan of some length, of the card's actions."""

    def change(random, card, held):
        plan = bytes(random.randrange(card.actions) for _ in range(length))
        return held._replace(plan=padded(plan), length=length)

    return change


CONFIGURATION_DAMAGES = [
    Damage("configuration: length 1,025", 13, with_length(1025)),
    Damage("configuration: length 1,025 over a full array", 13, with_full_array),
    Damage("configuration: length 32,768", 13, with_length(32768)),
    Damage("configuration: length 65,535", 13, with_length(65535)),
    Damage("configuration: phase 3", 13, with_phase(3)),
    Damage("configuration: phase 128", 13, with_phase(128)),
    Damage("configuration: phase 255", 13, with_phase(255)),
    Damage("configuration: action the number of actions", 13, with_action(0)),
    Damage("configuration: action one more", 13, with_action(1)),
    Damage("configuration: beliefs, the number of atoms", 13, with_belief_or_goal("beliefs", 0)),
    Damage("configuration: beliefs, one more", 13, with_belief_or_goal("beliefs", 1)),
    Damage("configuration: goals, the number of atoms", 13, with_belief_or_goal("goals", 0)),
    Damage("configuration: goals, one more", 13, with_belief_or_goal("goals", 1)),
] + [
    Damage("configuration: %s, %d" % (name, atom), 13, with_atom_of(name, atom))
    for name in ("beliefs", "goals")
    for atom in (127, 128, 129, 191, 192, 255)
] + [
    Damage("configuration: a byte after the plan's end", 13, with_byte_after_end("end")),
    Damage("configuration: a byte at 1,023", 13, with_byte_after_end("array")),
    Damage("configuration: length one less", 13, with_length_less),
]

CONFIGURATION_RANGES = [
    Damage("configuration range: plan of %d" % length, 0, with_long_plan(length))
    for length in (0, 1, 1023, 1024)
] + [
    Damage("configuration range: phase %d" % phase, 0, with_phase(phase)) for phase in (0, 1, 2)
] + [
    Damage("configuration range: finished %d" % count, 0, with_finished(count))
    for count in (1, 256, 65534, 65535)
] + [
    Damage("configuration range: length 1,024 over the same array", 0, with_length(1024)),
    Damage("configuration range: the last action", 0, with_action(-1)),
    Damage("configuration range: the last atom believed", 0, with_belief_or_goal("beliefs", -1)),
    Damage("configuration range: the last atom a goal", 0, with_belief_or_goal("goals", -1)),
]


# --- choices, rooms and full plans ------------------------------------------


def choices(card):
    """The codes of all the card's entries, rising."""
    return [256 * kind + n for kind in guide.KINDS for n in range(len(guide.entries_of_kind(card, kind)))]


def wrong_choices(card):
    """Codes of no entry: at and past the sections' ends, and past all kinds."""
    past = [256 * kind + len(guide.entries_of_kind(card, kind)) for kind in guide.KINDS]
    past += [255, 256, 511, 512, 767, 768, 769, 1024, 32768, 65280, 65535]
    return [code for code in past if guide.names_no_entry(card, code)]


def fitting_plan(random, card, kind, n):
    """A plan whose front fits entry n of a kind, with a few actions after it
    where there may be some."""
    if kind == guide.SELECTION:
        return b""
    entry = guide.entries_of_kind(card, kind)[n]
    front = bytes([entry.action]) if kind == guide.ACTION else entry.head
    rest = bytes(random.choices(range(card.actions), k=random.choice((0, 0, 1, 2, 5))))
    return (front + rest)[:guide.PLAN_LIMIT]


def fitting_configuration(random, card, kind, n):
    """A configuration whose plan's front fits entry n of a kind, with any sets of
    the card's atoms."""
    plan = fitting_plan(random, card, kind, n)
    sets = random_atoms(random, card.atoms), random_atoms(random, card.atoms)
    phase, finished = random.randrange(3), random_count(random)
    return guide.Configuration(*sets, padded(plan), len(plan), phase, finished)


def closed_configuration(random, card, kind):
    """A configuration whose plan's front fits some entry of a kind, and in which
    a condition of that entry is false; the entry's code with it. Of those tried,
    one whose settling node has a number far below the condition's. None where the
    kind has no entry, or where the conditions hold in all of those tried."""
    count, found = len(guide.entries_of_kind(card, kind)), {}
    for _ in range(6 if count else 0):
        n = random.randrange(count)
        held = fitting_configuration(random, card, kind, n)
        false = guide.first_false(card, held, kind, n)
        if false is not None:
            found[false - guide.judged(card, held, false).settled] = held, 256 * kind + n
    return found[max(found)] if found else None


def emptying_configuration(random, card, kind):
    """A configuration whose plan some transition of a kind leaves empty, with the
    transition's code: a last action, or a whole plan revised to nothing. None where no
    entry of the kind does so under the beliefs tried."""
    entries = guide.entries_of_kind(card, kind)
    fitting = [n for n in range(len(entries)) if kind == guide.ACTION or entries[n].body == b""]
    for _ in range(4 if fitting else 0):
        n = random.choice(fitting)
        plan = bytes([entries[n].action]) if kind == guide.ACTION else entries[n].head
        held = fitting_configuration(random, card, kind, n)
        held = held._replace(plan=padded(plan), length=len(plan))
        if guide.is_enabled(card, held, kind, n):
            return held, 256 * kind + n
    return None


def believed_configuration(random, card):
    """A configuration with believed goals in which some selection is not enabled, or
    else is enabled, because these are goals still; the selection's code with it. None
    where the sets tried have none."""
    count, found = len(card.selections), {}
    for _ in range(8 if count else 0):
        n = random.randrange(count)
        held = fitting_configuration(random, card, guide.SELECTION, n)
        struck = held._replace(goals=guide.not_believed(held.goals, held.beliefs))
        enabled = [guide.is_enabled(card, one, guide.SELECTION, n) for one in (held, struck)]
        if enabled[0] != enabled[1]:
            found[enabled[0]] = held, n
    return found.get(False) or found.get(True)


def rooms_around(needed, most):
    """Rooms of exactly the number needed, one less, 0, one more, and the most."""
    return [room for room in (needed, needed - 1, 0, needed + 1, most) if 0 <= room <= most]


def full_configuration(random, card, over):
    """A configuration whose plan, after some revision that lengthens it, has
    1,024 actions and `over` more; the revision's code with it. None where no
    such revision is enabled under the beliefs tried."""
    longer = [n for n, rule in enumerate(card.revisions) if len(rule.body) > len(rule.head)]
    if not longer:
        return None
    n = random.choice(longer)
    rule = card.revisions[n]
    length = guide.PLAN_LIMIT + over + len(rule.head) - len(rule.body)
    if not len(rule.head) <= length <= guide.PLAN_LIMIT:
        return None
    rest = bytes(random.randrange(card.actions) for _ in range(length - len(rule.head)))
    for _ in range(6):
        beliefs = random_atoms(random, card.atoms)
        phase, finished = random.randrange(3), random_count(random)
        plan = padded(rule.head + rest)
        held = guide.Configuration(beliefs, card.goals, plan, length, phase, finished)
        if guide.is_enabled(card, held, guide.REVISION, n):
            return held, 512 + n
    return None


def random_atoms(random, count):
    """Any set of the card's atoms."""
    share = random.choice((0.1, 0.5, 0.9))
    return cards.atoms_set(*(k for k in range(count) if random.random() < share))


def random_count(random):
    """A finished count: none, any, one around which it ends, or any of `COUNTS`."""
    style = random.random()
    if style < 0.3:
        return 0
    if style < 0.4:
        return random.randrange(guide.FINISHED_LIMIT + 1)
    if style < 0.7:
        return guide.FINISHED_LIMIT - random.randrange(3)
    return random.choice(COUNTS)
