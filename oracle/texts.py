"""Texts by seed: cards written as text in plain and in odd spellings, each clause
of request 2's refusals broken, alone and in pairs, each limit just kept, and bytes
damaged anywhere.

As a command it holds the reader against `grammar.py` on so many texts, and prints how
often each number was met.
"""

import argparse
import re
import sys
from collections import Counter
from dataclasses import dataclass, field, replace
from random import Random
from typing import NamedTuple

import cards
import grammar
import guide
import text
from cards import AND, BELIEVES, HAS_GOAL, NOT, OR, TRUE, Node
from damage import Damage, some_index

# The most bytes of a text, and of one that is held against `grammar.py`.
TEXT_LIMIT = 65536
SMALL_TEXT = 3000


# --- conditions -------------------------------------------------------------

# A condition is a tree: a kind of node and its parts. Brackets are a part of a tree
# where they are written without need; they make no node.
BRACKETS = 6
T = (TRUE,)
B0 = (BELIEVES, 0)

# What is written for a kind: 0 an or-list, 1 an and-list, 2 a unit; and what has to be
# written for its parts.
WRITTEN_AS = {TRUE: 2, BELIEVES: 2, HAS_GOAL: 2, NOT: 2, BRACKETS: 2, AND: 1, OR: 0}
PARTS_AS = {NOT: (2,), BRACKETS: (0,), AND: (1, 2), OR: (0, 1)}
FORMS = {NOT: b"!%s", BRACKETS: b"(%s)", AND: b"%s&%s", OR: b"%s|%s"}


def plain_number(number):
    """A number without leading zeros."""
    return b"%d" % number


def condition_text(tree, spell=plain_number, wanted=0):
    """A condition's text, with the brackets that it needs and those it has."""
    kind, parts = tree[0], tree[1:]
    if WRITTEN_AS[kind] < wanted:
        return b"(" + condition_text(tree, spell) + b")"
    if kind in FORMS:
        below = tuple(condition_text(part, spell, least) for part, least in zip(parts, PARTS_AS[kind]))
        return FORMS[kind] % below
    return b"T" if kind == TRUE else b" BG"[kind:kind + 1] + spell(*parts)


def depth(tree, wanted=0):
    """How deep a condition's text nests."""
    kind, parts = tree[0], tree[1:]
    below = max((depth(part, least) for part, least in zip(parts, PARTS_AS.get(kind, ()))), default=0)
    return below + (kind in (NOT, BRACKETS)) + (WRITTEN_AS[kind] < wanted)


def put_nodes(tree, nodes):
    """Puts a condition's nodes after the others; the number of its own."""
    kind, parts = tree[0], tree[1:]
    if kind in FORMS:
        parts = [put_nodes(part, nodes) for part in parts]
        if kind == BRACKETS:
            return parts[0]
    nodes.append(Node(kind, *parts))
    return len(nodes) - 1


# --- a card as it is written ------------------------------------------------


class Do(NamedTuple):
    """A do line."""

    action: int
    condition: tuple
    add: list
    delete: list


class Select(NamedTuple):
    """A select line."""

    belief: tuple
    goal: tuple
    plan: list


class Revise(NamedTuple):
    """A revise line."""

    head: list
    condition: tuple
    body: list


@dataclass
class Writing:
    """A card as it is written: numbers as they stand in the lines, of any size, and
    conditions as trees."""

    atoms: int
    weights: list
    does: list = field(default_factory=list)
    selects: list = field(default_factory=list)
    revises: list = field(default_factory=list)
    beliefs: list = field(default_factory=list)
    goals: list = field(default_factory=list)
    plan: list = field(default_factory=list)


def copied(writing):
    """The same card written, which can be changed by itself."""
    held = {name: list(value) for name, value in vars(writing).items() if isinstance(value, list)}
    return replace(writing, **held)


def described(writing):
    """ "The card that is built": its nodes and its plans in the order of the text,
    none shared."""
    card = cards.Description(atoms=writing.atoms, weights=list(writing.weights), nodes=[], pool=b"")

    def node(tree):
        return put_nodes(tree, card.nodes)

    def plan(actions):
        card.pool += bytes(actions)
        return len(card.pool) - len(actions), len(actions)

    for action, tree, add, delete in writing.does:
        sets = cards.atoms_set(*add), cards.atoms_set(*delete)
        card.specifications.append(cards.Specification(action, node(tree), *sets))
    for belief, goal, actions in writing.selects:
        card.selections.append(cards.Selection(node(belief), node(goal), *plan(actions)))
    for head, tree, body in writing.revises:
        card.revisions.append(cards.Revision(node(tree), *plan(head), *plan(body)))
    card.start, card.length = plan(writing.plan)
    card.beliefs, card.goals = cards.atoms_set(*writing.beliefs), cards.atoms_set(*writing.goals)
    return card


# --- spellings --------------------------------------------------------------


class Spelling(NamedTuple):
    """How often a number has leading zeros, a line ends with a remark, and a note
    stands before a line."""

    zeros: float
    remarks: float
    notes: float


PLAIN = Spelling(0, 0, 0)
SPELLINGS = (PLAIN, Spelling(0, 0.3, 0.2), Spelling(0.2, 0.1, 0.1), Spelling(0.5, 0.5, 0.5))

REMARKS = (b"", b" ", b" 0 threaded", b"#", b" # twice", b"atoms 4", b"\r", b"x\ry", b"\0", b"\xff\xfe", b"  ")


def some_remark(random):
    """What stands in a remark: "any byte but LF"."""
    if random.random() < 0.8:
        return random.choice(REMARKS)
    return bytes(byte for byte in random.choices(range(256), k=random.randint(1, 9)) if byte != text.LF)


def speller(random, spelling):
    """How numbers are spelled: "leading zeros are allowed"."""

    def spell(number):
        zeros = random.choice((1, 1, 2, 5, 30)) if random.random() < spelling.zeros else 0
        return b"0" * zeros + plain_number(number)

    return spell


def list_text(numbers, spell):
    """list = { " " number }"""
    return b"".join(b" " + spell(number) for number in numbers)


def lines(writing, spell):
    """The lines of a card as it is written, each without its end."""
    made = [b"atoms " + spell(writing.atoms)]
    made += [b"action " + spell(weight) for weight in writing.weights]
    for action, tree, add, delete in writing.does:
        sets = list_text(add, spell), list_text(delete, spell)
        made.append(b"do %s if %s add%s del%s" % (spell(action), condition_text(tree, spell), *sets))
    for belief, goal, actions in writing.selects:
        both = condition_text(belief, spell), condition_text(goal, spell)
        made.append(b"select if %s goal %s plan%s" % (*both, list_text(actions, spell)))
    for head, tree, body in writing.revises:
        both = list_text(head, spell), condition_text(tree, spell)
        made.append(b"revise%s if %s to%s" % (*both, list_text(body, spell)))
    start = [list_text(numbers, spell) for numbers in (writing.beliefs, writing.goals, writing.plan)]
    return made + [b"begin beliefs%s goals%s plan%s" % tuple(start)]


def written(random, writing, spelling=PLAIN):
    """The text of a card, with remarks and notes where the spelling has them."""
    whole = []
    for line in lines(writing, speller(random, spelling)) + [None]:
        while random.random() < spelling.notes:
            whole.append(random.choice((b"", b"#" + some_remark(random))))
        if line is not None:
            remark = b" #" + some_remark(random) if random.random() < spelling.remarks else b""
            whole.append(line + remark)
    return b"".join(line + b"\n" for line in whole)


# --- good texts -------------------------------------------------------------


def leaves(random, atoms, kind):
    """Makes a "T", or an atom of a kind; now and then the last of the card's, if it
    has any."""

    def leaf():
        if atoms == 0 or random.random() < 0.2:
            return T
        return kind, random.choice((random.randrange(atoms), random.randrange(atoms), atoms - 1))

    return leaf


def some_tree(random, leaf, size):
    """A condition of so many nodes, now and then with brackets without need."""
    if size == 1:
        tree = leaf()
    elif size == 2 or random.random() < 0.3:
        tree = NOT, some_tree(random, leaf, size - 1)
    else:
        left = random.randint(1, size - 2)
        both = some_tree(random, leaf, left), some_tree(random, leaf, size - 1 - left)
        tree = (random.choice((AND, OR)), *both)
    return (BRACKETS, tree) if random.random() < 0.07 else tree


def some_condition(random, leaf, size):
    """A condition of so many nodes that nests 32 deep at most."""
    while True:
        tree = some_tree(random, leaf, size)
        if depth(tree) <= text.NEST_LIMIT:
            return tree


def wide_condition(random, leaf, size):
    """A condition of so many nodes, any number of them, as an or-list or and-list of
    small ones."""
    kind = random.choice((AND, OR))
    left = size - 1 if size % 2 == 0 else size
    tree = leaf()
    left -= 1
    while left > 0:
        part = random.choice([part for part in (1, 3, 5, 7) if part < left])
        tree = kind, tree, some_condition(random, leaf, part)
        left -= 1 + part
    return (NOT, tree) if size % 2 == 0 else tree


DEEP_SORTS = ("brackets", "not", "mixed")


def deep_condition(random, leaf, deep, sort):
    """A condition that nests exactly so deep, by brackets, by "!" or by both, with
    other members beside what nests."""
    tree = leaf()
    for _ in range(deep):
        kind = {"brackets": BRACKETS, "not": NOT}.get(sort) or random.choice((BRACKETS, NOT))
        if kind == BRACKETS and random.random() < 0.4:
            both = random.choice(((tree, leaf()), (leaf(), tree)))
            tree = (random.choice((AND, OR)), *both)
        tree = kind, tree
    if random.random() < 0.5:
        tree = (random.choice((AND, OR)), *random.choice(((tree, leaf()), (leaf(), tree))))
    return tree


def some_size(random):
    """How many nodes a condition has, mostly few."""
    return random.choice((1, 1, 1, 2, 2, 3, 3, 4, 5, 6, 8, 12))


def some_set(random, atoms, most=4):
    """A set's numbers, "in any order and twice"."""
    return [random.randrange(atoms) for _ in range(random.choice((0, 0, 1, 1, 2, most)))]


def some_plan(random, actions, least, most=4):
    """A plan's actions."""
    return [random.randrange(actions) for _ in range(random.randint(least, most))]


class Counts(NamedTuple):
    """How many of each a written card has."""

    atoms: int
    actions: int
    does: int
    selects: int
    revises: int


def writing_of(random, counts):
    """A good card with so many of each, its conditions small."""
    belief = leaves(random, counts.atoms, BELIEVES)
    goal = leaves(random, counts.atoms, HAS_GOAL)

    def condition(leaf):
        return some_condition(random, leaf, some_size(random))

    def atoms():
        return some_set(random, counts.atoms)

    def plan(least):
        return some_plan(random, counts.actions, least)

    return Writing(
        atoms=counts.atoms,
        weights=cards.make_weights(random, counts.actions),
        does=[
            Do(random.randrange(counts.actions), condition(belief), atoms(), atoms())
            for _ in range(counts.does)
        ],
        selects=[Select(condition(belief), condition(goal), plan(1)) for _ in range(counts.selects)],
        revises=[Revise(plan(1), condition(belief), plan(0)) for _ in range(counts.revises)],
        beliefs=atoms(),
        goals=atoms(),
        plan=plan(0),
    )


def small_writing(random):
    """A small good card: of each kind of line a few or none, a condition at least."""
    counts = [random.randint(0, 3) for _ in range(3)]
    counts[random.randrange(3)] += sum(counts) == 0
    atoms = random.choice((1, 2, 3, 4, 8, 9, 127, 128))
    return writing_of(random, Counts(atoms, random.randint(1, 5), *counts))


def roomy_writing(random):
    """A small good card with a line of each kind and with room below each limit:
    what the damages start from."""
    counts = [random.randint(1, 2) for _ in range(3)]
    return writing_of(random, Counts(random.randint(2, 9), random.randint(2, 5), *counts))


def good_writing(random):
    """A good card; one in ten has something at its most, or nearly."""
    if random.random() < 0.9:
        return small_writing(random)
    writing = roomy_writing(random)
    random.choice(TEXT_RANGES).change(random, writing)
    return writing


# --- changes to a card as it is written -------------------------------------

# The fields of each sort: a name, the lines that have it (None for the begin line),
# and what it is called there. A condition's kind is that of the atoms it may have.
PLANS = (
    ("a select plan", "selects", "plan"),
    ("a head", "revises", "head"),
    ("a body", "revises", "body"),
    ("the start's plan", None, "plan"),
)
SETS = (
    ("add", "does", "add"),
    ("del", "does", "delete"),
    ("beliefs", None, "beliefs"),
    ("goals", None, "goals"),
)
CONDITIONS = (
    ("a do line", "does", "condition", BELIEVES),
    ("a select line's beliefs", "selects", "belief", BELIEVES),
    ("a select line's goals", "selects", "goal", HAS_GOAL),
    ("a revise line", "revises", "condition", BELIEVES),
)


def change(section, name, make):
    """A change of a field of one line, or of the begin line: `make` makes the new
    value from the one there was."""

    def changed(random, writing):
        if section is None:
            setattr(writing, name, make(random, writing, getattr(writing, name)))
            return
        entries = getattr(writing, section)
        at = some_index(random, entries)
        value = make(random, writing, getattr(entries[at], name))
        entries[at] = entries[at]._replace(**{name: value})

    return changed


def atom_count(value):
    """A change of the number of atoms."""

    def changed(random, writing):
        writing.atoms = value

    return changed


def resolved(value, writing):
    """A value, or what it makes of the card as it is written."""
    return value(writing) if callable(value) else value


def number_of(value):
    """A field that is a number: another one."""
    return lambda random, writing, held: resolved(value, writing)


def member(value):
    """A field that is a list: one more number in it, somewhere."""

    def make(random, writing, held):
        at = random.randint(0, len(held))
        return held[:at] + [resolved(value, writing)] + held[at:]

    return make


def long_list(length):
    """A plan of some length, of the card's actions."""
    return lambda random, writing, held: some_plan(random, len(writing.weights), length, length)


def beside(kind, value):
    """A condition with an atom beside, before or instead of what there was."""

    def make(random, writing, held):
        leaf = kind, resolved(value, writing)
        return random.choice((leaf, (NOT, leaf), (AND, held, leaf), (OR, leaf, held), (OR, T, (AND, T, leaf))))

    return make


def nested(section, name, deep, sort, kind):
    """A change of a condition to one that nests so deep."""

    def make(random, writing, held):
        return deep_condition(random, leaves(random, writing.atoms, kind), deep, sort)

    return change(section, name, make)


def weight(value):
    """A change of one weight."""

    def changed(random, writing):
        writing.weights[some_index(random, writing.weights)] = value

    return changed


def filled(name, count):
    """A change that repeats a line of a kind up to so many of them."""

    def changed(random, writing):
        held = getattr(writing, name)
        held += held[-1:] * (count - len(held))

    return changed


PLAIN_LINES = {"does": Do(0, T, [], []), "selects": Select(T, T, [0]), "revises": Revise([0], T, [])}


def plain_lines(name, count):
    """A change to so many lines of a kind with the shortest conditions."""

    def changed(random, writing):
        setattr(writing, name, [PLAIN_LINES[name]] * count)

    return changed


def only_lines(name, count):
    """The same, and no other line that has a condition."""

    def changed(random, writing):
        no_condition(random, writing)
        plain_lines(name, count)(random, writing)

    return changed


def nodes_in_all(count):
    """A change of one condition, so that there are so many nodes in all."""

    def changed(random, writing):
        section, name, kind = random.choice(CONDITIONS)[1:]
        entries = getattr(writing, section)
        entries[0] = entries[0]._replace(**{name: T})
        left = count - len(described(writing).nodes) + 1
        tree = wide_condition(random, leaves(random, writing.atoms, kind), left)
        entries[0] = entries[0]._replace(**{name: tree})

    return changed


def pool_in_all(count):
    """A change of the plans, so that they have so many actions in all, none of them
    more than 1,024."""

    def changed(random, writing):
        spare = random.randint(1, 1000)
        lengths = [1024] * 7 + [spare, count - 7 * 1024 - spare]
        plans = [some_plan(random, len(writing.weights), length, length) for length in lengths]
        writing.selects = [Select(T, T, plan) for plan in plans[:4]]
        writing.revises = [Revise(plans[4], B0, plans[5]), Revise(plans[6], T, plans[7])]
        writing.plan = plans[8]

    return changed


def all_actions(random, writing):
    """256 action lines, and the last action in a do line and in each plan."""
    filled("weights", 256)(random, writing)
    change("does", "action", number_of(255))(random, writing)
    for _, section, name in PLANS:
        change(section, name, member(255))(random, writing)


def all_atoms(random, writing):
    """128 atoms, and the last one in each condition and each set."""
    writing.atoms = 128
    for _, section, name, kind in CONDITIONS:
        change(section, name, beside(kind, 127))(random, writing)
    for _, section, name in SETS:
        change(section, name, member(127))(random, writing)


def nothing_but_conditions(random, writing):
    """One do line and no other: no plan at all, the pool is empty."""
    writing.selects, writing.revises, writing.plan = [], [], []


def no_action_line(random, writing):
    """No action, hence no plan and no do line; a condition all the same."""
    writing.weights, writing.does, writing.plan = [], [], []
    writing.selects = [select._replace(plan=[]) for select in writing.selects]
    writing.revises = [revise._replace(head=[], body=[]) for revise in writing.revises]


def no_condition(random, writing):
    """No condition at all: no line that has one."""
    writing.does, writing.selects, writing.revises = [], [], []


def actions(writing):
    """The number of actions: the first that is unknown."""
    return len(writing.weights)


def atoms(writing):
    """The number of atoms: the first that is unknown."""
    return writing.atoms


# --- the refusals' clauses --------------------------------------------------

# Numbers that are 0 where only the low bytes of them are kept.
ROUND = (1 << 16, 1 << 32, 1 << 64)

NESTED_DAMAGES = [
    Damage("text: %d deep by %s, in %s" % (deep, sort, where), 18, nested(section, name, deep, sort, kind))
    for where, section, name, kind in CONDITIONS
    for deep, sort in [(33, sort) for sort in DEEP_SORTS] + [(64, "mixed")]
]

TOO_LARGE_DAMAGES = (
    [Damage("text: %d atoms" % value, 25, atom_count(value)) for value in (65536, 65537, *ROUND[1:], 10**30)]
    + [Damage("text: weight %d" % value, 25, weight(value)) for value in (65536, 65537, *ROUND[1:], 10**30)]
    + [
        Damage("text: action %d of a do line" % value, 25, change("does", "action", number_of(value)))
        for value in (256, 257, *ROUND)
    ]
    + [
        Damage("text: action %d in %s" % (value, where), 25, change(section, name, member(value)))
        for where, section, name in PLANS
        for value in (256, *ROUND[:2])
    ]
    + [
        Damage("text: atom %d in %s" % (value, where), 25, change(section, name, beside(kind, value)))
        for where, section, name, kind in CONDITIONS
        for value in (256, *ROUND[:2])
    ]
    + [
        Damage("text: atom %d in the set %s" % (value, where), 25, change(section, name, member(value)))
        for where, section, name in SETS
        for value in (128, 256, ROUND[1])
    ]
    + [
        Damage("text: 257 action lines", 25, filled("weights", 257)),
        Damage("text: 257 do lines", 25, plain_lines("does", 257)),
        Damage("text: 257 select lines", 25, plain_lines("selects", 257)),
        Damage("text: 257 revise lines", 25, plain_lines("revises", 257)),
        Damage("text: 257 nodes", 25, nodes_in_all(257)),
        Damage("text: 129 select lines", 25, plain_lines("selects", 129)),
        Damage("text: 8,193 actions in all plans", 25, pool_in_all(8193)),
    ]
)

COUNT_DAMAGES = [
    Damage("text: %d atoms" % value, 3, atom_count(value)) for value in (0, 129, 255, 256, 65535)
] + [
    Damage("text: no action line", 3, no_action_line),
    Damage("text: no condition at all", 3, no_condition),
]

WEIGHT_DAMAGES = [Damage("text: weight %d" % value, 5, weight(value)) for value in (0, 1025, 65535)]

NODE_DAMAGES = [
    Damage("text: %s in %s" % (what, where), 6, change(section, name, beside(kind, value)))
    for where, section, name, kind in CONDITIONS
    for what, value in (("the first unknown atom", atoms), ("atom 255", 255))
]

RULE_DAMAGES = (
    [
        Damage("text: the first unknown action in a do line", 7, change("does", "action", number_of(actions))),
        Damage("text: action 255 in a do line", 7, change("does", "action", number_of(255))),
    ]
    + [
        Damage("text: the other kind of atom in %s" % where, 7, change(section, name, beside(3 - kind, 0)))
        for where, section, name, kind in CONDITIONS
    ]
    + [
        Damage("text: nothing in %s" % where, 7, change(section, name, long_list(0)))
        for where, section, name in PLANS[:2]
    ]
    + [
        Damage("text: 1,025 actions in %s" % where, 7, change(section, name, long_list(1025)))
        for where, section, name in PLANS
    ]
)

ACTION_BYTE_DAMAGES = [
    Damage("text: %s in %s" % (what, where), 8, change(section, name, member(value)))
    for where, section, name in PLANS
    for what, value in (("the first unknown action", actions), ("action 255", 255))
]

ATOM_DAMAGES = [
    Damage("text: %s in the set %s" % (what, where), 9, change(section, name, member(value)))
    for where, section, name in SETS
    for what, value in (("the first unknown atom", atoms), ("atom 127", 127))
]

# "Refusals, in this order", but for 17, which no card as it is written has, and 12.
TEXT_DAMAGES = (
    NESTED_DAMAGES
    + TOO_LARGE_DAMAGES
    + COUNT_DAMAGES
    + WEIGHT_DAMAGES
    + NODE_DAMAGES
    + RULE_DAMAGES
    + ACTION_BYTE_DAMAGES
    + ATOM_DAMAGES
)
ORDER = (18, 25, 3, 5, 6, 7, 8, 9)
TEXT_PAIRS = [(low, high) for at, low in enumerate(ORDER) for high in ORDER[at + 1:]]

# Each limit just kept.
TEXT_RANGES = (
    [
        Damage("text range: %d deep by %s, in %s" % (deep, sort, where), 0, nested(section, name, deep, sort, kind))
        for where, section, name, kind in CONDITIONS
        for deep, sort in [(32, sort) for sort in DEEP_SORTS] + [(31, "mixed")]
    ]
    + [
        Damage("text range: %d actions in %s" % (length, where), 0, change(section, name, long_list(length)))
        for where, section, name in PLANS
        for length in (1023, 1024)
    ]
    + [
        Damage("text range: nothing in %s" % where, 0, change(section, name, long_list(0)))
        for where, section, name in PLANS[2:]
    ]
    + [Damage("text range: weight %d" % value, 0, weight(value)) for value in (1, 1024)]
    + [
        Damage("text range: 128 atoms", 0, all_atoms),
        Damage("text range: 256 action lines", 0, all_actions),
        Damage("text range: 256 do lines", 0, only_lines("does", 256)),
        Damage("text range: 128 select lines", 0, only_lines("selects", 128)),
        Damage("text range: 256 revise lines", 0, only_lines("revises", 256)),
        Damage("text range: 255 nodes", 0, nodes_in_all(255)),
        Damage("text range: 256 nodes", 0, nodes_in_all(256)),
        Damage("text range: 8,191 actions in all plans", 0, pool_in_all(8191)),
        Damage("text range: 8,192 actions in all plans", 0, pool_in_all(8192)),
        Damage("text range: no plan at all", 0, nothing_but_conditions),
    ]
)

# Changes that leave no line for another change to be made in.
REMOVING = (no_action_line, no_condition)


def broken(random, writing, *damages):
    """A card as it is written after some damages. The first of the order is changed
    last, so that no other change covers it."""
    writing = copied(writing)
    for one in sorted(damages, key=lambda one: -ORDER.index(one.number)):
        one.change(random, writing)
    return writing


def pair_of_damages(random, low, high):
    """A damage of each of two numbers."""
    return tuple(
        random.choice([one for one in TEXT_DAMAGES if one.number == number and one.change not in REMOVING])
        for number in (low, high)
    )


# --- bytes damaged anywhere -------------------------------------------------

# Bytes that are put into a text: those of the grammar's signs and words, and others.
LIKELY = b"\n\n\n   ##0123456789TBG!()&|atomsctindefgplurvb\r\t\0\xff"


def some_byte(random):
    """A byte, mostly one of those that texts are made of."""
    return bytes([random.choice(LIKELY) if random.random() < 0.85 else random.randrange(256)])


def byte_dropped(random, held, at):
    """The text without one byte."""
    return held[:at] + held[at + 1:]


def byte_doubled(random, held, at):
    """The text with one byte twice."""
    return held[:at + 1] + held[at:]


def byte_changed(random, held, at):
    """The text with another byte in the place of one."""
    return held[:at] + some_byte(random) + held[at + 1:]


def byte_inserted(random, held, at):
    """The text with one byte more."""
    return held[:at] + some_byte(random) + held[at:]


def cut_off(random, held, at):
    """The text's beginning."""
    return held[:at]


def bytes_turned(random, held, at):
    """The text with two bytes the other way round."""
    return held[:at] + held[at:at + 2][::-1] + held[at + 2:]


def piece_moved(random, held, at):
    """The text with a few of its bytes put in somewhere else, too."""
    start = random.randrange(len(held))
    return held[:at] + held[start:start + random.randint(2, 8)] + held[at:]


def lines_swapped(random, held, at):
    """The text with two lines in each other's place."""
    some = held.splitlines(keepends=True)
    one, other = random.randrange(len(some)), random.randrange(len(some))
    some[one], some[other] = some[other], some[one]
    return b"".join(some)


def line_dropped(random, held, at):
    """The text without one line."""
    some = held.split(b"\n")
    del some[random.randrange(len(some))]
    return b"\n".join(some)


def line_doubled(random, held, at):
    """The text with one line twice."""
    some = held.split(b"\n")
    at = random.randrange(len(some))
    return b"\n".join(some[:at + 1] + some[at:])


def sign_changed(random, held, at):
    """The text with another sign in the place of one of a condition or a list."""
    places = [one.start() for one in re.finditer(rb"[TBG!&|() 0-9]", held)]
    at = random.choice(places or [at])
    return held[:at] + random.choice((b"T", b"B", b"!", b"&", b"|", b"(", b")", b" ", b"1", b"")) + held[at + 1:]


BYTE_DAMAGES = (
    byte_dropped,
    byte_dropped,
    byte_doubled,
    byte_changed,
    byte_inserted,
    byte_inserted,
    cut_off,
    bytes_turned,
    piece_moved,
    lines_swapped,
    line_dropped,
    line_doubled,
    sign_changed,
    sign_changed,
)


def damaged(random, held, times):
    """A text after so many damages to its bytes."""
    for _ in range(times):
        if held:
            held = random.choice(BYTE_DAMAGES)(random, held, random.randrange(len(held)))
    return held


# Changes after which no text is one of the grammar, each with the place of the slip.


def without_last_end(random, held):
    """The end of the last line that is not empty is missing."""
    held = held.rstrip(b"\n")
    return held, len(held)


def with_a_line_after_it(random, held):
    """A line after all others that is no note."""
    line = random.choice((b"begin beliefs goals plan", b"action 1", b" ", b"\r", b"x"))
    return held + line + b"\n", len(held)


def with_a_byte_before_it(random, held):
    """A byte before all others that begins no line."""
    return random.choice((b" ", b"\r", b"A", b"x", b"0", b"\0")) + held, 0


def cut_before_its_end(random, held):
    """The text ends before the begin line does."""
    last = held.index(b"\nbegin ") if b"\nbegin " in held else 0
    at = random.randint(0, last + 20)
    return held[:at], at


SURE_SLIPS = (without_last_end, with_a_line_after_it, with_a_byte_before_it, cut_before_its_end)


# --- texts by seed ----------------------------------------------------------


class Sample(NamedTuple):
    """A text, what it is, and its number and place as far as what it is says them:
    None where it does not."""

    name: str
    text: bytes
    number: int
    place: int


def good_sample(random):
    """A good text, in some spelling."""
    held = written(random, good_writing(random), random.choice(SPELLINGS))
    return Sample("good", held, 0, 0)


def range_sample(random, one):
    """A text with a limit just kept."""
    writing = roomy_writing(random)
    one.change(random, writing)
    return Sample(one.name, written(random, writing), 0, 0)


def clause_sample(random, *damages):
    """A text with some clauses broken; the first in the order of the refusals
    answers."""
    held = written(random, broken(random, roomy_writing(random), *damages), random.choice(SPELLINGS[:2]))
    number = min((one.number for one in damages), key=ORDER.index)
    return Sample(" and ".join(one.name for one in damages), held, number, 0)


def pair_sample(random, low, high):
    """A text with clauses of two refusals broken."""
    return clause_sample(random, *pair_of_damages(random, low, high))


def slip_sample(random, held, name):
    """A text with a slip in it, whatever else is wrong with it."""
    slip = random.choice(SURE_SLIPS)
    held, place = slip(random, held)
    return Sample("%s and %s" % (slip.__name__, name), held, 17, place)


def damaged_sample(random):
    """A text with damages to its bytes, mostly one."""
    writing = small_writing(random)
    if random.random() < 0.3:
        one = random.choice([one for one in TEXT_DAMAGES if one.change not in REMOVING])
        writing = broken(random, roomy_writing(random), one)
    held = written(random, writing, random.choice(SPELLINGS))
    return Sample("damaged", damaged(random, held, random.choice((1, 1, 1, 1, 2, 2, 3))), None, None)


def walk_sample(random):
    """A text made byte by byte from what the grammar lets follow, wherever that leads;
    mostly one of the grammar, now and then one that slips or ends on the way."""
    made, ways = b"", grammar.START
    while random.random() < 0.998:
        among = random.choice(grammar.next_bytes(ways))
        if not among:
            break
        byte = random.choice(among) if random.random() < 0.999 else random.randrange(256)
        made += bytes([byte])
        ways = grammar.after_byte(ways, byte)
        if not ways:
            return Sample("walk", made + b" add del\n", 17, len(made) - 1)
    return Sample("walk", made, None, None)


def long_line(random, length):
    """A do line of about so many bytes, the number of a text that has it, and where in
    the line its slip is (0 but with 17)."""
    half = length // 2
    both = b"!(" * (half // 2)
    return random.choice(
        (
            (b"do 0 if " + b"(" * half + b"T" + b")" * half + b" add del\n", 18, 0),
            (b"do 0 if " + b"!" * length + b"T add del\n", 18, 0),
            (b"do 0 if " + both + b"B0" + b")" * (half // 2) + b" add del\n", 18, 0),
            (b"do 0 if " + b"(" * half + b"T" + b")" * (half - 1) + b" add del\n", 17, 8 + half + 1 + half - 1),
            (b"do 0 if " + b"(" * half + b"T" + b")" * (half + 1) + b" add del\n", 17, 8 + half + 1 + half),
            (b"do 0 if " + b"!" * length + b" add del\n", 17, 8 + length),
            (b"do 0 if " + b"T&" * max(half, 128) + b"T add del\n", 25, 0),
            (b"do " + b"9" * length + b" if T add del\n", 25, 0),
            (b"do 0 if B" + b"0" * length + b" add del\n", 0, 0),
            (b"do 0 if T add del" + b" 0" * half + b"\n", 0, 0),
            (b"do 0 if T add del #" + b"\xff" * length + b"\n", 0, 0),
            (b"do 0 if T add del" + b"\n" * length, 0, 0),
        )
    )


def long_sample(random, largest):
    """A text with a long line or many empty ones, of any size up to `largest`
    bytes."""
    before, after = b"atoms 1\naction 1\n", b"begin beliefs goals plan\n"
    if random.random() < 0.1:
        held = before + b"do 0 if B0|" + random.choice((b"(", b"!", b"T|")) * largest
        return Sample("long, just ends", held[:largest], 17, largest)
    length = int(largest ** random.uniform(0.0, 1.0)) - len(before + after) - 40
    line, number, slip = long_line(random, max(length, 70))
    place = len(before) + slip if number == 17 else 0
    return Sample("long", before + line + after, number, place)


def some_sample(random):
    """A text: good, with one clause broken or two, with a slip and a clause broken,
    made byte by byte, with a long line, or with damages to its bytes."""
    style = random.random()
    if style < 0.01:
        return long_sample(random, TEXT_LIMIT)
    if style < 0.25:
        return good_sample(random)
    if style < 0.4:
        return clause_sample(random, random.choice(TEXT_DAMAGES))
    if style < 0.5:
        return pair_sample(random, *random.choice(TEXT_PAIRS))
    if style < 0.55:
        other = clause_sample(random, random.choice(TEXT_DAMAGES))
        return slip_sample(random, other.text, other.name)
    if style < 0.6:
        return walk_sample(random)
    return damaged_sample(random)


def sample_within(random, largest):
    """A text of `largest` bytes at most."""
    while True:
        sample = some_sample(random)
        if len(sample.text) <= largest:
            return sample


# --- the command ------------------------------------------------------------


def read_both(held):
    """A text's number and place by the reader, in room enough, after it was held
    against `grammar.py`."""
    number, place, card = text.read(held, TEXT_LIMIT)
    if len(held) <= SMALL_TEXT:
        other, slip, built = grammar.read(held)
        expected = other or guide.check(built), slip, built
        if expected[0] != guide.DONE:
            expected = expected[0], slip, None
        if (number, place, card) != expected:
            raise ValueError("%r is %r by text.py, %r by grammar.py" % (held, (number, place, card), expected))
    return number, place


def main():
    """Holds the reader against `grammar.py`, and against what each text is."""
    parser = argparse.ArgumentParser(description="the reader held against the grammar, on texts by seed")
    parser.add_argument("--seed", required=True)
    parser.add_argument("--texts", type=int, required=True)
    asked = parser.parse_args()
    met = Counter()
    for index in range(asked.texts):
        sample = some_sample(Random("%s %d" % (asked.seed, index)))
        number, place = read_both(sample.text)
        if sample.number not in (None, number) or sample.place not in (None, place):
            raise ValueError("%s: %r is %r" % (sample.name, sample.text, (number, place)))
        met[number] += 1
    sys.stdout.write("".join("%3d %8d\n" % item for item in sorted(met.items())))


if __name__ == "__main__":
    main()
