"""The eight calls of document 01 over plain values, with the requests 1 ("say why a
move is closed"), 4 ("count the picks"), 5 ("a goal falls when its fact is believed"),
9 ("more facts") and 11 ("how much the list looks at") of document 02; and the call that tells
the guide's own next move.

Written from the two documents alone. Every function says which sentence of them
it stands for.
"""

import struct
from dataclasses import dataclass
from functools import lru_cache
from typing import NamedTuple

# "Numbers the guide may answer", and those of request 1: "10 gives way to three in
# its place and this order".
DONE = 0
SHORT = 1
MARK = 2
COUNT = 3
OFFSETS = 4
WEIGHT = 5
NODE = 6
RULE = 7
ACTION_BYTE = 8
ATOM = 9
PLAN_FULL = 11
NO_ROOM = 12
CONFIGURATION = 13
NO_SUCH_ENTRY = 14
FRONT = 15
CONDITION = 16

# "A choice is coded as 256 times the kind (0 selection, 1 action, 2 revision)
# plus the number of the rule or specification, from 0."
SELECTION, ACTION, REVISION = 0, 1, 2
KINDS = (SELECTION, ACTION, REVISION)

# The endings of a run and of the next move ("0 a move, 1 rest, 2 full"), the verdicts and
# the offenders, by the drill's codes.
SPENT, REST, FULL = 0, 1, 2
MOVE = 0
BOUNDED, OPEN = 0, 1
NO_OFFENDER, INITIAL_PLAN, SELECTION_RULE, REVISION_RULE = 0, 1, 2, 3

# "A plan (0 to 1,024 action numbers)", "each action weighs 1 to 1,024".
PLAN_LIMIT = 1024
WEIGHT_LIMIT = 1024

# "Stopping at 65,535."
FINISHED_LIMIT = 65535

# "A file under 4 bytes is 1": mark and edition.
LEAST_FILE = 4

CARD_MARK = b"\x33\x41"
PLACE_MARK = b"\x33\x50"


class Edition(NamedTuple):
    """An edition of card and place: the bytes of a set, and what follows from them.
    "Edition 2 of card and place has sets of 32 bytes, so a card's header grows to 96
    bytes before the weights and a place's plan starts at 76." """

    number: int
    set_bytes: int

    @property
    def atoms(self):
        """The most atoms: "1..128" of edition 1, and 256 of edition 2."""
        return 8 * self.set_bytes

    @property
    def card_header(self):
        """The bytes before the weights: 64, 96."""
        return 32 + 2 * self.set_bytes

    @property
    def specification(self):
        """The bytes of a specification: 36, 68."""
        return 4 + 2 * self.set_bytes

    @property
    def place_header(self):
        """The bytes before a place's plan: 44, 76."""
        return 12 + 2 * self.set_bytes


EDITIONS = {1: Edition(1, 16), 2: Edition(2, 32)}

# A configuration has no edition: its sets are those of the wider one.
SET_BYTES = 32

# Where the card's header holds the number of a section's entries; the
# section's offset stands two bytes later.
NODES, SPECIFICATIONS, SELECTIONS, REVISIONS, POOL = 8, 12, 16, 20, 24

# The table's ranges but for the atoms': where the number stands, the least and the most.
COUNT_RANGES = (
    (6, 1, 256),
    (NODES, 1, 256),
    (SPECIFICATIONS, 0, 256),
    (SELECTIONS, 0, 256),
    (REVISIONS, 0, 256),
    (POOL, 0, 8192),
)


class Configuration(NamedTuple):
    """ "A configuration is a set of believed atoms, a set of goal atoms, a plan
    (0 to 1,024 action numbers) and a phase 0, 1 or 2." The plan is the whole
    array of 1,024 bytes; its first `length` bytes are the plan. Request 4: "let the
    configuration hold how many transitions have left the plan empty since load"."""

    beliefs: bytes
    goals: bytes
    plan: bytes
    length: int
    phase: int
    finished: int


# "The empty one (no atoms, empty plan, phase 0)", of which no transition has left the
# plan empty.
EMPTY = Configuration(bytes(SET_BYTES), bytes(SET_BYTES), bytes(PLAN_LIMIT), 0, 0, 0)


class Node(NamedTuple):
    """ "Node, 4 bytes: kind, a, b, 0." """

    kind: int
    a: int
    b: int
    zero: int


class Specification(NamedTuple):
    """ "Specification, 36 bytes: action, node, 0, 0, Add, Del"; 68 in edition 2."""

    action: int
    node: int
    zero_2: int
    zero_3: int
    add: bytes
    delete: bytes


class SelectionEntry(NamedTuple):
    """ "Selection rule, 8 bytes: belief node, goal node, start, length
    (1..1,024), zero number." """

    belief_node: int
    goal_node: int
    start: int
    length: int
    zero: int


class RevisionEntry(NamedTuple):
    """ "Revision rule, 12 bytes: node, 0, head start, head length (1..1,024),
    body start, body length (0..1,024), zero number." """

    node: int
    zero_1: int
    head_start: int
    head_length: int
    body_start: int
    body_length: int
    zero: int


# --- reading a card's bytes -------------------------------------------------


def number(data, at):
    """ "Numbers are two bytes, low byte first." """
    return data[at] + 256 * data[at + 1]


def edition_of(file):
    """The edition, at 2 of a card or a place."""
    return EDITIONS[number(file, 2)]


def widened(atoms):
    """A set of an edition as a configuration holds it."""
    return atoms.ljust(SET_BYTES, b"\0")


def atoms_of(card):
    """The number of atoms, at 4 of the card."""
    return number(card, 4)


def actions_of(card):
    """The number of actions, at 6 of the card."""
    return number(card, 6)


def sections(edition):
    """ "The sections follow the weights in the header's order": where the count
    stands, and the bytes of one entry."""
    return (NODES, 4), (SPECIFICATIONS, edition.specification), (SELECTIONS, 8), (REVISIONS, 12), (POOL, 1)


def section(card, at):
    """The bytes of the section whose count stands at `at` of the header."""
    offset, width = number(card, at + 2), dict(sections(edition_of(card)))[at]
    return card[offset:offset + number(card, at) * width]


def weights_of(card):
    """ "64: weights, one for each action"; at 96 in edition 2."""
    return struct.unpack_from("<%dH" % actions_of(card), card, edition_of(card).card_header)


def initial_sets(card):
    """ "32, 48: initial beliefs, initial goals"; at 32 and 64 in edition 2."""
    goals = 32 + edition_of(card).set_bytes
    return card[32:goals], card[goals:edition_of(card).card_header]


def nodes_of(card):
    """The nodes of the card, from 0."""
    return [Node(*fields) for fields in struct.iter_unpack("<BBBB", section(card, NODES))]


def specifications_of(card):
    """The specifications of the card, from 0."""
    size = edition_of(card).set_bytes
    entries = struct.iter_unpack("<BBBB%ds%ds" % (size, size), section(card, SPECIFICATIONS))
    return [Specification(*fields) for fields in entries]


def selections_of(card):
    """The selection rules of the card, from 0."""
    entries = struct.iter_unpack("<BBHHH", section(card, SELECTIONS))
    return [SelectionEntry(*fields) for fields in entries]


def revisions_of(card):
    """The revision rules of the card, from 0."""
    entries = struct.iter_unpack("<BBHHHHH", section(card, REVISIONS))
    return [RevisionEntry(*fields) for fields in entries]


def members(atoms):
    """ "A set of atoms is 16 bytes", or 32; "atom k is bit (k modulo 8) of byte (k
    divided by 8)": the set as one number whose bit k is atom k."""
    return int.from_bytes(atoms, "little")


def has_unknown_atom(atoms, count):
    """ "A set has a bit at or above the number of atoms." """
    return members(atoms) >> count != 0


def has_unknown_action(plan, count):
    """ "A pool or plan byte is not below the number of actions." """
    return max(plan, default=-1) >= count


# --- conditions -------------------------------------------------------------


def contained_atoms(nodes):
    """ "A belief condition contains no goal atom, and a goal condition no
    belief atom": for each node, whether it contains a belief atom and whether
    it contains a goal atom. Each node is visited once, the lowest first."""
    belief, goal = [], []
    for kind, a, b, _ in nodes:
        if kind <= 2:
            belief.append(kind == 1)
            goal.append(kind == 2)
        elif kind == 3:
            belief.append(belief[a])
            goal.append(goal[a])
        else:
            belief.append(belief[a] or belief[b])
            goal.append(goal[a] or goal[b])
    return belief, goal


class Judged(NamedTuple):
    """What judging a condition answers: whether it holds, and the node that
    "settled it"."""

    holds: bool
    settled: int


@lru_cache(maxsize=64)
def judgements(nodes, beliefs, goals):
    """Each node judged. Each is visited once, the lowest first, so that its
    children are judged before it."""
    believed, wanted = members(beliefs), members(goals)
    found = []
    for own, node in enumerate(nodes.entries):
        if node.kind <= 2:
            found.append(Judged(leaf_holds(node, believed, wanted), own))
        else:
            found.append(judged_over(node, found))
    return found


def leaf_holds(node, believed, wanted):
    """ "True; believes p, true exactly if p is in the beliefs; has goal p, true
    exactly if p is in the goals." """
    if node.kind == 0:
        return True
    return (believed if node.kind == 1 else wanted) >> node.a & 1 == 1


def judged_over(node, found):
    """ "Not; and; or", and which node settles them: "for not, its child's; for
    and and or, the left child's where the left alone settles the value, else the
    right's". A false left settles an "and", a true left an "or"."""
    left, right = found[node.a], found[node.b]
    if node.kind == 3:
        return Judged(not left.holds, left.settled)
    if node.kind == 4:
        return Judged(left.holds and right.holds, right.settled if left.holds else left.settled)
    return Judged(left.holds or right.holds, left.settled if left.holds else right.settled)


# --- the refusals of a card, row by row -------------------------------------


def file_is_under_4_bytes(file):
    """1 short: "a file under 4 bytes is 1"."""
    return len(file) < LEAST_FILE


def card_mark_differs(card):
    """2 mark: "then a wrong mark or edition is 2"."""
    return card[0:2] != CARD_MARK or number(card, 2) not in EDITIONS


def card_is_short(card):
    """1 short: "then one shorter than its edition's header is 1"."""
    return len(card) < edition_of(card).card_header


def card_count_is_out_of_range(card):
    """3 count: "the number of atoms, of actions or of a section's entries or
    bytes is out of range"."""
    ranges = ((4, 1, edition_of(card).atoms), *COUNT_RANGES)
    return any(not least <= number(card, at) <= most for at, least, most in ranges)


def card_offset_differs(card):
    """4 offsets: "an offset or the total length is not the required one"; "the
    sections follow the weights in the header's order with no gap; the card
    ends with the pool"."""
    required = edition_of(card).card_header + 2 * actions_of(card)
    for at, width in sections(edition_of(card)):
        if number(card, at + 2) != required:
            return True
        required += number(card, at) * width
    return len(card) != required


def card_weight_is_wrong(card):
    """5 weight: "a weight is 0 or over 1,024"."""
    return any(not 1 <= weight <= WEIGHT_LIMIT for weight in weights_of(card))


def card_node_is_wrong(card):
    """6 node: "a node breaks its rule above"."""
    atoms = atoms_of(card)
    return any(node_breaks_its_rule(node, own, atoms) for own, node in enumerate(nodes_of(card)))


def node_breaks_its_rule(node, own, atoms):
    """ "Kind 0 true (a = b = 0); 1 believes a; 2 has goal a (in both b = 0 and
    a is below the number of atoms); 3 not a (b = 0); 4 a and b; 5 a or b. A
    child's number is lower than the node's own." The fourth byte is a plain 0."""
    kind, a, b, zero = node
    if zero != 0:
        return True
    if kind == 0:
        return a != 0 or b != 0
    if kind in (1, 2):
        return a >= atoms or b != 0
    if kind == 3:
        return a >= own or b != 0
    if kind in (4, 5):
        return a >= own or b >= own
    return True


def card_rule_is_wrong(card):
    """7 rule: "an entry or the initial plan breaks its rule: unknown action or
    node, condition of the wrong kind, plan outside the pool, length out of
    range, a zero field not zero"."""
    conditions = contained_atoms(nodes_of(card))
    actions, pool = actions_of(card), number(card, POOL)
    return (
        plan_is_wrong(number(card, 28), number(card, 30), 0, pool)
        or any(specification_is_wrong(entry, conditions, actions) for entry in specifications_of(card))
        or any(selection_is_wrong(entry, conditions, pool) for entry in selections_of(card))
        or any(revision_is_wrong(entry, conditions, pool) for entry in revisions_of(card))
    )


def plan_is_wrong(start, length, least, pool):
    """ "A plan is a start and a length in the pool, start plus length at most
    the pool's bytes"; the length is `least` to 1,024."""
    return not least <= length <= PLAN_LIMIT or start + length > pool


def belief_condition_is_wrong(node, conditions):
    """Unknown node, or "a belief condition contains no goal atom" broken."""
    _, goal = conditions
    return node >= len(goal) or goal[node]


def goal_condition_is_wrong(node, conditions):
    """Unknown node, or "a goal condition no belief atom" broken."""
    belief, _ = conditions
    return node >= len(belief) or belief[node]


def specification_is_wrong(entry, conditions, actions):
    """ "Specification, 36 bytes: action, node, 0, 0, Add, Del", the node a
    belief condition."""
    return (
        entry.action >= actions
        or belief_condition_is_wrong(entry.node, conditions)
        or entry.zero_2 != 0
        or entry.zero_3 != 0
    )


def selection_is_wrong(entry, conditions, pool):
    """ "Selection rule, 8 bytes: belief node, goal node, start, length
    (1..1,024), zero number." """
    return (
        belief_condition_is_wrong(entry.belief_node, conditions)
        or goal_condition_is_wrong(entry.goal_node, conditions)
        or plan_is_wrong(entry.start, entry.length, 1, pool)
        or entry.zero != 0
    )


def revision_is_wrong(entry, conditions, pool):
    """ "Revision rule, 12 bytes: node, 0, head start, head length (1..1,024),
    body start, body length (0..1,024), zero number", the node a belief
    condition."""
    return (
        belief_condition_is_wrong(entry.node, conditions)
        or entry.zero_1 != 0
        or plan_is_wrong(entry.head_start, entry.head_length, 1, pool)
        or plan_is_wrong(entry.body_start, entry.body_length, 0, pool)
        or entry.zero != 0
    )


def card_action_byte_is_wrong(card):
    """8 action byte: "a pool or plan byte is not below the number of actions"."""
    return has_unknown_action(section(card, POOL), actions_of(card))


def card_atom_is_wrong(card):
    """9 atom: "a set has a bit at or above the number of atoms": the initial
    beliefs, the initial goals, each Add and each Del."""
    sets = [*initial_sets(card)]
    for entry in specifications_of(card):
        sets += [entry.add, entry.delete]
    return any(has_unknown_atom(atoms, atoms_of(card)) for atoms in sets)


# "They are tested in the table's order, the card first with 1 to 9"; 1 stands before 2 and
# after it.
CARD_ROWS = (
    (SHORT, file_is_under_4_bytes),
    (MARK, card_mark_differs),
    (SHORT, card_is_short),
    (COUNT, card_count_is_out_of_range),
    (OFFSETS, card_offset_differs),
    (WEIGHT, card_weight_is_wrong),
    (NODE, card_node_is_wrong),
    (RULE, card_rule_is_wrong),
    (ACTION_BYTE, card_action_byte_is_wrong),
    (ATOM, card_atom_is_wrong),
)


# --- an accepted card -------------------------------------------------------


@dataclass(eq=False, frozen=True)
class Nodes:
    """The nodes of an accepted card, held as one value."""

    entries: tuple


class SelectionRule(NamedTuple):
    """A selection rule with its plan read from the pool."""

    belief_node: int
    goal_node: int
    plan: bytes


class RevisionRule(NamedTuple):
    """A revision rule with its head and body read from the pool."""

    node: int
    head: bytes
    body: bytes


@dataclass(eq=False, frozen=True)
class Card:
    """An accepted card, its plans read from the pool."""

    edition: Edition
    atoms: int
    actions: int
    weights: tuple
    nodes: Nodes
    specifications: tuple
    selections: tuple
    revisions: tuple
    beliefs: bytes
    goals: bytes
    plan: bytes


def read_card(card):
    """The accepted card's values. "A plan is a start and a length in the pool." """
    pool = section(card, POOL)

    def plan(start, length):
        return pool[start:start + length]

    beliefs, goals = initial_sets(card)
    return Card(
        edition_of(card),
        atoms_of(card),
        actions_of(card),
        weights_of(card),
        Nodes(tuple(nodes_of(card))),
        tuple(specifications_of(card)),
        tuple(
            SelectionRule(entry.belief_node, entry.goal_node, plan(entry.start, entry.length))
            for entry in selections_of(card)
        ),
        tuple(
            RevisionRule(
                entry.node,
                plan(entry.head_start, entry.head_length),
                plan(entry.body_start, entry.body_length),
            )
            for entry in revisions_of(card)
        ),
        widened(beliefs),
        widened(goals),
        plan(number(card, 28), number(card, 30)),
    )


@lru_cache(maxsize=16)
def judge(card):
    """The card's number and, when it is 0, the card read: the first row of the
    table that holds answers."""
    for refusal, holds in CARD_ROWS:
        if holds(card):
            return refusal, None
    return DONE, read_card(card)


# --- the refusals of a place, row by row ------------------------------------


def place_is_under_4_bytes(place, card):
    """1 short: "a file under 4 bytes is 1"."""
    return len(place) < LEAST_FILE


def place_mark_differs(place, card):
    """2 mark: "then a wrong mark or edition is 2"; "a place whose edition isn't its
    card's is met with refusal 2"."""
    return place[0:2] != PLACE_MARK or number(place, 2) != card.edition.number


def place_is_short(place, card):
    """1 short: "then one shorter than its edition's header is 1"."""
    return len(place) < card.edition.place_header


def place_count_is_out_of_range(place, card):
    """3 count: "in a place L over 1,024, phase over 2". Bytes 10 and 11 hold the
    finished count, which may be any number."""
    return number(place, 4) > PLAN_LIMIT or number(place, 8) > 2


def place_offset_differs(place, card):
    """4 offsets: "plan offset 44 at 6", "exactly 44 + L bytes"; 76 in edition 2."""
    header = card.edition.place_header
    return number(place, 6) != header or len(place) != header + number(place, 4)


def place_action_byte_is_wrong(place, card):
    """8 action byte: "a pool or plan byte is not below the number of actions"."""
    return has_unknown_action(place[card.edition.place_header:], card.actions)


def place_sets(place, edition):
    """ "Beliefs at 12; goals at 28"; at 12 and 44 in edition 2."""
    goals = 12 + edition.set_bytes
    return place[12:goals], place[goals:edition.place_header]


def place_atom_is_wrong(place, card):
    """9 atom: "a set has a bit at or above the number of atoms"."""
    return any(has_unknown_atom(atoms, card.atoms) for atoms in place_sets(place, card.edition))


# "Then a place with 1, 2, 3, 4, 8, 9"; 1 stands before 2 and after it.
PLACE_ROWS = (
    (SHORT, place_is_under_4_bytes),
    (MARK, place_mark_differs),
    (SHORT, place_is_short),
    (COUNT, place_count_is_out_of_range),
    (OFFSETS, place_offset_differs),
    (ACTION_BYTE, place_action_byte_is_wrong),
    (ATOM, place_atom_is_wrong),
)


def judge_place(place, card):
    """The number of a place, "judged against the card it is given with"."""
    for refusal, holds in PLACE_ROWS:
        if holds(place, card):
            return refusal
    return DONE


# --- the refusal of a configuration -----------------------------------------


def configuration_is_wrong(configuration, card):
    """13 configuration: "the configuration handed in has a plan over 1,024, an
    action or atom unknown to the card, a phase over 2, or anything but zero
    after the plan's end". It has no rule for the finished count. Under a card of edition
    1 an atom from 128 on is unknown, as any other that it does not have."""
    beliefs, goals, plan, length, phase, _ = configuration
    return (
        length > PLAN_LIMIT
        or has_unknown_action(plan[:length], card.actions)
        or has_unknown_atom(beliefs, card.atoms)
        or has_unknown_atom(goals, card.atoms)
        or phase > 2
        or any(plan[length:])
    )


def judge_both(card, configuration):
    """The number of a card and of the configuration handed in with it: "the
    card first with 1 to 9, then a configuration with 13"."""
    refusal, accepted = judge(card)
    if refusal == DONE and configuration_is_wrong(configuration, accepted):
        refusal = CONFIGURATION
    return refusal, accepted


# --- transitions ------------------------------------------------------------


def selection_fits(rule, configuration):
    """Selection: "enabled if the plan is empty"."""
    return configuration.length == 0


def action_fits(specification, configuration):
    """Action: "the plan is not empty, its first action is that of the
    specification"."""
    return configuration.length != 0 and configuration.plan[0] == specification.action


def revision_fits(rule, configuration):
    """Revision: "the head is a prefix of the plan"."""
    return len(rule.head) <= configuration.length and configuration.plan.startswith(rule.head)


FITS = (selection_fits, action_fits, revision_fits)


def entries_of_kind(card, kind):
    """The rules or specifications that a kind's numbers name, from 0."""
    return (card.selections, card.specifications, card.revisions)[kind]


def front_fits(card, configuration, kind, n):
    """Whether the plan's front fits entry n of a kind."""
    return FITS[kind](entries_of_kind(card, kind)[n], configuration)


def conditions_of(card, kind, n):
    """The nodes of the conditions that have to hold for entry n of a kind, "the
    belief condition before the goal condition"."""
    entry = entries_of_kind(card, kind)[n]
    return (entry.belief_node, entry.goal_node) if kind == SELECTION else (entry.node,)


def judged(card, configuration, node):
    """A condition judged in a configuration."""
    return judgements(card.nodes, configuration.beliefs, configuration.goals)[node]


def first_false(card, configuration, kind, n):
    """The first false condition of entry n of a kind; None where all of them
    hold."""
    for node in conditions_of(card, kind, n):
        if not judged(card, configuration, node).holds:
            return node
    return None


def is_enabled(card, configuration, kind, n):
    """Enabled if the plan's front fits and the conditions hold (Definitions 10,
    9 and 11)."""
    return front_fits(card, configuration, kind, n) and first_false(card, configuration, kind, n) is None


def enabled_of_kind(card, configuration, kind):
    """The enabled numbers of one kind, rising."""
    for n in range(len(entries_of_kind(card, kind))):
        if is_enabled(card, configuration, kind, n):
            yield n


def selected(card, configuration, n):
    """Selection: "the rule's plan becomes the plan"."""
    return configuration.beliefs, configuration.goals, card.selections[n].plan


def not_believed(goals, beliefs):
    """ "Goals are struck by the beliefs": the goals that are "those not believed"."""
    return (members(goals) & ~members(beliefs)).to_bytes(SET_BYTES, "little")


def acted(card, configuration, n):
    """Action: "beliefs become (beliefs with Add) without Del. ... The first action
    leaves the plan." Request 5: "after an action the goals are those not believed",
    which "replaces Definition 9's rule for goals"."""
    specification = card.specifications[n]
    add, delete = members(specification.add), members(specification.delete)
    beliefs = ((members(configuration.beliefs) | add) & ~delete).to_bytes(SET_BYTES, "little")
    plan = configuration.plan[1:configuration.length]
    return beliefs, not_believed(configuration.goals, beliefs), plan


def revised(card, configuration, n):
    """Revision: "the body takes the head's place; the rest stays"."""
    rule = card.revisions[n]
    plan = rule.body + configuration.plan[len(rule.head):configuration.length]
    return configuration.beliefs, configuration.goals, plan


TAKEN = (selected, acted, revised)


def finished_after(finished, plan):
    """The finished count after a transition to a plan: "how many transitions have
    left the plan empty since load, stopping at 65,535"."""
    return min(finished + 1, FINISHED_LIMIT) if plan == b"" else finished


def after(card, configuration, kind, n):
    """The configuration after an enabled transition, or None when it "would
    leave more than 1,024 actions". "After any transition the phase is the kind
    taken plus 1, modulo 3." """
    beliefs, goals, plan = TAKEN[kind](card, configuration, n)
    if len(plan) > PLAN_LIMIT:
        return None
    array, finished = plan.ljust(PLAN_LIMIT, b"\0"), finished_after(configuration.finished, plan)
    return Configuration(beliefs, goals, array, len(plan), (kind + 1) % 3, finished)


def guides_choice(card, configuration):
    """ "From phase p the kinds p, p+1, p+2 (modulo 3) are tried in turn. In the
    first kind with an enabled transition, the lowest number is taken." Answers
    kind and number, or None: "if no kind has one the guide is at rest"."""
    for step in KINDS:
        kind = (configuration.phase + step) % 3
        for n in enabled_of_kind(card, configuration, kind):
            return kind, n
    return None


# --- the refusals of a choice -----------------------------------------------


def names_no_entry(card, choice):
    """14: "no such rule or specification". The code's kind is none of the three,
    or its number is past the section's end."""
    kind, n = divmod(choice, 256)
    return kind not in KINDS or n >= len(entries_of_kind(card, kind))


def judge_choice(card, configuration, choice):
    """The number of a choice, and the node that is shown with it (0 where none
    is), in the order of request 1: "14 no such rule or specification; 15 the
    plan's front doesn't fit (empty, not empty, other first action, other head);
    16 a condition is false, with the node"."""
    if names_no_entry(card, choice):
        return NO_SUCH_ENTRY, 0
    kind, n = divmod(choice, 256)
    if not front_fits(card, configuration, kind, n):
        return FRONT, 0
    false = first_false(card, configuration, kind, n)
    if false is not None:
        return CONDITION, judged(card, configuration, false).settled
    return DONE, 0


# --- weight and grading -----------------------------------------------------


def weigh(card, plan):
    """ "A plan weighs the sum of its actions, each occurrence counted." """
    return sum(card.weights[action] for action in plan)


def first_offender(card):
    """ "The first offender: the initial plan, then selection rule n, then
    revision rule n, in that order"; (0, 0) when "the initial plan and every
    selection plan weigh at most 1,024 and every revision body weighs less than
    its head"."""
    if weigh(card, card.plan) > WEIGHT_LIMIT:
        return INITIAL_PLAN, 0
    for n, rule in enumerate(card.selections):
        if weigh(card, rule.plan) > WEIGHT_LIMIT:
            return SELECTION_RULE, n
    for n, rule in enumerate(card.revisions):
        if weigh(card, rule.body) >= weigh(card, rule.head):
            return REVISION_RULE, n
    return NO_OFFENDER, 0


# --- the calls --------------------------------------------------------------


def check(card):
    """Check a card: its number of the table."""
    return judge(card)[0]


def load(card):
    """ "Loading answers the card's initial beliefs, goals and plan with phase 0";
    the goals, by request 5, are those not believed, "at load likewise". The finished
    count is of transitions "since load": 0. A refusal answers the empty
    configuration."""
    refusal, accepted = judge(card)
    if refusal != DONE:
        return refusal, EMPTY
    beliefs, goals, plan = accepted.beliefs, accepted.goals, accepted.plan
    array = plan.ljust(PLAN_LIMIT, b"\0")
    return DONE, Configuration(beliefs, not_believed(goals, beliefs), array, len(plan), 0, 0)


def grade(card):
    """ "A card is bounded exactly if ... Otherwise it is open, and the verdict
    carries the first offender." Answers number, verdict, offender, its number."""
    refusal, accepted = judge(card)
    if refusal != DONE:
        return refusal, 0, 0, 0
    offender, n = first_offender(accepted)
    return DONE, BOUNDED if offender == NO_OFFENDER else OPEN, offender, n


def list_choices(card, configuration, room):
    """ "The list of enabled choices goes as two-byte numbers, rising, each
    once, into the lent list; the answer tells how many." Answers number, count
    and the codes written."""
    refusal, accepted = judge_both(card, configuration)
    if refusal != DONE:
        return refusal, 0, []
    codes = [256 * kind + n for kind in KINDS for n in enabled_of_kind(accepted, configuration, kind)]
    if len(codes) > room:
        return NO_ROOM, 0, []
    return DONE, len(codes), codes


def conditions_judged(card, configuration):
    """Request 11, "how many conditions one listing judges. By definition: with an empty plan,
    one for each selection rule, and one more where its belief condition holds; otherwise one
    for each specification of the first action and one for each revision rule whose head is a
    prefix." Equal conditions are counted a rule at a time, and "true" is one, too."""
    if configuration.length == 0:
        holds = [judged(card, configuration, rule.belief_node).holds for rule in card.selections]
        return len(card.selections) + holds.count(True)
    actions = [action_fits(entry, configuration) for entry in card.specifications]
    revisions = [revision_fits(rule, configuration) for rule in card.revisions]
    return actions.count(True) + revisions.count(True)


def goals_open(configuration):
    """Request 11, "how many goals are open, by a count of set bits": all goal atoms, believed
    ones too."""
    return bin(members(configuration.goals)).count("1")


def listing(card, configuration, room):
    """The list of enabled choices and what it reports by request 11: "the listing reports
    that number ... Also report how many goals are open". Answers number, count, conditions
    judged, goals open and the codes written; "any count in a refusal is 0"."""
    refusal, count, codes = list_choices(card, configuration, room)
    if refusal != DONE:
        return refusal, 0, 0, 0, []
    _, accepted = judge(card)
    return DONE, count, conditions_judged(accepted, configuration), goals_open(configuration), codes


def take(card, configuration, choice):
    """Take a chosen move: 14, 15 or 16 when the choice is not enabled, 11 when
    "the choice is enabled, but leaves more than 1,024 actions". Answers number,
    node and configuration; "only a refused choice shows it": the node is that of
    refusal 16, and 0 with any other number."""
    refusal, accepted = judge_both(card, configuration)
    if refusal != DONE:
        return refusal, 0, configuration
    refusal, node = judge_choice(accepted, configuration, choice)
    if refusal != DONE:
        return refusal, node, configuration
    moved = after(accepted, configuration, *divmod(choice, 256))
    if moved is None:
        return PLAN_FULL, 0, configuration
    return DONE, 0, moved


def run(card, configuration, budget):
    """ "The budget is looked at first: spent when the count has reached it;
    rest when no transition exists; full when the transition to be taken would
    leave more than 1,024 actions, which is then not taken." Answers number,
    configuration, count and ending."""
    refusal, accepted = judge_both(card, configuration)
    if refusal != DONE:
        return refusal, configuration, 0, 0
    count = 0
    while count != budget:
        choice = guides_choice(accepted, configuration)
        if choice is None:
            return DONE, configuration, count, REST
        moved = after(accepted, configuration, *choice)
        if moved is None:
            return DONE, configuration, count, FULL
        configuration = moved
        count += 1
    return DONE, configuration, count, SPENT


def next_move(card, configuration):
    """The guide's own next move, which is not made. Answers number, "ending (0 a move, 1
    rest, 2 full)" and "the code of the guide's own next choice", of "full" too: "the one
    that does not fit"; "0 at rest and with a refusal: 1 to 9, 13"."""
    refusal, accepted = judge_both(card, configuration)
    if refusal != DONE:
        return refusal, 0, 0
    choice = guides_choice(accepted, configuration)
    if choice is None:
        return DONE, REST, 0
    kind, n = choice
    ending = FULL if after(accepted, configuration, kind, n) is None else MOVE
    return DONE, ending, 256 * kind + n


def save(card, configuration, room):
    """ "Saving writes 44 + L bytes and no others." The place: "bytes 33 50 hex;
    edition 1 at 2; plan length L at 4; plan offset 44 at 6; phase at 8; ...
    beliefs at 12; goals at 28; the plan's L bytes at 44". The finished count "stands
    in bytes 10 and 11 of the place". "A place is saved in its card's edition", with 76
    for 44 and the goals at 44 in edition 2."""
    refusal, accepted = judge_both(card, configuration)
    if refusal != DONE:
        return refusal, b""
    beliefs, goals, plan, length, phase, finished = configuration
    edition = accepted.edition
    if edition.place_header + length > room:
        return NO_ROOM, b""
    numbers = edition.number, length, edition.place_header, phase, finished
    sets = beliefs[:edition.set_bytes] + goals[:edition.set_bytes]
    return DONE, PLACE_MARK + struct.pack("<HHHHH", *numbers) + sets + plan[:length]


def restore(card, place):
    """Restore a place: "the card first with 1 to 9, then a place with 1, 2, 3,
    4, 8, 9". "Saving and restoring keep" the finished count, and "restore strikes
    nothing". A refusal answers the empty configuration."""
    refusal, accepted = judge(card)
    if refusal == DONE:
        refusal = judge_place(place, accepted)
    if refusal != DONE:
        return refusal, EMPTY
    beliefs, goals = map(widened, place_sets(place, accepted.edition))
    plan = place[accepted.edition.place_header:]
    array = plan.ljust(PLAN_LIMIT, b"\0")
    phase, finished = number(place, 8), number(place, 10)
    return DONE, Configuration(beliefs, goals, array, len(plan), phase, finished)
