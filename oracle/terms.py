"""A second way to move by a program, for small programs: the meta-level transitions of
source document 000 over programs as terms.

A program's entries are written out as the term that they stand for, each part as often
as it is named, and the configuration is plain sets and a tuple. `transitions` is the
document's relation, Definitions 10, 11, 13, 14 and 15 "with selection added";
`first_move` is request 6's way through it: "choice takes the left if it has a first
move", "execute takes the lowest enabled specification".
"""

from typing import NamedTuple, Optional, Union

import guide

# Terms of more parts than this are not written out.
LARGEST = 3000

IDLE = "idle"


class State(NamedTuple):
    """A configuration: beliefs, goals, plan, phase and finished count."""

    beliefs: frozenset
    goals: frozenset
    plan: tuple
    phase: int
    finished: int


# The label of a transition: idle, or ("execute" or "apply" or "select", number).
Label = Union[str, tuple]


class Execute(NamedTuple):
    """Definition 6: execute. `entry` is the number of the entry that a term is written
    out from; a term that a move has made has none."""

    entry: Optional[int]


class Apply(NamedTuple):
    """Definition 6: apply(rho)."""

    rule: int
    entry: Optional[int]


class Select(NamedTuple):
    """Request 6: "add select for a named selection rule"."""

    rule: int
    entry: Optional[int]


class While(NamedTuple):
    """Definition 6: while b do P od; b is "the plan is not empty" where `node` is None,
    and else the belief condition `node`."""

    node: Optional[int]
    body: object
    entry: Optional[int]


class Then(NamedTuple):
    """Definition 6: P1; P2."""

    first: object
    second: object
    entry: Optional[int]


class Or(NamedTuple):
    """Definition 6: P1 + P2."""

    left: object
    right: object
    entry: Optional[int]


# The empty program, E.
EMPTY = None


# --- from bytes to the term -------------------------------------------------


def sizes(program):
    """How many parts the term of each entry has, by the entries' bytes."""
    found = []
    for at in range(0, len(program), 4):
        kind, a, b = program[at:at + 3]
        parts = (b,) if kind in (3, 4) else (a, b) if kind in (5, 6) else ()
        found.append(1 + sum(found[part] for part in parts))
    return found


def is_small(program):
    """Whether the term of a program can be written out."""
    return sizes(program)[-1] <= LARGEST


def term(program, own):
    """The term that entry `own` stands for."""
    kind, a, b = program[4 * own:4 * own + 3]
    if kind == 0:
        return Execute(own)
    if kind == 1:
        return Apply(a, own)
    if kind == 2:
        return Select(a, own)
    if kind == 3:
        return While(None, term(program, b), own)
    if kind == 4:
        return While(a, term(program, b), own)
    return (Then if kind == 5 else Or)(term(program, a), term(program, b), own)


# --- object-level transitions -----------------------------------------------


def holds(card, node, state):
    """A condition judged from its root downward."""
    kind, a, b, _ = card.nodes.entries[node]
    if kind == 0:
        return True
    if kind == 1:
        return a in state.beliefs
    if kind == 2:
        return a in state.goals
    if kind == 3:
        return not holds(card, a, state)
    if kind == 4:
        return holds(card, a, state) and holds(card, b, state)
    return holds(card, a, state) or holds(card, b, state)


def reached(state, beliefs, goals, plan, kind):
    """The configuration after a transition of a kind, the phase set and the finished
    count with it."""
    finished = state.finished + (plan == ())
    return State(beliefs, goals, plan, (kind + 1) % 3, min(65535, finished))


def atoms(held):
    """The atoms of a set of the card."""
    return frozenset(k for k in range(8 * len(held)) if held[k // 8] >> k % 8 & 1)


def executed(card, state):
    """The actions that a configuration can take: number of the specification, and the
    configuration after it, by number."""
    for n, entry in enumerate(card.specifications):
        if state.plan[:1] == (entry.action,) and holds(card, entry.node, state):
            beliefs = state.beliefs.union(atoms(entry.add)).difference(atoms(entry.delete))
            goals = state.goals.difference(beliefs)
            yield n, reached(state, beliefs, goals, state.plan[1:], 1)


def applied(card, state, rule):
    """The revision that a rule makes of a configuration, if any."""
    entry = card.revisions[rule]
    head, body = tuple(entry.head), tuple(entry.body)
    if state.plan[:len(head)] == head and holds(card, entry.node, state):
        plan = body + state.plan[len(head):]
        yield rule, reached(state, state.beliefs, state.goals, plan, 2)


def selected(card, state, rule):
    """The selection that a rule makes of a configuration, if any."""
    entry = card.selections[rule]
    conditions = (entry.belief_node, entry.goal_node)
    if state.plan == () and all(holds(card, node, state) for node in conditions):
        yield rule, reached(state, state.beliefs, state.goals, tuple(entry.plan), 0)


# --- meta-level transitions -------------------------------------------------


def sequence(first, second):
    """P1; P2, where E; P is P."""
    return second if first is EMPTY else Then(first, second, None)


def transitions(card, program, state):
    """All the meta-level transitions of a program in a configuration: the label, the
    program and the configuration after it."""
    kind = type(program)
    if kind is Execute:
        for n, after in executed(card, state):
            yield ("execute", n), EMPTY, after
    elif kind is Apply:
        for n, after in applied(card, state, program.rule):
            yield ("apply", n), EMPTY, after
    elif kind is Select:
        for n, after in selected(card, state, program.rule):
            yield ("select", n), EMPTY, after
    elif kind is While:
        yield IDLE, sequence(program.body, program) if test(card, program, state) else EMPTY, state
    elif kind is Then:
        for label, left, after in transitions(card, program.first, state):
            yield label, sequence(left, program.second), after
    elif kind is Or:
        yield from transitions(card, program.left, state)
        yield from transitions(card, program.right, state)


def test(card, program, state):
    """Definition 12 for the two conditions of a while."""
    return state.plan != () if program.node is None else holds(card, program.node, state)


def first_move(card, program, state):
    """The move that request 6 takes, None where there is none."""
    kind = type(program)
    if kind is Then:
        found = first_move(card, program.first, state)
        return found and (found[0], sequence(found[1], program.second), found[2])
    if kind is Or:
        found = first_move(card, program.left, state)
        return found if found is not None else first_move(card, program.right, state)
    if kind is Execute:
        for n, after in executed(card, state):
            return ("execute", n), EMPTY, after
        return None
    return next(transitions(card, program, state), None)


# --- the call ---------------------------------------------------------------


def state_of(configuration):
    """A configuration as sets and a tuple."""
    plan = tuple(configuration.plan[:configuration.length])
    sets = atoms(configuration.beliefs), atoms(configuration.goals)
    return State(*sets, plan, configuration.phase, configuration.finished)


def numbers(program):
    """The remaining program as entry numbers: a term of an entry is one number, and one
    that a move has made is what it is made of."""
    if program is EMPTY:
        return []
    if program.entry is not None:
        return [program.entry]
    return numbers(program.first) + numbers(program.second)


def whole(program):
    """The term of a program: "the last one the whole"."""
    return term(program, len(program) // 4 - 1)


def of_numbers(program, own):
    """The term that entry numbers stand for, the next first: a sequence of their terms."""
    left = EMPTY
    for number in reversed(own):
        part = term(program, number)
        left = part if left is EMPTY else Then(part, left, None)
    return left


def run(card, left, configuration, budget):
    """The states met along a term's moves, the first one among them, with the ending and
    the term that remains. "Endings, in this order: spent, finished, stuck, full." """
    met = [state_of(configuration)]
    while len(met) <= budget:
        if left is EMPTY:
            return met, 1, left
        move = first_move(card, left, met[-1])
        if move is None:
            return met, 2, left
        if len(move[2].plan) > guide.PLAN_LIMIT:
            return met, 3, left
        left = move[1]
        met.append(move[2])
    return met, 0, left


def leaves(program):
    """The parts of a sequence in their order, however it is grouped, each without the
    numbers of its entries: "no semantic difference" between groups."""
    if program is EMPTY:
        return []
    if type(program) is Then:
        return leaves(program.first) + leaves(program.second)
    return [bare(program)]


def bare(program):
    """A term without the numbers of its entries."""
    kind = type(program)
    if kind is Execute:
        return "execute"
    if kind in (Apply, Select):
        return kind.__name__, program.rule
    if kind is While:
        return "while", program.node, tuple(leaves(program.body))
    return "or", tuple(leaves(program.left)), tuple(leaves(program.right))
