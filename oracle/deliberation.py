"""Request 6 of document 02, "our own deliberation": the call that moves by a program, and
the one that goes on with what remains of a program.

"Take the meta-programs of source document 000, Definition 6: execute, apply a named
revision rule, while, sequence, choice; add select for a named selection rule." The
program is followed by entry numbers; first moves are found from the lowest entry up,
each entry once, whoever shares it.
"""

from typing import NamedTuple, Optional

import guide

# "19 a program breaking these rules or naming an unknown rule or node."
PROGRAM = 19

# "0 execute, 1 apply a, 2 select a, 3 while the plan is not empty do b, 4 while belief
# condition a holds do b, 5 a then b, 6 a or b."
EXECUTE, APPLY, SELECT, WHILE_PLAN, WHILE_BELIEF, THEN, OR = range(7)

# "A program is 1 to 128 entries shaped like nodes."
ENTRY_BYTES = 4
ENTRY_LIMIT = 128

# "Endings, in this order: spent, finished, stuck, full."
SPENT, FINISHED, STUCK, FULL = range(4)


class Entry(NamedTuple):
    """An entry "shaped like nodes": kind, a, b, 0."""

    kind: int
    a: int
    b: int
    zero: int


def entries_of(program):
    """The entries of a program whose length is a right one, from 0; the last one is
    the whole."""
    ends = range(0, len(program), ENTRY_BYTES)
    return [Entry(*program[at:at + ENTRY_BYTES]) for at in ends]


# --- the refusal of a program -----------------------------------------------


def program_is_wrong(program, card):
    """19: "a program breaking these rules or naming an unknown rule or node"."""
    if not 1 <= len(program) <= ENTRY_BYTES * ENTRY_LIMIT or len(program) % ENTRY_BYTES:
        return True
    conditions = guide.contained_atoms(card.nodes.entries)
    found = enumerate(entries_of(program))
    return any(entry_is_wrong(entry, own, card, conditions) for own, entry in found)


def entry_is_wrong(entry, own, card, conditions):
    """An entry that breaks its rule: "unused bytes are 0, part numbers are lower than
    their own", the rules that it names are the card's, and so is the condition, "a
    belief condition"."""
    kind, a, b, zero = entry
    if zero != 0:
        return True
    if kind == EXECUTE:
        return a != 0 or b != 0
    if kind == APPLY:
        return a >= len(card.revisions) or b != 0
    if kind == SELECT:
        return a >= len(card.selections) or b != 0
    if kind == WHILE_PLAN:
        return a != 0 or b >= own
    if kind == WHILE_BELIEF:
        return guide.belief_condition_is_wrong(a, conditions) or b >= own
    if kind in (THEN, OR):
        return a >= own or b >= own
    return True


def numbers_are_wrong(numbers, entries):
    """19 of numbers to go on with, "the next first": each, plus how many stand behind it,
    is below the number of the program's entries. None at all are right."""
    last = len(numbers) - 1
    return any(number + last - at >= entries for at, number in enumerate(numbers))


# --- first moves ------------------------------------------------------------


class Move(NamedTuple):
    """A first move: the transition's kind and number, None if it is idle; and what is
    left of the entry behind it, from the back: the last entry number and, in the same
    way, those before it."""

    transition: Optional[tuple]
    left: Optional[tuple]


def lowest_action(card, configuration):
    """ "Execute takes the lowest enabled specification" (000, Definition 10)."""
    for n in guide.enabled_of_kind(card, configuration, guide.ACTION):
        return Move((guide.ACTION, n), None)
    return None


def named_rule(card, configuration, kind, n):
    """Apply and select take the named rule, if it is enabled (000, Definition 11, "with
    selection added")."""
    if guide.is_enabled(card, configuration, kind, n):
        return Move((kind, n), None)
    return None


def looped(holds, body, own):
    """A while's move, which is idle (000, Definition 13): its body and then itself, if
    its condition holds, else nothing."""
    return Move(None, ((None, body), own) if holds else None)


def first_moves(entries, card, configuration):
    """The first move of each entry, None where it has none. Each is found from those
    of its parts, which have lower numbers. "Choice takes the left if it has a first
    move, idle or not, fitting or not, else the right" (000, Definition 15)."""
    action, found = lowest_action(card, configuration), []
    for own, (kind, a, b, _) in enumerate(entries):
        if kind == EXECUTE:
            move = action
        elif kind == APPLY:
            move = named_rule(card, configuration, guide.REVISION, a)
        elif kind == SELECT:
            move = named_rule(card, configuration, guide.SELECTION, a)
        elif kind == WHILE_PLAN:
            move = looped(configuration.length != 0, b, own)
        elif kind == WHILE_BELIEF:
            move = looped(guide.judged(card, configuration, a).holds, b, own)
        elif kind == THEN:
            move = then(found[a], b)
        else:
            move = found[b] if found[a] is None else found[a]
        found.append(move)
    return found


def then(move, second):
    """A sequence's move is its left's, "then what remains of its left, then its right"
    (000, Definition 14; nothing and then P is P)."""
    return None if move is None else Move(move.transition, (move.left, second))


# --- the call ---------------------------------------------------------------


def put_back(remaining, left):
    """Puts what is left of an entry in front of what remains. `remaining` has the next
    entry last."""
    while left is not None:
        left, last = left
        remaining.append(last)


def judge(card, program, configuration, numbers=()):
    """The number of a card, a program, the numbers to go on with and a configuration: 19
    is "after 9 and before 13"; and the card read."""
    refusal, accepted = guide.judge(card)
    if refusal != guide.DONE:
        return refusal, accepted
    if program_is_wrong(program, accepted):
        return PROGRAM, accepted
    if numbers_are_wrong(numbers, len(program) // ENTRY_BYTES):
        return PROGRAM, accepted
    if guide.configuration_is_wrong(configuration, accepted):
        return guide.CONFIGURATION, accepted
    return guide.DONE, accepted


def deliberate(card, program, configuration, budget):
    """Move by a program. The answer: number, configuration, count, ending and "the
    remaining program as entry numbers, the next first, none when refused". "The last one
    the whole": at first its number alone remains."""
    refusal, accepted = judge(card, program, configuration)
    if refusal != guide.DONE:
        return refusal, configuration, 0, 0, []
    entries = entries_of(program)
    return follow(accepted, entries, [len(entries) - 1], configuration, budget)


def go_on(card, program, numbers, configuration, budget):
    """Move by the "numbers of one byte that remain, the next first", of a program. The
    answer is as that of `deliberate`; "with a refusal m is 0"."""
    refusal, accepted = judge(card, program, configuration, numbers)
    if refusal != guide.DONE:
        return refusal, configuration, 0, 0, []
    return follow(accepted, entries_of(program), list(numbers), configuration, budget)


def follow(accepted, entries, numbers, configuration, budget):
    """The moves from the numbers that remain. "The budget counts idle moves, which leave
    the whole configuration as it is"; endings "in this order: spent, finished, stuck,
    full"."""
    remaining, moves, count, ending = numbers[::-1], None, 0, SPENT
    while count != budget:
        if not remaining:
            ending = FINISHED
            break
        if moves is None:
            moves = first_moves(entries, accepted, configuration)
        move = moves[remaining[-1]]
        if move is None:
            ending = STUCK
            break
        if move.transition is not None:
            moved = guide.after(accepted, configuration, *move.transition)
            if moved is None:
                ending = FULL
                break
            configuration, moves = moved, None
        remaining.pop()
        put_back(remaining, move.left)
        count += 1
    return guide.DONE, configuration, count, ending, remaining[::-1]
