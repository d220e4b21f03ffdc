"""Request 13 of document 02 ("where can this card end?"): "every configuration reachable in at
most d transitions", each "listed once, with its shortest list of choices", in lent room.

What is reached is found for each number of transitions by itself: from what is reached in
just t of them, what is reached in just t + 1, with the first list of t + 1 choices to it,
whether it has been met before or not. Of all these each is then given its shortest list.
"""

from functools import lru_cache
from typing import NamedTuple

import guide
from guide import DONE, KINDS, NO_ROOM, PLAN_FULL, PLAN_LIMIT

# "23 d over 16"; "24 exactly if more than 32 are reachable".
TOO_FAR = 23
TOO_MANY = 24

# "d from 0 to 16"; "at most 32 are kept, in lent room sized for 32".
TRANSITIONS_LIMIT = 16
KEPT = 32

# The layout of the room: 32 entries, each of the number of transitions, sixteen choices and
# the plan's length, two bytes each; beliefs and goals, 32 bytes each; and 1,024 bytes of plan.
ENTRY = 2 + 2 * TRANSITIONS_LIMIT + 2 + 2 * guide.SET_BYTES + PLAN_LIMIT
ROOM = KEPT * ENTRY


class Compared(NamedTuple):
    """What of a configuration is compared: "beliefs, goals and plan compared and phase and
    finished count ignored". The plan is its actions."""

    beliefs: bytes
    goals: bytes
    plan: bytes


def compared(configuration):
    """What of a configuration is compared."""
    plan = configuration.plan[:configuration.length]
    return Compared(configuration.beliefs, configuration.goals, plan)


def some_configuration(what):
    """A configuration of which that is compared, with one phase and finished count of many."""
    array = what.plan.ljust(PLAN_LIMIT, b"\0")
    return guide.Configuration(what.beliefs, what.goals, array, len(what.plan), 0, 0)


def transitions(card, what):
    """The enabled choices, each with what it leads to; with None where it "doesn't fit"."""
    configuration, found = some_configuration(what), []
    for kind in KINDS:
        for n in guide.enabled_of_kind(card, configuration, kind):
            moved = guide.after(card, configuration, kind, n)
            found.append((256 * kind + n, None if moved is None else compared(moved)))
    return found


def longer_lists(lists, moves):
    """From lists of choices, each with what it leads to, the lists of one choice more, each
    with what that leads to, None where the last transition doesn't fit."""
    for what, choices in lists.items():
        for code, then in moves(what):
            yield choices + (code,), then


class Search(NamedTuple):
    """What a search answers: what is reached, each with its shortest list, of those of one
    length the first "in number order"; and whether "one reachable in fewer than d
    transitions has a transition that doesn't fit". With more than 32 it has ended early."""

    lists: dict
    unfit: bool


def search(card, configuration, d):
    """What is reached in at most d transitions. "Transitions that don't fit lead nowhere." """

    @lru_cache(maxsize=None)
    def moves(what):
        return transitions(card, what)

    just = {compared(configuration): ()}
    found, unfit = dict(just), False
    for _ in range(d):
        one_more = {}
        for choices, what in longer_lists(just, moves):
            if what is None:
                unfit = True
                continue
            one_more[what] = min(choices, one_more.get(what, choices))
            if len(one_more) > KEPT:
                break
        just, found = one_more, {**one_more, **found}
        if len(found) > KEPT:
            break
    return Search(found, unfit)


def in_order(lists):
    """ "Order is by fewest transitions, then by the first such list in number order." """
    return sorted(lists.items(), key=lambda one: (len(one[1]), one[1]))


def entry(what, choices):
    """The 1,124 bytes of one: "at 0 the number of transitions; at 2 sixteen choices, the list,
    then zeros; at 34 the plan's length; at 36 beliefs; at 68 goals; at 100 the plan, zeros
    from its end on"."""
    numbers = [len(choices), *choices]
    numbers += [0] * (TRANSITIONS_LIMIT - len(choices)) + [len(what.plan)]
    first = b"".join(number.to_bytes(2, "little") for number in numbers)
    return first + what.beliefs + what.goals + what.plan.ljust(PLAN_LIMIT, b"\0")


def reach(card, configuration, d, room):
    """The call: "refusals, after 13: 23 d over 16; 12 room too short; 24 exactly if more than
    32 are reachable; then 11 if one reachable in fewer than d transitions has a transition
    that doesn't fit". Answers number, count and the bytes written; "any count in a refusal is
    0. No lent buffer is written"."""
    refusal, accepted = guide.judge_both(card, configuration)
    if refusal != DONE:
        return refusal, 0, b""
    if d > TRANSITIONS_LIMIT:
        return TOO_FAR, 0, b""
    if room < ROOM:
        return NO_ROOM, 0, b""
    lists, unfit = search(accepted, configuration, d)
    if len(lists) > KEPT:
        return TOO_MANY, 0, b""
    if unfit:
        return PLAN_FULL, 0, b""
    return DONE, len(lists), b"".join(entry(*one) for one in in_order(lists))
