"""Deliberations that are gone on with, by hand: numbers that remain, and all that they come
to; and numbers that are refused.
"""

from typing import NamedTuple

import guide
import programs
from deliberation import FINISHED, FULL, SPENT, STUCK
from programs import EXECUTE, SHED, apply, either, program, then, while_plan, zeros


class GoneOn(NamedTuple):
    """A program gone on with: what it is, the card, the program, the numbers that remain,
    the configuration and the budget; and what it comes to: the answer's number, the
    configuration, the count, the ending and the numbers that then remain."""

    name: str
    card: bytes
    program: bytes
    numbers: tuple
    held: guide.Configuration
    budget: int
    number: int
    after: guide.Configuration
    count: int
    ending: int
    remaining: tuple


def gone_on(name, entries, numbers, held, budget, after, count, ending, remaining):
    """A program on the card of the programs by hand that is gone on with."""
    title = "gone on: %s, budget %d" % (name, budget)
    asked = tuple(numbers), held, budget
    return GoneOn(title, SHED, program(entries), *asked, 0, after, count, ending, tuple(remaining))


def refused(name, entries, numbers, held, number):
    """Numbers, or a configuration behind them, that are refused: nothing moved and none
    remains."""
    title = "gone on, refused: %s" % name
    return GoneOn(title, SHED, program(entries), tuple(numbers), held, 9, number, held, 0, 0, ())


# --- the traces, cut at every place -----------------------------------------


def each_cut(trace):
    """A trace's program gone on with from each of its words to each later one, and to its
    end with one more of budget than it needs."""
    met, whole = list(programs.met_in(trace.words)), program(trace.entries)
    for begin, (held, numbers) in enumerate(met):
        name = "gone on: %s, after %d" % (trace.name, begin)
        for count, (after, left) in enumerate(met[begin:]):
            asked = SHED, whole, numbers, held, count
            yield GoneOn(name, *asked, 0, after, count, SPENT, left)
        if trace.ending is not None:
            after, left = met[-1]
            count = len(met) - 1 - begin
            asked = SHED, whole, numbers, held, count + 1
            yield GoneOn(name, *asked, 0, after, count, trace.ending, left)


# --- programs of which much remains -----------------------------------------

# 65 whiles, each in the next; as one program "that joins them" the 66 numbers that remain
# of it would need 131 entries.
NESTED = [EXECUTE] + [while_plan(k) for k in range(65)]

MUCH = [
    gone_on("65 whiles", NESTED, range(66), zeros(1), 0, zeros(1), 0, SPENT, range(66)),
    gone_on("65 whiles", NESTED, range(66), zeros(2), 1, zeros(1, 2), 1, SPENT, range(1, 66)),
    gone_on("65 whiles", NESTED, range(1, 66), zeros(1), 2, zeros(0, 2, 1), 2, SPENT, range(1, 66)),
    gone_on("65 whiles", NESTED, range(66), zeros(1), 99, zeros(0, 2, 1), 66, FINISHED, ()),
    gone_on("65 whiles", NESTED, range(30, 66), zeros(1), 30, zeros(1), 30, SPENT, range(66)),
    gone_on(
        "128 whiles", programs.WHILES, range(128), zeros(1), 1, zeros(0, 2, 1), 1, SPENT, range(1, 128)
    ),
    gone_on(
        "128 whiles", programs.WHILES, range(128), zeros(1), 65535, zeros(0, 2, 1), 128, FINISHED, ()
    ),
    gone_on(
        "sequences", programs.SEQUENCES, range(127), zeros(9, 2), 7, zeros(2, 2), 7, SPENT, range(3, 127)
    ),
    gone_on("sequences", programs.SEQUENCES, [0] * 128, zeros(9), 8, zeros(1, 2), 8, SPENT, [0] * 120),
]

# --- numbers that no deliberation leaves, and that are accepted -------------

# 0 execute, 1 apply 0 (which makes nothing of 1), 2 both in turn, 3 while there is a plan.
FOUR = programs.REPAIR + [while_plan(2)]
HELD = programs.configuration(plan=(0, 0, 1), phase=1, finished=7)
ACTED = programs.configuration(plan=(0, 1), phase=2, finished=7)
TWICE = programs.configuration(plan=(1,), phase=2, finished=7)
DONE = programs.configuration(phase=0, finished=8)
CHOICE = [apply(2), apply(4), either(0, 1), then(2, 1)]
LONG = programs.configuration(plan=(3,) * 1024, phase=1)

ACCEPTED = [
    gone_on("none", FOUR, (), HELD, 0, HELD, 0, SPENT, ()),
    gone_on("none", FOUR, (), HELD, 1, HELD, 0, FINISHED, ()),
    gone_on("none", FOUR, (), HELD, 65535, HELD, 0, FINISHED, ()),
    gone_on("the whole", FOUR, (3,), HELD, 1, HELD, 1, SPENT, (2, 3)),
    gone_on("a part", FOUR, (0,), HELD, 1, ACTED, 1, SPENT, ()),
    gone_on("a part", FOUR, (0,), HELD, 2, ACTED, 1, FINISHED, ()),
    gone_on("two parts", FOUR, (0, 2), HELD, 2, TWICE, 2, SPENT, (1,)),
    gone_on("two parts", FOUR, (0, 2), HELD, 9, DONE, 3, FINISHED, ()),
    gone_on("the next is stuck", FOUR, (1, 0), HELD, 9, HELD, 0, STUCK, (1, 0)),
    gone_on("the second is stuck", FOUR, (0, 1, 0), HELD, 9, ACTED, 1, STUCK, (1, 0)),
    gone_on("each at its highest", FOUR, (0, 1, 2, 3), HELD, 9, ACTED, 1, STUCK, (1, 2, 3)),
    gone_on("two at their highest", FOUR, (2, 3), HELD, 1, ACTED, 1, SPENT, (1, 3)),
    gone_on("as many as entries", FOUR, (0, 0, 0, 0), HELD, 9, TWICE, 2, STUCK, (0, 0)),
    gone_on("full", CHOICE, (2, 3), LONG, 9, LONG, 0, FULL, (2, 3)),
    gone_on("full, spent first", CHOICE, (0,), LONG, 0, LONG, 0, SPENT, (0,)),
]

# --- numbers that are refused -----------------------------------------------

WRONG = HELD._replace(phase=3)

REFUSED = [
    refused("one past the whole", FOUR, (4,), HELD, 19),
    refused("the whole before the whole", FOUR, (3, 3), HELD, 19),
    refused("the whole before a part", FOUR, (3, 0), HELD, 19),
    refused("the other way around", FOUR, (3, 2), HELD, 19),
    refused("the second of three one too high", FOUR, (0, 3, 0), HELD, 19),
    refused("the last of three one too high", FOUR, (0, 0, 4), HELD, 19),
    refused("the first of four one too high", FOUR, (1, 0, 0, 0), HELD, 19),
    refused("five of four entries", FOUR, (0, 0, 0, 0, 0), HELD, 19),
    refused("255", FOUR, (255,), HELD, 19),
    refused("255 before another", FOUR, (255, 0), HELD, 19),
    refused("253 before three others", FOUR, (253, 0, 0, 0), HELD, 19),
    refused("129 of 128 entries", programs.WHILES, [0] * 129, HELD, 19),
    refused("128 of 128 entries, the first one too high", programs.WHILES, [1] + [0] * 127, HELD, 19),
    refused("a configuration behind numbers", FOUR, (4,), WRONG, 19),
    refused("a configuration behind no numbers", FOUR, (), WRONG, 13),
    refused("a configuration behind good numbers", FOUR, (0, 3), WRONG, 13),
    refused("a program before no numbers", [], (), HELD, 19),
    refused("a program before its number", [while_plan(0)], (0,), HELD, 19),
    refused("a program before a configuration", [(7, 0, 0)], (0,), WRONG, 19),
]

BY_HAND = MUCH + ACCEPTED + REFUSED
