"""The graph of what a card reaches: what stands in the box of each configuration, and the arrows between them."""

from typing import NamedTuple

import words

# The most letters of a line in a box, and the most choices that are told at one arrow.
WIDE, TOLD = 22, 3


class Arrow(NamedTuple):
    """All the moves from one configuration to another: where from, where to (as asked.Move has it), and their choices in words."""

    start: int
    to: object
    label: str


def label(choices):
    """The choices of an arrow: of many the first few."""
    more = [words.MORE, "(%d)" % len(choices)] if len(choices) > TOLD else []
    return ", ".join(choices[: TOLD if more else None]) + "".join(" " + word for word in more)


def arrows(reached):
    """The arrows, in the order of the table."""
    for k, one in enumerate(reached):
        ends = dict.fromkeys(move.to for move in one.moves)
        for to in ends:
            yield Arrow(k, to, label([words.choice(move.code) for move in one.moves if move.to == to]))


def wrapped(parts):
    """Words in lines."""
    lines = [""]
    for part in parts:
        if lines[-1] and len(lines[-1]) + 1 + len(part) > WIDE:
            lines.append("")
        lines[-1] = (lines[-1] + " " + part).strip()
    return lines


def box(k, one):
    """The lines of a configuration's box, its number first."""
    here = one.configuration
    plan = ["plan", *words.plan(here)] if here.plan else ["no plan"]
    parts = [words.beliefs(here) or ["no beliefs"], words.goals(here) or ["no goals"], plan]
    return ["%d" % k] + [line for part in parts for line in wrapped(part)]


def heading(name, most, reached):
    """What the graph is of, in two lines."""
    shown = "".join(sign if sign.isprintable() else "?" for sign in name)
    return ["%s, at most %s" % (shown, words.moved(most)), words.counted(reached)]
