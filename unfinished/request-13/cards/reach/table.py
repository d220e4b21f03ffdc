"""The table of what a card reaches: a line for each configuration, and one with how many there are."""

import words

HEADINGS = ("k", "moves", "choices", "beliefs", "goals", "plan", "leads to")
REST = "rest"


def row(k, one):
    """The cells of a configuration."""
    here = one.configuration
    return (
        "%d" % k,
        "%d" % len(one.choices),
        ", ".join(map(words.choice, one.choices)) or words.NONE,
        " ".join(words.beliefs(here)) or words.NONE,
        " ".join(words.goals(here)) or words.NONE,
        " ".join(words.plan(here)) or words.NONE,
        ", ".join("%s → %s" % (words.choice(move.code), move.to) for move in one.moves) or REST,
    )


def table(reached):
    """The lines of the table."""
    rows = [HEADINGS] + [row(k, one) for k, one in enumerate(reached)]
    widths = [max(map(len, column)) for column in zip(*rows)]
    for cells in rows:
        yield "  ".join(cell.ljust(width) for cell, width in zip(cells, widths)).rstrip()
    yield words.counted(reached)
