"""Where the boxes of a layered picture stand: in rows from top to bottom, each row in an order and at places that keep the arrows
short and let few of them cross. An arrow down goes to the next row; one that goes up over several rows has a bend in each row
between.
"""

from typing import NamedTuple

SWEEPS = 24


class Size(NamedTuple):
    """How far a thing reaches to the left and to the right of its place, and its height."""

    left: float
    right: float
    height: float


def mean(numbers):
    return sum(numbers) / len(numbers)


def crossings(upper, lower, lines):
    """How often lines between two rows cross; a line is a pair of an upper and a lower thing."""
    above, below = {one: at for at, one in enumerate(upper)}, {one: at for at, one in enumerate(lower)}
    ends = [(above[a], below[b]) for a, b in lines if a in above and b in below]
    return sum((a - c) * (b - d) < 0 for at, (a, b) in enumerate(ends) for c, d in ends[:at])


def all_crossings(rows, lines):
    """How often lines cross in all."""
    return sum(crossings(upper, lower, lines) for upper, lower in zip(rows, rows[1:]))


def neighbours(lines):
    """The things that each has a line to, above it and below it."""
    above, below = {}, {}
    for a, b in lines:
        below.setdefault(a, []).append(b)
        above.setdefault(b, []).append(a)
    return above, below


def sorted_by(row, other, ends):
    """A row in the order of what its things have lines to in another row; one without lines stays about where it is."""
    places = {one: at / max(1, len(other) - 1) for at, one in enumerate(other)}
    own = {one: at / max(1, len(row) - 1) for at, one in enumerate(row)}
    wanted = {one: [places[end] for end in ends.get(one, ()) if end in places] for one in row}
    return sorted(row, key=lambda one: mean(wanted[one]) if wanted[one] else own[one])


def ordered(rows, lines):
    """The rows, each in an order in which few lines cross."""
    above, below = neighbours(lines)
    best, fewest = rows, all_crossings(rows, lines)
    for sweep in range(SWEEPS):
        rows = [list(row) for row in rows]
        down = sweep % 2 == 0
        for at in range(1, len(rows)) if down else range(len(rows) - 2, -1, -1):
            rows[at] = sorted_by(rows[at], rows[at - 1 if down else at + 1], above if down else below)
        count = all_crossings(rows, lines)
        if count < fewest:
            best, fewest = rows, count
    return best


def settled(wanted, apart):
    """The places nearest to the wanted ones in which each stands at least so far behind the one before it."""
    offsets = [sum(apart[:at]) for at in range(len(wanted))]
    blocks = []
    for place, offset in zip(wanted, offsets):
        blocks.append([place - offset])
        while len(blocks) > 1 and mean(blocks[-2]) > mean(blocks[-1]):
            blocks[-2:] = [blocks[-2] + blocks[-1]]
    flat = [mean(block) for block in blocks for _ in block]
    return [place + offset for place, offset in zip(flat, offsets)]


def placed(rows, lines, sizes, space):
    """The place of each thing from left to right, near to those that it has lines to."""
    above, below = neighbours(lines)
    x = {one: 100.0 * at for row in rows for at, one in enumerate(row)}
    apart = [[sizes[a].right + space + sizes[b].left for a, b in zip(row, row[1:])] for row in rows]
    for sweep in range(2 * SWEEPS):
        for at in range(len(rows)) if sweep % 2 == 0 else range(len(rows) - 1, -1, -1):
            row, ends = rows[at], above if sweep % 2 == 0 else below
            wanted = [mean([x[end] for end in ends.get(one, ())] or [x[one]]) for one in row]
            x.update(zip(row, settled(wanted, apart[at])))
    least = min(x[one] - sizes[one].left for one in x)
    return {one: place - least for one, place in x.items()}
