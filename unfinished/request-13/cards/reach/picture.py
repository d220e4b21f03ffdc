"""The picture of what a card reaches, in numbers: where each box stands, the curve of each arrow and the place of its label. A row
has the configurations of one number of moves; under the last one stand the ends of arrows that lead to no box.
"""

from typing import NamedTuple

import graph
import labels
import layout
from asked import FULL, FURTHER

# Sizes in pixels: a letter, a line of text, what is left free inside a box, between things side by side and around all of it.
LETTER, LINE, PAD, SPACE, EDGE = 8.5, 18, 10, 28, 20
# The room on the left for the numbers of moves, and above for the heading.
MARGIN, HEADING = 84, 50
# The least and the most room between two rows, and how much of it each pixel of an arrow's width asks for.
LEAST, MOST, SLOPE = 70, 220, 0.12
# How far a loop goes to the right, how far apart arrows leave a box, and the room on each side of a bend.
LOOP, PORT, FREE = 32, 22, 20

# The first part of the name of a bend; that of an end is where the arrow leads.
BEND = "bend"


class Box(NamedTuple):
    """A box or an end without a box: its lines, the middle of its upper side, its width and height."""

    lines: list
    x: float
    y: float
    width: float
    height: float


class Drawn(NamedTuple):
    """An arrow, whether it goes to a later row, its curves one behind the other, and the area of its label."""

    arrow: graph.Arrow
    down: bool
    curves: list
    label: tuple


class Picture(NamedTuple):
    """The rightmost and the lowest point, the boxes by number, the ends, the arrows, and the top of each row, by its moves."""

    right: float
    bottom: float
    boxes: dict
    ends: dict
    arrows: list
    rows: dict


def wide(text):
    """The width of a text."""
    return LETTER * len(text)


def ways(reached, arrows):
    """For each arrow the things that it goes by: its two ends, and between them a bend for each row that it goes up over."""
    levels = [len(one.choices) for one in reached]
    for at, (start, to, _) in enumerate(arrows):
        if to in (FURTHER, FULL):
            yield [start, (to, start, levels[start] + 1)]
        else:
            yield [start, *((BEND, at, level) for level in range(levels[start] - 1, levels[to], -1)), to]


def rows_of(reached, found):
    """The things of each row: a box by its number, others as `ways` has them."""
    rows = {}
    for k, one in enumerate(reached):
        rows.setdefault(len(one.choices), []).append(k)
    for way in found:
        for thing in way:
            if isinstance(thing, tuple):
                rows.setdefault(thing[2], []).append(thing)
    return [rows[level] for level in sorted(rows)]


def size(thing, texts, loops):
    """The size of a thing: a box has room for its loop on the right."""
    if isinstance(thing, tuple):
        half = FREE if thing[0] == BEND else wide(thing[0]) / 2 + 4
        return layout.Size(half, half, 0 if thing[0] == BEND else LINE)
    half = max(64, wide(max(texts[thing], key=len)) + 2 * PAD) / 2
    loop = LOOP + wide(loops[thing]) if thing in loops else 0
    return layout.Size(half, half + loop, LINE * len(texts[thing]) + PAD)


class Places:
    """Where everything stands: the rows from top to bottom, the things of each from left to right."""

    def __init__(self, reached, arrows):
        self.texts = [graph.box(k, one) for k, one in enumerate(reached)]
        self.found = list(ways(reached, arrows))
        loops = {arrow.start: arrow.label for arrow in arrows if arrow.start == arrow.to}
        rows = rows_of(reached, self.found)
        self.row = {thing: at for at, row in enumerate(rows) for thing in row}
        self.size = {thing: size(thing, self.texts, loops) for thing in self.row}
        lines = [sorted(pair, key=self.row.get) for way in self.found for pair in zip(way, way[1:]) if self.apart(*pair)]
        self.rows = layout.ordered(rows, lines)
        self.x = layout.placed(self.rows, lines, self.size, SPACE)
        self.place_rows()

    def apart(self, one, other):
        """Whether two things stand in different rows."""
        return self.row[one] != self.row[other]

    def place_rows(self):
        """Top and bottom of each row, and the room below it: the wider the arrows there, the more."""
        spans = [0] * len(self.rows)
        for way in self.found:
            for a, b in zip(way, way[1:]):
                upper = min(self.row[a], self.row[b])
                spans[upper] = max(spans[upper], abs(self.x[a] - self.x[b]))
        self.below = [min(MOST, LEAST + SLOPE * span) for span in spans]
        self.top, self.bottom, y = [], [], HEADING + EDGE
        for row, below in zip(self.rows, self.below):
            self.top.append(y)
            self.bottom.append(y + max(self.size[thing].height for thing in row))
            y = self.bottom[-1] + below

    def middle(self, thing):
        """The place of a thing from left to right, in the picture."""
        return MARGIN + EDGE + self.x[thing]


def ports(places):
    """Where the ends of each arrow touch their boxes, side by side: by the arrow's number and 0 for its start, 1 for its end."""
    sides = {}
    for at, way in enumerate(places.found):
        for end, (own, other) in enumerate(((way[0], way[1]), (way[-1], way[-2]))):
            below = places.row[other] >= places.row[own]
            if way[0] != way[-1]:
                sides.setdefault((own, below), []).append((places.x[other], at, end))
    found = {}
    for (own, _), ends in sides.items():
        step = min(PORT, 2 * (places.size[own].left - PAD) / len(ends))
        for n, (_, at, end) in enumerate(sorted(ends)):
            found[at, end] = places.middle(own) + step * (n - (len(ends) - 1) / 2)
    return found


def bowed(a, b):
    """A curve from a point up or down to another, upright at both ends."""
    half = (b[1] - a[1]) / 2
    return [a, (a[0], a[1] + half), (b[0], b[1] - half), b]


def looped(places, thing):
    """The curve of a loop, on the right of its box."""
    x, y = places.middle(thing) + places.size[thing].left, places.top[places.row[thing]] + PAD
    return [(x, y), (x + LOOP, y - PAD), (x + LOOP, y + LINE + PAD), (x, y + LINE)]


def hung(places, way, first, last):
    """The curve of an arrow to a box of its own row, under the two."""
    row = places.row[way[0]]
    y = places.bottom[row]
    deep = y + min(places.below[row], 24 + SLOPE * abs(last - first))
    return [(first, y), (first, deep), (last, deep), (last, y)]


def curves(places, way, first, last):
    """The curves of an arrow, from the place of its first port to that of its last."""
    if way[0] == way[-1]:
        return [looped(places, way[0])]
    if not places.apart(way[0], way[-1]):
        return [hung(places, way, first, last)]
    rows = [places.row[thing] for thing in way]
    if rows[0] < rows[-1]:
        return [bowed((first, places.bottom[rows[0]]), (last, places.top[rows[-1]]))]
    xs = [first, *(places.middle(thing) for thing in way[1:-1]), last]
    found = []
    for at in range(len(way) - 1):
        found.append(bowed((xs[at], places.top[rows[at]]), (xs[at + 1], places.bottom[rows[at + 1]])))
        if at + 2 < len(way):
            x, row = xs[at + 1], rows[at + 1]
            found.append(bowed((x, places.bottom[row]), (x, places.top[row])))
    return found


def labelled(places, arrows, boxes):
    """The arrows with their curves and labels: a loop's label on its right, the others where there is room."""
    touched, sheet = ports(places), labels.Sheet()
    sheet.lay((box.x - box.width / 2, box.y, box.width, box.height) for box in boxes)
    sheet.lay([(0, 0, MARGIN, places.bottom[-1] + MOST)])
    lines = [curves(places, way, touched.get((at, 0)), touched.get((at, 1))) for at, way in enumerate(places.found)]
    for line in lines:
        sheet.draw(line)
    for arrow, way, line in zip(arrows, places.found, lines):
        down = places.row[way[0]] < places.row[way[-1]]
        if arrow.start == arrow.to:
            x, y = line[0][0]
            area = (x + LOOP - 4, y, wide(arrow.label), LINE)
        else:
            area = sheet.label(line, wide(arrow.label), LINE)
        yield Drawn(arrow, down, line, area)


def corner(boxes, drawn):
    """The rightmost and the lowest point of boxes, arrows and labels."""
    spots = [(box.x + box.width / 2, box.y + box.height) for box in boxes]
    spots += [labels.on_curve(curve, part / 8) for one in drawn for curve in one.curves for part in range(9)]
    spots += [(one.label[0] + one.label[2], one.label[1] + one.label[3]) for one in drawn]
    return tuple(map(max, zip(*spots)))


def picture(reached):
    """All of the picture."""
    arrows = list(graph.arrows(reached))
    places = Places(reached, arrows)
    boxes, ends, rows = {}, {}, {}
    for thing, row in places.row.items():
        top, tall, width = places.top[row], places.bottom[row] - places.top[row], 2 * places.size[thing].left
        if not isinstance(thing, tuple):
            boxes[thing] = Box(places.texts[thing], places.middle(thing), top, width, tall)
            rows[row] = top
        elif thing[0] != BEND:
            ends[thing] = Box([thing[0]], places.middle(thing), top, width, LINE)
    drawn = list(labelled(places, arrows, [*boxes.values(), *ends.values()]))
    return Picture(*corner([*boxes.values(), *ends.values()], drawn), boxes, ends, drawn, rows)
