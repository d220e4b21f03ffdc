"""Draws how the time of a move grows, from the tables that bench/run.sh prints.

    bench/run.sh | python3 bench/growth.py > growth.svg

A plain SVG with a panel for each thing that grows: the library's time and the C
engine's, in nanoseconds a move.
"""

import sys

# What grows, by the first word of its lines, and the words under its panel.
PANELS = (
    ("nodes", "nodes of the card"),
    ("rules", "rules of each kind"),
    ("plan", "actions of the plan"),
)
SIDES = (("the library", "#1b6ca8", "none"), ("the C engine", "#b5541c", "6 4"))

WIDTH, HEIGHT = 780, 300
PANEL_WIDTH, PANEL_HEIGHT = 190, 190
LEFT, TOP, STEP = 60, 50, 245


def read(lines):
    """The points of each panel: size, the library's ns, the engine's ns."""
    points = {name: [] for name, _ in PANELS}
    for line in lines:
        words = line.split()
        if len(words) == 5 and words[0] in points and words[1].isdigit():
            points[words[0]].append((int(words[1]), float(words[2]), float(words[3])))
    for name, found in points.items():
        if not found:
            sys.exit("growth.py: no line for '%s' in what bench/run.sh printed" % name)
    return points


def round_up(value):
    """The least of 1, 2, 5, 10, 20, 50, ... that is not below the value."""
    power = 1
    while True:
        for digit in (1, 2, 5):
            if digit * power >= value:
                return digit * power
        power *= 10


def text(x, y, words, anchor="middle", size=12):
    """A line of text."""
    return '<text x="%.1f" y="%.1f" font-size="%d" text-anchor="%s">%s</text>' % (
        x, y, size, anchor, words)


def axes(left, highest, label):
    """The frame of a panel, with four marks on each axis."""
    bottom, made = TOP + PANEL_HEIGHT, []
    for quarter in range(5):
        y = bottom - PANEL_HEIGHT * quarter / 4
        made.append('<path d="M%d %.1fh%d" stroke="#ddd"/>' % (left, y, PANEL_WIDTH))
        made.append(text(left - 6, y + 4, "%g" % (highest * quarter / 4), "end", 11))
    made.append('<path d="M%d %dv%dh%d" stroke="#333" fill="none"/>' % (
        left, TOP, PANEL_HEIGHT, PANEL_WIDTH))
    made.append(text(left + PANEL_WIDTH / 2, bottom + 38, label))
    return made


def panel(left, points, highest, label):
    """One panel: the axes, and a line with dots for each side."""
    widest, bottom = max(size for size, _, _ in points), TOP + PANEL_HEIGHT
    made = axes(left, highest, label)
    for size, _, _ in points:
        made.append(text(left + PANEL_WIDTH * size / widest, bottom + 18, size, size=11))
    for side, (_, colour, dashes) in enumerate(SIDES):
        places = [(left + PANEL_WIDTH * point[0] / widest,
                   bottom - PANEL_HEIGHT * point[1 + side] / highest) for point in points]
        made.append('<polyline points="%s" fill="none" stroke="%s" stroke-width="2" '
                    'stroke-dasharray="%s"/>' % (
                        " ".join("%.1f,%.1f" % place for place in places), colour, dashes))
        made += ['<circle cx="%.1f" cy="%.1f" r="3" fill="%s"/>' % (x, y, colour)
                 for x, y in places]
    return made


def legend():
    """Which line is whose."""
    made = [text(LEFT, 22, "Nanoseconds a move", "start", 14)]
    for side, (name, colour, dashes) in enumerate(SIDES):
        x = 420 + 160 * side
        made.append('<path d="M%d 18h30" stroke="%s" stroke-width="2" stroke-dasharray="%s"/>' % (
            x, colour, dashes))
        made.append(text(x + 38, 22, name, "start"))
    return made


def draw(points):
    """The whole picture; one scale of time for all panels."""
    highest = round_up(max(max(point[1:]) for found in points.values() for point in found))
    made = ['<svg xmlns="http://www.w3.org/2000/svg" width="%d" height="%d" '
            'font-family="sans-serif" fill="#222">' % (WIDTH, HEIGHT),
            '<rect width="100%" height="100%" fill="#fff"/>']
    made += legend()
    for at, (name, label) in enumerate(PANELS):
        made += panel(LEFT + STEP * at, points[name], highest, label)
    return "\n".join(made + ["</svg>", ""])


def main():
    """Reads the tables on standard input and writes the SVG."""
    sys.stdout.write(draw(read(sys.stdin)))


if __name__ == "__main__":
    main()
