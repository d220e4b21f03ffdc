"""Where the label of an arrow stands: beside its line or on it, where it covers least of boxes, of other labels and of other lines.
The picture is looked at in small squares.
"""

from collections import Counter

# The side of a square; how much a square of a box or of a label weighs beside one of a line; how far a label stands from its line.
SIDE, HEAVY, OFF = 8, 50, 6
# Where along the line a label may stand, the first the best.
ALONG = (0.5, 0.4, 0.6, 0.3, 0.7, 0.2, 0.8)


def between(a, b, part):
    """The point so far on the way from a point to another."""
    return a[0] + (b[0] - a[0]) * part, a[1] + (b[1] - a[1]) * part


def on_curve(curve, part):
    """The point of a curve (two ends and the two points that bend it between them) so far along it."""
    while len(curve) > 1:
        curve = [between(a, b, part) for a, b in zip(curve, curve[1:])]
    return curve[0]


def squares(left, top, width, height):
    """The squares of an area."""
    for column in range(int(left // SIDE), int((left + width) // SIDE) + 1):
        for row in range(int(top // SIDE), int((top + height) // SIDE) + 1):
            yield column, row


def squares_of(curves):
    """The squares that curves go through."""
    found = set()
    for curve in curves:
        steps = 4 + int(sum(abs(b[0] - a[0]) + abs(b[1] - a[1]) for a, b in zip(curve, curve[1:])) / SIDE * 2)
        for step in range(steps + 1):
            x, y = on_curve(curve, step / steps)
            found.add((int(x // SIDE), int(y // SIDE)))
    return found


def tries(curve, width, height):
    """The areas in which a label may stand, each with whether the line may go through it."""
    for part in ALONG:
        x, y = on_curve(curve, part)
        yield (x + OFF, y - height / 2, width, height), False
        yield (x - OFF - width, y - height / 2, width, height), False
        yield (x - width / 2, y - height / 2, width, height), True


class Sheet:
    """What is drawn already, by squares."""

    def __init__(self):
        self.weights = Counter()

    def lay(self, areas):
        """Takes in boxes or labels."""
        for area in areas:
            for square in squares(*area):
                self.weights[square] += HEAVY

    def draw(self, curves):
        """Takes in a line."""
        self.weights.update(squares_of(curves))

    def label(self, curves, width, height):
        """The area for the label of a line that is taken in already, near its start."""
        own = squares_of(curves)

        def cost(one):
            area, through = one
            return sum(self.weights[square] - (through and square in own) for square in squares(*area))

        area, _ = min(tries(curves[0], width, height), key=cost)
        self.lay([area])
        return area
