#!/usr/bin/env python3
"""Holds the pictures of `./rigtemple reach` against its table: each configuration has a box with what the table says of it, each
place that its moves lead to an arrow with their choices, and there are no others. The SVG is well-formed XML; its boxes stand
apart, nothing lies outside of it, and each arrow begins and ends at the borders of its boxes.

    reach_pictures.py NAME TABLE SVG DOT    NAME is the card's file; prints nothing, or what is not so with exit status 1
"""

import re
import sys
import xml.etree.ElementTree as ElementTree

SVG = "{http://www.w3.org/2000/svg}"
MOVE = re.compile(r"((?:select|act|revise) \d+) → (\d+|…|full)")
NODE = re.compile(r'    (\d+) \[label="(\d+)\\n(.*?)"(, peripheries=2)?\];')
EDGE = re.compile(r'    (\d+) -> (\w+) \[label="([^"]*)"(, style=dashed)?\];')
LARGEST_STEP = 0.2


def read(path):
    with open(path, encoding="utf-8") as file:
        return file.read()


def rows_of(text):
    """The configurations of a table: the cells by their heading."""
    first, *lines, _ = text.splitlines()
    starts = [(match.start(), match[0]) for match in re.finditer(r"leads to|\S+", first)]
    ends = [at for at, _ in starts[1:]] + [None]
    return [{heading: line[at:end].strip() for (at, heading), end in zip(starts, ends)} for line in lines]


def said(row):
    """What a box has to say, word by word."""
    plan = ["plan", *row["plan"].split()] if row["plan"] != "-" else ["no", "plan"]
    sets = [row[heading].split() if row[heading] != "-" else ["no", heading] for heading in ("beliefs", "goals")]
    return [row["k"], *sets[0], *sets[1], *plan]


def arrows_of(rows):
    """What the arrows have to say, by where from and where to."""
    found = {}
    for row in rows:
        for choice, to in MOVE.findall(row["leads to"]):
            found.setdefault((row["k"], to), []).append(choice)
    return {ends: ", ".join(choices[:3]) + " … (%d)" % len(choices) * (len(choices) > 3) for ends, choices in found.items()}


# ---- DOT


def dot_holds(text, rows):
    """What is so of the graph."""
    nodes = {match[1]: match for match in NODE.finditer(text)}
    yield "DOT has a node for each configuration", list(nodes) == [row["k"] for row in rows]
    for row in rows:
        match = nodes[row["k"]]
        yield "DOT's node %s" % row["k"], [match[2], *match[3].replace("\\n", " ").split()] == said(row)
        yield "DOT's border of %s" % row["k"], bool(match[4]) == (row["leads to"] == "rest")
    edges = {}
    for start, to, label, dashed in EDGE.findall(text):
        edges[start, {"further": "…", "full": "full"}.get(to.removesuffix(start), to)] = label
        yield "DOT's line from %s to %s" % (start, to), bool(dashed) == (not to.isdecimal())
    yield "DOT's edges", edges == arrows_of(rows)
    yield "DOT begins and ends", text.startswith("digraph reach {\n") and text.endswith("}\n")


# ---- SVG


def area(element):
    """Left, top, right and bottom of a rectangle."""
    left, top, width, height = (float(element.get(name)) for name in ("x", "y", "width", "height"))
    return left, top, left + width, top + height


def inside(one, other):
    """Whether an area lies in another."""
    return one[0] >= other[0] and one[1] >= other[1] and one[2] <= other[2] and one[3] <= other[3]


def apart(one, other):
    """Whether two areas have nothing in common."""
    return one[2] < other[0] or other[2] < one[0] or one[3] < other[1] or other[3] < one[1]


def on_border(point, box):
    """Whether a point lies on the border of an area, but for the last digits."""
    x, y = point
    near = [abs(y - box[1]), abs(y - box[3])] if box[0] <= x <= box[2] else []
    near += [abs(x - box[0]), abs(x - box[2])] if box[1] <= y <= box[3] else []
    return bool(near) and min(near) <= LARGEST_STEP


def boxes_hold(boxes, rows, page):
    """What is so of the boxes."""
    yield "a box for each configuration", list(boxes) == [row["k"] for row in rows]
    areas = [area(box.find(SVG + "rect")) for box in boxes.values()]
    for row, box, place in zip(rows, boxes.values(), areas):
        words = " ".join(text.text for text in box.findall(SVG + "text")).split()
        yield "what box %s says" % row["k"], words == said(row)
        yield "the border of box %s" % row["k"], len(box.findall(SVG + "rect")) == 1 + (row["leads to"] == "rest")
        yield "box %s on the page" % row["k"], inside(place, page)
    yield "boxes apart", all(apart(one, other) for at, one in enumerate(areas) for other in areas[:at])


def paths_hold(paths, boxes, page):
    """What is so of the lines."""
    for (start, to), path in paths.items():
        numbers = [float(number) for number in re.findall(r"-?[0-9.]+", path.get("d"))]
        points = list(zip(numbers[::2], numbers[1::2]))
        from_border = on_border(points[0], area(boxes[start].find(SVG + "rect")))
        to_border = to not in boxes or on_border(points[-1], area(boxes[to].find(SVG + "rect")))
        yield "the line from %s to %s" % (start, to), from_border and to_border
        yield "its head from %s to %s" % (start, to), path.get("marker-end") in ("url(#on)", "url(#back)")
        yield "whether it is dashed from %s to %s" % (start, to), (path.get("stroke-dasharray") is None) == (to in boxes)
        # the points that bend a curve may lie outside of the page
        yield "the line from %s to %s on the page" % (start, to), all(inside((*p, *p), page) for p in points[::3])


def svg_holds(text, rows, name):
    """What is so of the picture."""
    root = ElementTree.fromstring(text)
    page = (0, 0, float(root.get("width")), float(root.get("height")))
    boxes = {group.get("id")[1:]: group for group in root.findall(SVG + "g")}
    by_ends = {
        kind: {(one.get("data-from"), one.get("data-to")): one for one in root.findall(SVG + kind) if one.get("data-from")}
        for kind in ("path", "text")
    }
    yield "the page", root.get("viewBox").split()[2:] == [root.get("width"), root.get("height")]
    yield "the title", name in root.find(SVG + "title").text and root.get("aria-labelledby") == "title desc"
    yield "the description", all(" %s: " % row["k"] in " " + root.find(SVG + "desc").text for row in rows)
    yield from boxes_hold(boxes, rows, page)
    yield "a line for each arrow", list(by_ends["path"]) == list(arrows_of(rows))
    yield "a label for each arrow", {ends: one.text for ends, one in by_ends["text"].items()} == arrows_of(rows)
    yield from paths_hold(by_ends["path"], boxes, page)
    yield "all rectangles on the page", all(inside(area(one), page) for one in root.iter(SVG + "rect"))


def main(words):
    name, table, svg, dot = words
    rows = rows_of(read(table))
    wrong = [what for what, so in [*svg_holds(read(svg), rows, name), *dot_holds(read(dot), rows)] if not so]
    print(*("not so: %s" % what for what in wrong), sep="\n", end="\n" if wrong else "")
    return bool(wrong)


if __name__ == "__main__":
    sys.exit(main(sys.argv[1:]))
