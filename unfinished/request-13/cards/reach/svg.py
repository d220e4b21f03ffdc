"""The picture of what a card reaches as SVG."""

from xml.sax.saxutils import escape, quoteattr

import graph
import words
from asked import FULL, FURTHER
from picture import EDGE, LETTER, LINE, PAD, picture

# The colours of arrows to the next row and of those back or to the side.
ON, BACK = "#333333", "#1a5fa8"
STYLE = "text{font:14px monospace;fill:#111}.k{font-weight:bold}.q{fill:#555}.l{fill:#fff;fill-opacity:.85}"


def element(name, inner="", **attributes):
    """An element; an underscore in the name of an attribute stands for a dash."""
    told = "".join(" %s=%s" % (key.rstrip("_").replace("_", "-"), quoteattr(shown(value))) for key, value in attributes.items())
    return "<%s%s>%s</%s>" % (name, told, inner, name) if inner else "<%s%s/>" % (name, told)


def shown(value):
    """A number with at most one digit behind the point, or a word."""
    return ("%.1f" % value).removesuffix(".0") if isinstance(value, float) else str(value)


def text(line, x, y, anchor="start", **attributes):
    """A line of text, of which the lower edge of the letters stands at y."""
    return element("text", escape(line), x=x, y=y, text_anchor=anchor, **attributes)


def rectangle(left, top, width, height, **attributes):
    return element("rect", x=left, y=top, width=width, height=height, **attributes)


def box(k, one, place):
    """The box of a configuration; at rest with a double border."""
    left = place.x - place.width / 2
    drawn = [element("title", escape(told(k, one)))]
    drawn.append(rectangle(left, place.y, place.width, place.height, rx=4, fill="#fff", stroke="#111"))
    if not one.moves:
        inner = (left + 3, place.y + 3, place.width - 6, place.height - 6)
        drawn.append(rectangle(*inner, rx=2, fill="none", stroke="#111"))
    for at, line in enumerate(place.lines):
        mark = {} if at else {"class_": "k"}
        drawn.append(text(line, place.x, place.y + PAD / 2 + LINE * at + 13, "middle", **mark))
    return element("g", "".join(drawn), id="k%d" % k)


def curve(points):
    """The words of a path that goes along curves."""
    first = "M%s %s" % tuple(map(shown, points[0][0]))
    return first + "".join("C" + " ".join(shown(float(n)) for point in one[1:] for n in point) for one in points)


def colour(one):
    """The colour of an arrow and of its label, and the name of its head."""
    return (ON, "on") if one.down else (BACK, "back")


def arrow(one):
    """The line of an arrow; dashed where it leads to no box."""
    stroke, tip = colour(one)
    dashed = {"stroke_dasharray": "5 4"} if one.arrow.to in (FURTHER, FULL) else {}
    ends = {"data_from": one.arrow.start, "data_to": one.arrow.to}
    return element("path", d=curve(one.curves), fill="none", stroke=stroke, marker_end="url(#%s)" % tip, **dashed, **ends)


def label(one):
    """The label of an arrow, on a ground that lets little of a line through."""
    left, top, width, height = one.label
    ends = {"data_from": one.arrow.start, "data_to": one.arrow.to}
    ground = rectangle(left, top, width, height, class_="l")
    return ground + text(one.arrow.label, left + width / 2, top + 13, "middle", style="fill:%s" % colour(one)[0], **ends)


def told(k, one):
    """A configuration in a sentence."""
    here = one.configuration
    parts = [words.beliefs(here) or ["no beliefs"], words.goals(here) or ["no goals"]]
    plan = "plan " + " ".join(words.plan(here)) if here.plan else "no plan"
    moves = ["%s leads to %s" % (words.choice(move.code), move.to) for move in one.moves] or ["at rest"]
    return "%d: %s; %s; %s; %s." % (k, *(" ".join(part) for part in parts), plan, ", ".join(moves))


def head(name, colour):
    """The head of arrows of a colour."""
    tip = element("path", d="M0 0L10 4L0 8Z", fill=colour)
    size = {"markerWidth": 10, "markerHeight": 8, "refX": 10, "refY": 4}
    return element("marker", tip, id=name, orient="auto", markerUnits="userSpaceOnUse", **size)


def legend(reached):
    """What the signs of the picture mean, as far as they are in it."""
    ends = {move.to for one in reached for move in one.moves}
    if not all(one.moves for one in reached):
        yield "double border: at rest, no move is left"
    if FURTHER in ends:
        yield "%s: reached with more moves" % FURTHER
    if FULL in ends:
        yield "%s: the plan would have over 1,024 actions" % FULL


def drawing(made, reached, above, below):
    """What is to be seen: the lines above and below it, arrows, boxes and the labels over them."""
    yield from (text(line, EDGE, EDGE + LINE * at, class_="q" if at else "k") for at, line in enumerate(above))
    yield from (text(words.moved(moves), EDGE, top + 18, class_="q") for moves, top in made.rows.items())
    yield from map(arrow, made.arrows)
    yield from (box(k, reached[k], place) for k, place in sorted(made.boxes.items()))
    yield from (text(end.lines[0], end.x, end.y + 13, "middle") for end in made.ends.values())
    yield from map(label, made.arrows)
    yield from (text(line, EDGE, made.bottom + LINE * (at + 2), class_="q") for at, line in enumerate(below))


def svg(name, most, reached):
    """The whole file."""
    made, above, below = picture(reached), graph.heading(name, most, reached), list(legend(reached))
    width = EDGE + max(made.right, *(EDGE + LETTER * len(line) for line in above + below))
    height = made.bottom + LINE * (len(below) + 1) + EDGE
    parts = [element("title", escape(": ".join(above)), id="title")]
    parts.append(element("desc", escape(" ".join(told(k, one) for k, one in enumerate(reached))), id="desc"))
    parts.append(element("style", STYLE) + element("defs", head("on", ON) + head("back", BACK)))
    parts += [rectangle(0, 0, width, height, fill="#fff"), *drawing(made, reached, above, below)]
    size = {"width": width, "height": height, "viewBox": "0 0 %s %s" % (shown(width), shown(height))}
    named = {"role": "img", "aria_labelledby": "title desc", "xmlns": "http://www.w3.org/2000/svg"}
    return '<?xml version="1.0" encoding="UTF-8"?>\n%s\n' % element("svg", "\n".join(["", *parts, ""]), **size, **named)
