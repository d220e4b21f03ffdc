"""The graph of what a card reaches in the language DOT of Graphviz: a row of boxes for each number of moves, one at rest with a
double border; a dashed arrow for a move that leads to no box.
"""

import graph
from asked import FULL, FURTHER

# The names of the ends of arrows to no box, before the number of the box that they come from.
ENDS = {FURTHER: "further", FULL: "full"}


def quoted(lines):
    """Lines as a label."""
    return '"%s"' % "\\n".join(line.replace("\\", "\\\\").replace('"', '\\"') for line in lines)


def nodes(reached):
    """A line for each box."""
    for k, one in enumerate(reached):
        border = "" if one.moves else ", peripheries=2"
        yield "%d [label=%s%s];" % (k, quoted(graph.box(k, one)), border)


def levels(reached):
    """A line for each number of moves: the boxes that stand side by side."""
    for moves in sorted({len(one.choices) for one in reached}):
        side = ["%d;" % k for k, one in enumerate(reached) if len(one.choices) == moves]
        yield "{ rank=same; %s }" % " ".join(side)


def edges(reached):
    """A line for each arrow, before it one for an end that is no box."""
    for start, to, label in graph.arrows(reached):
        if to in ENDS:
            end = "%s%d" % (ENDS[to], start)
            yield "%s [label=%s, shape=plaintext];" % (end, quoted([to]))
            yield "%d -> %s [label=%s, style=dashed];" % (start, end, quoted([label]))
        else:
            yield "%d -> %d [label=%s];" % (start, to, quoted([label]))


def dot(name, most, reached):
    """The text of the graph."""
    lines = ["label=%s;" % quoted(graph.heading(name, most, reached)), "labelloc=t;", "node [shape=box];"]
    lines += [*nodes(reached), *levels(reached), *edges(reached)]
    return "digraph reach {\n%s}\n" % "".join("    %s\n" % line for line in lines)
