"""Prints by seed: cards for the printer, with nodes that are shared, deep, or as large
as can be printed, and nodes and rooms to ask for.
"""

from typing import NamedTuple

import cards
import damage
import text
from cards import AND, BELIEVES, HAS_GOAL, NOT, OR, TRUE, Node

ROOM_LIMIT = 2048

# The atoms of these cards, so that numbers of one, two and three digits are printed.
ATOMS = (1, 9, 10, 11, 99, 100, 101, 127, 128, 129, 200, 255, 256, 256)


def some_leaf(random, atoms):
    """A node without children."""
    kind = random.choice((TRUE, BELIEVES, BELIEVES, HAS_GOAL))
    return cards.leaf(random, kind, atoms)


def over(kind, a, b):
    """A node over one or two others."""
    return Node(kind, a, 0 if kind == NOT else b)


def nested_nodes(random, atoms):
    """Nodes of every kind over any lower ones, mostly the latest."""
    nodes = [some_leaf(random, atoms) for _ in range(random.randint(1, 4))]
    for own in range(len(nodes), random.randint(5, 40)):
        kind = random.choice((NOT, AND, AND, OR, OR))
        low = max(0, own - random.choice((2, 4, 40)))
        nodes.append(over(kind, random.randrange(low, own), random.randrange(low, own)))
    return nodes


def deep_nodes(random, atoms):
    """Each node over the one before and a leaf, so that some nest just 32 deep and
    others deeper."""
    nodes = [some_leaf(random, atoms), some_leaf(random, atoms)]
    kinds = random.choice(((NOT,), (AND,), (OR,), (NOT, AND), (AND, OR), (NOT, AND, OR)))
    left = random.choice((0.0, 0.3, 0.5))
    for own in range(2, random.randint(36, 110)):
        pair = (own - 1, random.randrange(2)) if random.random() < left else (random.randrange(2), own - 1)
        kind = random.choice(kinds)
        nodes.append(over(kind, own - 1, 0) if kind == NOT else over(kind, *pair))
    return nodes


def shared_nodes(random, atoms):
    """Each node over two of the latest, so that what is printed grows fast and is far
    over 256 nodes, up to 2^255 of them, at the end."""
    nodes = [some_leaf(random, atoms) for _ in range(random.randint(1, 3))]
    back = random.choice((1, 1, 2, 3))
    for own in range(len(nodes), random.choice((12, 20, 40, 256))):
        low = max(0, own - back)
        kind = random.choice((AND, OR, AND, OR, NOT))
        nodes.append(over(kind, random.randrange(low, own), random.randrange(low, own)))
    return nodes


def exact_nodes(random, atoms):
    """A node that prints just 254 to 259 nodes: a list of so many leaves, all the
    same one, and a "!" before it where the number is even."""
    size = random.randint(254, 259)
    kind = random.choice((AND, OR))
    nodes = [some_leaf(random, atoms)]
    for own in range(1, (size + 1) // 2):
        nodes.append(over(kind, own - 1, 0))
    if size % 2 == 0:
        nodes.append(over(NOT, len(nodes) - 1, 0))
    return nodes


# Node 127 prints 255 nodes, node 128 257 of them, and node 129 256.
WIDE = cards.card(
    cards.Description(
        atoms=1,
        weights=[1],
        nodes=[Node(TRUE)] + [Node(AND, k, 0) for k in range(128)] + [Node(NOT, 127)],
    )
)

SHAPES = (nested_nodes, nested_nodes, nested_nodes, deep_nodes, deep_nodes, shared_nodes, exact_nodes)


def some_card(random, largest=cards.CARD_LIMIT):
    """A good card for the printer, of at most `largest` bytes: nodes of some shape and
    hardly anything else. The smallest card, where none is small enough."""
    for _ in range(60):
        atoms = random.choice(ATOMS)
        layout = random.choice((1, 1, 2)) if atoms <= 128 else 2
        nodes = random.choice(SHAPES)(random, atoms)
        card = cards.card(cards.Description(layout=layout, atoms=atoms, weights=[1], nodes=nodes))
        if len(card) <= largest:
            return card
    return cards.card(cards.smallest_card())


class Print(NamedTuple):
    """A node to be printed, and a room."""

    node: int
    room: int


def edge_nodes(nodes):
    """The nodes that nest about 32 deep, or print about 256 nodes."""
    return [
        own
        for own, (deep, size) in enumerate(text.measures(nodes))
        if 31 <= deep <= 34 or 250 <= size <= 262
    ]


def some_node(random, nodes):
    """A node: one at the edge of what is printed, the last, any; or none of the
    card's."""
    style, edge = random.random(), edge_nodes(nodes)
    if style < 0.08:
        return random.choice((len(nodes), len(nodes) + 1, 256, 257, 32768, 65535))
    if edge and style < 0.7:
        return random.choice(edge)
    return random.choice((len(nodes) - 1, random.randrange(len(nodes))))


def some_room(random, card, node):
    """A room around the one needed; any, where nothing is printed."""
    number, printed = text.print_node(card, node, ROOM_LIMIT)
    if number != 0:
        return random.choice((0, 1, 9, 40))
    most = ROOM_LIMIT if random.random() < 0.02 else len(printed) + 6
    return random.choice(damage.rooms_around(len(printed), most))


def prints(random, card, nodes, count):
    """So many nodes and rooms for a card with some nodes."""
    chosen = [some_node(random, nodes) for _ in range(count)]
    return [Print(node, some_room(random, card, node)) for node in chosen]
