"""A second way to read small texts, which shares no code with `text.py`.

Whether a text can go on is found from the grammar as text-card.md writes it: all the
ways in which the bytes so far can have been derived are followed at once. What a
text says is found by patterns for whole lines, its conditions by the operators of
this language, which bind as the grammar's do.
"""

import re
from functools import lru_cache

import cards
from cards import AND, BELIEVES, HAS_GOAL, NOT, OR, TRUE, Node

GRAMMAR = """
card      = { note } atoms { action | note } { do | note } { select | note } { revise | note } begin { note }
note      = LF | "#" text LF
end       = LF | " #" text LF
text      = { any byte but LF }
atoms     = "atoms " number end
action    = "action " number end
do        = "do " number " if " condition " add" list " del" list end
select    = "select if " condition " goal " condition " plan" list end
revise    = "revise" list " if " condition " to" list end
begin     = "begin beliefs" list " goals" list " plan" list end
list      = { " " number }
number    = digit { digit }
condition = or-list
or-list   = and-list { "|" and-list }
and-list  = unit { "&" unit }
unit      = "T" | "B" number | "G" number | "!" unit | "(" or-list ")"
"""

# The names that the grammar does not explain, each with the bytes it stands for.
BYTES = {
    "LF": frozenset(b"\n"),
    "digit": frozenset(b"0123456789"),
    "any byte but LF": frozenset(range(256)) - frozenset(b"\n"),
}

SIGN = re.compile(r'"[^"]*"|any byte but LF|[a-zA-Z-]+|[{}|]')

# An expression of the grammar is a pair: its sort, and what it is made of.
ONE_OF, NAME, SEQUENCE, CHOICE, MANY = "one of", "name", "sequence", "choice", "many"


# --- the grammar, read ------------------------------------------------------


def factor(signs):
    """A quoted word, a name, or something in braces."""
    sign = signs.pop(0)
    if sign == "{":
        inner = choice(signs)
        signs.pop(0)
        return MANY, inner
    if sign in BYTES:
        return ONE_OF, BYTES[sign]
    if sign.startswith('"'):
        return SEQUENCE, tuple((ONE_OF, frozenset([byte])) for byte in sign[1:-1].encode())
    return NAME, sign


def sequence(signs):
    """Factors one after the other."""
    found = []
    while signs and signs[0] not in "|}":
        found.append(factor(signs))
    return SEQUENCE, tuple(found)


def choice(signs):
    """Sequences with strokes between them."""
    found = [sequence(signs)]
    while signs and signs[0] == "|":
        signs.pop(0)
        found.append(sequence(signs))
    return CHOICE, tuple(found)


def rules_of(grammar):
    """The grammar's rules, each by its name."""
    rules = {}
    for line in grammar.strip().splitlines():
        name, _, rule = line.partition(" = ")
        rules[name.strip()] = choice(SIGN.findall(rule))
    return rules


RULES = rules_of(GRAMMAR)


# --- all the ways on --------------------------------------------------------

# A way on is what has yet to be derived: an expression and the way on after it; DONE
# when there is nothing.
DONE = ()


def first_bytes(way):
    """The ways on that begin with a byte, or are done, which a way on stands for."""
    if way == DONE:
        return {DONE}
    (sort, parts), after = way
    if sort == ONE_OF:
        return {way}
    if sort == NAME:
        return first_bytes((RULES[parts], after))
    if sort == CHOICE:
        return {found for part in parts for found in first_bytes((part, after))}
    if sort == MANY:
        return first_bytes((parts, way)) | first_bytes(after)
    for part in reversed(parts):
        after = part, after
    return first_bytes(after)


START = frozenset(first_bytes(((NAME, "card"), DONE)))


@lru_cache(maxsize=200000)
def after_byte(ways, byte):
    """The ways on after one more byte."""
    found = set()
    for way in ways:
        if way != DONE and byte in way[0][1]:
            found |= first_bytes(way[1])
    return frozenset(found)


def ways_on(text):
    """The ways on after some bytes; none, if no text of the grammar begins so."""
    ways = START
    for byte in text:
        ways = after_byte(ways, byte)
    return ways


def slip_of(text):
    """The least p such that no text of the grammar begins with bytes 0 to p; the
    length, if the text just ends; None for a text of the grammar."""
    ways = START
    for at, byte in enumerate(text):
        ways = after_byte(ways, byte)
        if not ways:
            return at
    return None if DONE in ways else len(text)


# --- how a text can go on ---------------------------------------------------


@lru_cache(maxsize=20000)
def next_bytes(ways):
    """The sets of bytes with which the ways on begin, rising; the empty one stands for
    a way that is done."""
    return sorted({tuple(sorted(way[0][1])) if way != DONE else () for way in ways})


def shortest_of(expression, known):
    """The shortest bytes of an expression, as far as those of the names are known;
    None, if they are not."""
    sort, parts = expression
    if sort == ONE_OF:
        return bytes([min(parts)])
    if sort == MANY:
        return b""
    if sort == NAME:
        return known.get(parts)
    found = [shortest_of(part, known) for part in parts]
    if sort == CHOICE:
        return min((one for one in found if one is not None), key=len, default=None)
    return None if None in found else b"".join(found)


def shortest_texts():
    """The shortest bytes of each rule."""
    known = {}
    while len(known) < len(RULES):
        for name, rule in RULES.items():
            found = shortest_of(rule, known)
            if found is not None:
                known[name] = found
    return known


SHORTEST = shortest_texts()


def shortest_end(text):
    """The least bytes after which the text is one of the grammar; None, if there are
    none."""
    found = []
    for way in ways_on(text):
        parts = []
        while way != DONE:
            expression, way = way
            parts.append(shortest_of(expression, SHORTEST))
        found.append(b"".join(parts))
    return min(found, key=len, default=None)


# --- what a text says -------------------------------------------------------


class Part:
    """A part of a condition: its node is put down when the part is made, and
    operators between parts make parts."""

    def __init__(self, nodes, kind, a=0, b=0):
        self.nodes = nodes
        self.own = len(nodes)
        nodes.append(Node(kind, a, b))

    def __invert__(self):
        return Part(self.nodes, NOT, self.own)

    def __and__(self, other):
        return Part(self.nodes, AND, self.own, other.own)

    def __or__(self, other):
        return Part(self.nodes, OR, self.own, other.own)


def condition(word, nodes):
    """Puts a condition's nodes down; the number of its own."""
    plain = re.sub(r"([BG])0*([0-9]+)", r"\1(\2)", word.decode()).replace("!", "~").replace("T", "T()")
    letters = {
        "T": lambda: Part(nodes, TRUE),
        "B": lambda n: Part(nodes, BELIEVES, n),
        "G": lambda n: Part(nodes, HAS_GOAL, n),
    }
    return eval(plain, letters).own


def depth(word):
    """How deep a condition nests: its parts are written over by their depths, the
    innermost first, until one is left."""
    found = re.sub(r"T|[BG][0-9]+", "<0>", word.decode())
    while not re.fullmatch("<[0-9]+>", found):
        found = re.sub("!<([0-9]+)>", lambda one: "<%d>" % (int(one[1]) + 1), found)
        found = re.sub(
            "(?<!!)<([0-9]+)>[&|]<([0-9]+)>", lambda two: "<%d>" % max(map(int, two.groups())), found
        )
        found = re.sub(r"\(<([0-9]+)>\)", lambda one: "<%d>" % (int(one[1]) + 1), found)
    return int(found[1:-1])


def pattern(line):
    """The pattern of a line in which N stands for a number, L for a list and C for a
    condition, with or without a remark at its end."""
    for sign, group in (("N", "([0-9]+)"), ("L", "((?: [0-9]+)*)"), ("C", "([^ ]+)")):
        line = line.replace(sign, group)
    return re.compile(line.encode() + b"(?: #.*)?")


PATTERNS = [
    pattern("atoms N"),
    pattern("action N"),
    pattern("do N if C addL delL"),
    pattern("select if C goal C planL"),
    pattern("reviseL if C toL"),
    pattern("begin beliefsL goalsL planL"),
]


def lines(text):
    """For each kind of line, the groups of its lines."""
    found = [[] for _ in PATTERNS]
    for line in text.split(b"\n"):
        for kind, one in enumerate(PATTERNS):
            match = one.fullmatch(line)
            if match:
                found[kind].append(match.groups())
    return found


def numbers(group):
    """The numbers of a group."""
    return [int(word) for word in group.split()]


def conditions(found):
    """The conditions of a text, in its order."""
    _, _, does, selects, revises, _ = found
    words = [line[1] for line in does]
    words += [word for line in selects for word in line[:2]]
    return words + [line[1] for line in revises]


def plans(found):
    """The plans of a text, in its order."""
    _, _, _, selects, revises, begins = found
    words = [line[2] for line in selects]
    words += [word for line in revises for word in (line[0], line[2])]
    return [numbers(word) for word in words + [begins[0][2]]]


def is_too_large(found):
    """25, clause by clause."""
    atoms, actions, does, selects, revises, begins = found
    named = [int(n) for word in conditions(found) for n in re.findall(b"[0-9]+", word)]
    sets = [numbers(word) for line in does for word in line[2:]] + [numbers(word) for word in begins[0][:2]]
    signs = sum(len(re.findall(b"[TBG!&|]", word)) for word in conditions(found))
    made = sum(plans(found), [])
    return (
        max(int(line[0]) for line in atoms + actions) > 65535
        or max([int(line[0]) for line in does] + named + made, default=0) > 255
        or max(sum(sets, []), default=0) > 127
        or max(map(len, (actions, does, selects, revises))) > 256
        or signs > 256
        or len(made) > 8192
    )


def described(found):
    """The card of a text that is not too large, described."""
    atoms, actions, does, selects, revises, begins = found
    nodes, made = [], plans(found)
    roots = [condition(word, nodes) for word in conditions(found)]
    starts = [sum(map(len, made[:at])) for at in range(len(made))]
    spans = [(start, len(plan)) for start, plan in zip(starts, made)]
    ones, twos = roots[:len(does)], roots[len(does):len(does) + 2 * len(selects)]
    threes, bodies = roots[len(ones) + len(twos):], spans[len(selects):-1]
    sets = [[cards.atoms_set(*numbers(word)) for word in line[2:]] for line in does]
    return cards.Description(
        atoms=int(atoms[0][0]),
        weights=[int(line[0]) for line in actions],
        nodes=nodes,
        specifications=[
            cards.Specification(int(line[0]), root, *both) for line, root, both in zip(does, ones, sets)
        ],
        selections=[cards.Selection(*two, *span) for two, span in zip(zip(twos[::2], twos[1::2]), spans)],
        revisions=[
            cards.Revision(root, *head, *body)
            for root, head, body in zip(threes, bodies[::2], bodies[1::2])
        ],
        pool=bytes(sum(made, [])),
        start=spans[-1][0],
        length=spans[-1][1],
        beliefs=cards.atoms_set(*numbers(begins[0][0])),
        goals=cards.atoms_set(*numbers(begins[0][1])),
    )


def read(text):
    """The number of a text as far as 25, 17's place, and the card that would be
    built, not checked; None when refused."""
    place = slip_of(text)
    if place is not None:
        return 17, place, None
    found = lines(text)
    if max(map(depth, conditions(found)), default=0) > 32:
        return 18, 0, None
    if is_too_large(found):
        return 25, 0, None
    return 0, 0, cards.card(described(found))
