"""Cards as text, request 2 of document 02: a reader that builds an edition 1 card
from a text, and a printer that writes a condition back as text.

The line grammar is that of text-card.md. A text is first followed byte by byte,
which finds the place of 17; what a text says is read only of one that the grammar
has. Nothing here calls itself, however deep a text or a condition nests.
"""

import re
from typing import NamedTuple

import cards
import guide
from cards import AND, BELIEVES, HAS_GOAL, NOT, OR, TRUE, Node

# Request 2's refusals: "17 text, with the place of the first byte that no
# continuation could make right; 18 nested too deep; 25 a number too large for its
# field, or more entries or pool bytes than edition 1 allows".
TEXT = 17
NESTED = 18
TOO_LARGE = 25

# "Brackets and ! together may nest 32 deep"; "25 over 256 nodes".
NEST_LIMIT = 32
PRINT_LIMIT = 256

# The most that a field of the card can hold, and the most entries and pool bytes
# that "edition 1 allows".
TWO_BYTES = 65535
ONE_BYTE = 255
LAST_OF_A_SET = 127
ENTRY_LIMIT = 256
POOL_LIMIT = 8192

LF, SPACE, REMARK, OPEN, CLOSE = b"\n #()"
DIGITS = frozenset(b"0123456789")
BEFORE_A_UNIT = frozenset(b"!(")
BETWEEN_UNITS = frozenset(b"&|")
ATOM_LETTERS = frozenset(b"BG")
TRUE_LETTER = ord("T")


# --- 17: whether the grammar has the text -----------------------------------


class Slip(Exception):
    """The text goes on as no text of the grammar does, at a place."""

    def __init__(self, place):
        super().__init__(place)
        self.place = place


class Scanner:
    """A text followed from its front by the rules of the grammar. Each rule goes
    on as far as the text fits it, and slips at the first byte that does not, or at
    the text's end."""

    def __init__(self, text):
        self.text = text
        self.at = 0

    def ahead(self, by=0):
        """The next byte, or the one so many bytes after it; None past the end."""
        at = self.at + by
        return self.text[at] if at < len(self.text) else None

    def word(self, word):
        """The bytes of a word."""
        for byte in word:
            if self.ahead() != byte:
                raise Slip(self.at)
            self.at += 1

    def number(self):
        """number = digit { digit }"""
        if self.ahead() not in DIGITS:
            raise Slip(self.at)
        while self.ahead() in DIGITS:
            self.at += 1

    def list(self):
        """list = { " " number }. "After a space in a list the next byte says what
        comes": a space without a digit after it belongs to what follows the
        list."""
        while self.ahead() == SPACE and self.ahead(1) in DIGITS:
            self.at += 1
            self.number()

    def rest_of_line(self):
        """text LF"""
        found = self.text.find(b"\n", self.at)
        if found < 0:
            raise Slip(len(self.text))
        self.at = found + 1

    def end(self):
        """end = LF | " #" text LF"""
        if self.ahead() == LF:
            self.at += 1
        else:
            self.word(b" #")
            self.rest_of_line()

    def notes(self):
        """{ note }, note = LF | "#" text LF"""
        while self.ahead() in (LF, REMARK):
            self.rest_of_line()

    def condition(self):
        """condition = or-list. Between two units stands an operator, after a unit a
        bracket may close if one is open; "a count of open brackets" is enough."""
        opened = self.unit_begins()
        while True:
            if self.ahead() in BETWEEN_UNITS:
                self.at += 1
                opened += self.unit_begins()
            elif self.ahead() == CLOSE and opened > 0:
                self.at += 1
                opened -= 1
            elif opened > 0:
                raise Slip(self.at)
            else:
                return

    def unit_begins(self):
        """Any "!" and "(", and the "T", "B n" or "G n" behind them. Answers how
        many brackets were opened."""
        opened = 0
        while self.ahead() in BEFORE_A_UNIT:
            opened += self.ahead() == OPEN
            self.at += 1
        letter = self.ahead()
        if letter != TRUE_LETTER and letter not in ATOM_LETTERS:
            raise Slip(self.at)
        self.at += 1
        if letter in ATOM_LETTERS:
            self.number()
        return opened

    def line(self, pieces):
        """A line: its words and the rules between them, in their order."""
        for piece in pieces:
            if isinstance(piece, bytes):
                self.word(piece)
            else:
                piece(self)

    def line_among(self, kinds):
        """A line of one of some kinds, which "the first byte says"; that kind."""
        for pieces in kinds:
            if pieces[0][0] == self.ahead():
                self.line(pieces)
                return pieces
        raise Slip(self.at)

    def card(self):
        """card = { note } atoms { action | note } { do | note } { select | note }
        { revise | note } begin { note }: each kind of line may be followed by
        itself and by those after it."""
        self.notes()
        self.line(ATOMS)
        found, kinds = None, (ACTION, DO, SELECT, REVISE, BEGIN)
        while found is not BEGIN:
            self.notes()
            found = self.line_among(kinds)
            kinds = kinds[kinds.index(found):]
        self.notes()
        if self.at != len(self.text):
            raise Slip(self.at)


NUMBER, LIST, CONDITION, END = Scanner.number, Scanner.list, Scanner.condition, Scanner.end

# The kinds of lines, as the grammar has them.
ATOMS = (b"atoms ", NUMBER, END)
ACTION = (b"action ", NUMBER, END)
DO = (b"do ", NUMBER, b" if ", CONDITION, b" add", LIST, b" del", LIST, END)
SELECT = (b"select if ", CONDITION, b" goal ", CONDITION, b" plan", LIST, END)
REVISE = (b"revise", LIST, b" if ", CONDITION, b" to", LIST, END)
BEGIN = (b"begin beliefs", LIST, b" goals", LIST, b" plan", LIST, END)


def slip_of(text):
    """17's place: "the least p such that no text of the grammar begins with bytes 0
    to p; if every prefix can still be continued, p is the length". None for a text
    of the grammar."""
    try:
        Scanner(text).card()
    except Slip as slip:
        return slip.place
    return None


# --- what a text of the grammar says ----------------------------------------

TOKEN = re.compile(rb"[BG][0-9]+|[T!&|()]")
ATOM_KINDS = {b"B": BELIEVES, b"G": HAS_GOAL}
OPERATORS = {b"&": AND, b"|": OR}

# How strongly an operator binds; nothing else that waits binds at all.
BINDS = {b"|": 1, b"&": 2}


def value(digits):
    """The number that digits say. One of more than five digits, leading zeros
    aside, is over every field, and 100,000 stands for it."""
    digits = digits.lstrip(b"0")
    return int(digits or b"0") if len(digits) <= 5 else 100000


def parts_of(line):
    """A line's parts, its remark left out: each word in small letters, and the
    conditions and numbers up to the next one. A note has none."""
    parts, current = {}, None
    for word in line.partition(b"#")[0].split():
        if word.isalpha() and word.islower():
            current = parts[word] = []
        else:
            current.append(word)
    return parts


class Meaning:
    """What a text of the grammar says: the card it describes, how deep the deepest
    condition nests, and whether a number is too large for its field. Such a number
    is put down as the most that the field holds."""

    def __init__(self, text):
        self.card = cards.Description(atoms=0, weights=[], nodes=[], pool=bytearray())
        self.deepest = 0
        self.over = False
        for line in text.split(b"\n"):
            parts = parts_of(line)
            if parts:
                LINES[next(iter(parts))](self, parts)

    def field(self, digits, most):
        """A number for a field that holds `most` at most."""
        found = value(digits)
        self.over = self.over or found > most
        return min(found, most)

    def set(self, words):
        """A set: its "numbers may come in any order and twice"."""
        return cards.atoms_set(*(self.field(word, LAST_OF_A_SET) for word in words))

    def plan(self, words):
        """Start and length of a plan, "appended whole, none shared, an empty plan
        starting where the pool ends then"."""
        start = len(self.card.pool)
        self.card.pool += bytes(self.field(word, ONE_BYTE) for word in words)
        return start, len(words)

    def atoms_line(self, parts):
        """ "How many atoms." """
        self.card.atoms = self.field(*parts[b"atoms"], TWO_BYTES)

    def action_line(self, parts):
        """ "An action by its weight." """
        self.card.weights.append(self.field(*parts[b"action"], TWO_BYTES))

    def do_line(self, parts):
        """ "A specification of that action." """
        action = self.field(*parts[b"do"], ONE_BYTE)
        node = self.condition(*parts[b"if"])
        sets = self.set(parts[b"add"]), self.set(parts[b"del"])
        self.card.specifications.append(cards.Specification(action, node, *sets))

    def select_line(self, parts):
        """ "A selection rule: beliefs, goals, plan", "the belief condition first"."""
        belief = self.condition(*parts[b"if"])
        goal = self.condition(*parts[b"goal"])
        self.card.selections.append(cards.Selection(belief, goal, *self.plan(parts[b"plan"])))

    def revise_line(self, parts):
        """ "A revision rule: head, condition, body"; in the pool "each head and its
        body"."""
        node = self.condition(*parts[b"if"])
        head, body = self.plan(parts[b"revise"]), self.plan(parts[b"to"])
        self.card.revisions.append(cards.Revision(node, *head, *body))

    def begin_line(self, parts):
        """ "The start." """
        self.card.beliefs = self.set(parts[b"beliefs"])
        self.card.goals = self.set(parts[b"goals"])
        self.card.start, self.card.length = self.plan(parts[b"plan"])

    def node(self, kind, a=0, b=0):
        """Appends a node; its number."""
        self.card.nodes.append(Node(kind, a, b))
        return len(self.card.nodes) - 1

    def condition(self, word):
        """A condition's own node, once its nodes are there: "one for each T, atom,
        ! and operator, appended when it is completed". What is not completed yet
        waits; the nodes in `made` are its parts so far."""
        waiting, made, nested = [], [], 0
        for token in TOKEN.findall(word):
            if token in (b"!", b"("):
                waiting.append(token)
                nested += 1
                continue
            if token in OPERATORS:
                self.complete(waiting, made, BINDS[token])
                waiting.append(token)
                continue
            if token == b")":
                self.complete(waiting, made, 1)
                waiting.pop()
                nested -= 1
            else:
                made.append(self.leaf(token))
                self.deepest = max(self.deepest, nested)
            while waiting and waiting[-1] == b"!":
                waiting.pop()
                nested -= 1
                made.append(self.node(NOT, made.pop()))
        self.complete(waiting, made, 1)
        return made.pop()

    def leaf(self, token):
        """The node of a "T", "B n" or "G n"."""
        if token == b"T":
            return self.node(TRUE)
        return self.node(ATOM_KINDS[token[:1]], self.field(token[1:], ONE_BYTE))

    def complete(self, waiting, made, least):
        """Completes the operators that wait, down to a bracket or to one that binds
        less than `least`: "groups run to the left"."""
        while waiting and BINDS.get(waiting[-1], 0) >= least:
            kind = OPERATORS[waiting.pop()]
            right, left = made.pop(), made.pop()
            made.append(self.node(kind, left, right))

    def is_too_large(self):
        """25: "a number too large for its field, or more entries or pool bytes than
        edition 1 allows"."""
        card = self.card
        entries = (card.weights, card.nodes, card.specifications, card.selections, card.revisions)
        return self.over or max(map(len, entries)) > ENTRY_LIMIT or len(card.pool) > POOL_LIMIT


# What each kind of line says, by its first word.
LINES = {
    b"atoms": Meaning.atoms_line,
    b"action": Meaning.action_line,
    b"do": Meaning.do_line,
    b"select": Meaning.select_line,
    b"revise": Meaning.revise_line,
    b"begin": Meaning.begin_line,
}


def read(text, room):
    """ "The reader accepts exactly this grammar and builds an edition 1 card."
    Answers number, place ("with another number than 17 the place is 0") and the
    card, None when refused: 17; 18; 25; "then 3 and 5 to 9 as for the card it would
    build; 12"."""
    place = slip_of(text)
    if place is not None:
        return TEXT, place, None
    meaning = Meaning(text)
    if meaning.deepest > NEST_LIMIT:
        return NESTED, 0, None
    if meaning.is_too_large():
        return TOO_LARGE, 0, None
    card = cards.card(meaning.card)
    refusal = guide.check(card)
    if refusal == guide.DONE and len(card) > room:
        refusal = guide.NO_ROOM
    return refusal, 0, card if refusal == guide.DONE else None


# --- the printer ------------------------------------------------------------

# "Or-list < and-list < unit."
OR_LIST, AND_LIST, UNIT = range(3)

# What a node's text is, by its kind.
IS = {TRUE: UNIT, BELIEVES: UNIT, HAS_GOAL: UNIT, NOT: UNIT, AND: AND_LIST, OR: OR_LIST}

# What is wanted for a node's children: "! before a unit"; "an and is an and-list
# whose left is an and-list and whose right is a unit; an or is an or-list whose
# left is an or-list and whose right is an and-list".
WANTED = {TRUE: (), BELIEVES: (), HAS_GOAL: (), NOT: (UNIT,), AND: (AND_LIST, UNIT), OR: (OR_LIST, AND_LIST)}

LETTERS = {BELIEVES: b"B", HAS_GOAL: b"G"}
SIGNS = {AND: b"&", OR: b"|"}


class Measure(NamedTuple):
    """A node's text before it is written: how deep it nests, and how many nodes it
    prints, "each occurrence of a shared node counted"."""

    depth: int
    size: int


def children(node):
    """A node's children, each with what is wanted for it."""
    return zip((node.a, node.b), WANTED[node.kind])


def is_bracketed(nodes, child, wanted):
    """ "Brackets stand exactly where the child is a lower thing than is wanted." """
    return IS[nodes[child].kind] < wanted


def measures(nodes):
    """Each node's measure, "made node by node from the lowest up"."""
    found = []
    for node in nodes:
        depth, size = 0, 1
        for child, wanted in children(node):
            depth = max(depth, found[child].depth + is_bracketed(nodes, child, wanted))
            size += found[child].size
        found.append(Measure(depth + (node.kind == NOT), size))
    return found


def pieces(nodes, node):
    """A node's text in pieces, in their order: signs, and the numbers of its
    children."""
    if node.kind == TRUE:
        return [b"T"]
    if node.kind in LETTERS:
        return [b"%s%d" % (LETTERS[node.kind], node.a)]
    below = [
        [b"(", child, b")"] if is_bracketed(nodes, child, wanted) else [child]
        for child, wanted in children(node)
    ]
    if node.kind == NOT:
        return [b"!"] + below[0]
    return below[0] + [SIGNS[node.kind]] + below[1]


def written(nodes, root):
    """A node's text. The pieces that are not written yet wait, the next one last."""
    parts, waiting = [], [root]
    while waiting:
        piece = waiting.pop()
        if isinstance(piece, bytes):
            parts.append(piece)
        else:
            waiting += reversed(pieces(nodes, nodes[piece]))
    return b"".join(parts)


def print_node(card, node, room):
    """ "A printer writes any condition of at most 256 printed nodes nested within
    the limit back as text that reads as the same tree." Answers number and text:
    the card with 1 to 9; "7 no such node, 18, 25 over 256 nodes, 12"."""
    refusal, accepted = guide.judge(card)
    if refusal != guide.DONE:
        return refusal, b""
    nodes = accepted.nodes.entries
    if node >= len(nodes):
        return guide.RULE, b""
    depth, size = measures(nodes)[node]
    if depth > NEST_LIMIT:
        return NESTED, b""
    if size > PRINT_LIMIT:
        return TOO_LARGE, b""
    text = written(nodes, node)
    return (guide.DONE, text) if len(text) <= room else (guide.NO_ROOM, b"")
