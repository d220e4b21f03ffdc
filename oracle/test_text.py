"""Tests of request 2, cards as text: the reader held against the grammar of
text-card.md, its refusals by hand and clause by clause, the printer, and the drill's
bytes for both. `test_oracle.py` runs them, too."""

import re
import time
import unittest
from collections import Counter
from random import Random

import cards
import cases
import closed
import drill
import grammar
import guide
import prints
import program
import slips
import text
import texts
from cards import AND, BELIEVES, HAS_GOAL, NOT, OR, TRUE, Node

# The card of the stripe card's text, written out by hand: 12 nodes, "none shared", and
# a pool of 9 bytes, "4", "4" and "1 3", "3" and "2 0", "3" and "0".
STRIPE_CARD = bytes.fromhex(
    "3341 0100 0400 0500 0C00 4A00 0300 7A00 0100 E600 0300 EE00 0900 1201 0900 0000"
    "09 000000000000000000000000000000  04 000000000000000000000000000000"
    "0100 0100 0100 0300 0500"
    "01010000 01030000 03010000 04000200 00000000 01030000"
    "00000000 02020000 00000000 01030000 01030000 030A0000"
    "00030000 04 000000000000000000000000000000 02 000000000000000000000000000000"
    "01040000 02 000000000000000000000000000000 00 000000000000000000000000000000"
    "02050000 00 000000000000000000000000000000 08 000000000000000000000000000000"
    "0607 0000 0100 0000"
    "0800 0100 0100 0200 0200 0000"
    "0900 0400 0100 0500 0200 0000"
    "0B00 0700 0100 0800 0100 0000"
    "04 04 01 03 03 02 00 03 00"
)

ROOM = drill.CARD_ROOM_LIMIT


def number_of(held, room=ROOM):
    """A text's number."""
    return text.read(held, room)[0]


class StripeText(unittest.TestCase):
    """ "The stripe card's text makes a card of 283 bytes that runs as the 255-byte one
    does." """

    def test_bytes(self):
        """The card is the one by hand."""
        self.assertEqual(len(STRIPE_CARD), 283)
        self.assertEqual(text.read(slips.STRIPE_TEXT, 283), (0, 0, STRIPE_CARD))

    def test_runs_like_the_stripe_card(self):
        """The program's lines are the same but for the bytes, and so is the place
        after each step."""
        stripe = cards.card(cards.stripe_card())
        self.assertEqual(program.lines(STRIPE_CARD)[1:], program.lines(stripe)[1:])
        self.assertEqual(program.lines(STRIPE_CARD)[0], "card 283 bounded")
        for budget in range(8):
            runs = [guide.run(card, guide.load(card)[1], budget) for card in (stripe, STRIPE_CARD)]
            self.assertEqual(*runs)

    def test_room(self):
        """12 is for a buffer that is shorter than the card."""
        for room in (0, 1, 282):
            self.assertEqual(text.read(slips.STRIPE_TEXT, room), (12, 0, None))
        self.assertEqual(text.read(slips.STRIPE_TEXT, 284), (0, 0, STRIPE_CARD))


class Slips(unittest.TestCase):
    """17 and its place."""

    def test_by_hand(self):
        """Each slip is where its mark was, by the reader and by the grammar."""
        for one in slips.SLIPS:
            self.assertEqual(text.read(one.text, ROOM), (17, one.place, None), one.name)
            self.assertEqual(grammar.slip_of(one.text), one.place, one.name)

    def test_every_byte_after_every_prefix(self):
        """After each beginning of a good text each of the 256 bytes is right or wrong
        as the grammar says."""
        noted = b"#x\n" + slips.WHOLE.replace(b"\n", b" #\n\n")
        for whole in (slips.WHOLE, noted, slips.with_condition(b"(!B0|T)&G1")):
            for at in range(len(whole) + 1):
                for byte in range(256):
                    held = whole[:at] + bytes([byte])
                    self.assertEqual(text.slip_of(held), grammar.slip_of(held), held)

    def test_texts_by_seed(self):
        """On texts by seed, good and damaged, number, place and card are those of the
        second way to read them."""
        samples = (texts.some_sample(Random("both %d" % index)) for index in range(3000))
        met = Counter(texts.read_both(sample.text)[0] for sample in samples)
        self.assertEqual(set(met), {0, 3, 5, 6, 7, 8, 9, 17, 18, 25})
        self.assertGreaterEqual(min(met.values()), 10, met)

    def test_texts_of_few_bytes(self):
        """Words, signs and numbers in any order, behind the beginning of a good
        text."""
        random = Random("few")
        words = [b" ", b"\n", b"#", b"0", b"12", b"T", b"B1", b"G", b"!", b"&", b"|", b"(", b")"]
        words += [b" if ", b" add", b" del", b" goal ", b" plan", b" to", b" goals"]
        words += [b"action 1\n", b"do 0", b"select", b"revise", b"begin beliefs"]
        for _ in range(4000):
            held = slips.WHOLE[:random.randrange(len(slips.WHOLE))]
            held += b"".join(random.choices(words, k=random.randint(1, 6)))
            self.assertEqual(text.slip_of(held), grammar.slip_of(held), held)

    def test_every_beginning(self):
        """Each beginning of a good text "just ends", but for the whole."""
        for whole in (slips.STRIPE_TEXT, slips.WHOLE):
            for at in range(len(whole)):
                self.assertEqual(text.read(whole[:at], ROOM), (17, at, None))

    def test_what_stands_before_a_slip_can_go_on(self):
        """What stands before a slip can be made a text of the grammar, and with the
        byte at its place it cannot."""
        random, met = Random("go on"), 0
        while met < 400:
            held = texts.damaged_sample(random).text
            place = text.slip_of(held)
            if place is not None and len(held) <= texts.SMALL_TEXT:
                met += 1
                after = grammar.shortest_end(held[:place])
                self.assertIsNone(text.slip_of(held[:place] + after), held)
                if place < len(held):
                    self.assertIsNone(grammar.shortest_end(held[:place + 1]), held)

    def test_no_limit_plays_a_part(self):
        """A slip behind brackets and digits of any number is 17 at the slip, and what
        has none is refused with 18 or 25, however long it is."""
        for count in (33, 300, 30000):
            for sign in (b"(", b"!", b"!("):
                before = slips.up_to(slips.DO, b"do 0 if " + sign * count)
                self.assertEqual(text.read(before + b"&", ROOM), (17, len(before), None))
                self.assertEqual(text.read(before, ROOM), (17, len(before), None))
            word = slips.in_brackets(count, b"T")
            self.assertEqual(number_of(slips.with_condition(word)), 18)
            place = len(slips.up_to(slips.DO, b"do 0 if ")) + 2 * count
            self.assertEqual(text.read(slips.with_condition(word[:-1]), ROOM), (17, place, None))
            self.assertEqual(number_of(slips.with_condition(b"!" * count + b"T")), 18)
            self.assertEqual(number_of(slips.with_condition(b"B" + b"7" * count)), 25)
            self.assertEqual(number_of(slips.with_condition(b"B" + b"0" * count)), 0)
            digits = slips.up_to(slips.DO, b"do " + b"1" * count)
            self.assertEqual(text.read(digits + b"x", ROOM), (17, len(digits), None))

    def test_time(self):
        """The longest text of a request is read in well under a second."""
        before, after = slips.up_to(slips.DO, b"do 0 if "), b" add del\n" + slips.LINES[slips.BEGIN]
        for word in (b"!" * 65000 + b"T", slips.in_brackets(32000, b"T"), b"T&" * 32000 + b"T", b"B" + b"1" * 65000):
            begun = time.perf_counter()
            self.assertIn(number_of(before + word + after), (18, 25))
            self.assertLess(time.perf_counter() - begun, 1.0)


class Refusals(unittest.TestCase):
    """The other refusals of a text, and the card that is built."""

    def test_by_hand(self):
        """Each text has the number written beside it, and the place 0."""
        for one in slips.NUMBERED:
            self.assertEqual(text.read(one.text, ROOM)[:2], (one.number, one.place), one.name)
            self.assertIsNone(grammar.slip_of(one.text), one.name)

    def test_spellings(self):
        """Remarks, notes, leading zeros, brackets without need, numbers twice: the
        same card."""
        self.assertEqual(number_of(slips.WHOLE), 0)
        for held in slips.SPELLINGS:
            self.assertEqual(text.read(held, ROOM), text.read(slips.WHOLE, ROOM), held)

    def test_clauses_alone(self):
        """Each clause broken alone, each limit just kept."""
        for again in range(3):
            for one in texts.TEXT_DAMAGES:
                sample = texts.clause_sample(Random("alone %d %s" % (again, one.name)), one)
                self.assertEqual(text.read(sample.text, ROOM), (one.number, 0, None), one.name)
            for one in texts.TEXT_RANGES:
                sample = texts.range_sample(Random("kept %d %s" % (again, one.name)), one)
                self.assertEqual(number_of(sample.text), 0, one.name)

    def test_clauses_in_pairs(self):
        """Two refusals at once: the first of "this order" answers; and a slip before
        all others."""
        random = Random("pairs")
        for low, high in texts.TEXT_PAIRS * 8:
            sample = texts.pair_sample(random, low, high)
            self.assertEqual(text.read(sample.text, 0), (low, 0, None), sample.name)
            slip = texts.slip_sample(random, sample.text, sample.name)
            self.assertEqual(text.read(slip.text, 0), (17, slip.place, None), slip.name)

    def test_no_room_is_last(self):
        """12 exactly where nothing else is wrong and the buffer is shorter than the
        card."""
        random = Random("rooms")
        for _ in range(200):
            held = texts.good_sample(random).text
            _, _, card = text.read(held, ROOM)
            for room in (0, len(card) - 1):
                self.assertEqual(text.read(held, room), (12, 0, None))
            self.assertEqual(text.read(held, len(card)), (0, 0, card))

    def test_built_cards(self):
        """The card is the one that the writing describes, in any spelling."""
        random = Random("built")
        for _ in range(400):
            writing = texts.good_writing(random)
            held = texts.written(random, writing, random.choice(texts.SPELLINGS))
            self.assertEqual(text.read(held, ROOM), (0, 0, cards.card(texts.described(writing))))

    def test_largest_card(self):
        """The largest card that a text makes. A do line has a node and 36 bytes more, a
        revise line a node, 12 bytes and plans of 2,048 actions at most; so four revise
        lines fill the pool and the other 252 nodes are those of do lines."""
        full, half = b" 0" * 1024, b" 255" * 1024
        lines = [b"atoms 128\n", b"action 1024\n" * 256, b"do 255 if B127 add 127 del 0\n" * 252]
        lines += [(b"revise" + full + b" if T to" + half + b"\n") * 3, b"revise" + full + b" if T to\n"]
        lines += [b"begin beliefs goals plan" + full + b"\n"]
        held, size = b"".join(lines), 64 + 512 + 4 * 256 + 36 * 252 + 12 * 4 + 8192
        number, _, card = text.read(held, size)
        self.assertEqual((number, len(card)), (0, 18912))
        self.assertEqual(number_of(held, size - 1), 12)
        self.assertEqual(number_of(held.replace(b"revise 0", b"revise 0 0", 1)), 25)
        self.assertEqual(number_of(held.replace(b"T to 255", b"!T to 255", 1)), 25)

    def test_nodes_in_the_order_of_the_text(self):
        """ "Numbered as it is completed", "groups run to the left"."""
        for word, expected in (
            (b"T|B1&G2|T", [(0,), (1, 1), (2, 2), (4, 1, 2), (5, 0, 3), (0,), (5, 4, 5)]),
            (b"B0&B1&B2", [(1, 0), (1, 1), (4, 0, 1), (1, 2), (4, 2, 3)]),
            (b"B0&(B1&B2)", [(1, 0), (1, 1), (1, 2), (4, 1, 2), (4, 0, 3)]),
            (b"!!B0|!(T|B1)", [(1, 0), (3, 0), (3, 1), (0,), (1, 1), (5, 3, 4), (3, 5), (5, 2, 6)]),
            (b"((B0))&(!(B1))", [(1, 0), (1, 1), (3, 1), (4, 0, 2)]),
            (b"B0|B1|B2", [(1, 0), (1, 1), (5, 0, 1), (1, 2), (5, 2, 3)]),
            (b"B0&B1|B2&B3", [(1, 0), (1, 1), (4, 0, 1), (1, 2), (1, 3), (4, 3, 4), (5, 2, 5)]),
        ):
            found = text.Meaning(slips.with_condition(word)).card
            own = found.specifications[0].node
            self.assertEqual(found.nodes[:own + 1], [Node(*fields) for fields in expected], word)
            nodes = []
            self.assertEqual(grammar.condition(word, nodes), own)
            self.assertEqual(nodes, found.nodes[:own + 1])

    def test_depth(self):
        """ "A list has the greatest of its members." """
        for word, deep in (
            (b"T", 0),
            (b"T&B1|G2", 0),
            (b"!T", 1),
            (b"(T)", 1),
            (b"!(T)", 2),
            (b"!T&(T|!!T)|T", 3),
            (b"(T)&(T)&((T))", 2),
            (b"!(!(!(T&!T)))", 7),
        ):
            self.assertEqual(text.Meaning(slips.with_condition(word)).deepest, max(deep, 1), word)
            self.assertEqual(grammar.depth(word), deep, word)
        self.assertEqual(text.Meaning(slips.with_line(slips.REVISE, b"")).deepest, 0)


# --- the printer ------------------------------------------------------------


def unfolded(nodes, own):
    """A condition as a tree, each occurrence of a shared node by itself."""
    kind, a, b = nodes[own].kind, nodes[own].a, nodes[own].b
    if kind == TRUE:
        return (TRUE,)
    if kind in (BELIEVES, HAS_GOAL):
        return kind, a
    return (kind,) + tuple(unfolded(nodes, child) for child in (a, b)[:1 + (kind != NOT)])


def tree_read(word):
    """The tree that a condition's text reads as; None, if the grammar has it not."""
    held = slips.with_condition(word)
    if text.slip_of(held) is not None:
        return None
    card = text.Meaning(held).card
    return unfolded(card.nodes, card.specifications[0].node)


def by_words(tree, wanted="or-list"):
    """A tree's text by the words of text-card.md."""
    order = ("or-list", "and-list", "unit")
    kind = tree[0]
    if kind in (TRUE, BELIEVES, HAS_GOAL):
        return "T" if kind == TRUE else "%s%d" % ("B" if kind == BELIEVES else "G", tree[1])
    if kind == NOT:
        return "!" + by_words(tree[1], "unit")
    if kind == AND:
        found, made = "and-list", by_words(tree[1], "and-list") + "&" + by_words(tree[2], "unit")
    else:
        found, made = "or-list", by_words(tree[1], "or-list") + "|" + by_words(tree[2], "and-list")
    return "(%s)" % made if order.index(found) < order.index(wanted) else made


def without_a_pair(word):
    """A condition's text without one pair of brackets, for each pair."""
    opened = []
    for at, byte in enumerate(word):
        if byte == text.OPEN:
            opened.append(at)
        elif byte == text.CLOSE:
            start = opened.pop()
            yield word[:start] + word[start + 1:at] + word[at + 1:]


def card_of(nodes):
    """A card with some nodes and hardly anything else."""
    return cards.card(cards.Description(atoms=128, weights=[1], nodes=nodes))


class Printer(unittest.TestCase):
    """The printer."""

    ROOM = drill.PRINT_ROOM_LIMIT

    def test_by_hand(self):
        """Each condition has the text written beside it, which reads as it."""
        for tree, word in slips.PRINTED:
            nodes = []
            own = slips.tree_nodes(tree, nodes)
            self.assertEqual(text.print_node(card_of(nodes), own, len(word)), (0, word))
            self.assertEqual(text.print_node(card_of(nodes), own, len(word) - 1), (12, b""))
            self.assertEqual(tree_read(word), tree)

    def printed_by_seed(self, count):
        """Nodes of so many cards by seed, each with its card's nodes and its answer."""
        for index in range(count):
            random = Random("print %d" % index)
            card = prints.some_card(random)
            nodes = guide.judge(card)[1].nodes.entries
            chosen = {prints.some_node(random, nodes) for _ in range(4)}
            for own in sorted(own for own in chosen if own < len(nodes)):
                yield nodes, own, text.print_node(card, own, self.ROOM)

    def test_round_trip(self):
        """What is printed "reads as the same tree", and no pair of brackets can be
        dropped from it."""
        met = Counter()
        for nodes, own, (number, word) in self.printed_by_seed(250):
            if number == 0:
                met["printed"] += 1
                tree = unfolded(nodes, own)
                self.assertEqual(word, by_words(tree).encode())
                self.assertEqual(tree_read(word), tree)
                for shorter in without_a_pair(word):
                    met["pairs"] += 1
                    self.assertNotEqual(tree_read(shorter), tree, shorter)
        self.assertGreater(met["printed"], 300)
        self.assertGreater(met["pairs"], 2000)

    def test_measures(self):
        """The depth and the size are those of the text, and the refusals follow from
        them."""
        met = Counter()
        for nodes, own, (number, word) in self.printed_by_seed(250):
            deep, size = text.measures(nodes)[own]
            met[number] += 1
            if number == 0:
                self.assertEqual(deep, grammar.depth(word))
                self.assertEqual(size, len(re.findall(rb"[TBG!&|]", word)))
            self.assertEqual(number, 18 if deep > 32 else 25 if size > 256 else 0)
        self.assertGreaterEqual(min(met[number] for number in (0, 18, 25)), 50, met)

    def test_belief_conditions_on_cards(self):
        """A printed belief condition, put into a text, is read as the same tree on the
        card that is built."""
        random, met = Random("cards"), 0
        for _ in range(100):
            card = cards.card(cards.nested_card(random))
            accepted = guide.judge(card)[1]
            for entry in accepted.specifications:
                number, word = text.print_node(card, entry.node, self.ROOM)
                held = slips.with_condition(word).replace(b"atoms 2", b"atoms 128")
                found, _, built = text.read(held, ROOM)
                if number == 0 and found == 0:
                    met += 1
                    again = guide.judge(built)[1]
                    self.assertEqual(
                        unfolded(again.nodes.entries, again.specifications[0].node),
                        unfolded(accepted.nodes.entries, entry.node),
                    )
        self.assertGreater(met, 300)

    def test_edges(self):
        """32 and 33 deep by "!", by brackets, by both; 255, 256 and 257 nodes."""
        tall = closed.TALL
        self.assertEqual(text.print_node(tall, 32, 99), (0, b"!" * 32 + b"B0"))
        self.assertEqual(text.print_node(tall, 33, 99), (18, b""))
        right = card_of([Node(TRUE)] + [Node(OR, 0, k) for k in range(40)])
        self.assertEqual(text.print_node(right, 33, 999)[0], 0)
        self.assertEqual(text.print_node(right, 34, 999)[0], 18)
        both = [Node(TRUE)]
        for _ in range(17):
            both += [Node(AND, 0, len(both) - 1), Node(NOT, len(both))]
        self.assertEqual(text.print_node(card_of(both), 2 * 16, 999)[0], 0)
        self.assertEqual(text.print_node(card_of(both), 2 * 16 + 1, 999)[0], 0)
        self.assertEqual(text.print_node(card_of(both), 2 * 17, 999)[0], 18)
        wide = prints.WIDE
        self.assertEqual(text.print_node(wide, 127, 255), (0, b"T&" * 127 + b"T"))
        self.assertEqual(text.print_node(wide, 129, 258), (0, b"!(" + b"T&" * 127 + b"T)"))
        self.assertEqual(text.print_node(wide, 128, 999), (25, b""))

    def test_order_of_refusals(self):
        """The card, then 7, 18, 25, 12."""
        shared = closed.SHARED
        for number in range(1, 10):
            case = cases.damaged_case(Random(number), (cases.damage.damages_of(number)[0],), 700)
            self.assertEqual(text.print_node(case.card, 65535, 0), (number, b""))
        self.assertEqual(text.print_node(shared, 256, 0), (7, b""))
        self.assertEqual(text.print_node(shared, 34, 0), (18, b""))
        self.assertEqual(text.print_node(shared, 33, 0), (25, b""))
        self.assertEqual(text.print_node(shared, 7, 0), (12, b""))
        self.assertEqual(text.print_node(shared, 7, self.ROOM)[0], 0)

    def test_shared_nodes(self):
        """Up to 2^256 - 1 printed nodes: each node answers in no time."""
        begun = time.perf_counter()
        numbers = [text.print_node(closed.SHARED, node, self.ROOM)[0] for node in range(256)]
        self.assertLess(time.perf_counter() - begun, 2.0)
        self.assertEqual(numbers, [0] * 8 + [25] * 26 + [18] * 222)


# --- the drill and the cases ------------------------------------------------


class TextRequests(unittest.TestCase):
    """The drill's requests 9 and 10, written out by hand."""

    CARD = b"\x00\xff\x00" + cards.card(cards.stripe_card())

    def test_text(self):
        """The stripe card's text with a room of 285, and with one of 3."""
        request = b"\x09" + len(slips.STRIPE_TEXT).to_bytes(4, "little") + slips.STRIPE_TEXT
        found = drill.answers(request + b"\x1d\x01" + request + b"\x03\x00")
        first = b"\0\0" + bytes(4) + b"\x1b\x01" + STRIPE_CARD + b"\xee\xee"
        self.assertEqual(found, first + b"\x0c\0" + bytes(4) + b"\0\0" + b"\xee" * 3)

    def test_refused_texts(self):
        """17 with its place, a place of three bytes among them; 18 with the place 0."""
        self.assertEqual(drill.answers(b"\x09\0\0\0\0\x02\0"), b"\x11\0" + bytes(6) + b"\xee\xee")
        self.assertEqual(drill.answers(b"\x09\x03\0\0\0at \0\0"), b"\x11\0\x02\0\0\0\0\0")
        most = b"#" * 65536
        self.assertEqual(drill.answers(b"\x09\0\0\x01\0" + most + b"\0\0"), b"\x11\0\0\0\x01\0\0\0")
        deep = slips.with_condition(b"!" * 33 + b"T")
        request = b"\x09" + bytes([len(deep), 0, 0, 0]) + deep + b"\x01\0"
        self.assertEqual(drill.answers(request), b"\x12\0" + bytes(6) + b"\xee")

    def test_text_keeps_the_card(self):
        """The card of the requests that follow is that of request 0."""
        request = b"\x09" + bytes([len(slips.WHOLE), 0, 0, 0]) + slips.WHOLE + b"\0\0"
        self.assertEqual(drill.answers(self.CARD + request + b"\x01")[-2:], b"\0\0")
        self.assertEqual(drill.answers(request + b"\x01")[-2:], b"\x01\0")

    def test_print(self):
        """Node 4 of the stripe card with room for it and two bytes, with one byte less
        than it needs; node 6, which is none; and no card."""
        node_4 = b"\x0a\x04\0"
        found = drill.answers(self.CARD + node_4 + b"\x08\0" + node_4 + b"\x05\0" + b"\x0a\x06\0\x01\0")
        self.assertEqual(found, b"\0\0\x06\0B1&!B3\xee\xee" + b"\x0c\0\0\0" + b"\xee" * 5 + b"\x07\0\0\0\xee")
        self.assertEqual(drill.answers(b"\x0a\0\0\0\0"), b"\x01\0\0\0")

    def test_broken_requests_end_the_program(self):
        """A text of more than 65,536 bytes, a room of more than 24,200 or 2,048, a
        request that ends too soon, and one that is not there."""
        for request in (
            b"\x09\x01\0\x01\0" + bytes(65537) + b"\0\0",
            b"\x09\xff\xff\xff\xff",
            b"\x09\0\0\0\0\x89\x5e",
            b"\x09\x01\0\0\0",
            b"\x09\0\0\0",
            b"\x0a\0\0\x01\x08",
            b"\x0a\0\0",
            b"\x0b",
        ):
            self.assertEqual(drill.answers(b"\x01" + request + b"\x01"), b"\x01\0")
        self.assertEqual(len(drill.answers(b"\x09\0\0\0\0\x88\x5e")), 8 + 24200)
        self.assertEqual(len(drill.answers(b"\x0a\0\0\0\x08")), 4 + 2048)


class TextCases(unittest.TestCase):
    """The cases of texts and prints by seed."""

    def test_same_seed_same_bytes(self):
        """The same seed gives the same bytes, another seed others."""
        one = list(cases.generate_texts(7, 40, 3000))
        self.assertEqual(one, list(cases.generate_texts(7, 40, 3000)))
        self.assertEqual(one[:10], list(cases.generate_texts(7, 10, 3000)))
        self.assertNotEqual(one, list(cases.generate_texts(8, 40, 3000)))

    def test_nothing_too_large(self):
        """No card and no text of more than `largest` bytes."""
        for largest in (100, 700):
            for case in cases.generate_texts(3, 40, largest):
                self.assertLessEqual(len(case.card), largest)
                for request in case.requests:
                    if request[0] == drill.TEXT:
                        self.assertLessEqual(len(cases.read_text(request)[0]), largest)

    def test_every_answer_is_met(self):
        """Over 900 cases each answer to a text and to a print is met several times, in
        one stream as one by one."""
        some, met = list(cases.generate_texts(2, 900, 3000)), Counter()
        single = []
        for case in some:
            for request in case.requests:
                single.append(drill.answer(case.card, request))
                met[request[0], guide.number(single[-1], 0)] += 1
        self.assertEqual(drill.answers(b"".join(cases.stream(some))), b"".join(single))
        for number in (0, 3, 5, 6, 7, 8, 9, 12, 17, 18, 25):
            self.assertGreaterEqual(met[drill.TEXT, number], 8, number)
        for number in (*range(10), 12, 18, 25):
            self.assertGreaterEqual(met[drill.PRINT, number], 4, number)

    def test_samples(self):
        """What a sample says of its number and place is so; each name by hand is met
        once."""
        for index in range(600):
            sample = texts.some_sample(Random("sample %d" % index))
            number, place, _ = text.read(sample.text, texts.TEXT_LIMIT)
            self.assertIn(sample.number, (None, number), sample.name)
            self.assertIn(sample.place, (None, place), sample.name)
        names = Counter(one.name for one in slips.SLIPS + slips.NUMBERED)
        self.assertEqual(max(names.values()), 1)


if __name__ == "__main__":
    unittest.main()
