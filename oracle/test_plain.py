"""Tests of request 12 ("a plain engine beside it"): its calls are asked and answered "as 2, 4,
5, 6"; and what its cases by seed and its stored requests hold."""

import unittest
from collections import Counter

import cards
import cases
import damage
import drill
import guide
import listed
import stored

# The first engine's request for each of the plain engine's.
FIRST = {15: 2, 16: 4, 17: 5, 18: 6}

# What each call can be answered with, a card's refusals first.
POSSIBLE = {15: (), 16: (12, 13), 17: (11, 13, 14, 15, 16), 18: (13,)}


def answered(some):
    """The requests of some cases: the card, the request, and the answer to it."""
    for case in some:
        for request in case.requests:
            yield case.card, request, drill.answer(case.card, request)


def spare_rooms(some):
    """By how much the rooms of lists differ from what is needed, where something is; of
    requests with their answers."""
    for card, request, answer in some:
        if request[0] == drill.PLAIN_LIST and guide.number(answer, 0) in (0, 12):
            _, held, room = cases.read_about(request)
            needed = guide.list_choices(card, held, drill.LIST_LIMIT)[1]
            if needed:
                yield room - needed


@unittest.skipUnless(12 in drill.LANDED, "the drill has no request 12 yet")
class AsTheFirst(unittest.TestCase):
    """ "15, 16, 17, 18 the plain engine's load, list, take, run": "as 2, 4, 5, 6"."""

    def test_requests(self):
        """The requests are those of the first engine but for their first byte, and what it has
        no call for is left out."""
        kinds = []
        for case in cases.generate(7, 20, 700):
            asked = [request for request in case.requests if request[0] in FIRST.values()]
            made = cases.on_the_plain_engine(case.requests)
            self.assertEqual([request[1:] for request in made], [one[1:] for one in asked])
            self.assertEqual([FIRST[request[0]] for request in made], [one[0] for one in asked])
            kinds += [request[0] for request in made]
        self.assertEqual(set(kinds), set(FIRST))

    def test_answers(self):
        """Each answer is the first engine's, byte for byte, one by one and in one stream."""
        some, expected = list(cases.generate_plain(1, 80, 700)), b""
        for card, request, answer in answered(some):
            self.assertEqual(answer, drill.answer(card, bytes([FIRST[request[0]]]) + request[1:]))
            expected += answer
        self.assertEqual(drill.answers(b"".join(cases.stream(some))), expected)


@unittest.skipUnless(12 in drill.LANDED, "the drill has no request 12 yet")
class BySeed(unittest.TestCase):
    """The cases of the plain engine by seed."""

    def test_same_seed_same_bytes(self):
        """The same seed gives the same bytes, another seed others."""
        one = list(cases.generate_plain(7, 40, 700))
        self.assertEqual(one, list(cases.generate_plain(7, 40, 700)))
        self.assertEqual(one[:9], list(cases.generate_plain(7, 9, 700)))
        self.assertNotEqual(one, list(cases.generate_plain(8, 40, 700)))

    def test_what_is_met(self):
        """Each call with every answer that it can be given and no other; rooms around the
        number needed; each budget and each ending; cards of both editions."""
        some = list(answered(cases.generate_plain(1, 400, 700)))
        met = Counter((request[0], guide.number(answer, 0)) for _, request, answer in some)
        for kind, numbers in POSSIBLE.items():
            found = {number for call, number in met if call == kind}
            self.assertEqual(found, {*range(10), *numbers}, kind)
            self.assertGreater(min(met[kind, number] for number in (0, *numbers)), 40, met)
        self.assertLessEqual({-1, 0, 1}, set(spare_rooms(some)))
        budgets, endings, editions = Counter(), Counter(), Counter()
        for card, request, answer in some:
            if guide.number(answer, 0) == 0:
                editions[request[0], card[2]] += 1
                if request[0] == drill.PLAIN_RUN:
                    budgets[cases.read_about(request)[2]] += 1
                    endings[answer[-1]] += 1
        self.assertGreater(min(budgets[budget] for budget in (0, 1, 1000, 65535)), 40, budgets)
        self.assertGreater(min(endings[ending] for ending in range(3)), 20, endings)
        for kind, edition in ((kind, edition) for kind in FIRST for edition in cards.EDITIONS):
            self.assertGreater(editions[kind, edition], 100, editions)

    def test_cards(self):
        """No card is longer than is asked for; the named ones are met where they may be; and
        every second card is damaged or just inside a range."""
        for largest in (100, 255, 700):
            for case in cases.generate_plain(3, 40, largest):
                self.assertLessEqual(len(case.card), largest)
        some = list(cases.generate_plain(3, 40))
        named = {cards.card(describe()) for _, describe in cases.NAMED_CARDS}
        self.assertLessEqual(named, {case.card for case in some})
        names = {"plain: " + one.name for one in damage.CARD_DAMAGES + damage.CARD_RANGES}
        for case in some[1::2]:
            self.assertTrue(case.name in names or " and " in case.name, case.name)


@unittest.skipUnless(12 in drill.LANDED, "the drill has no request 12 yet")
class Stored(unittest.TestCase):
    """The stored requests of request 12."""

    @classmethod
    def setUpClass(cls):
        """Each request with the answer to it."""
        cls.answered = list(answered(stored.plain_cases()))

    def test_only_the_plain_engine(self):
        """All of the requests are the plain engine's, more than a hundred of each."""
        kinds = Counter(request[0] for _, request, _ in self.answered)
        self.assertEqual(set(kinds), set(FIRST))
        self.assertGreater(min(kinds.values()), 100, kinds)

    def test_every_answer(self):
        """Each call is given every answer that it can be given, those of a configuration in
        both editions; and 16 with nodes from the first to the last."""
        met, nodes = set(), set()
        for card, request, answer in self.answered:
            number = guide.number(answer, 0)
            met.add((request[0], number if number < 10 else (number, card[2])))
            if number == 0:
                met.add((request[0], (number, card[2])))
            if number == 16:
                nodes.add(guide.number(answer, 2))
        for kind, numbers in POSSIBLE.items():
            expected = {(kind, number) for number in range(10)}
            for edition in cards.EDITIONS:
                expected |= {(kind, (number, edition)) for number in (0, *numbers)}
            self.assertEqual({one for one in met if one[0] == kind}, expected)
        self.assertLessEqual({0, 1, 2, 5, 13, 253, 255}, nodes)

    def test_editions_of_damaged_cards(self):
        """Each refusal of a card in both editions, where the card says one."""
        long = [(card, answer) for card, _, answer in self.answered if len(card) > 3]
        met = {(guide.number(answer, 0), card[2]) for card, answer in long}
        for number in range(3, 10):
            self.assertLessEqual({(number, 1), (number, 2)}, met)

    def test_the_largest_cards(self):
        """24,128 and 32,352 bytes: done, 11 and 12 among the answers, and moves by the
        first and the last entry of each kind."""
        for edition, size in ((1, 24128), (2, 32352)):
            numbers, moved = Counter(), set()
            for card, request, answer in self.answered:
                if len(card) == size and card[2] == edition:
                    number = guide.number(answer, 0)
                    numbers[number] += 1
                    if request[0] == drill.PLAIN_TAKE and number == 0:
                        moved.add(cases.read_about(request)[2])
            self.assertLessEqual({0, 11, 12}, set(numbers), numbers)
            self.assertLessEqual({0, 255, 256, 511, 512, 767}, moved)

    def test_edges(self):
        """Plans of 1,022, 1,023 and 1,024 actions in every call that takes one, moves that
        leave 1,024 and that would leave more; lists of just the room, one less, one more and
        none, and the longest; budgets and endings."""
        lengths, after, rooms, runs = set(), set(), set(), set()
        for card, request, answer in self.answered:
            if request[0] == drill.PLAIN_LOAD or guide.check(card) != 0:
                continue
            kind, held, value = cases.read_about(request)
            number = guide.number(answer, 0)
            lengths.add((kind, held.length))
            if kind == drill.PLAIN_TAKE:
                after.add((number, guide.number(answer, 68)))
            elif kind == drill.PLAIN_LIST:
                rooms.add(value)
            elif number == 0:
                runs.add((value, answer[-1]))
        for kind in (drill.PLAIN_LIST, drill.PLAIN_TAKE, drill.PLAIN_RUN):
            self.assertLessEqual({(kind, length) for length in (0, 1, 1022, 1023, 1024)}, lengths)
        self.assertLessEqual({(0, 1024), (11, 1024), (11, 771)}, after)
        self.assertLessEqual({-1, 0, 1}, set(spare_rooms(self.answered)))
        self.assertLessEqual({0, 1, 255, 256, 511, 512, 1024}, rooms)
        for budget in (1, 1000, 65535):
            self.assertLessEqual({(budget, ending) for ending in range(3)}, runs)
        self.assertIn((0, guide.SPENT), runs)

    def test_512(self):
        """The card of which a list judges 512 conditions, with an empty plan and with another
        one."""
        judged = Counter(
            (cases.read_about(request)[1].length == 0, guide.number(answer, 4))
            for card, request, answer in self.answered
            if card == listed.BUSIEST and request[0] == drill.PLAIN_LIST
        )
        self.assertEqual((judged[True, 512], judged[False, 512]), (2, 2))


if __name__ == "__main__":
    unittest.main()
