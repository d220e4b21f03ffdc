"""Tests of request 9 of document 02 ("more facts"): the sizes of both editions, the order of
the refusals 1 and 2, places of either edition under cards of either, atoms from 128 on."""

import unittest
from collections import Counter
from random import Random

import cards
import cases
import damage
import drill
import guide
import program
import stored
import text
from closed import configuration

STRIPE = cards.card(cards.stripe_card())
WIDE_STRIPE = cards.card(cards.stripe_of_edition_2())
HIGH = cards.card(cards.high_atoms_card())

# The start of an edition 2 card of one atom, one action and one node, byte for byte.
SMALLEST = bytes.fromhex("3341 0200 0100 0100 0100 6200 0000 6600 0000 6600 0000 6600 0000 6600 0000 0000")
SMALLEST += bytes(64) + bytes.fromhex("0100 00000000")


class Order(unittest.TestCase):
    """ "A file under 4 bytes is 1, then a wrong mark or edition is 2, then one shorter than
    its edition's header is 1." """

    def test_cards_cut(self):
        """Each card cut at each length: 1 up to its header, then 4."""
        for card, header in ((STRIPE, 64), (WIDE_STRIPE, 96), (HIGH, 96)):
            for size in range(len(card)):
                self.assertEqual(guide.check(card[:size]), 1 if size < header else 4, size)
            self.assertEqual(guide.check(card), 0)

    def test_wrong_marks_cut(self):
        """With a wrong mark or edition 1 up to 3 bytes, then 2 at every length."""
        for card in (STRIPE, WIDE_STRIPE):
            for edition in (0, 3, 255, 256, 257, 258, 512, 513, 514, 65535):
                wrong = card[:2] + drill.two(edition) + card[4:]
                for size in (*range(100), len(card)):
                    self.assertEqual(guide.check(wrong[:size]), 1 if size < 4 else 2, (edition, size))
            for size in range(100):
                self.assertEqual(guide.check((b"\x33\x50" + card[2:])[:size]), 1 if size < 4 else 2)

    def test_places_cut(self):
        """The same of places, with 44 and 76; a place of the other edition is 2 from 4
        bytes on."""
        for edition, card in ((1, STRIPE), (2, WIDE_STRIPE)):
            _, place = guide.save(card, configuration((0, 3), (2,), (4, 1)), 1100)
            other = place[:2] + drill.two(3 - edition) + place[4:]
            header = {1: 44, 2: 76}[edition]
            self.assertEqual(len(place), header + 2)
            for size in range(len(place)):
                found = guide.restore(card, place[:size])
                self.assertEqual(found, (1 if size < header else 4, guide.EMPTY), size)
                found = guide.restore(card, other[:size])
                self.assertEqual(found, (1 if size < 4 else 2, guide.EMPTY), size)

    def test_other_edition_said(self):
        """An edition 1 card that says 2 is 1 if it is under 96 bytes, else 4; an edition 2
        card that says 1 is 3 with over 128 atoms, else 4."""
        small = cards.card(cards.smallest_card())
        self.assertEqual(guide.check(small[:2] + b"\x02" + small[3:]), 1)
        self.assertEqual(guide.check(STRIPE[:2] + b"\x02" + STRIPE[3:]), 4)
        self.assertEqual(guide.check(WIDE_STRIPE[:2] + b"\x01" + WIDE_STRIPE[3:]), 4)
        self.assertEqual(guide.check(HIGH[:2] + b"\x01" + HIGH[3:]), 3)


class Sizes(unittest.TestCase):
    """The bytes of edition 2."""

    def test_smallest_card(self):
        """102 bytes by hand."""
        self.assertEqual(len(SMALLEST), 102)
        self.assertEqual(cards.card(cards.smallest_of_edition_2()), SMALLEST)
        self.assertEqual(guide.check(SMALLEST), 0)

    def test_atoms(self):
        """1 to 128 atoms in edition 1 and 1 to 256 in edition 2."""
        for card, most in ((cards.card(cards.smallest_card()), 128), (SMALLEST, 256)):
            for atoms in (0, 1, 127, 128, 129, 255, 256, 257, 512, 65535):
                found = guide.check(card[:4] + drill.two(atoms) + card[6:])
                self.assertEqual(found, 0 if 1 <= atoms <= most else 3, atoms)

    def test_sets_of_a_card(self):
        """Each bit of the initial beliefs, at 32, and goals, at 64: 9 from the number of
        atoms on, and else in the loaded sets."""
        for at, atoms in ((32, 1), (64, 1), (32, 200), (64, 200), (32, 256), (64, 256)):
            for atom in range(256):
                card = bytearray(SMALLEST[:4] + drill.two(atoms) + SMALLEST[6:])
                card[at + atom // 8] |= 1 << atom % 8
                number, loaded = guide.load(bytes(card))
                self.assertEqual(number, 9 if atom >= atoms else 0)
                if number == 0:
                    self.assertEqual(loaded[at // 64], cards.atoms_set(atom))

    def test_place(self):
        """An edition 2 place by hand: beliefs at 12, goals at 44, the plan at 76."""
        held = configuration((0, 127, 128), (255,), (3, 0), 1, 0x102)
        place = bytes.fromhex("3350 0200 0200 4C00 0100 0201")
        place += b"\x01" + bytes(14) + b"\x80\x01" + bytes(15) + bytes(31) + b"\x80" + b"\x03\0"
        self.assertEqual(guide.save(HIGH, held, 78), (0, place))
        self.assertEqual(guide.save(HIGH, held, 77), (12, b""))
        self.assertEqual(guide.restore(HIGH, place), (0, held))

    def test_longest(self):
        """The longest place is 1,100 bytes, the longest card 32,352; the program reads one
        byte more."""
        card = cards.card(cards.maximal_of_edition_2())
        held = guide.load(card)[1]
        self.assertEqual(len(guide.save(card, held, 1100)[1]), 1100)
        self.assertEqual((len(card), program.INPUT_LIMIT), (32352, 32353))


class Atoms(unittest.TestCase):
    """Atoms from 128 on."""

    def test_no_edition_of_a_configuration(self):
        """ "An atom unknown to the card": from 128 on under each card of edition 1."""
        for atom in range(128, 256):
            for held in (configuration((atom,)), configuration((), (atom,))):
                self.assertEqual(guide.run(STRIPE, held, 1), (13, held, 0, 0))
                self.assertEqual(guide.run(HIGH, held, 0)[0], 0)

    def test_same_moves(self):
        """The stripe card of edition 2 moves as that of edition 1 does."""
        held = guide.load(STRIPE)[1]
        self.assertEqual(guide.load(WIDE_STRIPE)[1], held)
        for budget in range(8):
            self.assertEqual(guide.run(WIDE_STRIPE, held, budget), guide.run(STRIPE, held, budget))
        lines = program.lines(WIDE_STRIPE)
        self.assertEqual((lines[0], lines[1:]), ("card 383 bounded", program.lines(STRIPE)[1:]))

    def test_same_moves_by_other_names(self):
        """A card whose atoms are anywhere among up to 256 has the same moves."""
        random = Random("names of atoms")
        for _ in range(150):
            plain = cards.in_edition(cards.nested_card(random), 2)
            spread = cards.copied(plain)
            cards.spread(random, spread)
            first, second = cards.card(plain), cards.card(spread)
            for budget in (0, 1, 2, 5, 40):
                found = [guide.run(card, guide.load(card)[1], budget) for card in (first, second)]
                self.assertEqual(found[0][2:], found[1][2:])
                self.assertEqual(found[0][1][2:], found[1][1][2:])

    def test_prints(self):
        """ "A printed condition of an edition 2 card still reads as the same tree." """
        self.assertEqual(text.print_node(HIGH, 4, 99), (0, b"B128&B100"))
        self.assertEqual(text.print_node(HIGH, 7, 99), (0, b"G255|G127"))


class Met(unittest.TestCase):
    """What the cases hold of edition 2."""

    def test_half_of_the_cases(self):
        """About half of the good cards by seed are of edition 2, half of these with atoms
        from 128 on; and so are those that damages start from."""
        random, met = Random("half"), Counter()
        for _ in range(600):
            description = cards.good_card(random)
            met[description.layout, description.atoms > 128] += 1
            met["roomy", cards.roomy_card(random, 700).layout] += 1
        for one in ((1, False), ("roomy", 1), ("roomy", 2)):
            self.assertGreater(met[one], 220, met)
        self.assertGreater(min(met[2, False], met[2, True]), 80, met)

    def test_stored(self):
        """Each number that each call can answer of a card, for cards that say either
        edition; atoms from 128 on in what is taken."""
        met, high = set(), Counter()
        for case in stored.stored_cases():
            for request in case.requests:
                if len(case.card) < 4 or request[0] in (drill.TEXT,):
                    continue
                number = guide.number(drill.answer(case.card, request), 0)
                met.add((request[0], guide.number(case.card, 2), number))
                if request[0] in cases.CALLS_ON_CONFIGURATIONS and number == 0:
                    held = cases.read_about(request)[1]
                    high[request[0]] += any(held.beliefs[16:] + held.goals[16:])
        for edition in (1, 2):
            for kind in (drill.CHECK, drill.LOAD, drill.GRADE, drill.RESTORE):
                numbers = {number for call, said, number in met if (call, said) == (kind, edition)}
                self.assertLessEqual(set(range(10)) - {2}, numbers, (kind, edition))
            asked = (drill.TAKE, {0, 11, 13, 14, 15, 16}), (drill.RUN, {0, 13}), (drill.SAVE, {0, 12, 13})
            for kind, others in asked:
                numbers = {number for call, said, number in met if (call, said) == (kind, edition)}
                self.assertLessEqual(others, numbers, (kind, edition))
        self.assertGreater(min(high[kind] for kind in cases.CALLS_ON_CONFIGURATIONS), 10, high)

    def test_other_editions(self):
        """Each edition that is none is said by some card and by some place."""
        said = {guide.number(case.card, 2) for case in stored.stored_cases() if len(case.card) >= 4}
        self.assertLessEqual({0, 1, 2, 3, 256, 257, 258}, said)
        names = {one.name for one in damage.PLACE_DAMAGES}
        self.assertLessEqual({"place mark: edition %d" % one for one in (0, 3, 256, 257, 258)}, names)


if __name__ == "__main__":
    unittest.main()
