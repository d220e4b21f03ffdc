"""Tests of request 8: the sheets by hand, each clause of 20 for both sheets, UTF-8 by two
judges, and what every answer holds to."""

import itertools
import unittest
from collections import Counter
from random import Random

import cards
import cases
import damage
import guide
import names
import sheets
import utf8
import wordings
from closed import STRIPE

THREE = sheets.actions_card(3)
GOOD_NAMES = [b"ab", b"\xc3\xa4", b"cde"]
GOOD = sheets.sheet(GOOD_NAMES)

# Bytes that follow a first byte, and those around which tails begin or end.
BEHIND = bytes.fromhex("00 41 7F 80 8F 90 9F A0 BF C0 C2 ED F4 FF")


class Utf8(unittest.TestCase):
    """Python's decoder held against the grammar of RFC 3629."""

    def same(self, octets):
        """Both judge alike and, where it is UTF-8, read the same code points."""
        points = utf8.decoded(octets)
        self.assertEqual(names.is_utf8(octets), points is not None, octets.hex())
        if points is not None:
            self.assertEqual([ord(one) for one in octets.decode("utf-8")], points)

    def test_one_and_two_bytes(self):
        """All of them."""
        for size in (0, 1, 2):
            for octets in itertools.product(range(256), repeat=size):
                self.same(bytes(octets))

    def test_three_and_four_bytes(self):
        """Every byte before all of those around which a form ends, and more behind."""
        for first in range(256):
            for rest in itertools.product(BEHIND, repeat=2):
                self.same(bytes([first, *rest]))
        for first in wordings.EDGES:
            for rest in itertools.product(BEHIND, repeat=3):
                self.same(bytes([first, *rest]))

    def test_any_bytes(self):
        """Characters, damaged characters and bytes around which forms end."""
        random = Random("any bytes")
        for _ in range(8000):
            name = wordings.some_name(random)
            self.same(name)
            self.same(wordings.nearly(random, name))
            self.same(wordings.edged_name(random) + wordings.edged_name(random))

    def test_characters_by_hand(self):
        """Each code point has the form written beside it, and each wrong one is none."""
        for point, word in sheets.CHARACTERS:
            self.assertEqual(chr(point).encode("utf-8"), bytes.fromhex(word))
            self.assertEqual(utf8.decoded(bytes.fromhex(word)), [point])
        for what, word in sheets.NO_CHARACTERS:
            self.assertFalse(names.is_utf8(bytes.fromhex(word)), what)
            self.assertIsNone(utf8.decoded(bytes.fromhex(word)), what)

    def test_code_points(self):
        """A code point's form is one character of it; a surrogate has none."""
        some = (range(0, 0x3000, 7), range(0xD000, 0x10800, 5), range(0x10800, 0x110000, 97))
        for point in itertools.chain(*some):
            if not 0xD800 <= point <= 0xDFFF:
                self.assertEqual(utf8.decoded(chr(point).encode("utf-8")), [point])
            else:
                self.assertIsNone(utf8.decoded(chr(point).encode("utf-8", "surrogatepass")))


class ByHand(unittest.TestCase):
    """The sheets of `sheets.py`."""

    def test_sheets_laid_out(self):
        """The bytes by hand are those laid out."""
        self.assertEqual(sheets.sheet(sheets.ENGLISH), sheets.MASTER_BYTES)
        self.assertEqual(sheets.sheet(sheets.SWEDISH), sheets.SHED_BYTES)
        self.assertEqual(sheets.sheet([b""] * 5), sheets.NO_NAMES)

    def test_answers(self):
        """Each name has the part written beside it."""
        for one in sheets.BY_HAND:
            self.assertEqual(names.name(*one[:4]), one[4:], one)

    def test_names_of_the_stripe_card(self):
        """What the parts hold: the shed's names, and the master's where these are none."""
        found, shed, master = [], sheets.SHED_BYTES, sheets.MASTER_BYTES
        for action in range(5):
            _, sheet, start, length = names.name(STRIPE, shed, master, action)
            held = (master, shed)[sheet]
            found.append(held[start:start + length].decode("utf-8"))
        self.assertEqual(found, ["v\u00e4v", "spola", "repair", "inslag", "stripe"])


class Refusals(unittest.TestCase):
    """20, 21, and what comes before them."""

    def sheets_of(self, which, held, other):
        """The shed's sheet and the master's."""
        return (held, other) if which else (other, held)

    def test_clauses(self):
        """Each clause alone, in either sheet, for a known action and an unknown one."""
        random = Random("sheets")
        for which, clauses in sheets.CLAUSES.items():
            for one in clauses * 4:
                held = one.change(random, GOOD_NAMES)
                for action in (0, 1, 2, 3, 65535):
                    found = names.name(THREE, *self.sheets_of(which, held, GOOD), action)
                    self.assertEqual(found, (20, which, 0, 0), one.name)

    def test_sheds_before_the_masters(self):
        """With both broken it is the shed's."""
        random = Random("both")
        for one, other in itertools.product(sheets.CLAUSES[1], sheets.CLAUSES[0]):
            held = one.change(random, GOOD_NAMES), other.change(random, GOOD_NAMES)
            self.assertEqual(names.name(THREE, *held, 9), (20, 1, 0, 0))

    def test_cards_first(self):
        """1 to 9 come before 20."""
        random = Random("cards")
        for one in damage.CARD_DAMAGES[::5]:
            card = damage.damaged_card(random, cards.roomy_card(random, 700), one)
            for shed, master, action in ((GOOD, GOOD, 0), (b"x", b"", 65535)):
                self.assertEqual(names.name(card, shed, master, action), (one.number, 0, 0, 0))

    def test_ranges(self):
        """Names of any characters, in either sheet; of the shed's sheet no bytes, and
        empty names."""
        random = Random("name ranges")
        for one in sheets.NAME_RANGES * 3:
            held = one.change(random, GOOD_NAMES)
            for which in (0, 1):
                found = names.name(THREE, *self.sheets_of(which, held, GOOD), 1)
                self.assertEqual(found[:2], (0, 1), one.name)
            self.assertEqual(names.name(THREE, b"", held, 1)[:2], (0, 0), one.name)
        for one in sheets.SHED_RANGES:
            held = one.change(random, GOOD_NAMES)
            self.assertEqual(names.name(THREE, held, GOOD, 3), (21, 0, 0, 0))

    def test_every_small_length(self):
        """The first bytes of a good sheet are none, but for the shed's of no bytes; a
        byte more is none either."""
        for size in range(len(GOOD)):
            self.assertEqual(names.name(THREE, b"", GOOD[:size], 0), (20, 0, 0, 0))
            found = names.name(THREE, GOOD[:size], GOOD, 0)
            self.assertEqual(found, (20, 1, 0, 0) if size else (0, 0, 10, 2))
        self.assertEqual(names.name(THREE, GOOD + b"\0", GOOD, 0), (20, 1, 0, 0))

    def test_longest_sheets(self):
        """A sheet of 65,535 bytes is right; one byte more cannot be said by its last
        offset."""
        longest = wordings.filled_up(Random(1), 3, 65535)
        _, _, start, length = names.name(THREE, b"", longest, 2)
        self.assertEqual(start + length, 65535)
        for rest in (b"w", b"w" * 65536):
            self.assertEqual(names.name(THREE, longest + rest, longest, 2), (20, 1, 0, 0))


def names_in(held, actions):
    """The names of a sheet; None where it is no sheet. A sheet is right exactly if its
    names, laid out, are the sheet again."""
    if len(held) < 2 * actions + 4:
        return None
    numbers = [held[at] + 256 * held[at + 1] for at in range(0, 2 * actions + 4, 2)]
    found = [held[start:end] for start, end in zip(numbers[1:], numbers[2:])]
    if sheets.sheet(found) != held or any(utf8.decoded(one) is None for one in found):
        return None
    return found


class TwoWays(unittest.TestCase):
    """The call held against sheets read another way, and UTF-8 by the grammar."""

    def expected(self, card, shed, master, action):
        """The number, the sheet and the name's bytes, by the words of request 8."""
        refusal, accepted = guide.judge(card)
        if refusal:
            return refusal, 0, b""
        both = names_in(shed, accepted.actions), names_in(master, accepted.actions)
        if shed and both[0] is None:
            return 20, 1, b""
        if both[1] is None or b"" in both[1]:
            return 20, 0, b""
        if action >= accepted.actions:
            return 21, 0, b""
        own = both[0][action] if shed else b""
        return 0, 1 if own else 0, own or both[1][action]

    def test_same_answers(self):
        """The number, the sheet and the bytes of the part; it lies behind the header and
        within the sheet, and is not empty when done."""
        met = Counter()
        for case in cases.generate_names("two ways", 400, 900):
            for request in case.requests:
                shed, master, action = cases.read_name(request)
                number, sheet, start, length = names.name(case.card, shed, master, action)
                held = shed if sheet else master
                found = number, sheet, held[start:start + length]
                self.assertEqual(found, self.expected(case.card, shed, master, action))
                if number == 0:
                    self.assertGreater(length, 0)
                    self.assertLessEqual(start + length, len(held))
                else:
                    self.assertEqual((start, length), (0, 0))
                met[number, sheet] += 1
        for sort in ((0, 0), (0, 1), (20, 0), (20, 1), (21, 0)):
            self.assertGreater(met[sort], 200, met)


class BySeed(unittest.TestCase):
    """The cases of names by seed."""

    def test_same_seed_same_bytes(self):
        """The same seed gives the same bytes, another seed others."""
        one = list(cases.generate_names(7, 30, 700))
        self.assertEqual(one, list(cases.generate_names(7, 30, 700)))
        self.assertEqual(one[:10], list(cases.generate_names(7, 10, 700)))
        self.assertNotEqual(one, list(cases.generate_names(8, 30, 700)))

    def test_what_is_met(self):
        """Each number, no sheet of more than the largest, cards of 256 actions, sheets
        that are the shed's own and none."""
        numbers, counts, none = Counter(), set(), 0
        for case in cases.generate_names(1, 300, 3000):
            self.assertLessEqual(len(case.card), 3000)
            _, accepted = guide.judge(case.card)
            counts.add(accepted and accepted.actions)
            for request in case.requests:
                shed, master, action = cases.read_name(request)
                self.assertLessEqual(max(len(shed), len(master)), 3000)
                numbers[names.name(case.card, shed, master, action)[0]] += 1
                none += shed == b""
        self.assertLessEqual({0, 3, 4, 6, 7, 20, 21}, set(numbers))
        self.assertLessEqual({None, 1, 2, 3, 256}, counts)
        self.assertGreater(min(numbers[0], numbers[20], numbers[21], none), 200)


if __name__ == "__main__":
    unittest.main()
