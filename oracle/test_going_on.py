"""Tests of going on: the numbers by hand, their bound in both directions, deliberations cut
at every place, and the call held against the deliberation of one piece and against terms."""

import itertools
import unittest
from collections import Counter
from random import Random

import broken
import cards
import cases
import cuts
import damage
import deliberation
import drill
import gone_on
import guide
import programs
import terms
from deliberation import FINISHED, FULL, SPENT, STUCK, deliberate, go_on, numbers_are_wrong
from test_deliberation import some_runs


def some_goings(seed, count, largest=700):
    """The requests 21 of so many deliberations that are cut: the card, and what is asked."""
    for case in cases.generate_cuts(seed, count, largest):
        for request in case.requests:
            if request[0] == drill.GO_ON:
                yield case.card, *cases.read_go_on(request)


class ByHand(unittest.TestCase):
    """The deliberations of `gone_on.py`."""

    def comes_to(self, one):
        """It comes to what is written beside it."""
        found = go_on(one.card, one.program, one.numbers, one.held, one.budget)
        expected = (one.number, one.after, one.count, one.ending, list(one.remaining))
        self.assertEqual(found, expected, one.name)

    def test_by_hand(self):
        """Each comes to what is written beside it; each ending is met."""
        for one in gone_on.BY_HAND:
            self.comes_to(one)
        met = {one.ending for one in gone_on.BY_HAND if one.number == 0}
        self.assertEqual(met, {SPENT, FINISHED, STUCK, FULL})

    def test_traces_cut_at_every_place(self):
        """The programs by hand gone on with from each of their moves to each later one."""
        for trace in programs.TRACES:
            for one in gone_on.each_cut(trace):
                self.comes_to(one)

    def test_as_terms(self):
        """Where the term is small enough, it comes to the same."""
        seen = 0
        for one in gone_on.BY_HAND:
            if one.number == 0 and max(terms.sizes(one.program)) <= terms.LARGEST:
                _, accepted = guide.judge(one.card)
                term = terms.of_numbers(one.program, one.numbers)
                met, ending, left = terms.run(accepted, term, one.held, one.budget)
                self.assertEqual((len(met) - 1, ending), (one.count, one.ending), one.name)
                self.assertEqual(met[-1], terms.state_of(one.after), one.name)
                self.assertEqual(tuple(terms.numbers(left)), one.remaining, one.name)
                seen += 1
        self.assertGreater(seen, 20)

    def test_nested_whiles_cut_at_every_place(self):
        """65 whiles, each in the next: cut at every place, they are one deliberation."""
        whole, held = programs.program(gone_on.NESTED), programs.zeros(2)
        one = deliberate(programs.SHED, whole, held, 65535)
        self.assertEqual(one[2:], (133, FINISHED, []))
        most = 0
        for cut in range(one[2] + 1):
            _, here, count, ending, left = deliberate(programs.SHED, whole, held, cut)
            self.assertEqual((count, ending), (cut, SPENT))
            most = max(most, len(left))
            rest = go_on(programs.SHED, whole, left, here, 65535 - cut)
            self.assertEqual((rest[0], rest[1], cut + rest[2], *rest[3:]), one)
        self.assertEqual(most, 66)


    def test_long_ones(self):
        """65,535 idle moves, cut near both ends and in the middle."""
        whole, held = programs.program(programs.IDLE_SEQUENCES), programs.zeros(0)
        one = deliberate(programs.SHED, whole, held, 65535)
        self.assertEqual(one, (0, held, 65535, SPENT, [1, *range(17, 127)]))
        for cut in (1, 255, 256, 32768, 65534):
            _, here, _, _, left = deliberate(programs.SHED, whole, held, cut)
            rest = go_on(programs.SHED, whole, left, here, 65535 - cut)
            self.assertEqual((rest[0], rest[1], cut + rest[2], *rest[3:]), one)


class Bound(unittest.TestCase):
    """ "Each, plus how many stand behind it, is below the number of entries"."""

    def test_small_ones(self):
        """Of up to four entries, all numbers up to six: right are none, and a number before
        right ones that is, with how many these are, below the number of entries."""
        for entries in range(1, 5):
            right = {()}
            for _ in range(6):
                right |= {
                    (first, *behind)
                    for behind in right
                    for first in range(7)
                    if first + len(behind) < entries
                }
            for count in range(7):
                for numbers in itertools.product(range(min(7, entries + 2)), repeat=min(count, 5)):
                    self.assertEqual(numbers_are_wrong(numbers, entries), numbers not in right)

    def test_one_off(self):
        """Of 1 to 128 entries and numbers: the highest are right, and with any one of them
        one higher they are wrong; and so they are with one more of them."""
        for entries in (1, 2, 3, 64, 65, 66, 127, 128):
            for count in {1, 2, entries // 2 + 1, entries}:
                numbers = cuts.highest(min(count, entries), entries)
                self.assertFalse(numbers_are_wrong(numbers, entries))
                for at in range(len(numbers)):
                    higher = numbers[:at] + [numbers[at] + 1] + numbers[at + 1:]
                    self.assertTrue(numbers_are_wrong(higher, entries))
                self.assertTrue(numbers_are_wrong(numbers + [0], entries))
                self.assertTrue(numbers_are_wrong(numbers[:1] + numbers, entries))
                self.assertFalse(numbers_are_wrong(numbers[1:], entries))

    def test_how_many(self):
        """128 numbers of 128 entries; never 129, and none of them wraps around."""
        self.assertFalse(numbers_are_wrong([0] * 128, 128))
        self.assertFalse(numbers_are_wrong(list(range(128)), 128))
        for entries in (1, 2, 127, 128):
            for count in (entries + 1, 129, 255, 256, 257, 384, 511, 512):
                self.assertTrue(numbers_are_wrong([0] * count, entries))
        for behind in range(1, 128):
            self.assertTrue(numbers_are_wrong([256 - behind] + [0] * behind, 128))

    def test_changes(self):
        """Each way to break the bound is refused with 19, and each that just keeps it is
        not, for programs of every length."""
        random, held = Random("numbers"), programs.zeros(3)
        for entries in range(1, 129):
            whole = programs.program([programs.EXECUTE] * entries)
            for one in cuts.NUMBER_DAMAGES + cuts.NUMBER_RANGES:
                numbers = one.change(random, entries)
                if numbers is None:
                    self.assertNotIn(one, cuts.NUMBER_RANGES)
                    continue
                found = go_on(programs.SHED, whole, numbers, held, 0)
                expected = [] if one.number else list(numbers)
                self.assertEqual(found, (one.number, held, 0, SPENT, expected), one.name)

    def test_every_answer_is_accepted(self):
        """What a done call answers is accepted by the next, numbers and configuration;
        there are no more of them than entries."""
        most = 0
        for card, whole, numbers, held, budget in some_goings("accepted", 300):
            number, reached, _, _, left = go_on(card, whole, numbers, held, budget)
            if number == 0:
                self.assertEqual(deliberation.judge(card, whole, reached, left)[0], 0)
                self.assertLessEqual(len(left), len(whole) // 4)
                most = max(most, len(left))
        self.assertGreater(most, 100)


class Order(unittest.TestCase):
    """19 of numbers "in its place": after the card's 1 to 9 and a program's 19, before 13."""

    def test_order(self):
        """Broken cards, programs, numbers and configurations, each with all that come after
        it. A refusal: count 0, ending 0, no numbers, the configuration as it came in."""
        random, held, wrong = Random("order"), programs.zeros(2), programs.zeros(2)._replace(phase=3)
        _, accepted = guide.judge(programs.SHED)
        good = programs.program(gone_on.FOUR)
        for one in broken.PROGRAM_DAMAGES:
            bad = one.change(random, accepted, gone_on.FOUR)
            for numbers, here in itertools.product(((), (0,), (3,), (200,)), (held, wrong)):
                self.assertEqual(go_on(programs.SHED, bad, numbers, here, 5), (19, here, 0, 0, []))
        for one in cuts.NUMBER_DAMAGES:
            numbers = one.change(random, 4)
            for here in (held, wrong):
                found = go_on(programs.SHED, good, numbers, here, 5)
                self.assertEqual(found, (19, here, 0, 0, []), one.name)
        for one in cuts.NUMBER_RANGES:
            found = go_on(programs.SHED, good, one.change(random, 4), wrong, 5)
            self.assertEqual(found, (13, wrong, 0, 0, []), one.name)
        for number in range(1, 10):
            refused = random.choice(damage.damages_of(number))
            card = damage.damaged_card(random, cards.roomy_card(random, 700), refused)
            for whole, numbers in ((good, (3,)), (good, (4,)), (b"", ())):
                self.assertEqual(go_on(card, whole, numbers, wrong, 5), (number, wrong, 0, 0, []))


class Laws(unittest.TestCase):
    """Going on held against the deliberation of one piece."""

    def test_last_entry_alone(self):
        """Going on with the last entry's number alone is `deliberate`: request 21 with it
        answers what request 11 does, byte for byte, refusals too."""
        random, numbers = Random("alone"), Counter()
        for case in cases.generate_programs("alone", 150, 700):
            for request in case.requests:
                whole, held, budget = cases.read_deliberate(request)
                last = [len(whole) // 4 - 1] if 4 <= len(whole) <= 512 else [0]
                other = cases.request_go_on(random, whole, last, held, budget)
                answer = drill.answer(case.card, request)
                self.assertEqual(drill.answer(case.card, other), answer)
                numbers[guide.number(answer, 0)] += 1
        self.assertGreater(min(numbers[0], numbers[13], numbers[19]), 50)

    def test_none(self):
        """No numbers are accepted with any good program: spent with budget 0, else
        finished, and nothing moves."""
        for card, _, whole, held, _ in some_runs("none", 40):
            self.assertEqual(go_on(card, whole, [], held, 0), (0, held, 0, SPENT, []))
            for budget in (1, 2, 65535):
                self.assertEqual(go_on(card, whole, [], held, budget), (0, held, 0, FINISHED, []))

    def test_cut_at_every_place(self):
        """Deliberate with budget j, save, restore, go on with k is one deliberation with
        j + k, at every place j and with every k up to its end and one more."""
        for card, _, whole, held, _ in some_runs("cut", 14):
            most = deliberate(card, whole, held, 12)[2]
            for cut in range(most + 1):
                number, here, count, ending, left = deliberate(card, whole, held, cut)
                self.assertEqual((number, count, ending), (0, cut, SPENT))
                place = guide.save(card, here, 2048)[1]
                self.assertEqual(guide.restore(card, place), (0, here))
                for more in range(1, most - cut + 2):
                    rest = go_on(card, whole, left, here, more)
                    one = deliberate(card, whole, held, cut + more)
                    self.assertEqual((rest[0], rest[1], cut + rest[2], *rest[3:]), one)

    def test_move_by_move(self):
        """Gone on with after every move, a deliberation is the same as in one."""
        for card, _, whole, held, _ in some_runs("moves", 40):
            one = deliberate(card, whole, held, 40)
            here, left, count = held, [len(whole) // 4 - 1], 0
            for _ in range(one[2]):
                _, here, moved, ending, left = go_on(card, whole, left, here, 1)
                self.assertEqual((moved, ending), (1, SPENT))
                count += moved
            last = go_on(card, whole, left, here, 40 - count)
            self.assertEqual((*last[:2], count + last[2], *last[3:]), one)

    def test_ended_stays_ended(self):
        """What has finished, is stuck or is full does so again, and nothing moves."""
        met = Counter()
        for card, _, whole, held, _ in some_runs("ended", 60):
            _, here, _, ending, left = deliberate(card, whole, held, 300)
            if ending != SPENT:
                for budget in (1, 65535):
                    self.assertEqual(go_on(card, whole, left, here, budget), (0, here, 0, ending, left))
                met[ending] += 1
        self.assertGreater(min(met[ending] for ending in (FINISHED, STUCK, FULL)), 10, met)

    def test_two_ways(self):
        """Over any numbers, those that no deliberation leaves too, the call is held against
        the meta-level transitions of the term that they stand for."""
        seen, endings = 0, Counter()
        for card, whole, numbers, held, budget in some_goings("two ways", 500):
            number, accepted = deliberation.judge(card, whole, held, numbers)
            if number != 0:
                continue
            sizes = terms.sizes(whole)
            if sum(sizes[own] for own in numbers) > terms.LARGEST:
                continue
            budget = min(budget, 50)
            _, reached, count, ending, left = go_on(card, whole, numbers, held, budget)
            term = terms.of_numbers(whole, numbers)
            met, expected, remains = terms.run(accepted, term, held, budget)
            self.assertEqual((count, ending), (len(met) - 1, expected))
            self.assertEqual(terms.state_of(reached), met[-1])
            self.assertEqual(left, terms.numbers(remains))
            seen += 1
            endings[ending] += 1
        self.assertGreater(seen, 400)
        self.assertGreater(min(endings[ending] for ending in range(4)), 10, endings)


class BySeed(unittest.TestCase):
    """The cases of deliberations that are cut, by seed."""

    def test_same_seed_same_bytes(self):
        """The same seed gives the same bytes, another seed others."""
        one = list(cases.generate_cuts(7, 80, 700))
        self.assertEqual(one, list(cases.generate_cuts(7, 80, 700)))
        self.assertEqual(one[:6], list(cases.generate_cuts(7, 40, 700)))
        self.assertNotEqual(one, list(cases.generate_cuts(8, 80, 700)))

    def test_just_as_many(self):
        """Each deliberation that is cut is asked for in one beside its parts: one request 11
        for its first part and one for the whole."""
        for count in (0, 1, 7, 8, 9, 41):
            made = [request for case in cases.generate_cuts(3, count, 700) for request in case.requests]
            whole = [request for request in made if request[0] == drill.DELIBERATE]
            self.assertEqual(len(whole), 2 * count)

    def test_what_is_met(self):
        """Each number, each ending, no, one and many numbers; deliberations of which moves
        are made before and after the cut."""
        numbers, endings, given, cut = Counter(), Counter(), Counter(), 0
        for case in cases.generate_cuts(1, 900, 700):
            self.assertLessEqual(len(case.card), 700)
            before = 0
            for request in case.requests:
                answer = drill.answer(case.card, request)
                number, reader = guide.number(answer, 0), drill.Reader(answer[2:])
                if request[0] == drill.DELIBERATE and number == 0:
                    reader.image()
                    before = reader.number()
                if request[0] == drill.GO_ON:
                    numbers[number] += 1
                    left = cases.read_go_on(request)[1]
                    given[number, min(2, len(left)) + (len(left) > 65)] += 1
                    if number == 0:
                        reader.image()
                        cut += reader.number() > 0 and before > 0
                        endings[reader.byte()] += 1
        self.assertLessEqual({0, 4, 6, 7, 13, 19}, set(numbers))
        self.assertGreater(min(numbers[13], numbers[19]), 20)
        self.assertGreater(min(endings[ending] for ending in range(4)), 30, endings)
        self.assertGreater(min(given[0, sort] for sort in range(4)), 10, given)
        self.assertGreater(min(given[19, sort] for sort in (1, 2, 3)), 20, given)
        self.assertGreater(cut, 300)


if __name__ == "__main__":
    unittest.main()
