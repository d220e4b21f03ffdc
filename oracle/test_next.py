"""Tests of the guide's own next move: by hand, against a run with budget 1, against the list
and the takes of it, and taken move after move."""

import unittest
from collections import Counter
from random import Random

import cards
import cases
import damage
import drill
import guide
import next_moves
from guide import FULL, MOVE, REST


def some_held(seed, count, largest=700):
    """Configurations of so many good cards by seed, each in every phase."""
    for index in range(count):
        random = Random("%s %d" % (seed, index))
        if index % 3 == 0:
            card = cases.growing_card(random, largest)
        else:
            card = cards.card(cards.good_card(random, largest))
        _, accepted = guide.judge(card)
        for held in cases.next_configurations(random, card, accepted):
            for phase in guide.KINDS:
                yield card, held._replace(phase=phase)


def next_by_list(card, held):
    """The next move by the list of enabled choices and by taking it: of the first kind from
    the phase on that is in the list, the lowest."""
    _, _, codes = guide.list_choices(card, held, 1024)
    if not codes:
        return 0, REST, 0
    code = min(codes, key=lambda code: ((code // 256 - held.phase) % 3, code % 256))
    return 0, {0: MOVE, 11: FULL}[guide.take(card, held, code)[0]], code


class ByHand(unittest.TestCase):
    """The next moves of `next_moves.py`."""

    def test_by_hand(self):
        """Each is told as is written beside it."""
        for one in next_moves.BY_HAND:
            self.assertEqual(guide.next_move(one.card, one.held), one[3:], one.name)

    def test_not_the_lowest_choice(self):
        """Where a revision is tried first, it is told though an action's code is lower."""
        one = next_moves.PHASES[2]
        _, _, codes = guide.list_choices(one.card, one.held, 9)
        self.assertEqual((codes[0], one.code), (256, 515))

    def test_full_though_others_fit(self):
        """Full is told of the revision that does not fit, though others would."""
        for one in next_moves.LENGTHS:
            if one.ending == FULL:
                _, _, codes = guide.list_choices(one.card, one.held, 9)
                taken = {code: guide.take(one.card, one.held, code)[0] for code in codes}
                self.assertEqual(taken.pop(one.code), 11)
                self.assertIn(0, taken.values())


class Laws(unittest.TestCase):
    """The next move held against the other calls."""

    def test_run_with_budget_1(self):
        """A run with budget 1 takes just this move, or ends as it is told; each ending is
        met in each phase, moves of each kind, and plans of 1,000 and more that overflow."""
        endings, kinds, long = Counter(), Counter(), 0
        for card, held in some_held("run", 300):
            number, ending, code = guide.next_move(card, held)
            found = guide.run(card, held, 1)
            self.assertEqual(number, 0)
            endings[ending, held.phase] += 1
            if ending == MOVE:
                number, _, moved = guide.take(card, held, code)
                self.assertEqual(found, (number, moved, 1, guide.SPENT))
                kinds[code // 256] += 1
            else:
                self.assertEqual(found, (0, held, 0, ending))
                self.assertEqual(code == 0, ending == REST)
                long += ending == FULL and held.length >= 1000
        self.assertGreater(min(endings[ending, phase] for ending in range(3) for phase in range(3)), 30)
        self.assertGreater(min(kinds[kind] for kind in guide.KINDS), 100, kinds)
        self.assertGreater(long, 100)

    def test_list_and_take(self):
        """It is the choice that the list, the phase and the takes give."""
        lower = 0
        for card, held in some_held("list", 200):
            found = guide.next_move(card, held)
            self.assertEqual(found, next_by_list(card, held))
            _, _, codes = guide.list_choices(card, held, 1024)
            lower += found[1] == MOVE and codes[0] < found[2]
        self.assertGreater(lower, 50)

    def test_taken_move_after_move(self):
        """Taking what is told, move after move, with saves and restores anywhere, is one
        run; where no move is told, the run ends so."""
        random, met = Random("moves"), Counter()
        for card, held in some_held("app", 60):
            here, count = held, 0
            while count < 25:
                _, ending, code = guide.next_move(card, here)
                if ending != MOVE:
                    break
                number, _, here = guide.take(card, here, code)
                self.assertEqual(number, 0)
                count += 1
                self.assertEqual(guide.run(card, held, count), (0, here, count, guide.SPENT))
                if random.random() < 0.3:
                    place = guide.save(card, here, 2048)[1]
                    self.assertEqual(guide.restore(card, place), (0, here))
            else:
                ending = guide.SPENT
            self.assertEqual(guide.run(card, held, 25), (0, here, count, ending))
            met[ending] += 1
        self.assertGreater(min(met[ending] for ending in range(3)), 20, met)

    def test_refusals(self):
        """1 to 9, 13 and no others, in this order, with ending 0 and code 0."""
        random = Random("refusals")
        for _ in range(30):
            description = cards.roomy_card(random, 700)
            card = cards.card(description)
            _, accepted = guide.judge(card)
            held = cases.random_configuration(random, accepted)
            for one in damage.CONFIGURATION_DAMAGES:
                wrong = one.change(random, accepted, held)
                if wrong is not None:
                    self.assertEqual(guide.next_move(card, wrong), (13, 0, 0), one.name)
            for number in range(1, 10):
                refused = random.choice(damage.damages_of(number))
                other = damage.damaged_card(random, description, refused)
                for here in (held, held._replace(phase=3)):
                    self.assertEqual(guide.next_move(other, here), (number, 0, 0))

    def test_every_number(self):
        """On the card with 256 entries of each kind each code can be told."""
        card = cards.card(cards.maximal_card())
        _, accepted = guide.judge(card)
        random, told = Random("maximal"), set()
        for _ in range(200):
            held = cases.random_configuration(random, accepted)
            found = guide.next_move(card, held)
            self.assertEqual(found, next_by_list(card, held))
            told.add(found[2] // 256)
        self.assertGreater(len(told), 1)


class BySeed(unittest.TestCase):
    """The cases of next moves by seed."""

    def test_same_seed_same_bytes(self):
        """The same seed gives the same bytes, another seed others."""
        one = list(cases.generate_next(7, 90, 700))
        self.assertEqual(one, list(cases.generate_next(7, 90, 700)))
        self.assertEqual(one[:3], list(cases.generate_next(7, 400, 700))[:3])
        self.assertNotEqual(one, list(cases.generate_next(8, 90, 700)))

    def test_just_as_many(self):
        """So many next moves, and as many runs with budget 1."""
        for count in (0, 1, 5, 90):
            made = [request for case in cases.generate_next(3, count, 700) for request in case.requests]
            self.assertEqual(Counter(request[0] for request in made)[drill.NEXT], count)
            self.assertEqual(Counter(request[0] for request in made)[drill.RUN], count)

    def test_what_is_met(self):
        """Each number, each ending, each kind of move, and in each phase; of the full ones
        plans of 1,000 and more; plans in the middle."""
        numbers, endings, kinds, sizes = Counter(), Counter(), Counter(), Counter()
        for case in cases.generate_next(1, 2500, 700):
            self.assertLessEqual(len(case.card), 700)
            for request in case.requests:
                if request[0] != drill.NEXT:
                    continue
                held = cases.read_next(request)
                number, ending, code = guide.next_move(case.card, held)
                numbers[number] += 1
                if number == 0:
                    endings[ending, held.phase] += 1
                    sizes[ending, held.length >= 1000] += 1
                    if ending == MOVE:
                        kinds[code // 256] += 1
        self.assertLessEqual({0, 1, 2, 3, 4, 6, 7, 13}, set(numbers), numbers)
        self.assertGreater(numbers[13], 100)
        for phase in guide.KINDS:
            self.assertGreater(min(endings[MOVE, phase], endings[REST, phase]), 60, endings)
        self.assertGreater(sum(endings[FULL, phase] for phase in guide.KINDS), 100, endings)
        self.assertGreater(min(kinds[kind] for kind in guide.KINDS), 100, kinds)
        self.assertGreater(min(sizes[MOVE, True], sizes[FULL, True], sizes[REST, True]), 30, sizes)


if __name__ == "__main__":
    unittest.main()
