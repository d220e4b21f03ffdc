"""Tests of request 10 ("no dead button on bounded cards"): by hand, against the old calls,
the order of 22 among the others, and that 11 and "full" do not arise."""

import struct
import unittest
from collections import Counter
from random import Random
from unittest import mock

import bounded
import cards
import cases
import damage
import drill
import guide
import stored
import weighed


def is_bounded(card, held):
    """Whether the calls for bounded cards take this, read from the card's bytes: each
    occurrence of an action in the plan brings its weight."""
    at = guide.edition_of(card).card_header
    weight = sum(struct.unpack_from("<H", card, at + 2 * held.plan[k])[0] for k in range(held.length))
    return guide.grade(card)[1:] == (0, 0, 0) and weight < 1025


def some_held(seed, count, largest=700):
    """Configurations of so many good cards by seed, bounded ones and open ones."""
    for index in range(count):
        random = Random("%s %d" % (seed, index))
        card = weighed.some_card(random, largest)
        _, accepted = guide.judge(card)
        held = cases.weighed_configurations(random, accepted)
        for one in held + cases.some_configurations(random, card, accepted):
            yield random, card, accepted, one


class ByHand(unittest.TestCase):
    """The takes and runs of `weighed.py`."""

    def test_takes(self):
        """Each answers what is written beside it."""
        for one in weighed.ALL_TAKES:
            self.assertEqual(bounded.take(one.card, one.held, one.choice), one[4:], one.name)

    def test_runs(self):
        """Each answers what is written beside it."""
        for one in weighed.ALL_RUNS:
            self.assertEqual(bounded.run(one.card, one.held, one.budget), one[4:], one.name)

    def test_weights(self):
        """The plans by hand weigh what their names say."""
        for card, plan, weight in (
            (weighed.STRIPE, weighed.JUST_LIGHT, 1024),
            (weighed.STRIPE, weighed.JUST_HEAVY, 1025),
            (weighed.STRIPE, (0,) * 1022 + (3,), 1025),
            (weighed.JUST_BOUNDED, (4,) * 64, 65536),
            (weighed.JUST_BOUNDED, (4,) * 65, 66560),
            (weighed.LONG_BODY, (0,) * 1023, 1023),
        ):
            self.assertEqual(guide.weigh(guide.judge(card)[1], plan), weight)

    def test_cards(self):
        """The bounded cards, and each open one with its offender."""
        for card, verdict in (
            (weighed.JUST_BOUNDED, (0, 0, 0, 0)),
            (weighed.LONG_BODY, (0, 0, 0, 0)),
            (weighed.OPEN_INITIAL_PLAN, (0, 1, 1, 0)),
            (weighed.OPEN_SELECTION, (0, 1, 2, 0)),
            (weighed.OPEN_REVISION, (0, 1, 3, 1)),
        ):
            self.assertEqual(guide.grade(card), verdict)

    def test_what_cannot_arise(self):
        """Were an open card let in, 11 and "full" would end the oracle."""
        held = weighed.configuration((), (), (3,) * 1024, 2)
        card = weighed.finished.EMPTYING
        with mock.patch.object(bounded, "judge_bounded", return_value=0):
            self.assertRaises(bounded.CannotArise, bounded.take, card, held, 514)
            self.assertRaises(bounded.CannotArise, bounded.run, card, held, 1)


class AgainstTheOldCalls(unittest.TestCase):
    """ "22 the card is open or the plan too heavy, after 13", and else the old answers."""

    def test_takes_and_runs(self):
        """Each choice's answer is that of the old call, and so is a run's; or it is 22 with
        the configuration as it came in. 11 and "full" are met in the old calls only."""
        met = Counter()
        for random, card, accepted, held in some_held("old", 150):
            good = is_bounded(card, held)
            codes = damage.choices(accepted) + damage.wrong_choices(accepted)
            for code in random.sample(codes, min(len(codes), 12)):
                old = guide.take(card, held, code)
                expected = old if good else (22, 0, held)
                self.assertEqual(bounded.take(card, held, code), expected)
                met[good, old[0]] += 1
            for budget in (0, 1, 2, 40):
                old = guide.run(card, held, budget)
                expected = old if good else (22, held, 0, 0)
                self.assertEqual(bounded.run(card, held, budget), expected)
                met[good, "ending", old[3]] += 1
        for number in (0, 14, 15, 16):
            self.assertGreater(min(met[True, number], met[False, number]), 60, met)
        for ending in (guide.SPENT, guide.REST):
            self.assertGreater(min(met[True, "ending", ending], met[False, "ending", ending]), 60, met)
        self.assertEqual((met[True, 11], met[True, "ending", guide.FULL]), (0, 0))

    def test_demand_3(self):
        """ "No run of more than W transitions without a plan selection exists, whoever
        chooses", and none "ever meets a plan too long"."""
        walked = 0
        for random, card, accepted, held in some_held("walks", 120):
            if not is_bounded(card, held):
                continue
            left = guide.weigh(accepted, held.plan[:held.length])
            for _ in range(60):
                codes = guide.list_choices(card, held, 1024)[2]
                if not codes:
                    break
                code = random.choice(codes)
                number, _, held = bounded.take(card, held, code)
                self.assertEqual(number, 0)
                weight = guide.weigh(accepted, held.plan[:held.length])
                self.assertTrue(weight < left or code < 256)
                left = weight
                walked += 1
        self.assertGreater(walked, 2000)

    def test_order(self):
        """1 to 9 before 13, and 13 before 22, of bounded and of open cards."""
        random, met = Random("order"), Counter()
        for _ in range(40):
            description = cards.roomy_card(random, 700)
            random.choice((cards.temper_bounded, cards.temper_growing))(random, description)
            card = cards.card(description)
            _, accepted = guide.judge(card)
            held = cases.random_configuration(random, accepted)
            for one in damage.CONFIGURATION_DAMAGES:
                wrong = one.change(random, accepted, held)
                if wrong is not None:
                    self.assertEqual(bounded.take(card, wrong, 0), (13, 0, wrong), one.name)
                    self.assertEqual(bounded.run(card, wrong, 1), (13, wrong, 0, 0), one.name)
                    met[is_bounded(card, held)] += 1
            for number in range(1, 10):
                refused = random.choice(damage.damages_of(number))
                other = damage.damaged_card(random, description, refused)
                for here in (held, held._replace(phase=3)):
                    self.assertEqual(bounded.take(other, here, 0), (number, 0, here))
                    self.assertEqual(bounded.run(other, here, 1), (number, here, 0, 0))
        self.assertGreater(min(met[True], met[False]), 100, met)


class Weighing(unittest.TestCase):
    """Plans that weigh just so much."""

    def test_plans(self):
        """They weigh just that, and the card takes them."""
        random, met = Random("weighing"), Counter()
        for _ in range(80):
            card = weighed.some_card(random, 700)
            _, accepted = guide.judge(card)
            for weight in weighed.WEIGHTS:
                held = weighed.weighing(random, accepted, weight)
                if held is not None:
                    self.assertEqual(guide.weigh(accepted, held.plan[:held.length]), weight)
                    self.assertFalse(guide.configuration_is_wrong(held, accepted))
                    met[weight] += 1
        self.assertGreater(min(met[weight] for weight in weighed.WEIGHTS), 20, met)


class BySeed(unittest.TestCase):
    """The cases of bounded cards by seed."""

    def test_same_seed_same_bytes(self):
        """The same seed gives the same bytes, another seed others."""
        one = list(cases.generate_bounded(7, 30, 700))
        self.assertEqual(one, list(cases.generate_bounded(7, 30, 700)))
        self.assertEqual(one[:9], list(cases.generate_bounded(7, 9, 700)))
        self.assertNotEqual(one, list(cases.generate_bounded(8, 30, 700)))

    def test_what_is_met(self):
        """Each number of each kind of choice, runs spent and at rest, plans of just 1,024 and
        1,025, 22 by each offender and by the plan alone, and 22 in place of each other
        number."""
        numbers, edges, reasons, instead = Counter(), Counter(), Counter(), Counter()
        for case in cases.generate_bounded(1, 250, 700):
            self.assertLessEqual(len(case.card), 700)
            _, accepted = guide.judge(case.card)
            for request in case.requests:
                kind, held, value = cases.read_about(request)
                call, old = {13: (bounded.take, guide.take), 14: (bounded.run, guide.run)}[kind]
                found = call(case.card, held, value)
                sort = value // 256 if kind == drill.BOUNDED_TAKE else "run %d" % found[3]
                numbers[found[0], sort] += 1
                if found[0] in (0, 22):
                    edges[found[0], guide.weigh(accepted, held.plan[:held.length])] += 1
                if found[0] == 22:
                    reasons[guide.first_offender(accepted)[0]] += 1
                    instead[kind, old(case.card, held, value)[0 if kind == 13 else 3]] += 1
        for kind in guide.KINDS:
            for number in (0, 13, 14, 15, 16, 22):
                self.assertGreater(numbers[number, kind], 20, (number, kind))
        self.assertGreater(min(numbers[0, "run 0"], numbers[0, "run 1"]), 200)
        self.assertGreater(min(edges[0, 1024], edges[22, 1024], edges[22, 1025]), 100, edges)
        self.assertGreater(min(edges[22, 65536], edges[22, 66560], edges[0, 0]), 50, edges)
        self.assertEqual(edges[0, 1025], 0)
        self.assertGreater(min(reasons[offender] for offender in range(4)), 100, reasons)
        self.assertGreater(min(instead[13, number] for number in (0, 11, 14, 15, 16)), 10, instead)
        self.assertGreater(min(instead[14, ending] for ending in range(3)), 5, instead)


@unittest.skipUnless(10 in drill.LANDED, "the drill has no request 10 yet")
class Stored(unittest.TestCase):
    """The stored requests of request 10."""

    def test_by_hand(self):
        """Each take and each run by hand is asked for, and answered as is written beside
        it."""
        found = {}
        for case in stored.bounded_by_hand():
            for request in case.requests:
                kind, held, value = cases.read_about(request)
                found[case.card, kind, held, value] = drill.answer(case.card, request)
        for one in weighed.ALL_TAKES:
            expected = drill.two(one.number) + drill.two(one.node) + drill.image(one.after)
            answer = found[one.card, drill.BOUNDED_TAKE, one.held, one.choice]
            self.assertEqual(answer, expected, one.name)
        for one in weighed.ALL_RUNS:
            expected = drill.two(one.number) + drill.image(one.after)
            expected += drill.two(one.count) + bytes([one.ending])
            answer = found[one.card, drill.BOUNDED_RUN, one.held, one.budget]
            self.assertEqual(answer, expected, one.name)

    def test_configurations(self):
        """Each clause of 13 is 13 under the open card, too, and each range is not."""
        for name, card in (("bounded", stored.STRIPE), ("open", weighed.OPEN_REVISION)):
            case = stored.bounded_configurations(name, card)
            answers = [drill.answer(card, request) for request in case.requests]
            numbers = Counter(guide.number(answer, 0) for answer in answers)
            self.assertGreater(numbers[13], 2 * len(damage.CONFIGURATION_DAMAGES) - 8)
            self.assertGreater(len(answers) - numbers[13], 2 * len(damage.CONFIGURATION_RANGES) - 8)
            self.assertEqual(numbers[22] + numbers[13] == len(answers), name == "open", numbers)


if __name__ == "__main__":
    unittest.main()
