"""Tests of request 11 ("how much the list looks at"): by hand, and against a count of the
conditions that a listing judges, and of the goals one by one."""

import unittest
from collections import Counter
from random import Random
from unittest import mock

import cards
import cases
import damage
import drill
import guide
import listed
import stored


def judged_by_watching(card, held):
    """How many conditions are judged while the enabled choices are found: each rule's front
    is looked at first, and a selection's goal condition where its belief condition holds."""
    with mock.patch.object(guide, "judged", side_effect=guide.judged) as judged:
        guide.list_choices(card, held, 1024)
    return judged.call_count


def goals_one_by_one(held):
    """How many atoms are goals: "atom k is bit (k modulo 8) of byte (k divided by 8)"."""
    return sum(held.goals[k // 8] >> k % 8 & 1 for k in range(256))


def some_held(seed, count, largest=700):
    """Configurations of so many good cards by seed."""
    for index in range(count):
        random = Random("%s %d" % (seed, index))
        if index % 3 == 0:
            card = cards.card(cards.good_card(random, largest))
        else:
            card = cards.card(listed.crowded_card(random, random.choice((4, 16)), 1 + index % 2))
        _, accepted = guide.judge(card)
        held = cases.some_configurations(random, card, accepted)
        for one in held + [listed.some_held(random, accepted) for _ in range(8)]:
            yield card, accepted, one


class ByHand(unittest.TestCase):
    """The lists of `listed.py`."""

    def test_by_hand(self):
        """Each tells what is written beside it, and lists as many codes."""
        for one in listed.BY_HAND:
            *found, codes = guide.listing(one.card, one.held, one.room)
            self.assertEqual(tuple(found), one[4:], one.name)
            self.assertEqual(len(codes), one.count)

    def test_a_head_past_the_end(self):
        """The head 0 1 2 0 is no prefix of the plan 0 1 2, though the array goes on with 0."""
        held = listed.configuration((), (), (0, 1, 2))
        self.assertTrue(held.plan.startswith(bytes([0, 1, 2, 0])))
        self.assertEqual(guide.take(listed.HEADS, held, 515)[0], 15)
        self.assertEqual(guide.listing(listed.HEADS, held, 9)[2], 8)

    def test_512(self):
        """ "It is at most 512", and the busiest card reaches it with an empty plan and with
        another one."""
        judged = [one.judged for one in listed.BY_HAND if one.card == listed.BUSIEST]
        self.assertEqual(Counter(judged)[512], 4)
        self.assertEqual(max(judged), 512)


class Counted(unittest.TestCase):
    """What is told against counts made another way."""

    def test_conditions_and_goals(self):
        """As many as are judged, 512 at most, and the goals one by one; the choices, the
        count and the number are those of the list without them."""
        met, most = Counter(), 0
        for card, accepted, held in some_held("counted", 250):
            number, count, judged, goals, codes = guide.listing(card, held, 1024)
            self.assertEqual((number, count, codes), guide.list_choices(card, held, 1024))
            self.assertEqual(judged, judged_by_watching(card, held))
            self.assertEqual(goals, goals_one_by_one(held))
            self.assertLessEqual(count, judged)
            met[held.length == 0, judged > count, goals > 0] += 1
            most = max(most, judged)
        self.assertGreater(min(met[plan, more, True] for plan in (True, False) for more in (True, False)), 60, met)
        self.assertGreater(most, 20)

    def test_phase_and_count_do_not_matter(self):
        """Neither the phase nor the finished count is looked at, and beliefs are no goals."""
        for card, _, held in some_held("phases", 40):
            found = guide.listing(card, held, 1024)
            for phase in guide.KINDS:
                other = held._replace(phase=phase, finished=65535 - held.finished)
                self.assertEqual(guide.listing(card, other, 1024), found)
            fewer = held._replace(beliefs=bytes(32))
            self.assertEqual(guide.listing(card, fewer, 1024)[3], found[3])

    def test_refusals(self):
        """With every refusal all is 0: 1 to 9, 13 and 12."""
        random, short = Random("refusals"), 0
        for _ in range(30):
            description = cards.roomy_card(random, 700)
            card = cards.card(description)
            _, accepted = guide.judge(card)
            held = listed.some_held(random, accepted)
            for one in damage.CONFIGURATION_DAMAGES:
                wrong = one.change(random, accepted, held)
                if wrong is not None:
                    self.assertEqual(guide.listing(card, wrong, 1024), (13, 0, 0, 0, []), one.name)
            for number in range(1, 10):
                other = damage.damaged_card(random, description, random.choice(damage.damages_of(number)))
                self.assertEqual(guide.listing(other, held, 1024), (number, 0, 0, 0, []))
            count = guide.listing(card, held, 1024)[1]
            for room in range(count):
                self.assertEqual(guide.listing(card, held, room), (12, 0, 0, 0, []))
                short += 1
        self.assertGreater(short, 20)


class BySeed(unittest.TestCase):
    """The cases of lists by seed."""

    def test_same_seed_same_bytes(self):
        """The same seed gives the same bytes, another seed others."""
        one = list(cases.generate_lists(7, 30, 700))
        self.assertEqual(one, list(cases.generate_lists(7, 30, 700)))
        self.assertEqual(one[:9], list(cases.generate_lists(7, 9, 700)))
        self.assertNotEqual(one, list(cases.generate_lists(8, 30, 700)))

    def test_what_is_met(self):
        """Each number; empty plans and others with no, few and many conditions judged, also
        with none of them enabled; heads one action longer than the plan that the array goes
        on with; no, one and all goals, from 128 on too."""
        numbers, judged, goals, past = Counter(), Counter(), Counter(), 0
        for case in cases.generate_lists(1, 300, 2500):
            self.assertLessEqual(len(case.card), 2500)
            _, accepted = guide.judge(case.card)
            for request in case.requests:
                _, held, room = cases.read_about(request)
                found = guide.listing(case.card, held, room)
                numbers[found[0]] += 1
                if found[0] == 0:
                    many = min(found[2], 3) if found[2] < 16 else 16
                    judged[held.length == 0, many, found[1] > 0] += 1
                    goals[found[3] if found[3] in (0, 1, accepted.atoms) else "some"] += 1
                    goals["wide"] += any(held.goals[16:])
                    longer = [rule.head for rule in accepted.revisions if len(rule.head) > held.length > 0]
                    past += any(held.plan.startswith(head) for head in longer)
        self.assertLessEqual({0, 1, 2, 3, 4, 6, 7, 12, 13}, set(numbers), numbers)
        self.assertGreater(min(numbers[12], numbers[13]), 100, numbers)
        for empty in (True, False):
            self.assertGreater(min(judged[empty, 0, False], judged[empty, 16, True]), 50, judged)
            self.assertGreater(min(judged[empty, 1, False], judged[empty, 3, False]), 10, judged)
        self.assertGreater(min(goals[0], goals[1], goals["some"], goals["wide"]), 100, goals)
        self.assertGreater(min(goals[128], goals[256]), 10, goals)
        self.assertGreater(past, 40)

    def test_512(self):
        """Where the cards may be long enough, 510, 511 and 512 conditions are judged."""
        met = Counter()
        for case in cases.generate_lists(2, 120, 32352):
            for request in case.requests:
                _, held, room = cases.read_about(request)
                number, _, judged, _, _ = guide.listing(case.card, held, room)
                met[judged, held.length == 0] += number == 0
        self.assertGreater(min(met[512, True] + met[510, True], met[512, False] + met[510, False]), 5, met)


@unittest.skipUnless(11 in drill.LANDED, "the drill has no request 11 yet")
class Stored(unittest.TestCase):
    """The stored lists of request 11."""

    def test_by_hand(self):
        """Each list by hand is asked for, and answered as is written beside it."""
        found = {}
        for case in stored.lists_by_hand():
            for request in case.requests:
                _, held, room = cases.read_about(request)
                found[case.card, held, room] = drill.answer(case.card, request)
        for one in listed.BY_HAND:
            answer = found[one.card, one.held, one.room]
            self.assertEqual(answer[:8], b"".join(map(drill.two, one[4:])), one.name)
            self.assertEqual(len(answer), 8 + 2 * one.room)
            self.assertEqual(set(answer[8 + 2 * one.count:]), {0xEE} if one.room > one.count else set())

    def test_by_seed(self):
        """12 and 13 among the lists by seed, and some that judge more than they list."""
        numbers, more = Counter(), 0
        for case in stored.seeded_lists():
            for request in case.requests:
                answer = drill.answer(case.card, request)
                numbers[guide.number(answer, 0)] += 1
                more += guide.number(answer, 4) > guide.number(answer, 2)
        self.assertGreater(min(numbers[0], numbers[12] * 4, numbers[13] * 8), 80, numbers)
        self.assertGreater(more, 80)


if __name__ == "__main__":
    unittest.main()
