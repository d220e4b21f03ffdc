"""Tests of request 13 ("where can this card end?"): by hand, against every list of choices
taken one by one, and what its cases by seed and its stored requests hold."""

import unittest
from collections import Counter
from random import Random

import cards
import cases
import drill
import guide
import mazes
import reach
import reached
import stored
from closed import configuration


# --- a second way, for small cards ------------------------------------------

# So many lists are tried at most.
LISTS_TRIED = 1000


def every_list(card, held, d):
    """Every list of at most d choices, each of which is enabled where it stands: the choices,
    the configuration that taking them leads to, and whether the last one does not fit. It is
    taken as a weaver would, by the list and the take of document 01, phase and finished
    count with it."""
    yield (), held, False
    waiting = [((), held)]
    while waiting:
        choices, here = waiting.pop()
        if len(choices) == d:
            continue
        for code in guide.list_choices(card, here, 1024)[2]:
            number, _, moved = guide.take(card, here, code)
            longer = choices + (code,)
            yield longer, moved, number == guide.PLAN_FULL
            if number == guide.DONE:
                waiting.append((longer, moved))


def reached_by_every_list(card, held, d):
    """What is answered by every list: number, and of each that is reached the shortest list, of
    those the first, in their order. None where there are too many lists to try."""
    lists, unfit = {}, False
    for tried, (choices, here, last_does_not_fit) in enumerate(every_list(card, held, d)):
        if tried == LISTS_TRIED:
            return None
        if last_does_not_fit:
            unfit = True
        else:
            same = here.beliefs, here.goals, here.plan[:here.length]
            lists.setdefault(same, []).append([len(choices), *choices])
    if len(lists) > 32:
        return 24, []
    if unfit:
        return 11, []
    return 0, sorted((min(some), same) for same, some in lists.items())


# --- the room ---------------------------------------------------------------


def two(held, at):
    """Two bytes, low byte first."""
    return held[at] + 256 * held[at + 1]


def read_room(room, count):
    """So many entries of a room, "entry k at 1,124 k: at 0 the number of transitions; at 2
    sixteen choices of two bytes; at 34 the plan's length; at 36 beliefs; at 68 goals; at
    100 the plan": as `reached_by_every_list` has them, and the bytes that have to be zero."""
    found, zeros = [], b""
    for k in range(count):
        held = room[1124 * k:1124 * (k + 1)]
        t, length = two(held, 0), two(held, 34)
        choices = [two(held, 2 + 2 * n) for n in range(t)]
        zeros += held[2 + 2 * t:34] + held[100 + length:]
        found.append(([t, *choices], (held[36:68], held[68:100], held[100:100 + length])))
    return found, zeros


def expected_entry(choices, held):
    """The bytes of an entry, by the layout, of what is written by hand."""
    made = bytearray(1124)
    made[0] = len(choices)
    for n, code in enumerate(choices):
        made[2 + 2 * n], made[3 + 2 * n] = code % 256, code // 256
    made[34], made[35] = held.length % 256, held.length // 256
    made[36:68], made[68:100] = held.beliefs, held.goals
    made[100:100 + held.length] = held.plan[:held.length]
    return bytes(made)


class ByHand(unittest.TestCase):
    """The reaches of `reached.py`, and the sentence's clauses on them."""

    def test_by_hand(self):
        """Each is answered with what is written beside it."""
        for one in reached.BY_HAND:
            number, count, written = reach.reach(one.card, one.held, one.d, one.room)
            self.assertEqual((number, count), (one.number, len(one.listed)), one.name)
            self.assertEqual(written, b"".join(expected_entry(*some) for some in one.listed), one.name)

    def test_sizes(self):
        """32 entries of 1,124 bytes are 35,968."""
        self.assertEqual((reach.KEPT, reach.ENTRY, reach.ROOM), (32, 1124, 35968))

    def test_an_entry(self):
        """Bytes by hand: two choices, 0 and 514, to a plan 7 0 9 with the beliefs 0 and 255 and
        the goal 9."""
        held = configuration((0, 255), (9,), (7, 0, 9))
        expected = "0200 0000 0202" + "0000" * 14 + "0300"
        expected += "01" + "00" * 30 + "80" + "00 02" + "00" * 30 + "07 00 09" + "00" * 1021
        self.assertEqual(reach.entry(reach.compared(held), (0, 514)), bytes.fromhex(expected))

    def test_d_0(self):
        """d = 0: the configuration handed in alone, and never 11."""
        for one in reached.BY_HAND:
            if one.number in (0, 11, 24):
                number, count, written = reach.reach(one.card, one.held, 0, reach.ROOM)
                self.assertEqual((number, count), (0, 1), one.name)
                self.assertEqual(written, expected_entry((), one.held))

    def test_32_and_33(self):
        """24 with 33 and not with 32, whether 33 are at d or before it."""
        for count, number in ((30, 0), (31, 0), (32, 24)):
            for d in (1, 2, 16):
                found = reach.reach(reached.STARS[count], configuration(), d, 35968)
                self.assertEqual(found[:2], (number, 0 if number else count + 1))
        for count, d, kept in ((31, 16, 31), (32, 16, 32), (33, 16, 0), (33, 15, 31), (40, 15, 31), (40, 16, 0)):
            found = reach.reach(reached.RINGS[count], reached.plan(0), d, 35968)
            self.assertEqual(found[:2], (0 if kept else 24, kept), (count, d))

    def test_order_of_refusals(self):
        """13, 23, 12, 24, 11: each of them with all that come after it, too."""
        card, full = reached.MANY_AND_FULL[32], reached.zeros(1024)
        wrong = full._replace(phase=3)
        for held, d, room, number in (
            (wrong, 17, 35967, 13),
            (full, 17, 35967, 23),
            (full, 16, 35967, 12),
            (full, 16, 35968, 24),
            (full, 1, 35968, 24),
        ):
            self.assertEqual(reach.reach(card, held, d, room), (number, 0, b""))
        fewer = reached.ZEROS
        self.assertEqual(reach.reach(fewer, full, 1, 35968), (11, 0, b""))
        self.assertEqual(reach.reach(fewer, full, 0, 35967), (12, 0, b""))

    def test_24_counts_what_fits(self):
        """From 1,024 actions 31 choices fit, and one doesn't: with the first configuration 32
        are reached, not 33, so it is 11, and not 24. From 1,023 it fits."""
        card = reached.MANY_AND_FULL[31]
        self.assertEqual(reach.reach(card, reached.zeros(1024), 1, 35968), (11, 0, b""))
        self.assertEqual(reach.reach(card, reached.zeros(1023), 1, 35968), (24, 0, b""))

    def test_11_at_d(self):
        """From 1,024 less k zeros: 11 exactly from d = k + 1 on."""
        for k in (0, 1, 2, 7, 15, 16):
            for d in range(17):
                number, count, _ = reach.reach(reached.ZEROS, reached.zeros(1024 - k), d, 35968)
                self.assertEqual((number, count), (11, 0) if d > k else (0, d + 1), (k, d))

    def test_phase_and_count(self):
        """Neither phase nor finished count of what is handed in matters."""
        for one in reached.BY_HAND:
            found = reach.reach(one.card, one.held, one.d, one.room)
            if found[0] not in range(1, 10) and found[0] != 13:
                for phase, finished in ((0, 1), (1, 65535), (2, 256)):
                    other = one.held._replace(phase=phase, finished=finished)
                    self.assertEqual(reach.reach(one.card, other, one.d, one.room), found)

    def test_rooms(self):
        """12 with every room up to 35,967, however few are reached; more is as good."""
        held = configuration()
        for room in (0, 1, 1123, 1124, 1125, 34844, 35967):
            self.assertEqual(reach.reach(reached.STARS[30], held, 0, room), (12, 0, b""))
        for room in (35968, 35969, 36100, 65535):
            self.assertEqual(reach.reach(reached.STARS[30], held, 0, room)[:2], (0, 1))


def small_mazes(seed, count):
    """Configurations of so many small cards by seed: mazes, and any good ones."""
    for index in range(count):
        random = Random("%s %d" % (seed, index))
        if index % 4:
            maze = mazes.some_maze(random, 1 + index % 2)
            card, starts = cards.card(maze.description), maze.starts
        else:
            card = cards.card(cards.good_card(random, 700))
            starts = cases.next_configurations(random, card, guide.judge(card)[1])
        for held in random.sample(starts, 2):
            yield card, held


class ByEveryList(unittest.TestCase):
    """What is reached against every list of choices, taken one by one."""

    def test_every_list(self):
        """For each d up to where there are too many lists: the number, the shortest list of
        each, the first of these, and the order."""
        met = Counter()
        for card, held in small_mazes("lists", 240):
            for d in range(17):
                expected = reached_by_every_list(card, held, d)
                if expected is None:
                    break
                number, count, written = reach.reach(card, held, d, reach.ROOM)
                found, zeros = read_room(written, count)
                self.assertEqual((number, found), expected)
                self.assertEqual(len(written), 1124 * len(found))
                self.assertFalse(any(zeros))
                met[number, count > 4] += 1
        self.assertGreater(min(met[0, False], met[0, True], met[11, False], met[24, False]), 30, met)

    def test_each_list_leads_there(self):
        """Each list, taken choice by choice, leads to just what is listed with it; no two of
        those listed are alike, and their lists are in order."""
        for card, held in small_mazes("there", 200):
            d = Random(repr(held)).randrange(17)
            number, count, written = reach.reach(card, held, d, reach.ROOM)
            found, _ = read_room(written, count)
            self.assertEqual(len({what for _, what in found}), count)
            self.assertEqual([lists for lists, _ in found], sorted(lists for lists, _ in found))
            for (t, *choices), what in found:
                here = held
                for code in choices:
                    number, _, here = guide.take(card, here, code)
                    self.assertEqual(number, 0)
                self.assertEqual((here.beliefs, here.goals, here.plan[:here.length]), what)
                self.assertLessEqual(t, d)


def answered(some):
    """The requests of some cases: the card, the configuration, d, the room, and the answer."""
    for case in some:
        for request in case.requests:
            yield (case.card, *cases.read_reach(request), drill.answer(case.card, request))


def exactly(card, held, d):
    """How many are reached, 99 for more than 33; and whether a transition doesn't fit on the
    way."""
    kept = reach.KEPT
    try:
        reach.KEPT = 33
        lists, unfit = reach.search(guide.judge(card)[1], held, d)
    finally:
        reach.KEPT = kept
    return (99 if len(lists) > 33 else len(lists)), unfit


@unittest.skipUnless(13 in drill.LANDED, "the drill has no request 13 yet")
class BySeed(unittest.TestCase):
    """The cases of what is reached by seed."""

    def test_same_seed_same_bytes(self):
        """The same seed gives the same bytes, another seed others; and as many requests as
        are asked for."""
        one = list(cases.generate_reach(7, 120, 700))
        self.assertEqual(one, list(cases.generate_reach(7, 120, 700)))
        self.assertNotEqual(one, list(cases.generate_reach(8, 120, 700)))
        self.assertEqual(sum(len(case.requests) for case in one), 120)
        fewer = list(cases.generate_reach(7, 50, 700))
        self.assertEqual([case.card for case in fewer], [case.card for case in one][:len(fewer)])

    def test_no_card_too_large(self):
        """No card of more than `largest` bytes."""
        for largest in (100, 255, 700):
            for case in cases.generate_reach(3, 90, largest):
                self.assertLessEqual(len(case.card), largest)

    def test_what_is_met(self):
        """Each number; every d from 0 to 16, and greater ones; rooms of just 35,968 bytes, one
        less and one more, none and the most; few, 31, 32, 33 and more reached; lists of 16
        choices; and both editions."""
        numbers, far, rooms, counts, editions = (Counter() for _ in range(5))
        for card, held, d, room, answer in answered(cases.generate_reach(1, 2500)):
            number, count = two(answer, 0), two(answer, 2)
            self.assertEqual(len(answer), 4 + room)
            self.assertEqual(answer[4 + 1124 * count:], b"\xee" * (room - 1124 * count))
            numbers[number] += 1
            far[d] += number not in range(1, 14)
            rooms[room] += number in (0, 12)
            if number == 0:
                counts[count] += 1
                editions[card[2]] += 1
                counts["16 choices"] += two(answer, 4 + 1124 * (count - 1)) == 16
        self.assertLessEqual({0, 1, 2, 3, 4, 6, 7, 9}, set(numbers), numbers)
        self.assertGreater(min(numbers[n] for n in (11, 12, 13, 23, 24)), 100, numbers)
        self.assertGreater(min(far[d] for d in range(18)), 8, far)
        self.assertLessEqual({17, 18, 255, 256, 272, 65535}, set(far))
        self.assertGreater(min(rooms[n] for n in (0, 35967, 35968, 35969, 36100)), 15, rooms)
        self.assertGreater(min(counts[n] for n in (1, 2, 3, 31, 32)), 30, counts)
        self.assertGreater(counts["16 choices"], 30)
        self.assertLessEqual(set(range(1, 33)), set(counts))
        self.assertGreater(min(editions[1], editions[2]), 300)

    def test_turning_points(self):
        """33 exactly, with and without a transition that doesn't fit; 24 where 11 holds, too; a
        transition that doesn't fit just at d, and so no 11, and just before."""
        met = Counter()
        for card, held, d, room, answer in answered(cases.generate_reach(2, 2500)):
            number = two(answer, 0)
            if number in (0, 11, 24):
                count, unfit = exactly(card, held, d)
                met[number, "33" if count == 33 else "other", unfit] += 1
                if number == 0 and d < 16:
                    met["just at d"] += exactly(card, held, d + 1)[1]
                if number == 11:
                    met["just before"] += not exactly(card, held, d - 1)[1]
        self.assertGreater(min(met[24, "33", False], met[24, "other", True]), 20, met)
        self.assertGreater(met[24, "33", True], 2, met)
        self.assertGreater(min(met["just at d"], met["just before"]), 40, met)

    def test_what_tells_them_apart(self):
        """Among those listed are pairs that differ in one part only: beliefs in an atom below
        and from 128 on, goals, plans of one length with the same actions, plans of which one
        begins as the other and goes on with zeros; and lists of which a shorter one to the
        same comes later in number order."""
        met = Counter()
        for card, held, d, room, answer in answered(cases.generate_reach(4, 1500)):
            found, _ = read_room(answer[4:], two(answer, 2))
            parts = [what for _, what in found]
            for at, (beliefs, goals, plan) in enumerate(parts):
                for other_beliefs, other_goals, other in parts[:at]:
                    if (goals, plan) == (other_goals, other):
                        met["beliefs", beliefs[:16] == other_beliefs[:16]] += 1
                    elif (beliefs, plan) == (other_beliefs, other):
                        met["goals", goals[:16] == other_goals[:16]] += 1
                    elif (beliefs, goals) == (other_beliefs, other_goals):
                        met["order"] += len(plan) == len(other) and sorted(plan) == sorted(other)
                        met["zeros"] += len(plan) != len(other) and plan.rstrip(b"\0") == other.rstrip(b"\0")
                        met["far"] += len(plan) == len(other) and plan[:256] == other[:256]
            lists = [choices[1:] for choices, _ in found]
            met["not by numbers alone"] += lists != sorted(lists)
        for what in (("beliefs", False), ("beliefs", True), ("goals", False), ("goals", True)):
            self.assertGreater(met[what], 20, met)
        for what in ("order", "zeros", "far", "not by numbers alone"):
            self.assertGreater(met[what], 20, met)


@unittest.skipUnless(13 in drill.LANDED, "the drill has no request 13 yet")
class Stored(unittest.TestCase):
    """The stored requests of request 13."""

    @classmethod
    def setUpClass(cls):
        """Each request with the answer to it."""
        cls.answered = list(answered(stored.reach_cases()))

    def test_by_hand(self):
        """Each reach by hand that is not left out is asked for, and answered as is written
        beside it; and those left out are some of them."""
        found = {(card, held, d, room): answer for card, held, d, room, answer in self.answered}
        for one in reached.BY_HAND:
            if one.name not in stored.LEFT_OUT_REACHES:
                answer = found[one.card, one.held, one.d, one.room]
                self.assertEqual(answer[:4], drill.two(one.number) + drill.two(len(one.listed)), one.name)
                written = b"".join(expected_entry(*some) for some in one.listed)
                self.assertEqual(answer[4:], written.ljust(one.room, b"\xee"), one.name)
        self.assertLessEqual(set(stored.LEFT_OUT_REACHES), {one.name for one in reached.BY_HAND})

    def test_what_is_met(self):
        """Every number, 13, 23 and 12 in both editions; 1, 31 and 32 listed, and ten and more of
        edition 2; and 30 whole rooms at most, as each is 36 KB of an answer."""
        met, whole = set(), 0
        for card, held, d, room, answer in self.answered:
            number, count = two(answer, 0), two(answer, 2)
            met |= {number, ("listed", count), (number, card[2] if len(card) > 2 else 0)}
            if number == 0 and card[2] == 2:
                met.add(("edition 2", count >= 10))
            whole += room > 30000
        self.assertLessEqual({*range(10), 11, 12, 13, 23, 24}, met)
        for number in (12, 13, 23):
            self.assertLessEqual({(number, 1), (number, 2)}, met)
        self.assertLessEqual({("listed", 1), ("listed", 31), ("listed", 32), ("edition 2", True)}, met)
        self.assertLessEqual(whole, 30)

    def test_every_clause_of_13(self):
        """Each clause of 13, and each range just inside, which is 23 or 12."""
        for edition in cards.EDITIONS:
            case = stored.reach_configurations(edition)
            _, accepted = guide.judge(case.card)
            found = [two(answer, 0) for *_, answer in answered([case])]
            self.assertEqual(set(found), {12, 13, 23})
            least = 20 if accepted.atoms > 127 else 25
            self.assertGreaterEqual(found.count(13), least)


if __name__ == "__main__":
    unittest.main()
