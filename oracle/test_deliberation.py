"""Tests of request 6: the programs by hand, each clause of 19, the call held against the
meta-level transitions over terms, and what the moves that are not idle are."""

import time
import unittest
from collections import Counter
from random import Random

import broken
import cards
import cases
import damage
import deliberation
import guide
import programs
import schemes
import terms
from closed import START, STRIPE, configuration
from deliberation import FINISHED, FULL, SPENT, STUCK, deliberate


def some_runs(seed, count, largest=700):
    """So many programs by seed that are accepted: the card, the program, the
    configuration and the budget."""
    for case in cases.generate_programs(seed, count, largest):
        _, accepted = guide.judge(case.card)
        for request in case.requests:
            asked = cases.read_deliberate(request)
            if deliberation.judge(case.card, *asked[:2])[0] == 0:
                yield case.card, accepted, *asked


class ByHand(unittest.TestCase):
    """The programs of `programs.py`."""

    def test_programs(self):
        """Each comes to what is written beside it."""
        for one in programs.by_hand():
            found = deliberate(one.card, one.program, one.held, one.budget)
            expected = (0, one.after, one.count, one.ending, list(one.remaining))
            self.assertEqual(found, expected, one.name)

    def test_programs_as_terms(self):
        """And so does the term, where it is small enough."""
        small = [one for one in programs.by_hand() if terms.is_small(one.program)]
        self.assertGreater(len(small), 200)
        for one in small:
            _, accepted = guide.judge(one.card)
            met, ending, left = terms.run(accepted, terms.whole(one.program), one.held, min(one.budget, 500))
            if one.budget < 500 or ending != SPENT:
                found = len(met) - 1, ending, terms.numbers(left)
                self.assertEqual(found, (one.count, one.ending, list(one.remaining)), one.name)
                self.assertEqual(met[-1], terms.state_of(one.after), one.name)

    def test_each_kind_and_ending(self):
        """Each kind of whole is spent, finished and stuck; apply, sequence and choice
        are full, too."""
        met = {(one.program[-4], one.ending) for one in programs.by_hand()}
        for kind in range(7):
            self.assertLessEqual({(kind, SPENT), (kind, FINISHED), (kind, STUCK)}, met, kind)
        for kind in (1, 5, 6):
            self.assertIn((kind, FULL), met)

    def test_shared_programs_end_soon(self):
        """2^127 looks or moves are not taken."""
        begun = time.perf_counter()
        for one in programs.SHARED:
            if one.budget < 1000:
                deliberate(one.card, one.program, one.held, one.budget)
        self.assertLess(time.perf_counter() - begun, 1)

    def test_remaining_of_128(self):
        """As many numbers remain as there are entries, and never more."""
        most = max(len(one.remaining) for one in programs.by_hand())
        self.assertEqual(most, 128)

    def test_order_of_the_endings(self):
        """Spent, finished, stuck, full: the budget is looked at first."""
        for one in programs.by_hand():
            budget = one.count
            found = deliberate(one.card, one.program, one.held, budget)
            self.assertEqual(found[2:4], (one.count, SPENT), one.name)


class Refusals(unittest.TestCase):
    """19, "after 9 and before 13"."""

    HELD = configuration((), (0,), (0, 1), 1, 300)
    ENTRIES = programs.REPAIR + [programs.while_plan(2)]

    def numbered(self, card, whole, held, number):
        """The refusal of a program: nothing moved and none remains."""
        self.assertEqual(deliberate(card, whole, held, 9), (number, held, 0, 0, []))

    def test_clauses(self):
        """Each clause alone; with a configuration that is 13, and with cards of every
        number below."""
        random = Random("clauses")
        _, accepted = guide.judge(programs.SHED)
        wrong = self.HELD._replace(phase=3)
        for one in broken.PROGRAM_DAMAGES * 4:
            whole = one.change(random, accepted, self.ENTRIES)
            self.numbered(programs.SHED, whole, self.HELD, 19)
            self.numbered(programs.SHED, whole, wrong, 19)
            number = random.randint(1, 9)
            refused = random.choice(damage.damages_of(number))
            card = damage.damaged_card(random, cards.roomy_card(random, 700), refused)
            self.numbered(card, whole, wrong, number)

    def test_one_byte_from_a_good_one(self):
        """Each clause but those of the length differs from a good program by one entry:
        with that entry "execute" it is accepted."""
        random = Random("one entry")
        _, accepted = guide.judge(programs.SHED)
        for one in broken.PROGRAM_DAMAGES[len(broken.LENGTHS):] * 4:
            whole = one.change(random, accepted, self.ENTRIES)
            ends = range(0, len(whole), 4)
            mended = [whole[:at] + bytes(4) + whole[at + 4:] for at in ends]
            self.assertIn(False, [deliberation.program_is_wrong(each, accepted) for each in mended])

    def test_limits_just_kept(self):
        """Each is accepted, and 13 after it."""
        random = Random("ranges")
        _, accepted = guide.judge(programs.SHED)
        for one in broken.PROGRAM_RANGES * 4:
            whole = one.change(random, accepted, self.ENTRIES)
            self.assertEqual(deliberate(programs.SHED, whole, self.HELD, 0)[0], 0, one.name)
            self.numbered(programs.SHED, whole, self.HELD._replace(length=1025), 13)

    def test_by_seed(self):
        """On any good card the clauses are 19 and the limits are kept."""
        random = Random("clauses by seed")
        for _ in range(60):
            card = cards.card(cards.roomy_card(random, 700))
            _, accepted = guide.judge(card)
            held = cases.random_configuration(random, accepted)
            entries = schemes.some_entries(random, accepted, held)
            for one in broken.PROGRAM_DAMAGES + broken.PROGRAM_RANGES:
                whole = one.change(random, accepted, entries)
                if whole is not None:
                    self.assertEqual(deliberate(card, whole, held, 0)[0], one.number, one.name)

    def test_conditions_on_goals(self):
        """A condition is refused exactly if a goal atom is in it."""
        random = Random("goals")
        for _ in range(60):
            card = cards.card(cards.nested_card(random))
            _, accepted = guide.judge(card)
            for node, _ in enumerate(accepted.nodes.entries):
                whole = programs.program([programs.EXECUTE, programs.while_belief(node, 0)])
                wanted = goal_atom_in(accepted.nodes.entries, node)
                self.assertEqual(deliberation.program_is_wrong(whole, accepted), wanted)


def goal_atom_in(nodes, root):
    """Whether a goal atom is in a condition, from its root downward."""
    kind, a, b, _ = nodes[root]
    parts = {3: (a,), 4: (a, b), 5: (a, b)}.get(kind, ())
    return kind == 2 or any(goal_atom_in(nodes, part) for part in parts)


class TwoWays(unittest.TestCase):
    """The call held against the meta-level transitions over terms."""

    def test_same_answers(self):
        """The same configurations, counts, endings and remaining programs, and the entry
        numbers stand for the term that remains."""
        seen, endings = 0, Counter()
        for card, accepted, whole, held, budget in some_runs("two ways", 260):
            if not terms.is_small(whole):
                continue
            budget = min(budget, 70)
            _, reached, count, ending, remaining = deliberate(card, whole, held, budget)
            met, expected, left = terms.run(accepted, terms.whole(whole), held, budget)
            self.assertEqual((count, ending), (len(met) - 1, expected))
            self.assertEqual(terms.state_of(reached), met[-1])
            self.assertEqual(remaining, terms.numbers(left))
            written = [part for own in remaining for part in terms.leaves(terms.term(whole, own))]
            self.assertEqual(written, terms.leaves(left))
            seen += 1
            endings[ending] += 1
        self.assertGreater(seen, 1000)
        self.assertGreater(min(endings[ending] for ending in range(4)), 30, endings)

    def test_first_move_is_a_transition(self):
        """The move taken is one of the relation's, and there is none exactly if the
        relation has none; an idle one leaves the configuration as it is."""
        labels = Counter()
        for _, accepted, whole, held, budget in some_runs("relation", 160):
            if not terms.is_small(whole) or terms.sizes(whole)[-1] > 300:
                continue
            left, state = terms.term(whole, len(whole) // 4 - 1), terms.state_of(held)
            for _ in range(min(budget, 12)):
                found = list(terms.transitions(accepted, left, state))
                move = terms.first_move(accepted, left, state)
                self.assertEqual(move is None, found == [])
                if move is None:
                    break
                self.assertIn(move, found)
                self.assertEqual(move[0] == terms.IDLE, move[2] is state)
                labels[move[0] if move[0] == terms.IDLE else move[0][0]] += 1
                left, state = move[1:]
                if left is terms.EMPTY or len(state.plan) > 1024:
                    break
        self.assertGreater(min(labels[name] for name in ("idle", "execute", "apply", "select")), 20)

    def test_moves_are_transitions_of_the_card(self):
        """The moves that are not idle are a chain of Definitions 9 to 11: each is a
        choice that can be taken, and leads where taking it leads."""
        kinds = {"select": guide.SELECTION, "execute": guide.ACTION, "apply": guide.REVISION}
        taken = 0
        for card, accepted, whole, held, budget in some_runs("chain", 80):
            if not terms.is_small(whole):
                continue
            left, here = terms.term(whole, len(whole) // 4 - 1), held
            for _ in range(min(budget, 20)):
                move = left and terms.first_move(accepted, left, terms.state_of(here))
                if move is None or len(move[2].plan) > 1024:
                    break
                if move[0] != terms.IDLE:
                    kind, n = move[0]
                    number, _, here = guide.take(card, here, 256 * kinds[kind] + n)
                    self.assertEqual((number, terms.state_of(here)), (0, move[2]))
                    taken += 1
                left = move[1]
        self.assertGreater(taken, 200)


class Laws(unittest.TestCase):
    """What holds of every run by a program."""

    def test_runs_in_parts(self):
        """With any smaller budget a run is spent at just that count."""
        for card, _, whole, held, budget in some_runs("parts", 40):
            found = deliberate(card, whole, held, min(budget, 40))
            for count in range(found[2] + 1):
                self.assertEqual(deliberate(card, whole, held, count)[2:4], (count, SPENT))

    def test_bounded_cards(self):
        """Demand 3 for the moves that are not idle: without a selection there are no
        more of them than the plan weighs."""
        met = 0
        for card, accepted, whole, held, _ in some_runs("weights", 120):
            weight = guide.weigh(accepted, held.plan[:held.length])
            selects = any(whole[at] == 2 for at in range(0, len(whole), 4))
            if guide.grade(card)[1] == guide.BOUNDED and weight <= 1024 and not selects:
                met += 1
                self.assertNotEqual(deliberate(card, whole, held, 3000)[3], FULL)
                self.assertLessEqual(transitions_of(card, whole, held, 60), weight)
        self.assertGreater(met, 50)

    def test_interpreter(self):
        """000's interpreter comes to an empty plan as the guide's own run does on the
        stripe card, and its moves that are not idle are as many."""
        held = configuration((0, 3), (2,), (4,))
        whole = programs.program(programs.INTERPRETER)
        _, reached, count, ending, left = deliberate(STRIPE, whole, held, 1000)
        _, run, steps, _ = guide.run(STRIPE, held, 1000)
        self.assertEqual((reached, ending, left), (run, FINISHED, []))
        self.assertEqual(count, 2 * steps + 1)

    def test_both_sheds(self):
        """Revising before acting and the reverse end the same on the stripe card."""
        for entries in (programs.TEACHING, programs.FAST):
            found = deliberate(STRIPE, programs.program(entries), START, 1000)
            self.assertEqual(found[1:4], (programs.DONE_STRIPE, 12, FINISHED))


def transitions_of(card, whole, held, budget):
    """How many of the first moves of a program are not idle: each that is changes
    nothing, and each other sets a phase, takes an action or revises."""
    _, accepted = guide.judge(card)
    entries, remaining, count = deliberation.entries_of(whole), [len(whole) // 4 - 1], 0
    for _ in range(budget):
        moves = deliberation.first_moves(entries, accepted, held)
        move = moves[remaining[-1]] if remaining else None
        if move is None:
            break
        remaining.pop()
        deliberation.put_back(remaining, move.left)
        if move.transition is not None:
            count += 1
            held = guide.after(accepted, held, *move.transition)
    return count


class BySeed(unittest.TestCase):
    """The cases of programs by seed."""

    def test_same_seed_same_bytes(self):
        """The same seed gives the same bytes, another seed others."""
        one = list(cases.generate_programs(7, 30, 700))
        self.assertEqual(one, list(cases.generate_programs(7, 30, 700)))
        self.assertEqual(one[:10], list(cases.generate_programs(7, 10, 700)))
        self.assertNotEqual(one, list(cases.generate_programs(8, 30, 700)))

    def test_what_is_met(self):
        """Each number and each ending, programs of 1 and of 128 entries, remaining
        programs of no, one and many numbers, and each budget's edge."""
        numbers, endings, sizes, left = Counter(), Counter(), Counter(), Counter()
        budgets = set()
        for case in cases.generate_programs(1, 200, 700):
            self.assertLessEqual(len(case.card), 700)
            for request in case.requests:
                asked = cases.read_deliberate(request)
                number, _, _, ending, remaining = deliberate(case.card, *asked)
                numbers[number] += 1
                budgets.add(asked[2])
                if number == 0:
                    sizes[len(asked[0]) // 4] += 1
                    endings[ending] += 1
                    left[min(4, len(remaining))] += 1
        self.assertLessEqual({0, 4, 6, 7, 13, 19}, set(numbers))
        self.assertGreater(min(numbers[13], numbers[19]), 100)
        self.assertGreater(min(endings[ending] for ending in range(4)), 40, endings)
        self.assertGreater(min(sizes[1], sizes[128]), 10)
        self.assertGreater(min(left[count] for count in range(5)), 30)
        self.assertLessEqual({0, 1, 1000, 65535}, budgets)


if __name__ == "__main__":
    unittest.main()
