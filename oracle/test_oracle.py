"""Tests of the oracle: document 01's cases P1 to P13, its program's lines, the
damages' numbers, the closed moves of request 1, the finished count of request 4, the
struck goals of request 5, the drill's bytes, that a seed gives the same bytes, and what
the stored requests hold. Those of request 2 are in `test_text.py`, those of request 6 in
`test_deliberation.py`, those of going on in `test_going_on.py`, those of the next move in
`test_next.py`, those of request 8 in `test_names.py`, those of request 9 in
`test_editions.py`, those of request 10 in `test_bounded.py`, those of request 11 in
`test_listed.py`, those of request 12 in `test_plain.py`; they run with these."""

import itertools
import time
from collections import Counter
import unittest
from random import Random

import broken
import cards
import cases
import closed
import cuts
import damage
import drill
import finished
import gone_on
import guide
import next_moves
import program
import programs
import sheets
import slips
import stored
import struck
import test_bounded
import test_deliberation
import test_editions
import test_going_on
import test_listed
import test_names
import test_next
import test_plain
import test_text
import text
import texts
from cards import AND, BELIEVES, HAS_GOAL, NOT, OR, TRUE
from closed import configuration

STRIPE = cards.card(cards.stripe_card())

# The stripe card written out by hand.
STRIPE_BYTES = bytes.fromhex(
    "3341 0100 0400 0500 0600 4A00 0300 6200 0100 CE00 0300 D600 0500 FA00 0000 0000"
    "09 000000000000000000000000000000  04 000000000000000000000000000000"
    "0100 0100 0100 0300 0500"
    "00000000 01010000 01030000 03020000 04010300 02020000"
    "00040000 04 000000000000000000000000000000 02 000000000000000000000000000000"
    "01000000 02 000000000000000000000000000000 00 000000000000000000000000000000"
    "02020000 00 000000000000000000000000000000 08 000000000000000000000000000000"
    "0005 0000 0100 0000"
    "0000 0000 0100 0100 0200 0000"
    "0200 0200 0100 0300 0200 0000"
    "0300 0200 0100 0400 0100 0000"
    "04 01 03 02 00"
)

STRIPE_LINES = [
    "card 255 bounded",
    "1 select 0 1 5",
    "2 revise 0 2 4",
    "3 act 1 1 3",
    "4 revise 1 2 2",
    "5 act 2 1 1",
    "6 act 0 0 0",
    "rest 6",
]


def loaded(card):
    """The configuration that a good card loads to."""
    return guide.load(card)[1]


class MarkedCases(unittest.TestCase):
    """The cases marked P."""

    def test_p1_the_six_steps(self):
        """The six steps end with beliefs {0, 2}, no goals, phase 2. By request 4 one
        of them, the last, has left the plan empty."""
        number, reached, count, ending = guide.run(STRIPE, loaded(STRIPE), 1000)
        self.assertEqual((number, count, ending), (0, 6, guide.REST))
        self.assertEqual(reached, configuration(beliefs=(0, 2), phase=2, finished=1))

    def test_p2_budgets_six_and_seven(self):
        """Budget 6: spent, 6. Budget 7: rest, 6."""
        self.assertEqual(guide.run(STRIPE, loaded(STRIPE), 6)[2:], (6, guide.SPENT))
        self.assertEqual(guide.run(STRIPE, loaded(STRIPE), 7)[2:], (6, guide.REST))

    def test_p3_budget_nought_at_rest(self):
        """Budget 0 at rest: spent, 0."""
        _, reached, _, _ = guide.run(STRIPE, loaded(STRIPE), 1000)
        self.assertEqual(guide.run(STRIPE, reached, 0), (0, reached, 0, guide.SPENT))

    def test_p4_add_and_del_overlap(self):
        """Add {2}, Del {2}, goals {2}: "P4 then ends with the goal kept"."""
        description = cards.stripe_card()
        both = cards.Specification(1, 0, add=cards.atoms_set(2), delete=cards.atoms_set(2))
        description.specifications[1] = both
        card = cards.card(description)
        for beliefs in ((), (2,)):
            held = configuration(beliefs=beliefs, goals=(2,), plan=(1,))
            after = configuration(goals=(2,), phase=2, finished=1)
            self.assertEqual(guide.take(card, held, 257), (0, 0, after))

    def test_p5_head_longer_than_the_plan(self):
        """Plan 3, head 3 0: not enabled. By request 1 it is 15, "other head"."""
        description = cards.stripe_card()
        description.pool += bytes([3, 0])
        description.revisions[0] = cards.Revision(0, 5, 2, 0, 0)
        card = cards.card(description)
        held = configuration(beliefs=(3,), plan=(3,))
        self.assertEqual(guide.take(card, held, 512), (15, 0, held))
        self.assertNotIn(512, guide.list_choices(card, held, 1024)[2])
        longer = configuration(beliefs=(3,), plan=(3, 0))
        after = configuration(beliefs=(3,), finished=1)
        self.assertEqual(guide.take(card, longer, 512), (0, 0, after))

    def test_p6_condition_fails(self):
        """Plan 3, atom 3 not believed, choice 513: "P6 becomes 16 with node 2"."""
        for beliefs in ((), (0,), (0, 1, 2)):
            held = configuration(beliefs=beliefs, plan=(3,))
            self.assertEqual(guide.take(STRIPE, held, 513), (16, 2, held))

    def test_p7_the_place_after_step_four(self):
        """After step 4 the place is 33 50 01 00 02 00 2C 00 ..."""
        place = bytes.fromhex("3350 0100 0200 2C00 0000 0000")
        place += b"\x0b" + bytes(15) + b"\x04" + bytes(15) + b"\x02\x00"
        _, reached, _, _ = guide.run(STRIPE, loaded(STRIPE), 4)
        self.assertEqual(guide.save(STRIPE, reached, 46), (0, place))
        self.assertEqual(guide.restore(STRIPE, place), (0, reached))
        self.assertEqual(guide.save(STRIPE, reached, 45), (12, b""))

    def test_p8_phase_three(self):
        """The same with phase 3: refusal 3."""
        _, reached, _, _ = guide.run(STRIPE, loaded(STRIPE), 4)
        place = bytearray(guide.save(STRIPE, reached, 46)[1])
        place[8] = 3
        self.assertEqual(guide.restore(STRIPE, bytes(place)), (3, guide.EMPTY))

    def test_p9_empty_body(self):
        """Plan 3, a revision of 3 to the empty body: empty plan."""
        description = cards.stripe_card()
        description.revisions[0] = cards.Revision(0, 2, 1, 5, 0)
        found = guide.take(cards.card(description), configuration(plan=(3,)), 512)
        self.assertEqual(found, (0, 0, configuration(finished=1)))

    def test_p10_the_offending_revision(self):
        """Revision 1's body weighing 3: open, revision 1."""
        self.assertEqual(guide.grade(STRIPE), (0, 0, 0, 0))
        description = cards.stripe_card()
        description.weights[2] = 2
        found = guide.grade(cards.card(description))
        self.assertEqual(found, (0, guide.OPEN, guide.REVISION_RULE, 1))

    def test_p11_a_plan_of_1024(self):
        """Plan of 1,024: head 1 and body 2 long, refusal 11; body 1 long, taken."""
        held = configuration(beliefs=(3,), plan=[3] + [0] * 1023)
        self.assertEqual(guide.take(STRIPE, held, 513), (11, 0, held))
        self.assertEqual(guide.run(STRIPE, held._replace(phase=2), 5)[2:], (0, guide.FULL))
        held = held._replace(beliefs=cards.NO_ATOMS)
        number, node, reached = guide.take(STRIPE, held, 514)
        self.assertEqual((number, node, reached.length, reached.plan), (0, 0, 1024, bytes(1024)))

    def test_p12_lists(self):
        """At the start the list is 0 alone; a list buffer of length 0 gives 12.
        At rest it gives 0 (done) and a count of 0."""
        start = loaded(STRIPE)
        self.assertEqual(guide.list_choices(STRIPE, start, 1), (0, 1, [0]))
        self.assertEqual(guide.list_choices(STRIPE, start, 0), (12, 0, []))
        _, reached, _, _ = guide.run(STRIPE, start, 1000)
        self.assertEqual(guide.list_choices(STRIPE, reached, 0), (0, 0, []))

    def test_p13_node_nought_not_itself(self):
        """Node 0 "not 0": refusal 6."""
        description = cards.stripe_card()
        description.nodes[0] = cards.Node(cards.NOT, 0)
        self.assertEqual(guide.check(cards.card(description)), 6)


class NamedCards(unittest.TestCase):
    """The cards that the document or the drill names, and the program."""

    def test_stripe_card(self):
        """The card is 255 bytes, and the builder's bytes are those by hand."""
        self.assertEqual(len(STRIPE), 255)
        self.assertEqual(STRIPE, STRIPE_BYTES)

    def test_stripe_lines(self):
        """The program's eight lines."""
        self.assertEqual(program.lines(STRIPE), STRIPE_LINES)

    def test_refused_lines(self):
        """A refused card prints only "refused" and its number."""
        self.assertEqual(program.lines(b""), ["refused 1"])
        self.assertEqual(program.lines(STRIPE + b"\0"), ["refused 4"])

    def test_sizes(self):
        """The smallest card has 70 bytes, the maximal one 24,128; 102 and "at most 32,352
        bytes" in edition 2."""
        for describe, size in (
            (cards.smallest_card, 70),
            (cards.maximal_card, 24128),
            (cards.smallest_of_edition_2, 102),
            (cards.stripe_of_edition_2, 383),
            (cards.maximal_of_edition_2, 32352),
        ):
            card = cards.card(describe())
            self.assertEqual((len(card), guide.check(card)), (size, 0))

    def test_shared_nodes(self):
        """256 nodes over the one before twice answer in well under a second."""
        begun = time.perf_counter()
        found = program.lines(cards.card(cards.shared_nodes_card()))
        self.assertLess(time.perf_counter() - begun, 0.5)
        self.assertEqual(found[-1], "rest 2")

    def test_program_and_run_agree(self):
        """As many step lines as the run's count."""
        random = Random("lines")
        for _ in range(60):
            found = program.lines(cards.card(cards.good_card(random, 700)))
            self.assertEqual(len(found) - 2, int(found[-1].split()[1]))


class Damages(unittest.TestCase):
    """Each damage's number, as document 01 gives it."""

    def test_card_damages_alone(self):
        """Each clause broken alone, each range just inside."""
        random = Random("alone")
        for one in (damage.CARD_DAMAGES + damage.CARD_RANGES) * 4:
            card = damage.damaged_card(random, cards.roomy_card(random), one)
            self.assertEqual(guide.check(card), one.number, one.name)

    def test_card_damages_in_pairs(self):
        """Two clauses of different rows: the lower row answers."""
        random = Random("pairs")
        for low, high in damage.CARD_PAIRS * 12:
            pair = damage.pair_of_damages(random, low, high)
            card = damage.damaged_card(random, cards.roomy_card(random), *pair)
            self.assertEqual(guide.check(card), pair[0].number, [one.name for one in pair])

    def test_place_damages(self):
        """Each clause of a place alone and just inside, and the card first."""
        random = Random("places")
        for one in (damage.PLACE_DAMAGES + damage.PLACE_RANGES) * 6:
            card = cards.card(cards.roomy_card(random))
            _, accepted = guide.judge(card)
            configuration = cases.random_configuration(random, accepted)
            held = cases.place_description(configuration, accepted.edition.number)
            place = damage.damaged_place(random, accepted, held, one)
            if place is not None:
                self.assertEqual(guide.restore(card, place)[0], one.number, one.name)
                self.assertEqual(guide.restore(card + b"\0", place), (4, guide.EMPTY))

    def test_place_damages_in_pairs(self):
        """Two rows of a place at once: the lower answers."""
        random = Random("place pairs")
        for low, high in damage.PLACE_PAIRS * 20:
            card = cards.card(cards.roomy_card(random))
            _, accepted = guide.judge(card)
            configuration = cases.random_configuration(random, accepted)
            held = cases.place_description(configuration, accepted.edition.number)
            pair = damage.pair_of_place_damages(random, low, high)
            place = damage.damaged_place(random, accepted, held, *pair)
            if place is not None:
                names = [one.name for one in pair]
                self.assertEqual(guide.restore(card, place)[0], pair[0].number, names)

    def test_configuration_damages(self):
        """Each clause of 13 alone and just inside, in each of the four calls."""
        random = Random("configurations")
        for one in (damage.CONFIGURATION_DAMAGES + damage.CONFIGURATION_RANGES) * 3:
            card = cards.card(cards.roomy_card(random))
            _, accepted = guide.judge(card)
            held = one.change(random, accepted, cases.random_configuration(random, accepted))
            if held is None:
                continue
            self.assertEqual(guide.list_choices(card, held, 1024)[0], one.number, one.name)
            self.assertEqual(guide.run(card, held, 0)[:2], (one.number, held), one.name)
            self.assertEqual(guide.save(card, held, 2048)[0], one.number, one.name)
            taken = guide.take(card, held, 65535)
            self.assertEqual(taken, (one.number or 14, 0, held), one.name)

    def test_full_plans(self):
        """A revision that leaves 1,024 actions is taken, one more is not."""
        random, met = Random("full"), 0
        for _ in range(200):
            card = cards.card(cards.roomy_card(random))
            _, accepted = guide.judge(card)
            for over, number in ((0, 0), (1, 11)):
                found = damage.full_configuration(random, accepted, over)
                if found is not None:
                    met += 1
                    self.assertEqual(guide.take(card, *found)[0], number)
        self.assertGreater(met, 50)


def judged_by_words(card, held, node):
    """Whether a condition holds and what settles it, by the words of the two
    documents from the root downward."""
    kind, a, b, _ = card.nodes.entries[node]
    if kind == TRUE:
        return True, node
    if kind in (BELIEVES, HAS_GOAL):
        atoms = held.beliefs if kind == BELIEVES else held.goals
        return atoms[a // 8] >> a % 8 & 1 == 1, node
    left, settled = judged_by_words(card, held, a)
    if kind == NOT:
        return not left, settled
    if (kind, left) in ((AND, False), (OR, True)):
        return left, settled
    return judged_by_words(card, held, b)


def enabled_by_words(card, held, choice):
    """Whether a choice is enabled, by document 01's Selection, Action, Revision."""
    kind, n = divmod(choice, 256)
    plan = held.plan[:held.length]
    if kind == 0:
        rule = card.selections[n]
        fits, nodes = plan == b"", (rule.belief_node, rule.goal_node)
    elif kind == 1:
        entry = card.specifications[n]
        fits, nodes = plan[:1] == bytes([entry.action]), (entry.node,)
    else:
        rule = card.revisions[n]
        fits, nodes = plan[:len(rule.head)] == rule.head, (rule.node,)
    return fits and all(judged_by_words(card, held, node)[0] for node in nodes)


class ClosedMoves(unittest.TestCase):
    """Request 1 of document 02: "say why a move is closed"."""

    def test_by_hand(self):
        """Each closed move has the number and the node written beside it, and the
        configuration comes back as it came in."""
        for one in closed.ALL:
            found = guide.take(one.card, one.held, one.choice)
            self.assertEqual(found, (one.number, one.node, one.held), one.name)

    def test_unfit_fronts(self):
        """Beside each unfit front the condition is true or false as its name says,
        and with a fitting one the choice is 16 or taken."""
        for one in closed.UNFIT:
            _, accepted = guide.judge(one.card)
            kind, n = divmod(one.choice, 256)
            plan = damage.fitting_plan(Random(0), accepted, kind, n)
            held = one.held._replace(plan=damage.padded(plan), length=len(plan))
            expected = 16 if one.name.endswith("false") else 0
            self.assertEqual(guide.take(one.card, held, one.choice)[0], expected, one.name)

    def test_every_condition(self):
        """Each node of the conditions card under each set of beliefs, by the table:
        16 with the settling node where it is false; taken, with node 0, where it is
        true."""
        _, accepted = guide.judge(closed.CONDITIONS)
        for node, beliefs, holds, settled in closed.settled_table():
            held = configuration(beliefs, (), (0,))
            self.assertEqual(guide.judged(accepted, held, node), (holds, settled))
            after = configuration(beliefs, phase=2, finished=1)
            expected = (0, 0, after) if holds else (16, settled, held)
            self.assertEqual(guide.take(closed.CONDITIONS, held, 256 + node), expected)

    def test_settling_node_by_words(self):
        """On cards with nested conditions each node is judged as the words say, and
        what settles it is an atom or "true"."""
        random = Random("words")
        for _ in range(60):
            _, accepted = guide.judge(cards.card(cards.nested_card(random)))
            held = cases.random_configuration(random, accepted)
            for node in range(len(accepted.nodes.entries)):
                found = guide.judged(accepted, held, node)
                self.assertEqual(found, judged_by_words(accepted, held, node))
                self.assertIn(accepted.nodes.entries[found.settled].kind, (TRUE, BELIEVES, HAS_GOAL))

    def test_which_choices_are_refused(self):
        """ "Which choices are refused does not change": a code of an entry is refused
        with 15 or 16 exactly if document 01 does not enable it, and is then not
        listed; a code of none is 14."""
        random = Random("refused")
        for _ in range(60):
            card = cards.card(cards.good_card(random, 500))
            _, accepted = guide.judge(card)
            for held in cases.some_configurations(random, card, accepted):
                listed = guide.list_choices(card, held, 1024)[2]
                for choice in damage.choices(accepted):
                    enabled = enabled_by_words(accepted, held, choice)
                    self.assertEqual(choice in listed, enabled)
                    self.assertIn(guide.take(card, held, choice)[0], (0, 11) if enabled else (15, 16))
                for choice in damage.wrong_choices(accepted):
                    self.assertEqual(guide.take(card, held, choice), (14, 0, held))


class FinishedCounts(unittest.TestCase):
    """Request 4 of document 02: "count the picks"."""

    def test_takes_by_hand(self):
        """Each take has the count written beside it; a refused one hands back the
        configuration as it came in."""
        for name, card, held, choice, number, count in finished.each_take():
            found, _, moved = guide.take(card, held, choice)
            self.assertEqual((found, moved.finished), (number, count), name)
            if number != 0:
                self.assertEqual(moved, held, name)

    def test_runs_by_hand(self):
        """Each run has the counts and the ending written beside it."""
        for one in finished.RUNS:
            number, reached, count, ending = guide.run(one.card, one.held, one.budget)
            expected = (0, one.count, one.ending, one.finished)
            self.assertEqual((number, count, ending, reached.finished), expected, one)

    def test_places_by_hand(self):
        """The count is in bytes 10 and 11, low byte first."""
        for place, held in finished.each_place():
            self.assertEqual(guide.restore(STRIPE, place), (0, held))
            self.assertEqual(guide.save(STRIPE, held, len(place)), (0, place))

    def test_load_and_refusals_have_none(self):
        """Load answers 0, and so has the empty configuration."""
        self.assertEqual(loaded(STRIPE).finished, 0)
        self.assertEqual(guide.EMPTY.finished, 0)
        self.assertEqual(guide.restore(STRIPE, b""), (1, guide.EMPTY))

    def test_count_of_a_run(self):
        """After a run the count is the one before and the number of configurations
        with an empty plan that its transitions led to, or 65,535."""
        random, risen = Random("count"), Counter()
        for _ in range(150):
            card = cards.card(cards.good_card(random, 700))
            _, accepted = guide.judge(card)
            for held in cases.some_configurations(random, card, accepted):
                budget = random.choice((1, 5, 40))
                _, reached, count, _ = guide.run(card, held, budget)
                steps = [guide.run(card, held, k)[1] for k in range(1, count + 1)]
                empty = sum(step.plan[:step.length] == b"" for step in steps)
                self.assertEqual(reached.finished, min(65535, held.finished + empty))
                risen[reached.finished - held.finished] += 1
        self.assertGreater(sum(count for more, count in risen.items() if more > 1), 20)

    def test_count_changes_nothing_else(self):
        """With another count handed in, every answer is the same but for the count;
        13 has no rule for it."""
        random = Random("other counts")
        for _ in range(60):
            card = cards.card(cards.good_card(random, 500))
            _, accepted = guide.judge(card)
            for held in cases.some_configurations(random, card, accepted):
                other = held._replace(finished=damage.random_count(random))
                listed = guide.list_choices(card, held, 1024)
                self.assertEqual(guide.list_choices(card, other, 1024), listed)
                for choice in listed[2]:
                    found, again = guide.take(card, held, choice), guide.take(card, other, choice)
                    self.assertEqual(found[:2], again[:2])
                    self.assertEqual(found[2][:5], again[2][:5])
                place, again = guide.save(card, held, 1100)[1], guide.save(card, other, 1100)[1]
                self.assertEqual((place[:10], place[12:]), (again[:10], again[12:]))


def both(configuration):
    """The atoms that are both believed and a goal."""
    return guide.members(configuration.beliefs) & guide.members(configuration.goals)


class StruckGoals(unittest.TestCase):
    """Request 5 of document 02: "a goal falls when its fact is believed"."""

    def test_takes_by_hand(self):
        """After each action the goals that stay; after a selection or a revision all
        of them."""
        for held, choice, after in [*struck.each_action(), *struck.OTHERS]:
            self.assertEqual(guide.take(struck.STRIKING, held, choice), (0, 0, after))

    def test_loads_by_hand(self):
        """ "At load likewise." """
        for card, beliefs, goals in struck.each_load():
            self.assertEqual(guide.load(card), (0, configuration(beliefs, goals)))

    def test_runs_by_hand(self):
        """Each step of the runs written beside it."""
        for held, budget, after in struck.RUNS:
            found = guide.run(struck.STRIKING, held, budget)
            self.assertEqual(found, (0, after, budget, guide.SPENT))

    def test_places_by_hand(self):
        """ "Restore strikes nothing", and saving neither; "has goal" is true of a
        believed goal."""
        for held in struck.each_believed():
            place = cards.place(cases.place_description(held))
            self.assertEqual(guide.restore(struck.STRIKING, place), (0, held))
            self.assertEqual(guide.save(struck.STRIKING, held, 44), (0, place))
            wanted = [held.goals[0] >> goal & 1 for goal in (0, 1)]
            codes = [n for n, one in enumerate((wanted[0], wanted[1], not wanted[0])) if one]
            self.assertEqual(guide.list_choices(struck.STRIKING, held, 5)[2], codes)

    def test_laws_along_walks(self):
        """After any action and after load no atom is both believed and a goal; from a
        configuration where none is, no run reaches one where one is; goals never
        grow."""
        random, fallen = Random("struck"), 0
        for _ in range(150):
            card = cards.card(cards.good_card(random, 500))
            _, accepted = guide.judge(card)
            self.assertEqual(both(loaded(card)), 0)
            for start in (loaded(card), cases.random_configuration(random, accepted)):
                met = cases.walk(random, card, start, 12)
                for before, after in zip(met, met[1:]):
                    goals = guide.members(before.goals), guide.members(after.goals)
                    self.assertEqual(goals[1] & ~goals[0], 0)
                    self.assertTrue(both(before) or not both(after))
                    self.assertTrue(after.phase != 2 or not both(after))
                    fallen += after.phase == 2 and both(before) != 0
        self.assertGreater(fallen, 20)


class GoodCards(unittest.TestCase):
    """The seeded generator of good cards."""

    def test_good_cards(self):
        """Every card is good, small enough, and comes back the same by place."""
        random = Random("good")
        for largest in (70, 102, 255, 700, 24128, 32352):
            for _ in range(60):
                card = cards.card(cards.good_card(random, largest))
                self.assertEqual(guide.check(card), 0)
                self.assertLessEqual(len(card), largest)
                held = cases.random_configuration(random, guide.judge(card)[1])
                place = guide.save(card, held, 1100)[1]
                self.assertEqual(guide.restore(card, place), (0, held))

    def test_bounded_runs(self):
        """Under a bounded card no run without a selection is longer than the
        plan weighs."""
        random = Random("bounded")
        for _ in range(150):
            card = cards.card(cards.good_card(random, 700))
            if guide.grade(card)[1] == guide.BOUNDED:
                self.run_within_weight(random, card)

    def run_within_weight(self, random, card):
        """A run with random choices, no selection among them, to its end."""
        _, accepted = guide.judge(card)
        held = cases.random_configuration(random, accepted)
        weight = guide.weigh(accepted, held.plan[:held.length])
        if weight > guide.WEIGHT_LIMIT:
            return
        for _ in range(weight + 1):
            codes = [code for code in guide.list_choices(card, held, 1024)[2] if code > 255]
            if not codes:
                return
            number, _, held = guide.take(card, held, random.choice(codes))
            self.assertEqual(number, 0)
        self.fail("more transitions than the plan weighs")


# What a sort of closed move is called by: its number, and what it is. With 14 whether
# the code's kind is one; with 15 the kind, whether the plan is empty, and whether the
# conditions hold; with 16 the kind and which conditions hold, the condition's root and
# where the settling node is, and the kind of the settling node.
SORTS_OF_CLOSED_MOVES = (
    {(14, 0), (14, 1), (14, 2), (14, "past all kinds")}
    | {(15, 0, False, holds) for holds in (True, False)}
    | {(15, kind, empty, holds) for kind in (1, 2) for empty in (True, False) for holds in (True, False)}
    | {(16, 0, (False, False)), (16, 0, (False, True)), (16, 0, (True, False)), (16, 1, (False,)), (16, 2, (False,))}
    | {(16, BELIEVES, "root"), (16, HAS_GOAL, "root"), (16, NOT, "left"), (16, NOT, "deeper")}
    | {(16, AND, "left"), (16, AND, "right"), (16, AND, "deeper"), (16, OR, "right"), (16, OR, "deeper")}
    | {(16, "settled by", kind) for kind in (TRUE, BELIEVES, HAS_GOAL)}
)


def where_settled(entries, root, settled):
    """Where the node that settles a condition is: its root, one child and not the
    other, both children, or none of these."""
    kind, a, b, _ = entries[root]
    if settled == root:
        return "root"
    names = {a: "left"} if kind == NOT else {a: "left", b: "right" if a != b else "both"}
    return names.get(settled, "deeper")


def sorts_of_closed_move(card, request, answer):
    """The sorts of closed move that a take with its answer is."""
    number, settled = guide.number(answer, 0), guide.number(answer, 2)
    if number not in (14, 15, 16):
        return []
    _, accepted = guide.judge(card)
    _, held, choice = cases.read_about(request)
    kind, n = divmod(choice, 256)
    if number == 14:
        return [(14, kind if kind < 3 else "past all kinds")]
    roots = guide.conditions_of(accepted, kind, n)
    holds = tuple(guide.judged(accepted, held, root).holds for root in roots)
    if number == 15:
        return [(15, kind, held.length == 0, all(holds))]
    root, entries = roots[holds.index(False)], accepted.nodes.entries
    where = (16, entries[root].kind, where_settled(entries, root, settled))
    return [(16, kind, holds), where, (16, "settled by", entries[settled].kind)]


# What a sort of finished count is called by: the call; for a take that is done the
# kind, whether the plan is empty afterwards, and how the count was; for a refused one
# the number, with a count that is not 0; for a run by how many it rises and whether it
# stops; for a save and a restore whether either byte is not zero.
SORTS_OF_COUNTS = (
    {("take", 0, False, how) for how in ("none", "some", "most")}
    | {("take", 1, empty, how) for empty in (True, False) for how in ("none", "some", "most")}
    | {("take", 2, empty, how) for empty in (True, False) for how in ("none", "some", "most")}
    | {("take refused", number) for number in (11, 13, 14, 15, 16)}
    | {("run", more) for more in ("stays", "rises", "rises often", "stops", "most")}
    | {("run refused", 13), ("save refused", 12), ("save refused", 13)}
    | {("save", low, high) for low in (True, False) for high in (True, False)}
    | {("restore", low, high) for low in (True, False) for high in (True, False)}
)


def how_risen(before, after):
    """By how many a run's finished count rises, and whether it stops at its most."""
    if after == 65535:
        return "stops" if after > before else "most"
    return ("stays", "rises", "rises often")[min(2, after - before)]


def sorts_of_count(card, request, answer):
    """The sorts of finished count that a request with its answer is. The plan's length
    is at 64 of an image, and the finished count at 67."""
    call, number = cases.CALL_NAMES[cases.column(request)], guide.number(answer, 0)
    if call == "restore" and number == 0:
        return [(call, request[13] != 0, request[14] != 0)]
    if call not in ("take", "run", "save"):
        return []
    _, held, value = cases.read_about(request)
    if number != 0:
        return [(call + " refused", number)] if held.finished else []
    if call == "save":
        return [(call, held.finished % 256 != 0, held.finished > 255)]
    if call == "run":
        return [(call, how_risen(held.finished, guide.number(answer, 2 + 67)))]
    how = {0: "none", 65535: "most"}.get(held.finished, "some")
    return [(call, value // 256, guide.number(answer, 4 + 64) == 0, how)]


# What a sort of request about goals is called by: for a load whether a goal falls; for
# an action why a goal falls or stays; for what strikes nothing that a goal is believed.
SORTS_OF_GOALS = (
    {("load", falls) for falls in (True, False)}
    | {("action", "falls", True, add) for add in (True, False)}
    | {("action", "falls", False, True)}
    | {("action", "stays", "in Add and Del"), ("action", "stays", "in Del, believed before")}
    | {("action", "stays", "neither")}
    | {(call, "believed goal") for call in ("list", "save", "restore", "run")}
    | {(kind, "believed goal") for kind in ("selection", "revision")}
    | {("selection", "by a believed goal"), ("selection refused", "by a believed goal")}
)


def sorts_of_action(card, held, n):
    """Why the goals fall or stay by an action with specification n."""
    entry = card.specifications[n]
    found = []
    for atom in range(card.atoms):
        sets = (held.goals, held.beliefs, entry.add, entry.delete)
        goal, before, add, delete = (guide.members(one) >> atom & 1 == 1 for one in sets)
        if goal and not delete and (before or add):
            found.append(("action", "falls", before, add))
        elif goal and add:
            found.append(("action", "stays", "in Add and Del"))
        elif goal:
            found.append(("action", "stays", "in Del, believed before" if before else "neither"))
    return found


def sorts_of_take(card, held, choice, number):
    """The sorts that a take with its answer's number is. A selection is decided by a
    believed goal if it were another way with the believed goals struck."""
    _, accepted = guide.judge(card)
    kind, n = divmod(choice, 256)
    if number == 0 and kind == guide.ACTION:
        return sorts_of_action(accepted, held, n)
    if number not in (0, 16) or not both(held):
        return []
    found = [(("selection", "action", "revision")[kind], "believed goal")] if number == 0 else []
    other = held._replace(goals=guide.not_believed(held.goals, held.beliefs))
    if kind == guide.SELECTION and (guide.take(card, other, choice)[0] == 0) != (number == 0):
        found.append(("selection refused" if number else "selection", "by a believed goal"))
    return found


def sorts_of_goals(card, request, answer):
    """The sorts of request about goals that a request with its answer is."""
    call, number = cases.CALL_NAMES[cases.column(request)], guide.number(answer, 0)
    if call == "load" and number == 0:
        return [("load", answer[34:66] != guide.widened(guide.initial_sets(card)[1]))]
    if call == "restore" and number == 0:
        return [(call, "believed goal")] if both(guide.restore(card, request[3:])[1]) else []
    if call not in ("list", "take", "run", "save"):
        return []
    _, held, value = cases.read_about(request)
    if call == "take":
        return sorts_of_take(card, held, value, number)
    return [(call, "believed goal")] if number == 0 and both(held) else []


class Cases(unittest.TestCase):
    """The cases by seed."""

    def test_same_seed_same_bytes(self):
        """The same seed gives the same bytes, another seed others."""
        one = list(cases.generate(7, 60, 700))
        self.assertEqual(one, list(cases.generate(7, 60, 700)))
        self.assertEqual(one[:20], list(cases.generate(7, 20, 700)))
        self.assertNotEqual(one, list(cases.generate(8, 60, 700)))

    def test_no_card_too_large(self):
        """No card of more than `largest` bytes, no case of more than 50
        requests."""
        for largest in (100, 255, 700):
            for case in cases.generate(3, 40, largest):
                self.assertLessEqual(len(case.card), largest)
                self.assertLessEqual(len(case.requests), 50)

    def test_one_stream(self):
        """The stream's answers are those to the requests one by one."""
        some = list(cases.generate(5, 30, 700))
        single = [drill.answer(case.card, request) for case in some for request in case.requests]
        self.assertEqual(drill.answers(b"".join(cases.stream(some))), b"".join(single))

    def test_every_answer_is_met(self):
        """Over 500 cards each answer is met at least ten times, but for 10, which
        "gives way to three in its place"; and so is each sort of closed move. Each sort
        of finished count and of request about goals is met at least five times."""
        met, sorts, others = Counter(), Counter(), Counter()
        for case in cases.generate(1, 500, 700):
            for request in case.requests:
                answer = drill.answer(case.card, request)
                met[guide.number(answer, 0)] += 1
                others.update(sorts_of_count(case.card, request, answer))
                others.update(sorts_of_goals(case.card, request, answer))
                if request[0] == drill.TAKE:
                    sorts.update(sorts_of_closed_move(case.card, request, answer))
        for sort in SORTS_OF_COUNTS | SORTS_OF_GOALS:
            self.assertGreaterEqual(others[sort], 5, sort)
        self.assertEqual(set(met), set(range(17)) - {10})
        self.assertGreaterEqual(min(met.values()), 10, met)
        self.assertLessEqual(SORTS_OF_CLOSED_MOVES, set(sorts))
        self.assertGreaterEqual(min(sorts[sort] for sort in SORTS_OF_CLOSED_MOVES), 10, sorts)

    def test_node_only_with_16(self):
        """ "With 16 the one that settled it, else 0." """
        for case in cases.generate(2, 100, 700):
            for request in case.requests:
                answer = drill.answer(case.card, request)
                if request[0] == drill.TAKE and guide.number(answer, 0) != 16:
                    self.assertEqual(answer[2:4], b"\0\0")


class Stored(unittest.TestCase):
    """The stored requests of crates/drill."""

    # "They are tested in the table's order, the card first with 1 to 9, then a
    # place or a configuration; then the rest": what each call can answer.
    POSSIBLE = {
        "check": set(range(10)),
        "load": set(range(10)),
        "grade": set(range(10)),
        "list": set(range(10)) | {12, 13},
        "take": set(range(10)) | {11, 13, 14, 15, 16},
        "run": set(range(10)) | {13},
        "save": set(range(10)) | {12, 13},
        "restore": set(range(10)),
        "text": {0, 3, 5, 6, 7, 8, 9, 12, 17, 18, 25},
        "print": set(range(10)) | {12, 18, 25},
        "deliberate": set(range(10)) | {13, 19},
        "name": set(range(10)) | {20, 21},
        "go on": set(range(10)) | {13, 19},
        "next": set(range(10)) | {13},
        "bound take": set(range(10)) | {13, 14, 15, 16, 22},
        "bound run": set(range(10)) | {13, 22},
        "plain load": set(range(10)),
        "plain list": set(range(10)) | {12, 13},
        "plain take": set(range(10)) | {11, 13, 14, 15, 16},
        "plain run": set(range(10)) | {13},
    }

    @classmethod
    def setUpClass(cls):
        """The files and the table, the cases, and the first case of each name."""
        cls.files, cls.met = stored.make_files()
        cls.cases = list(stored.stored_cases())
        cls.answered = [
            (case.card, asked, drill.answer(case.card, asked))
            for case in cls.cases
            for asked in case.requests
        ]
        cls.named = {case.name: case for case in reversed(cls.cases)}

    def numbers(self, case):
        """The numbers of the answers to a case's requests."""
        return [guide.number(drill.answer(case.card, asked), 0) for asked in case.requests]

    def each(self, kind):
        """Each request of a kind about a card that is good, and the answer to
        it."""
        for card, asked, answer in self.answered:
            if asked[0] == kind and guide.check(card) == 0:
                yield card, asked, answer

    def test_same_bytes(self):
        """The bytes are the same each time, 3,000 requests at least, in files of
        less than 2.8 million bytes."""
        self.assertEqual(stored.make_files(), (self.files, self.met))
        self.assertGreaterEqual(sum(map(sum, self.met)), 3000)
        self.assertLess(max(map(len, self.files.values())), 2800000)

    def test_one_stream(self):
        """The drill's answers to the one file are the other."""
        self.assertEqual(drill.answers(self.files[stored.REQUESTS]), self.files[stored.ANSWERS])

    def test_header(self):
        """For the C header just the plain engine's requests are left out, with their answers;
        as they stand behind all others, what is left is the first bytes of both files."""
        kept = list(stored.header_part(self.cases))
        asked = [request for case in kept for request in case.requests]
        others = [one for _, one, _ in self.answered if one[0] not in range(15, 19)]
        self.assertEqual(asked, others)
        files, met = stored.make_files(kept, ("requests", "answers"))
        self.assertEqual(sum(map(sum, met)), len(others))
        self.assertTrue(self.files[stored.REQUESTS].startswith(files["requests"]))
        self.assertTrue(self.files[stored.ANSWERS].startswith(files["answers"]))
        rest = self.files[stored.REQUESTS][len(files["requests"]):]
        last = self.files[stored.ANSWERS][len(files["answers"]):]
        self.assertEqual(drill.answers(rest), last)

    def test_before_any_card(self):
        """The first eight requests are the eight calls, and no request 0."""
        first, requests = self.cases[0], self.files[stored.REQUESTS]
        self.assertTrue(requests.startswith(b"".join(first.requests) + b"\0"))
        self.assertEqual([asked[0] for asked in first.requests], list(range(1, 9)))
        self.assertEqual(self.numbers(first), [1] * 8)
        self.assertEqual(self.named["a card of no bytes"].card, b"")

    def test_every_clause_alone(self):
        """Each damage and each range of a card, a configuration and a place is a
        case, with the number that the document gives."""
        for one in damage.CARD_DAMAGES + damage.CARD_RANGES:
            case = self.named[one.name]
            self.assertEqual(case.requests[0], bytes([drill.CHECK]), one.name)
            self.assertEqual(self.numbers(case)[0], one.number, one.name)
        for one in damage.PLACE_DAMAGES + damage.PLACE_RANGES:
            self.assertEqual(self.numbers(self.named[one.name]), [one.number], one.name)
        for one in damage.CONFIGURATION_DAMAGES:
            case = self.named[one.name]
            self.assertEqual({asked[0] for asked in case.requests}, {4, 5, 6, 7}, one.name)
            self.assertEqual(set(self.numbers(case)), {13}, one.name)
        for one in damage.CONFIGURATION_RANGES:
            self.assertNotIn(13, self.numbers(self.named[one.name]), one.name)

    def test_named_cards(self):
        """The named cards, the maximal one among them, each with some requests."""
        for name, _ in cases.NAMED_CARDS:
            self.assertGreaterEqual(len(self.named[name].requests), 8, name)

    def test_unknown_atoms(self):
        """An atom past those of the card, in any byte of a set: 13, and 9 for the
        place."""
        atoms = stored.SET_ATOMS + stored.WIDE_ATOMS
        for edition, name, atom in itertools.product(cards.EDITIONS, ("beliefs", "goals"), atoms):
            case = self.named["atom %d in the %s, edition %d" % (atom, name, edition)]
            place = [9] if atom < cards.most_atoms(edition) else []
            self.assertEqual(self.numbers(case), [13] * 4 + place, case.name)

    def test_every_two_rows(self):
        """Each two rows of a card and of a place at once, of either edition, the lower
        answers: 1 for a file under 4 bytes, 2, then 1 for one shorter than its header."""
        for rows, pairs in (
            (damage.CARD_ROWS, damage.CARD_PAIRS),
            (damage.PLACE_ROWS, damage.PLACE_PAIRS),
        ):
            of_name = {one.name: (at, one.number) for at, row in enumerate(rows) for one in row}
            met = set()
            for case in self.cases:
                found = [of_name[name] for name in case.name.split(" and ") if name in of_name]
                if len(found) == 2:
                    found.sort()
                    self.assertEqual(self.numbers(case)[0], found[0][1], case.name)
                    met.add((found[0][0], found[1][0]))
            self.assertEqual(met, set(pairs))

    def test_every_answer_of_each_call(self):
        """Each call is given every answer that it can be given, and no other."""
        for name, column in zip(cases.CALL_NAMES, self.met):
            met = {number for number, count in enumerate(column) if count}
            self.assertEqual(met, self.POSSIBLE[name], name)

    def test_budgets_and_endings(self):
        """The budgets 0, 1, 1,000 and 65,535, each ending with more than one of
        them, and 65,535 transitions in one run."""
        met = set()
        for _, asked, answer in self.each(drill.RUN):
            budget = cases.read_about(asked)[2]
            met.add((budget, guide.number(answer, len(answer) - 3), answer[-1]))
        for budget in (1, 1000, 65535):
            self.assertIn((budget, budget, guide.SPENT), met)
            for ending in (guide.REST, guide.FULL):
                self.assertTrue([one for one in met if one[0] == budget and one[2] == ending])
        self.assertEqual({one for one in met if one[0] == 0}, {(0, 0, 0)})

    def test_verdicts(self):
        """Bounded and open cards, with each kind of offender, the first rule of
        its kind and a later one."""
        met = {tuple(answer[2:5]) for _, _, answer in self.each(drill.GRADE)}
        for verdict in ((0, 0, 0), (1, 1, 0), (1, 2, 0), (1, 2, 1), (1, 3, 0), (1, 3, 1)):
            self.assertIn(verdict, met)

    def test_rooms(self):
        """Lists and saves with exactly the room needed, one less, one more and
        none, and the longest ones."""
        for kind, most in ((drill.LIST, drill.LIST_LIMIT), (drill.SAVE, drill.SAVE_LIMIT)):
            spare, rooms = set(), set()
            for card, asked, _ in self.each(kind):
                _, held, room = cases.read_about(asked)
                needed = guide.edition_of(card).place_header + held.length
                if kind == drill.LIST:
                    needed = guide.list_choices(card, held, most)[1]
                spare.add(room - needed if needed else None)
                rooms.add(room)
            self.assertLessEqual({-1, 0, 1}, spare)
            self.assertLessEqual({0, most}, rooms)

    def test_long_plans(self):
        """Plans of 1,022, 1,023 and 1,024 actions in every call that takes one,
        a move that leaves 1,024, and one that would leave 1,025."""
        for kind in cases.CALLS_ON_CONFIGURATIONS:
            lengths = {cases.read_about(asked)[1].length for _, asked, _ in self.each(kind)}
            self.assertLessEqual({1022, 1023, 1024}, lengths)
        taken = [(guide.number(a, 0), guide.number(a, 68)) for _, _, a in self.each(drill.TAKE)]
        self.assertIn((0, 1024), taken)
        self.assertIn((11, 1024), taken)

    def test_closed_moves(self):
        """Each closed move by hand is a case with its number and its node, P6 among
        them, and so is each sort of them."""
        for one in closed.ALL:
            case = self.named[one.name]
            answer = drill.answer(case.card, *case.requests)
            self.assertEqual(answer[:4], drill.two(one.number) + drill.two(one.node), one.name)
        found = [sorts_of_closed_move(*taken) for taken in self.each(drill.TAKE)]
        self.assertLessEqual(SORTS_OF_CLOSED_MOVES, {sort for sorts in found for sort in sorts})

    def test_p6(self):
        """ "P6 becomes 16 with node 2"; and specification 0 with the atoms 1 and 3
        believed, whose condition is node 4, "1 and 3": the left holds, so it is the
        right's, "not 2", which is node 2, neither the root nor a child of it."""
        for name in ("P6", "closed: false, below the right of an and"):
            case = self.named[name]
            self.assertEqual(case.card, STRIPE_BYTES)
            self.assertEqual(drill.answer(case.card, *case.requests)[:4], b"\x10\0\x02\0")

    def test_finished_counts(self):
        """Each take, run and place by hand is a case, and each sort of count is met."""
        for name, card, held, choice, number, count in finished.each_take():
            case = self.named[name]
            self.assertEqual(cases.read_about(case.requests[0]), (drill.TAKE, held, choice), name)
            answer = drill.answer(card, *case.requests)
            found = guide.number(answer, 0), guide.number(answer, 71)
            self.assertEqual(found, (number, count), name)
        runs = [case for case in self.cases if case.name == "finished: runs"]
        found = [cases.read_about(asked)[1:] for case in runs for asked in case.requests]
        self.assertEqual(found, [(one.held, one.budget) for one in finished.RUNS])
        self.assertEqual(set(self.numbers(self.named["finished: places"])), {0, 12})
        sorts = {sort for one in self.answered for sort in sorts_of_count(*one)}
        self.assertLessEqual(SORTS_OF_COUNTS, sorts)

    def test_struck_goals(self):
        """Each take, load, run and place by hand is a case, and each sort of request
        about goals is met."""
        taken = [*struck.each_action(), *struck.OTHERS]
        asked = self.named["struck: actions"].requests + self.named["struck: others"].requests
        found = [cases.read_about(request)[1:] for request in asked]
        self.assertEqual(found, [(held, choice) for held, choice, _ in taken])
        loads = [case.card for case in self.cases if case.name == "struck: load"]
        self.assertEqual(loads, [card for card, _, _ in struck.each_load()])
        found = [cases.read_about(request)[1:] for request in self.named["struck: runs"].requests]
        self.assertEqual(found, [(held, budget) for held, budget, _ in struck.RUNS])
        self.assertEqual(len(self.named["struck: places"].requests), 3 * 16)
        sorts = {sort for one in self.answered for sort in sorts_of_goals(*one)}
        self.assertLessEqual(SORTS_OF_GOALS, sorts)

    def test_every_condition(self):
        """All nodes of the conditions card under all sets of beliefs."""
        case = self.named["closed: every condition"]
        asked = [cases.read_about(request)[1:] for request in case.requests]
        self.assertEqual(asked, list(closed.every_condition()))
        self.assertEqual(len(asked), len(list(closed.settled_table())))

    def test_ends_of_the_codes(self):
        """The maximal card has an entry for each code below 768: with the empty
        plan, selections are 16 by the goal condition, node 2, and the others 15; the
        smallest card has none."""
        end = len(stored.END_CODES)
        for name, expected in (
            ("the maximal card", [16, 16, 15, 15, 15, 15, 14, 14]),
            ("the smallest card", [14] * 8),
        ):
            case = self.named[name]
            self.assertEqual(self.numbers(case)[-end:], expected)
        first = drill.answer(self.named["the maximal card"].card, self.named["the maximal card"].requests[-end])
        self.assertEqual(first[:4], b"\x10\0\x02\0")

    def test_counts_of_texts_and_prints(self):
        """About 700 texts and 300 prints, each answer several times."""
        for name, least in (("text", 650), ("print", 280)):
            column = self.met[cases.CALL_NAMES.index(name)]
            self.assertGreaterEqual(sum(column), least)
            self.assertGreaterEqual(min(column[number] for number in self.POSSIBLE[name]), 4, name)

    def test_texts_by_hand(self):
        """Each slip by hand is a case with its place, and so are the other texts by
        hand but for the long ones, and the card in each spelling."""
        for one in slips.SLIPS + slips.NUMBERED:
            if len(one.text) <= stored.LONG_TEXT:
                case = self.named[one.name]
                answer = drill.answer(case.card, *case.requests)
                self.assertEqual(answer[:6], drill.two(one.number) + drill.four(one.place), one.name)
        for at in range(len(slips.SPELLINGS)):
            self.assertEqual(self.numbers(self.named["spelling %d" % at]), [0])

    def test_every_clause_of_a_text(self):
        """Each clause of a text's refusals is a case, each limit just kept, and every
        two refusals, but for those left out, of which there are others alike."""
        for one in texts.TEXT_DAMAGES + texts.TEXT_RANGES:
            if one.name not in stored.LEFT_OUT:
                self.assertEqual(self.numbers(self.named[one.name]), [one.number], one.name)
        for low, high in texts.TEXT_PAIRS + [(17, number) for number in texts.ORDER]:
            self.assertEqual(self.numbers(self.named["text %d and %d" % (low, high)]), [low])
        names = {one.name for one in texts.TEXT_DAMAGES + texts.TEXT_RANGES}
        self.assertLessEqual(set(stored.LEFT_OUT), names)

    def test_the_stripe_cards_text(self):
        """With just the room, one byte less, none, one byte more and some more; the
        card of the case is the one that is checked after it."""
        case = self.named["the stripe card's text"]
        self.assertEqual(self.numbers(case), [0, 12, 12, 0, 0, 0, 0, 0])
        self.assertEqual(drill.answer(case.card, case.requests[0])[8:], test_text.STRIPE_CARD)

    def test_deep_texts(self):
        """Texts that nest 4,000 deep: 18, and 17 with the place of the slip."""
        for name, number in (
            ("4,000 deep", 18),
            ("a slip behind 4,000 brackets and signs", 17),
            ("4,000 brackets and signs and no more", 17),
        ):
            case = self.named[name]
            held, _ = cases.read_text(case.requests[0])
            place = text.slip_of(held) or 0
            answer = drill.answer(case.card, *case.requests)
            self.assertEqual(answer[:6], drill.two(number) + drill.four(place))
            self.assertEqual(place > 4000, number == 17)

    def test_edges_of_prints(self):
        """Nodes that nest 32 and 33 deep, and that print 255, 256 and 257 nodes; rooms
        of just the text's length and one byte less."""
        deep, sizes, spare = set(), set(), set()
        for card, asked, answer in self.each(drill.PRINT):
            node, room = guide.number(asked, 1), guide.number(asked, 3)
            nodes = guide.judge(card)[1].nodes.entries
            if node < len(nodes):
                found = text.measures(nodes)[node]
                number, printed = text.print_node(card, node, drill.PRINT_ROOM_LIMIT)
                deep.add((found.depth, number))
                sizes.add((found.size, number))
                spare.add(room - len(printed) if number == 0 else None)
        self.assertLessEqual({(32, 0), (33, 18)}, deep)
        self.assertLessEqual({(255, 0), (256, 0), (257, 25)}, sizes)
        self.assertLessEqual({-1, 0, 1}, spare)


    def test_programs_by_hand(self):
        """Each program by hand is asked, and answered as is written beside it."""
        named = [case for case in self.cases if case.name == "programs by hand"]
        asked = [(case.card, request) for case in named for request in case.requests]
        expected = list(programs.by_hand())
        self.assertEqual(len(asked), len(expected))
        for (card, request), one in zip(asked, expected):
            self.assertEqual((card, *cases.read_deliberate(request)), (card, *one[2:5]))
            answer = drill.answer(card, request)
            last = drill.two(one.count) + bytes([one.ending])
            last += drill.two(len(one.remaining)) + bytes(one.remaining)
            self.assertEqual(answer, b"\0\0" + drill.image(one.after) + last, one.name)

    def test_clauses_of_programs(self):
        """Each clause of 19 alone, before 13 and behind 9, and each limit just kept."""
        count, ranges = len(broken.PROGRAM_DAMAGES), len(broken.PROGRAM_RANGES)
        for name, expected in (
            ("program clauses alone", [19] * count),
            ("program clauses and 13", [19] * count),
            ("program clauses and 9", [9] * count),
            ("program ranges", [0] * ranges),
            ("program ranges and 13", [13] * ranges),
            ("program ranges and 9", [9] * 3),
        ):
            self.assertEqual(self.numbers(self.named[name]), expected, name)
        for number in range(1, 10):
            name = "program and " + damage.damages_of(number)[0].name
            self.assertEqual(self.numbers(self.named[name]), [number] * 5)
            kinds = [request[0] for request in self.named[name].requests]
            self.assertEqual(kinds, [drill.DELIBERATE] * 2 + [drill.GO_ON] * 2 + [drill.NEXT])

    def test_edges_of_programs(self):
        """Each ending with the budgets 2 and 65,535, programs of 1 and of 128 entries,
        remaining programs of up to 128 numbers, and runs of 65,535 moves. With budget 1
        none is finished, as a program has a move to make or is stuck."""
        endings, sizes, left, counts = set(), set(), set(), set()
        for _, asked, answer in self.each(drill.DELIBERATE):
            whole, _, budget = cases.read_deliberate(asked)
            reader = drill.Reader(answer)
            if reader.number() == 0:
                reader.image()
                count, ending = reader.number(), reader.byte()
                endings.add((budget, ending))
                sizes.add(len(whole) // 4)
                left.add(reader.number())
                counts.add(count)
        self.assertLessEqual({(budget, e) for budget in (2, 65535) for e in range(4)}, endings)
        self.assertEqual({e for budget, e in endings if budget == 0}, {0})
        self.assertEqual({e for budget, e in endings if budget == 1}, {0, 2, 3})
        self.assertLessEqual({1, 2, 3, 127, 128}, sizes)
        self.assertLessEqual({0, 1, 2, 3, 126, 127, 128}, left)
        self.assertLessEqual({0, 1, 2, 32768, 65535}, counts)

    def test_gone_on_by_hand(self):
        """Of the numbers by hand most are asked for, all that are refused among them, and
        each is answered as is written beside it."""
        case, by_hand = self.named["gone on by hand"], {}
        for one in gone_on.BY_HAND:
            by_hand[one.program, bytes(one.numbers), one.held, one.budget] = one
        met = [by_hand[cases.read_go_on(request)] for request in case.requests]
        self.assertGreater(len(met), 30)
        self.assertGreater(sum(one.number == 19 for one in met), 15)
        self.assertLessEqual(set(stored.MOST_NUMBERS), {one.name for one in met})
        for request, one in zip(case.requests, met):
            last = drill.two(one.count) + bytes([one.ending])
            last += drill.two(len(one.remaining)) + bytes(one.remaining)
            expected = drill.two(one.number) + drill.image(one.after) + last
            self.assertEqual(drill.answer(case.card, request), expected, one.name)

    def test_clauses_of_numbers(self):
        """Each way to break the bound of numbers, and to keep it just so."""
        expected = [19] * len(cuts.NUMBER_DAMAGES) + [0] * len(cuts.NUMBER_RANGES)
        self.assertEqual(self.numbers(self.named["numbers: clauses"]), expected)

    def test_edges_of_going_on(self):
        """Each ending, no, one, 128 and 512 numbers, budget 0 with and without numbers, and
        13 behind good numbers."""
        endings, given = set(), set()
        for _, asked, answer in self.each(drill.GO_ON):
            _, numbers, _, budget = cases.read_go_on(asked)
            reader = drill.Reader(answer)
            given.add((reader.number(), len(numbers)))
            reader.image()
            reader.number()
            endings.add((budget == 0, numbers == b"", reader.byte()))
        some = {(False, False, ending) for ending in range(4)}
        none = {(True, False, 0), (True, True, 0), (False, True, 1)}
        self.assertLessEqual(some | none, endings)
        self.assertLessEqual({(0, 0), (0, 1), (0, 66), (0, 128), (13, 0), (13, 2)}, given)
        self.assertLessEqual({(19, 1), (19, 2), (19, 129), (19, 256), (19, 512)}, given)

    def test_next_by_hand(self):
        """The next moves by hand, each answered as is written beside it: every ending in
        phase 2, and a full one though an action would fit."""
        by_hand = {(one.card, one.held): one for one in next_moves.BY_HAND}
        met = []
        for case in self.cases:
            if case.name == "next by hand":
                for request in case.requests:
                    one = by_hand[case.card, cases.read_next(request)]
                    expected = drill.two(one.number) + bytes([one.ending]) + drill.two(one.code)
                    self.assertEqual(drill.answer(case.card, request), expected, one.name)
                    met.append(one)
        self.assertGreater(len(met), 28)
        self.assertLessEqual({(0, 2, 514), (0, 2, 512), (0, 1, 0), (13, 0, 0)}, {one[3:] for one in met})

    def test_next_configurations(self):
        """Each clause of 13 that a short plan can have, and each range just inside."""
        numbers = Counter(self.numbers(self.named["next configurations"]))
        self.assertEqual(set(numbers), {0, 13})
        self.assertGreater(numbers[13], 12)

    def named_answers(self, name):
        """The number and the sheet of each answer of a case of names."""
        case = self.named[name]
        answers = [drill.answer(case.card, asked) for asked in case.requests]
        return [(guide.number(answer, 0), answer[2]) for answer in answers]

    def test_names_by_hand(self):
        """Each name by hand is asked for, and answered as is written beside it."""
        case = self.named["names by hand"]
        self.assertEqual(len(case.requests), len(sheets.BY_HAND))
        for asked, one in zip(case.requests, sheets.BY_HAND):
            self.assertEqual((case.card, *cases.read_name(asked)), one[:4])
            expected = drill.two(one.number) + bytes([one.sheet])
            expected += drill.two(one.start) + drill.two(one.length)
            self.assertEqual(drill.answer(case.card, asked), expected)

    def test_clauses_of_names(self):
        """Each clause of 20 in either sheet, alone and with others; with both sheets
        broken it is the shed's; a wrong name that nobody asked for; 1 to 9 first."""
        for which, title in ((1, "the shed's"), (0, "the master")):
            name, count = "names: clauses of %s sheet" % title, len(sheets.CLAUSES[which])
            self.assertEqual(self.named_answers(name), [(20, which)] * count)
            paired = [(20, 1)] * count + [(20, which)] * len(sheets.SHEET_DAMAGES)
            self.assertEqual(self.named_answers(name + ", and others"), paired)
        wrong = self.named_answers("names: a wrong name not asked for")
        self.assertEqual(wrong, [(20, turn % 2) for turn in range(len(sheets.NO_CHARACTERS))])
        for number in range(1, 10):
            name = "name and " + damage.damages_of(number)[0].name
            self.assertEqual(self.named_answers(name), [(number, 0)] * 2)

    def test_edges_of_names(self):
        """Sheets of every small length and of 65,535 bytes, and cards of 1 and of 256
        actions."""
        for which in (1, 0):
            case = self.named["names: sheets of every small length, %d" % which]
            sizes = {len(cases.read_name(asked)[1 - which]) for asked in case.requests}
            self.assertEqual(sizes, set(range(len(stored.GOOD_SHEET) + 1)))
        self.assertEqual(self.named_answers("names: the longest sheets"), [(0, 0), (20, 1)])
        self.assertEqual(set(self.named_answers("names: ranges")), {(0, 0), (0, 1), (21, 0)})
        found = self.named_answers("names: 256 actions")
        self.assertEqual(found[3:], [(21, 0), (21, 0), (20, 1), (20, 0), (20, 1)])
        self.assertEqual({number for number, _ in found[:3]}, {0})


class DrillBytes(unittest.TestCase):
    """The drill's requests and answers, written out by hand."""

    LOADED = b"\x09" + bytes(31) + b"\x04" + bytes(31) + bytes([0, 0, 0, 0, 0, 0, 0])
    CARD = b"\x00\xff\x00" + STRIPE_BYTES

    def answers(self, *requests):
        """The answers to requests about the stripe card."""
        return drill.answers(self.CARD + b"".join(requests))

    def test_no_card(self):
        """At first the card is that of no bytes."""
        self.assertEqual(drill.answers(b"\x01"), b"\x01\x00")
        self.assertEqual(drill.answers(b"\x02"), b"\x01\x00" + bytes(71))
        self.assertEqual(drill.answers(b"\x03"), b"\x01\x00" + bytes(4))

    def test_check_load_grade(self):
        """Check, load and grade of the stripe card."""
        found = self.answers(b"\x01", b"\x02", b"\x03")
        self.assertEqual(found, b"\0\0" + b"\0\0" + self.LOADED + bytes(6))

    def test_list(self):
        """The list 0 alone in a room of 2, and in no room. By request 11 it judges two
        conditions, as selection 0's belief condition is "true", and one goal is open; with
        the refusal both are 0."""
        request = b"\x04" + self.LOADED
        found = self.answers(request + b"\x02\x00", request + b"\x00\x00")
        expected = "0000 0100 0000 EEEE 0C00 0000"
        if 11 in drill.LANDED:
            expected = "0000 0100 0200 0100 0000 EEEE 0C00 0000 0000 0000"
        self.assertEqual(found, bytes.fromhex(expected))

    def test_take(self):
        """Selection 0; a code that is none; action 0, as the plan is empty: number,
        node 0, image."""
        request = b"\x05" + self.LOADED
        after = self.LOADED[:64] + bytes([1, 0, 1, 0, 0, 1, 0, 4])
        found = self.answers(request + b"\x00\x00", request + b"\x00\x03", request + b"\x00\x01")
        refused = b"\x0e\0\0\0" + self.LOADED + b"\x0f\0\0\0" + self.LOADED
        self.assertEqual(found, b"\0\0\0\0" + after + refused)

    def test_take_under_a_false_condition(self):
        """P6: 16 and node 2, and the configuration as it came in, with the least
        m."""
        held = bytes(64) + bytes([1, 0, 0, 9, 8, 1, 0, 3])
        wider = bytes(64) + bytes([1, 0, 0, 9, 8, 2, 0, 3, 0])
        found = self.answers(b"\x05" + wider + b"\x01\x02")
        self.assertEqual(found, b"\x10\0\x02\0" + held)

    def test_run(self):
        """Budget 4: the plan 2 0 has m 1, as its last byte is zero."""
        found = self.answers(b"\x06" + self.LOADED + b"\x04\x00")
        after = b"\x0b" + bytes(31) + b"\x04" + bytes(31) + bytes([2, 0, 0, 0, 0, 1, 0, 2])
        self.assertEqual(found, b"\0\0" + after + b"\x04\0" + b"\0")

    def test_finished_count(self):
        """The stripe card's run to its end, from the count 02FF hex: it ends with 0300
        hex, and its place has that in bytes 10 and 11."""
        held = self.LOADED[:67] + b"\xff\x02" + bytes(2)
        after = b"\x05" + bytes(63) + bytes([0, 0, 2, 0, 3, 0, 0])
        found = self.answers(b"\x06" + held + b"\x09\0", b"\x07" + after + b"\x2c\0")
        place = bytes.fromhex("3350 0100 0000 2C00 0200 0003") + after[:16] + after[32:48]
        self.assertEqual(found, b"\0\0" + after + b"\x06\0\x01" + b"\0\0" + place)

    def test_save_and_restore(self):
        """A save in a room of 45 and of 43, and the place restored."""
        sets = self.LOADED[:16] + self.LOADED[32:48]
        place = bytes.fromhex("3350 0100 0000 2C00 0000 0000") + sets
        request = b"\x07" + self.LOADED
        found = self.answers(request + b"\x2d\0", request + b"\x2b\0", b"\x08\x2c\0" + place)
        expected = b"\0\0" + place + b"\xee" + b"\x0c\0" + b"\xee" * 43 + b"\0\0" + self.LOADED
        self.assertEqual(found, expected)

    def test_refused_configuration_comes_back(self):
        """A byte after the plan's end: 13, and the configuration as it came in,
        with the least m."""
        held = self.LOADED[:64] + bytes([0, 0, 0, 5, 1, 3, 0, 0, 7, 0])
        back = self.LOADED[:64] + bytes([0, 0, 0, 5, 1, 2, 0, 0, 7])
        found = self.answers(b"\x06" + held + b"\x09\0")
        self.assertEqual(found, b"\x0d\0" + back + b"\0\0\0")

    def test_deliberate(self):
        """The stripe card: select 0 and then execute, in a budget of 1: the second
        remains; in a budget of 2 it is stuck with that. A program of no bytes: 19."""
        asked = bytes([2, 0, 0, 0, 0, 0, 0, 0, 5, 0, 1, 0])
        about = b"\x0b\x0c\0" + asked + self.LOADED
        after = self.LOADED[:64] + bytes([1, 0, 1, 0, 0, 1, 0, 4])
        found = self.answers(about + b"\x01\0", about + b"\x02\0")
        for ending, at in ((b"\0", 0), (b"\x02", 1)):
            answer = b"\0\0" + after + b"\x01\0" + ending + b"\x01\0\x01"
            self.assertEqual(found[at * len(answer):][:len(answer)], answer)
        refused = self.answers(b"\x0b\0\0" + self.LOADED + b"\x02\0")
        self.assertEqual(refused, b"\x13\0" + self.LOADED + bytes(5))

    def test_go_on(self):
        """The same program: of its second part alone, in a budget of 1, the card being
        where the first has left it, it is stuck; of nothing it is spent and finished; of
        the whole it is as `deliberate`; of an entry that is none, or one too high before
        another, it is 19."""
        asked = b"\x15\x0c\0" + bytes([2, 0, 0, 0, 0, 0, 0, 0, 5, 0, 1, 0])
        after = self.LOADED[:64] + bytes([1, 0, 1, 0, 0, 1, 0, 4])
        found = self.answers(asked + b"\x01\0\x01" + after + b"\x01\0")
        self.assertEqual(found, b"\0\0" + after + b"\0\0" + b"\x02" + b"\x01\0\x01")
        none = asked + b"\0\0" + self.LOADED
        found = self.answers(none + b"\0\0", none + b"\x01\0")
        spent, finished = bytes(5), bytes([0, 0, 1, 0, 0])
        self.assertEqual(found, b"\0\0" + self.LOADED + spent + b"\0\0" + self.LOADED + finished)
        found = self.answers(asked + b"\x01\0\x02" + self.LOADED + b"\x01\0")
        self.assertEqual(found, b"\0\0" + after + b"\x01\0\0" + b"\x01\0\x01")
        found = self.answers(asked + b"\x02\0\x01\x02" + self.LOADED + b"\x00\0")
        self.assertEqual(found, b"\0\0" + self.LOADED + bytes(3) + b"\x02\0\x01\x02")
        for numbers in (b"\x01\0\x03", b"\x02\0\x02\x02"):
            found = self.answers(asked + numbers + self.LOADED + b"\x01\0")
            self.assertEqual(found, b"\x13\0" + self.LOADED + bytes(5))

    def test_next(self):
        """The stripe card's first move, selection 0; its second, revision 0; at rest; and
        with a phase of 3."""
        second = self.LOADED[:64] + bytes([1, 0, 1, 0, 0, 1, 0, 4])
        rest = b"\x05" + bytes(63) + bytes([0, 0, 2, 1, 0, 0, 0])
        wrong = self.LOADED[:34] + b"\x03" + self.LOADED[35:]
        found = self.answers(*(b"\x16" + held for held in (self.LOADED, second, rest, wrong)))
        self.assertEqual(found, bytes.fromhex("0000 00 0000 0000 00 0002 0000 01 0000 0D00 00 0000"))

    @unittest.skipUnless(10 in drill.LANDED, "the drill has no request 10 yet")
    def test_bounded(self):
        """13 and 14 on the stripe card, which is bounded: selection 0; a code that is none;
        two steps. With revision 1's body made its head (P10) the card is open: 22, and the
        configuration as it came in."""
        after = self.LOADED[:64] + bytes([1, 0, 1, 0, 0, 1, 0, 4])
        taken, run = b"\x0d" + self.LOADED, b"\x0e" + self.LOADED
        found = self.answers(taken + b"\x00\x00", taken + b"\x00\x03")
        self.assertEqual(found, b"\0\0\0\0" + after + b"\x0e\0\0\0" + self.LOADED)
        second = self.LOADED[:64] + bytes([2, 0, 0, 0, 0, 2, 0, 1, 3])
        self.assertEqual(self.answers(run + b"\x02\0"), b"\0\0" + second + b"\x02\0\0")
        heads = bytes.fromhex("0200 0200 0100 0300 0200"), bytes.fromhex("0200 0200 0100 0200 0100")
        card = b"\x00\xff\x00" + STRIPE_BYTES.replace(*heads)
        found = drill.answers(card + taken + b"\x00\x03" + run + b"\0\0")
        self.assertEqual(found, b"\x16\0\0\0" + self.LOADED + b"\x16\0" + self.LOADED + bytes(3))

    @unittest.skipUnless(12 in drill.LANDED, "the drill has no request 12 yet")
    def test_plain(self):
        """15 to 18 on the stripe card: the load; the list 0 alone in a room of 2, and in no
        room; selection 0 and a code that is none; P6; four steps; and a phase of 3."""
        listing, taken, run = b"\x10" + self.LOADED, b"\x11" + self.LOADED, b"\x12" + self.LOADED
        self.assertEqual(self.answers(b"\x0f"), b"\0\0" + self.LOADED)
        self.assertEqual(drill.answers(b"\x0f"), b"\x01\0" + bytes(71))
        found = self.answers(listing + b"\x02\0", listing + b"\0\0")
        expected = "0000 0100 0200 0100 0000 EEEE 0C00 0000 0000 0000"
        self.assertEqual(found, bytes.fromhex(expected))
        after = self.LOADED[:64] + bytes([1, 0, 1, 0, 0, 1, 0, 4])
        found = self.answers(taken + b"\0\0", taken + b"\0\x03")
        self.assertEqual(found, b"\0\0\0\0" + after + b"\x0e\0\0\0" + self.LOADED)
        held = bytes(64) + bytes([1, 0, 0, 9, 8, 1, 0, 3])
        self.assertEqual(self.answers(b"\x11" + held + b"\x01\x02"), b"\x10\0\x02\0" + held)
        fourth = b"\x0b" + bytes(31) + b"\x04" + bytes(31) + bytes([2, 0, 0, 0, 0, 1, 0, 2])
        self.assertEqual(self.answers(run + b"\x04\0"), b"\0\0" + fourth + b"\x04\0\0")
        wrong = self.LOADED[:66] + b"\x03" + self.LOADED[67:]
        found = self.answers(b"\x12" + wrong + b"\x01\0")
        self.assertEqual(found, b"\x0d\0" + wrong + bytes(3))

    def test_name(self):
        """The stripe card's third move in two languages, of which the shed's has none;
        its second, which it has; an unknown one; and a shed's sheet of one byte."""
        master, shed = sheets.MASTER_BYTES, sheets.SHED_BYTES
        both = b"\x1d\0" + shed + b"\x27\0" + master
        found = self.answers(b"\x0c" + both + b"\x02\0", b"\x0c" + both + b"\x01\0")
        self.assertEqual(found, bytes.fromhex("0000 00 1700 0600 0000 01 1200 0500"))
        wrong = b"\x01\0\x05\x27\0" + master
        found = self.answers(b"\x0c" + both + b"\x05\0", b"\x0c" + wrong + b"\x05\0")
        self.assertEqual(found, bytes.fromhex("1500 00 0000 0000 1400 01 0000 0000"))

    def test_broken_requests_end_the_program(self):
        """A request that breaks the rules ends the program; answers so far are
        written."""
        image = self.LOADED
        broken = [
            b"\x09",
            b"\xff",
            b"\x04" + image + b"\x01\x04",
            b"\x07" + image + b"\x01\x08",
            b"\x08\x01\x10" + bytes(4097),
            b"\x05" + image[:-2] + b"\x01\x04" + bytes(1025) + b"\0\0",
            b"\x0b\x01\x04" + bytes(1025) + image + b"\0\0",
            b"\x15\x01\x04" + bytes(1025) + b"\0\0" + image + b"\0\0",
            b"\x15\0\0\x01\x02" + bytes(513) + image + b"\0\0",
            b"\x16" + image[:-2] + b"\x01\x04" + bytes(1025),
            b"\x0d" + image[:-2] + b"\x01\x04" + bytes(1025) + b"\0\0",
            b"\x10" + image + b"\x01\x04",
            b"\x11" + image[:-2] + b"\x01\x04" + bytes(1025) + b"\0\0",
            b"\x13" + image + b"\0\0\0\0",
            b"\x14" + image,
            b"\x17\0\0",
        ]
        later = {
            10: [b"\x0d" + image + b"\0\0", b"\x0e" + image + b"\0\0"],
            12: [b"\x0f"] + [bytes([kind]) + image + b"\0\0" for kind in (16, 17, 18)],
        }
        for number, requests in later.items():
            broken += [] if number in drill.LANDED else requests
        for request in broken:
            self.assertEqual(self.answers(b"\x01", request, b"\x01"), b"\0\0")

    def test_input_ending_inside_a_request(self):
        """The answers so far are written."""
        whole = b"\x05" + self.LOADED + b"\0\0"
        for size in range(1, len(whole)):
            self.assertEqual(self.answers(b"\x01", whole[:size]), b"\0\0")
        self.assertEqual(self.answers(b"\x01", b"\x00\x05\x00abcd"), b"\0\0")


def load_tests(loader, tests, pattern):
    """The tests of this file, and those of the requests 2, 6 and 8 to 12, of going on and of
    the next move."""
    modules = [test_text, test_deliberation, test_going_on, test_next, test_names, test_editions]
    modules += [test_bounded, test_listed, test_plain]
    for module in modules:
        tests.addTests(loader.loadTestsFromModule(module))
    return tests


if __name__ == "__main__":
    unittest.main()
