"""Deliberations by seed that are cut at random places, and numbers to go on with: each way
to break their bound, and the bound just kept.

A change of numbers makes others, "the next first", from the number of the program's
entries; the answer's number stands beside it. None where there are too few entries for it.
"""

import broken
import damage
import deliberation
import guide
import programs
import schemes
from damage import Damage

# --- where a deliberation is cut --------------------------------------------

BUDGET_LIMIT = 65535


def nested(random, accepted, held):
    """A while in a while, and so on, of which mostly all hold: as many numbers can remain as
    there are entries."""
    nodes = broken.belief_conditions(accepted)
    true = [node for node in nodes if guide.judged(accepted, held, node).holds]
    entries = [schemes.some_leaf(random, accepted)]
    for body in range(random.choice((9, 65, 66, 99, 127))):
        if held.length and (not true or random.random() < 0.7):
            entries.append(programs.while_plan(body))
        elif true and random.random() < 0.98:
            entries.append(programs.while_belief(random.choice(true), body))
        else:
            entries.append(schemes.some_while(random, accepted, body))
    return entries


def filling(random, accepted):
    """A configuration that a revision would leave with 1,025 actions, or just with 1,024, and
    a program that comes to it in a few idle moves or in none; None where there is none."""
    found = schemes.full_program(random, accepted)
    if found is None:
        return None
    held, entries = found[0], list(found[1])
    for _ in range(random.choice((0, 1, 2, 3))):
        entries.append(programs.while_plan(len(entries) - 1))
    return held, entries


def some_deliberation(random, accepted, held):
    """A good program, and the configuration to run it from."""
    style = random.random()
    found = filling(random, accepted) if style < 0.15 else None
    if style > 0.9:
        found = held, nested(random, accepted, held)
    if found is None:
        found = held, schemes.some_entries(random, accepted, held)
    return programs.program(found[1]), found[0]


def some_budgets(random, card, whole, held):
    """The budgets of a deliberation that is cut once, twice or three times: the first may
    be 0, each other is at least 1, and they are 65,535 in all at most."""
    most = random.choice((3, 8, 20, 60, 60, 200) if len(whole) < 240 else (60, 150, 200, 300))
    _, _, count, ending, _ = deliberation.deliberate(card, whole, held, most)
    some = range(1, count) if count > 1 and random.random() < 0.8 else range(count + 1)
    places = sorted(random.sample(some, min(len(some), random.choice((1, 1, 1, 2, 3)))))
    ends = random.choice((1, 7, most))
    if ending != deliberation.SPENT and random.random() < 0.3:
        ends = BUDGET_LIMIT - places[-1]
    return [after - before for before, after in zip([0] + places, places + [places[-1] + ends])]


def some_cut(random, card, accepted, held):
    """A program, the configuration to run it from, and the budgets: mostly of a deliberation
    with two moves at least."""
    for _ in range(random.choice((1, 4))):
        whole, found = some_deliberation(random, accepted, held)
        if deliberation.deliberate(card, whole, found, 2)[2] == 2:
            break
    return whole, found, some_budgets(random, card, whole, found)


def in_parts(card, whole, held, budgets):
    """A deliberation in parts: of each what is handed in, the numbers (None for the first
    one) and the configuration, and what it answers. Their configuration, ending and numbers
    at the end are those of one deliberation, and their counts add up to its count."""
    numbers, met = None, []
    for budget in budgets:
        if numbers is None:
            found = deliberation.deliberate(card, whole, held, budget)
        else:
            found = deliberation.go_on(card, whole, numbers, held, budget)
        met.append((numbers, held, found))
        _, held, _, _, numbers = found
    one = deliberation.deliberate(card, whole, met[0][1], sum(budgets))
    last = met[-1][2]
    if (last[0], last[1], sum(found[2] for _, _, found in met), *last[3:]) != one:
        raise ValueError("in parts %s of %s: %s is not %s" % (budgets, whole.hex(), last, one))
    return met


# --- numbers to go on with --------------------------------------------------


def highest(count, entries):
    """So many numbers, each just below its bound."""
    return list(range(entries - count, entries))


def some_count(random, entries):
    """How many numbers: 1, 2, a few or as many as there are entries."""
    return min(entries, random.choice((1, 2, 3, random.randint(1, entries), entries)))


def kept(random, entries):
    """Any numbers within their bounds."""
    return [random.randint(0, most) for most in highest(some_count(random, entries), entries)]


def at_its_bound(which):
    """One of the numbers is one too high: the first, the last or any."""

    def change(random, entries):
        numbers = kept(random, entries)
        at = {"first": 0, "last": len(numbers) - 1}.get(which, random.randrange(len(numbers)))
        numbers[at] = highest(len(numbers), entries)[at] + 1
        return numbers

    return change


def much_too_high(random, entries):
    """One of the numbers is far over its bound."""
    numbers = kept(random, entries)
    numbers[random.randrange(len(numbers))] = random.choice((128, 129, 254, 255))
    return numbers if deliberation.numbers_are_wrong(numbers, entries) else None


def past_one_byte(random, entries):
    """A number that is 256 with those behind it, which are all within their bounds."""
    if entries == 1:
        return None
    behind = random.randint(1, entries - 1)
    return [256 - behind] + [0] * behind


def other_way_around(random, entries):
    """The highest numbers, the next last."""
    count = some_count(random, entries)
    return highest(count, entries)[::-1] if count > 1 else None


def with_one(in_front):
    """The highest numbers and one more, which is one too high in front of them; or behind
    them, where it makes each of them one too high."""

    def change(random, entries):
        numbers = highest(some_count(random, entries), entries)
        return [numbers[0]] + numbers if in_front else numbers + [0]

    return change


def so_many(count):
    """So many zeros."""
    return lambda random, entries: [0] * count


NUMBER_DAMAGES = [
    Damage("numbers: the first one too high", 19, at_its_bound("first")),
    Damage("numbers: the last one too high", 19, at_its_bound("last")),
    Damage("numbers: one of them one too high", 19, at_its_bound("any")),
    Damage("numbers: one of them far too high", 19, much_too_high),
    Damage("numbers: 256 with those behind it", 19, past_one_byte),
    Damage("numbers: the next last", 19, other_way_around),
    Damage("numbers: one more in front", 19, with_one(True)),
    Damage("numbers: one more behind", 19, with_one(False)),
    Damage("numbers: one more than entries", 19, lambda random, entries: [0] * (entries + 1)),
    Damage("numbers: 129", 19, so_many(129)),
    Damage("numbers: 255", 19, so_many(255)),
    Damage("numbers: 256", 19, so_many(256)),
    Damage("numbers: 257", 19, so_many(257)),
    Damage("numbers: 512", 19, so_many(512)),
]

NUMBER_RANGES = [
    Damage("number range: none", 0, so_many(0)),
    Damage("number range: the whole", 0, lambda random, entries: [entries - 1]),
    Damage("number range: the first entry", 0, so_many(1)),
    Damage("number range: all", 0, lambda random, entries: highest(entries, entries)),
    Damage("number range: as many zeros", 0, lambda random, entries: [0] * entries),
    Damage("number range: the highest", 0, lambda r, n: highest(some_count(r, n), n)),
    Damage("number range: any", 0, kept),
]


def any_numbers(random, entries):
    """Numbers that nobody has looked at: of any order, or any bytes."""
    if random.random() < 0.5:
        numbers = kept(random, entries)
        random.shuffle(numbers)
        return numbers
    most = random.choice((entries, entries + 1, 256))
    return [random.randrange(most) for _ in range(random.choice((1, 2, 3, 5, 20)))]


def some_numbers(random, entries):
    """Numbers to go on with, right ones and wrong ones."""
    style = random.random()
    if style < 0.3:
        return any_numbers(random, entries)
    one = random.choice(NUMBER_DAMAGES if style < 0.65 else NUMBER_RANGES)
    numbers = one.change(random, entries)
    return [] if numbers is None else numbers


# --- configurations whose next move is asked for ----------------------------


def nearly_full(random, accepted):
    """A configuration whose plan a revision leaves with 1,024 actions, or with one more,
    mostly where the guide tries revisions first; None where there is no such revision."""
    found = damage.full_configuration(random, accepted, random.choice((0, 1, 1)))
    if found is None:
        return None
    return found[0]._replace(phase=random.choice((0, 1, 2, 2, 2)))
