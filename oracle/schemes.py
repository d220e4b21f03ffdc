"""Programs of request 6 by seed: of any entries, in the manner of an interpreter, along a
run's own moves, deep and shared ones; and configurations to run them from.
"""

import broken
import damage
import deliberation
import guide
import programs
from programs import EXECUTE, apply, either, select, then, while_belief, while_plan


def some_rule(random, make, count):
    """An entry that names a rule, one of so many; execute, where there is none."""
    return make(random.randrange(count)) if count else EXECUTE


def some_leaf(random, card):
    """An entry without parts."""
    style = random.random()
    if style < 0.4:
        return EXECUTE
    if style < 0.75:
        return some_rule(random, apply, len(card.revisions))
    return some_rule(random, select, len(card.selections))


def some_while(random, card, body):
    """A while over a part."""
    nodes = broken.belief_conditions(card)
    if random.random() < 0.5 or not nodes:
        return while_plan(body)
    return while_belief(random.choice(nodes), body)


def some_entry(random, card, own, back):
    """Any entry; its parts are mostly among the last ones."""
    if own == 0 or random.random() < 0.3:
        return some_leaf(random, card)
    low = max(0, own - back)
    one, other = random.randrange(low, own), random.randrange(low, own)
    style = random.random()
    if style < 0.3:
        return some_while(random, card, one)
    return (then if style < 0.65 else either)(one, other)


def any_entries(random, card):
    """A program of any entries, each over the latest ones."""
    count = random.choice((1, 2, 3, 4, 6, 9, 9, 14, 14, 20, 40, 128))
    back = random.choice((2, 3, 5, 128))
    entries = [some_entry(random, card, own, back) for own in range(count)]
    while count > 1 and entries[-1][0] < 3:
        entries[-1] = some_entry(random, card, count - 1, back)
    return entries


def joined(entries, make, parts):
    """Parts joined two by two, from the left; the entries end with the whole."""
    whole = parts[0]
    for part in parts[1:]:
        entries.append(make(whole, part))
        whole = len(entries) - 1
    return whole


def interpreter(random, card):
    """In the manner of 000's Definition 19: while there is a plan, or while a condition
    holds, a choice of execute and of rules in any order, with a selection before it or
    in it."""
    entries = [EXECUTE] + [apply(n) for n in range(min(6, len(card.revisions)))]
    chosen = list(range(len(entries)))
    random.shuffle(chosen)
    if card.selections and random.random() < 0.5:
        entries.append(some_rule(random, select, len(card.selections)))
        chosen.insert(random.randrange(len(chosen) + 1), len(entries) - 1)
    body = joined(entries, either, chosen)
    entries.append(some_while(random, card, body))
    if card.selections and random.random() < 0.5:
        entries.append(some_rule(random, select, len(card.selections)))
        entries.append(then(len(entries) - 1, len(entries) - 2))
    if random.random() < 0.4:
        entries.append(some_while(random, card, len(entries) - 1))
    return entries


def entry_of_choice(code):
    """The entry that takes a choice, but that execute takes the lowest one."""
    kind, n = divmod(code, 256)
    return (select(n), EXECUTE, apply(n))[kind]


def along(random, card, held):
    """A sequence of the moves of some run from a configuration, grouped at random, and
    now and then with one move that does not belong there."""
    taken = []
    for _ in range(random.randint(1, 9)):
        kind = random.choice(guide.KINDS)
        for n in guide.enabled_of_kind(card, held, kind):
            moved = guide.after(card, held, kind, n)
            if moved is not None:
                taken.append(entry_of_choice(256 * kind + n))
                held = moved
                break
    if not taken or random.random() < 0.2:
        taken.insert(random.randrange(len(taken) + 1), some_leaf(random, card))
    return grouped(random, taken)


def grouped(random, leaves):
    """The sequence of some entries, the pairs that are joined first chosen at random."""
    entries, parts = list(leaves), list(range(len(leaves)))
    while len(parts) > 1:
        at = random.randrange(len(parts) - 1)
        entries.append(then(parts[at], parts[at + 1]))
        parts[at:at + 2] = [len(entries) - 1]
    return entries


def shared(random, card):
    """Each entry over the one below twice or nearly so: as a term it has up to 2^127
    parts."""
    entries = [some_leaf(random, card)]
    if random.random() < 0.5:
        entries.append(some_while(random, card, 0))
    makes = random.choice(((then,), (either,), (then, either)))
    back = random.choice((1, 1, 2))
    count = random.choice((8, 12, 30, 128))
    while len(entries) < count:
        own = len(entries)
        parts = [random.randrange(max(0, own - back), own) for _ in range(2)]
        entries.append(random.choice(makes)(*parts))
    return entries


def deep(random, card):
    """A while in a while, and so on, with sequences between them: much remains."""
    entries = [some_leaf(random, card)]
    for own in range(1, random.choice((4, 10, 30, 128))):
        style = random.random()
        if style < 0.7:
            entries.append(some_while(random, card, own - 1))
        else:
            entries.append(then(own - 1, random.randrange(own)))
    return entries


def some_entries(random, card, held):
    """A program to be run from a configuration."""
    style = random.random()
    if style < 0.35:
        return any_entries(random, card)
    if style < 0.6:
        return interpreter(random, card)
    if style < 0.8:
        return along(random, card, held)
    return shared(random, card) if style < 0.9 else deep(random, card)


def full_program(random, card):
    """A configuration that a revision would leave with 1,025 actions, or just with 1,024,
    and a program that comes to it; None where there is none."""
    found = damage.full_configuration(random, card, random.choice((0, 1, 1)))
    if found is None:
        return None
    held, code = found
    entries = [entry_of_choice(code), some_leaf(random, card)]
    style = random.randrange(5)
    if style == 0:
        return held, entries[:1]
    if style < 4:
        entries.append((either(0, 1), then(0, 1), either(1, 0))[style - 1])
        return held, entries
    return held, entries + [either(0, 1), while_plan(2)]


def some_budget(random, card, whole, held):
    """A budget: 0, 1, a few, 1,000, and 65,535 where the run ends soon or is a small
    program's."""
    style = random.random()
    if style < 0.8:
        return random.choice((0, 1, 1, 2, 3, 5, 8, 13, random.randint(5, 60)))
    if style < 0.93:
        return 1000
    ending = deliberation.deliberate(card, whole, held, 1500)[3]
    if ending != deliberation.SPENT or (len(whole) < 40 and random.random() < 0.05):
        return 65535
    return 1500


def broken_program(random, card, held):
    """A program with a clause broken, or with a limit just kept; None where the card
    leaves no room for it."""
    damages = broken.PROGRAM_DAMAGES if random.random() < 0.8 else broken.PROGRAM_RANGES
    one = random.choice(damages)
    return one.change(random, card, some_entries(random, card, held))


def some_program(random, card, accepted, held):
    """A program's bytes, mostly good, and the configuration to run it from."""
    style = random.random()
    if style < 0.2:
        return broken_program(random, accepted, held) or b"", held
    found = full_program(random, accepted) if style < 0.3 else None
    if found is not None:
        return programs.program(found[1]), found[0]
    return programs.program(some_entries(random, accepted, held)), held
