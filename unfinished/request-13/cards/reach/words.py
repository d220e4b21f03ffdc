"""A configuration and its moves in words: atoms as docs/TEXT.md writes them, choices as the program's lines have them."""

from asked import FULL, FURTHER

KINDS = ("select", "act", "revise")
NONE, MORE = "-", "…"
# Atoms with numbers in a row are told as "B0..B9" from so many on. Of a plan with more than so many actions the first few are told,
# of a set of which more is to be told the first and the last.
ROW, LONG, FEW = 4, 8, 3


def choice(code):
    """A choice: "act 1"."""
    return "%s %d" % (KINDS[code // 256], code % 256)


def rows(numbers):
    """Rising numbers, those in a row together: the first and the last of each row."""
    found = []
    for n in numbers:
        if found and found[-1][1] == n - 1:
            found[-1][1] = n
        else:
            found.append([n, n])
    return found


def atoms(letter, held):
    """The atoms of a set in words, "B0", "B3"; of a long one "B0", "B2", "B4", "…", "B95", "B97", "B99", "(50)"."""
    numbers = [n for n in range(8 * len(held)) if held[n // 8] >> n % 8 & 1]
    found = []
    for first, last in rows(numbers):
        if last - first + 1 >= ROW:
            found.append("%s%d..%s%d" % (letter, first, letter, last))
        else:
            found += ["%s%d" % (letter, n) for n in range(first, last + 1)]
    return found if len(found) <= LONG else [*found[:FEW], MORE, *found[-FEW:], "(%d)" % len(numbers)]


def beliefs(configuration):
    """What is believed."""
    return atoms("B", configuration.beliefs)


def goals(configuration):
    """What is wanted."""
    return atoms("G", configuration.goals)


def plan(configuration):
    """The actions of a plan: "2 0", of a long one "2 0 1 … (37)"."""
    actions = ["%d" % action for action in configuration.plan]
    return actions if len(actions) <= LONG else actions[:FEW] + [MORE, "(%d)" % len(actions)]


def moved(number):
    """A number of moves."""
    return "1 move" if number == 1 else "%d moves" % number


def counted(reached):
    """How many configurations there are, how many of them are at rest, and whether there are more."""
    count, rest = len(reached), sum(not one.moves for one in reached)
    leads = {move.to for one in reached for move in one.moves}
    others = "with more moves there are others" if FURTHER in leads else "there are no others"
    return "%d configuration%s, %d at rest; %s" % (
        count,
        "" if count == 1 else "s",
        rest,
        "with more moves a plan gets too long" if FULL in leads else others,
    )
