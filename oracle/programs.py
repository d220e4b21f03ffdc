"""Programs of request 6 by hand: what they are made of, programs with all that they come
to, programs whose entries share their parts, and the card that they run on.
"""

from typing import NamedTuple, Optional

import cards
import finished
import guide
from cards import AND, BELIEVES, HAS_GOAL, NOT, OR, Node
from closed import START, STRIPE, configuration
from deliberation import FINISHED, FULL, SPENT, STUCK

# --- entries ----------------------------------------------------------------

EXECUTE = (0, 0, 0)


def apply(rule):
    """1 apply a."""
    return 1, rule, 0


def select(rule):
    """2 select a."""
    return 2, rule, 0


def while_plan(body):
    """3 while the plan is not empty do b."""
    return 3, 0, body


def while_belief(node, body):
    """4 while belief condition a holds do b."""
    return 4, node, body


def then(first, second):
    """5 a then b."""
    return 5, first, second


def either(left, right):
    """6 a or b."""
    return 6, left, right


def program(entries):
    """The bytes of a program: "shaped like nodes", kind, a, b and 0."""
    return b"".join(bytes(entry) + b"\0" for entry in entries)


# --- the card ---------------------------------------------------------------


def shed_card():
    """The emptying card: its entries are under "true", action 0 has a specification,
    revision 0 makes nothing of 1, revision 1 makes 1 of 2, revision 2 makes 3 3 of 3,
    revision 3 nothing of 0 1 2, selection 0 makes the plan 0 and selection 1 the plan
    0 1 2. And revision 4 makes nothing of 3; there are conditions on beliefs (1, 6), on
    goals (2, 3, 4) and on both (5)."""
    description = finished.emptying_card()
    description.revisions.append(cards.Revision(0, 3, 1, 0, 0))
    description.nodes += [Node(BELIEVES, 0), Node(HAS_GOAL, 0), Node(NOT, 2)]
    description.nodes += [Node(AND, 0, 3), Node(OR, 1, 2), Node(NOT, 1)]
    return description


SHED = cards.card(shed_card())


# --- all that a program comes to --------------------------------------------


class Deliberated(NamedTuple):
    """A program by hand: what it is, the card, the program, the configuration and the
    budget; and what it comes to: the configuration, the count, the ending and the
    remaining program."""

    name: str
    card: bytes
    program: bytes
    held: guide.Configuration
    budget: int
    after: guide.Configuration
    count: int
    ending: int
    remaining: tuple


class Trace(NamedTuple):
    """A program on the card above and all that it comes to, move by move. Each word is
    what a number of moves has led to: the plan, the phase, the finished count and the
    remaining program, "-" for nothing in a plan or a program; K and L are plans of 1,023
    and 1,024 threes. The ending is that after the last word, None if it goes on."""

    name: str
    entries: list
    words: str
    ending: Optional[int]


REPAIR = [EXECUTE, apply(0), then(0, 1)]
ACT_FIRST = [EXECUTE, apply(3), either(0, 1)]

TRACES = [
    # Execute, apply and select by themselves.
    Trace("execute", [EXECUTE], "00:0:0:0 0:2:0:-", FINISHED),
    Trace("execute, last action", [EXECUTE], "0:0:0:0 -:2:1:-", FINISHED),
    Trace("execute, at the most", [EXECUTE], "0:1:65535:0 -:2:65535:-", FINISHED),
    Trace("execute, abstract action", [EXECUTE], "1:0:0:0", STUCK),
    Trace("execute, empty plan", [EXECUTE], "-:0:9:0", STUCK),
    Trace("apply", [apply(1)], "20:0:0:0 10:0:0:-", FINISHED),
    Trace("apply, to nothing", [apply(0)], "1:2:0:0 -:0:1:-", FINISHED),
    Trace("apply, other head", [apply(0)], "21:1:0:0", STUCK),
    Trace("apply, empty plan", [apply(0)], "-:0:0:0", STUCK),
    Trace("select", [select(1)], "-:0:0:0 012:1:0:-", FINISHED),
    Trace("select, not empty", [select(1)], "1:0:0:0", STUCK),
    Trace("the last is the whole", [select(0), apply(2), EXECUTE], "0:0:0:2 -:2:1:-", FINISHED),
    # A while has an idle move: its body and then itself, or nothing.
    Trace(
        "while the plan is not empty",
        [EXECUTE, while_plan(0)],
        "00:1:0:1 00:1:0:01 0:2:0:1 0:2:0:01 -:2:1:1 -:2:1:-",
        FINISHED,
    ),
    Trace("while, empty plan", [EXECUTE, while_plan(0)], "-:2:65535:1 -:2:65535:-", FINISHED),
    Trace(
        "while, the body stuck",
        [EXECUTE, while_plan(0)],
        "01:0:0:1 01:0:0:01 1:2:0:1 1:2:0:01",
        STUCK,
    ),
    Trace(
        "while true, the body stuck",
        [EXECUTE, while_belief(0, 0)],
        "0:0:0:1 0:0:0:01 -:2:1:1 -:2:1:01",
        STUCK,
    ),
    Trace(
        "while true, a while that fails",
        [EXECUTE, while_plan(0), while_belief(0, 1)],
        "-:1:0:2 -:1:0:12 -:1:0:2 -:1:0:12",
        None,
    ),
    Trace(
        "while, a belief that is none",
        [EXECUTE, while_belief(1, 0)],
        "0:1:0:1 0:1:0:-",
        FINISHED,
    ),
    Trace(
        "while, not a belief that is none",
        [EXECUTE, while_belief(6, 0)],
        "0:0:0:1 0:0:0:01 -:2:1:1 -:2:1:01",
        STUCK,
    ),
    Trace(
        "while, in another",
        [EXECUTE, while_plan(0), while_plan(1)],
        "0:0:0:2 0:0:0:12 0:0:0:012 -:2:1:12 -:2:1:2 -:2:1:-",
        FINISHED,
    ),
    # A sequence is one number until a move is made in it.
    Trace("sequence", REPAIR, "01:0:0:2 1:2:0:1 -:0:1:-", FINISHED),
    Trace("sequence, stuck on the left", REPAIR, "1:0:0:2", STUCK),
    Trace("sequence, stuck on the right", REPAIR, "00:0:0:2 0:2:0:1", STUCK),
    Trace(
        "sequences on the left",
        [EXECUTE, then(0, 0), then(1, 0), then(2, 1)],
        "0000:0:0:3 000:2:0:001 00:2:0:01 0:2:0:1 -:2:1:0",
        STUCK,
    ),
    Trace(
        "sequences on the right",
        [EXECUTE, then(0, 0), then(0, 1), then(0, 2)],
        "00:0:0:3 0:2:0:2 -:2:1:1",
        STUCK,
    ),
    Trace(
        "sequence, a while on its left",
        [EXECUTE, while_plan(0), select(0), then(1, 2)],
        "0:0:0:3 0:0:0:012 -:2:1:12 -:2:1:2 0:1:1:-",
        FINISHED,
    ),
    Trace(
        "sequence, a while that fails on its left",
        [EXECUTE, while_plan(0), select(0), then(1, 2)],
        "-:2:5:3 -:2:5:2 0:1:5:-",
        FINISHED,
    ),
    Trace(
        "sequence in a while",
        REPAIR + [while_plan(2)],
        "0101:0:0:3 0101:0:0:23 101:2:0:13 01:0:0:3 01:0:0:23 1:2:0:13 -:0:1:3 -:0:1:-",
        FINISHED,
    ),
    # Choice takes the left if it has a first move, idle or not, else the right.
    Trace("choice, both", ACT_FIRST, "012:0:0:2 12:2:0:-", FINISHED),
    Trace(
        "choice, both the other way",
        [EXECUTE, apply(3), either(1, 0)],
        "012:0:0:2 -:0:1:-",
        FINISHED,
    ),
    Trace("choice, the left alone", ACT_FIRST, "01:0:0:2 1:2:0:-", FINISHED),
    Trace(
        "choice, the right alone",
        [EXECUTE, apply(0), either(0, 1)],
        "11:0:0:2 1:0:0:-",
        FINISHED,
    ),
    Trace("choice, neither", ACT_FIRST, "1:0:0:2", STUCK),
    Trace(
        "choice, a while that fails on its left",
        [EXECUTE, while_plan(0), select(0), either(1, 2)],
        "-:0:0:3 -:0:0:-",
        FINISHED,
    ),
    Trace(
        "choice, a while with a stuck body on its left",
        [apply(0), while_plan(0), EXECUTE, either(1, 2)],
        "0:0:0:3 0:0:0:01",
        STUCK,
    ),
    Trace(
        "choice, a while on its right",
        [EXECUTE, while_plan(0), select(0), either(2, 1)],
        "0:0:0:3 0:0:0:01 -:2:1:1 -:2:1:-",
        FINISHED,
    ),
    Trace(
        "choice, the right of its left stuck",
        [EXECUTE, apply(0), then(0, 1), then(0, 0), either(2, 3)],
        "00:0:0:4 0:2:0:1",
        STUCK,
    ),
    Trace(
        "choice, the left of its left stuck",
        [EXECUTE, apply(0), then(1, 0), then(0, 0), either(2, 3)],
        "00:0:0:4 0:2:0:0 -:2:1:-",
        FINISHED,
    ),
    Trace(
        "choice on both sides of a sequence",
        [EXECUTE, apply(0), either(1, 0), then(2, 2)],
        "01:0:0:3 1:2:0:2 -:0:1:-",
        FINISHED,
    ),
    Trace(
        "choice in a while",
        [EXECUTE, apply(0), apply(1), either(0, 1), either(3, 2), while_plan(4)],
        "021:0:0:5 021:0:0:45 21:2:0:5 21:2:0:45 11:0:0:5 11:0:0:45 1:0:0:5 1:0:0:45 "
        "-:0:1:5 -:0:1:-",
        FINISHED,
    ),
    # "Fitting or not": the left that does not fit is chosen. Full keeps what remained.
    Trace("full", [apply(2)], "L:1:3:0", FULL),
    Trace("just not full", [apply(2)], "K:1:3:0 L:0:3:-", FINISHED),
    Trace("choice, the left does not fit", [apply(2), apply(4), either(0, 1)], "L:1:3:2", FULL),
    Trace(
        "choice, the right does not fit",
        [apply(2), apply(4), either(1, 0)],
        "L:1:3:2 K:0:3:-",
        FINISHED,
    ),
    Trace("choice, idle on its right", [apply(2), while_plan(0), either(0, 1)], "L:2:3:2", FULL),
    Trace(
        "choice, idle on its left",
        [apply(2), while_plan(0), either(1, 0)],
        "L:2:3:2 L:2:3:01",
        FULL,
    ),
    Trace("full in a sequence", [apply(2), then(0, 0), then(1, 0)], "K:2:3:2 L:0:3:00", FULL),
]


def actions_in(word):
    """The actions of a word of a trace."""
    if word in ("K", "L"):
        return (3,) * {"K": 1023, "L": 1024}[word]
    return tuple(map(int, word.strip("-")))


def met_in(words):
    """What each word says: the configuration and the remaining program."""
    for word in words.split():
        plan, phase, count, left = word.split(":")
        held = configuration(plan=actions_in(plan), phase=int(phase), finished=int(count))
        yield held, tuple(map(int, left.strip("-")))


def each_of_trace(trace):
    """A trace's program with each budget up to its moves, one more, and 65,535."""
    met, whole = list(met_in(trace.words)), program(trace.entries)
    held, last = met[0][0], len(met) - 1
    asked = [(count, count, SPENT) for count in range(len(met))]
    if trace.ending is not None:
        asked += [(budget, last, trace.ending) for budget in (last + 1, 65535)]
    for budget, count, ending in asked:
        name = "program: %s, budget %d" % (trace.name, budget)
        after, left = met[count]
        yield Deliberated(name, SHED, whole, held, budget, after, count, ending, left)


# --- the stripe card --------------------------------------------------------

RULES = [EXECUTE, apply(0), apply(1), apply(2)]

# "The teaching shed wants revising before acting; the fast shed wants the reverse."
TEACHING = RULES + [either(1, 2), either(4, 3), either(5, 0), while_plan(6), select(0), then(8, 7)]
FAST = RULES + [either(1, 2), either(4, 3), either(0, 5), while_plan(6), select(0), then(8, 7)]

# 000, Definition 19: while the plan is not empty do (execute + apply 0 + ... + apply n).
INTERPRETER = RULES + [either(0, 1), either(4, 2), either(5, 3), while_plan(6)]

# Document 01's six steps, with an idle move before each but the first and one at the
# end; the stripe card has no plan that can both be revised and acted on.
CHOSEN = configuration((0, 3), (2,), (4,), 1)
REVISED = configuration((0, 3), (2,), (1, 3))
REPAIRED = configuration((0, 1), (2,), (0,), 2)
DONE_STRIPE = configuration((0, 2), (), (), 2, 1)
LOOP = [EXECUTE, while_belief(2, 0)]


def stripe(name, entries, held, budget, after, count, ending, remaining):
    """A program on the stripe card."""
    title = "program: stripe, %s" % name
    whole = program(entries)
    return Deliberated(title, STRIPE, whole, held, budget, after, count, ending, remaining)


ON_STRIPE = [
    stripe("%s shed" % name, entries, START, 1000, DONE_STRIPE, 12, FINISHED, ())
    for name, entries in (("teaching", TEACHING), ("fast", FAST))
] + [
    stripe("teaching shed, 1", TEACHING, START, 1, CHOSEN, 1, SPENT, (7,)),
    stripe("teaching shed, 2", TEACHING, START, 2, CHOSEN, 2, SPENT, (6, 7)),
    stripe("teaching shed, 3", TEACHING, START, 3, REVISED, 3, SPENT, (7,)),
    stripe("fast shed, 9", FAST, START, 9, REPAIRED, 9, SPENT, (7,)),
    stripe("fast shed, 12", FAST, START, 12, DONE_STRIPE, 12, SPENT, ()),
    stripe("no goal", FAST, DONE_STRIPE, 5, DONE_STRIPE, 0, STUCK, (9,)),
    stripe(
        "interpreter",
        INTERPRETER,
        configuration((0, 3), (2,), (4,)),
        65535,
        DONE_STRIPE,
        11,
        FINISHED,
        (),
    ),
    # Action 2, repair, takes atom 3 out of the beliefs; node 2 is "believes 3".
    stripe(
        "while broken",
        LOOP,
        configuration((3,), (), (2, 2)),
        9,
        configuration((), (), (2,), 2),
        3,
        FINISHED,
        (),
    ),
    stripe(
        "while broken, not broken",
        LOOP,
        configuration((), (), (2, 2), 1),
        9,
        configuration((), (), (2, 2), 1),
        1,
        FINISHED,
        (),
    ),
    stripe(
        "while broken, nothing to repair",
        LOOP,
        configuration((3,), (3,), (), 1),
        9,
        configuration((3,), (3,), (), 1),
        1,
        STUCK,
        (0, 1),
    ),
]


# --- programs whose entries share their parts -------------------------------


def doubled(first, make):
    """128 entries: some first ones, and each other of the one below twice."""
    return first + [make(k - 1, k - 1) for k in range(len(first), 128)]


CHOICES = doubled([EXECUTE], either)
SEQUENCES = doubled([EXECUTE], then)
IDLE_SEQUENCES = doubled([EXECUTE, while_plan(0)], then)
IDLE_CHOICES = doubled([EXECUTE, while_plan(0)], either)
WHILES = [EXECUTE] + [while_plan(k - 1) for k in range(1, 128)]
IN_TURN = [EXECUTE] + [(either if k % 2 else then)(k - 1, k - 1) for k in range(1, 128)]


def shared(name, entries, held, budget, after, count, ending, remaining):
    """A program whose entries share their parts, on the card above."""
    title = "program: shared, %s, budget %d" % (name, budget)
    whole = program(entries)
    return Deliberated(title, SHED, whole, held, budget, after, count, ending, tuple(remaining))


def zeros(count, phase=0, after=0):
    """A plan of so many zeros."""
    return configuration(plan=(0,) * count, phase=phase, finished=after)


# Execute, 2^127 times to be looked at, or to be done. A sequence of entry k takes 2^k
# moves; after its first move the entries 0 to k-1 remain, and after 2^i moves those from
# i on.
SHARED = [
    shared("choices", CHOICES, zeros(2), 0, zeros(2), 0, SPENT, (127,)),
    shared("choices", CHOICES, zeros(2), 1, zeros(1, 2), 1, SPENT, ()),
    shared("choices", CHOICES, zeros(2), 2, zeros(1, 2), 1, FINISHED, ()),
    shared("choices, stuck", CHOICES, zeros(0), 2, zeros(0), 0, STUCK, (127,)),
    shared("idle choices", IDLE_CHOICES, zeros(0), 2, zeros(0), 1, FINISHED, ()),
    shared("idle choices", IDLE_CHOICES, zeros(1), 1, zeros(1), 1, SPENT, (0, 1)),
    shared("sequences", SEQUENCES, zeros(10), 0, zeros(10), 0, SPENT, (127,)),
    shared("sequences", SEQUENCES, zeros(10), 1, zeros(9, 2), 1, SPENT, range(127)),
    shared("sequences", SEQUENCES, zeros(10), 2, zeros(8, 2), 2, SPENT, range(1, 127)),
    shared("sequences", SEQUENCES, zeros(10), 8, zeros(2, 2), 8, SPENT, range(3, 127)),
    shared(
        "sequences",
        SEQUENCES,
        zeros(10),
        65535,
        zeros(0, 2, 1),
        10,
        STUCK,
        (1, 2, *range(4, 127)),
    ),
    # Entry 1 takes one idle move, entry k from there on 2^(k-1): after 2^16 - 1 moves one
    # of entry 16's is left.
    shared(
        "idle sequences",
        IDLE_SEQUENCES,
        zeros(0),
        65535,
        zeros(0),
        65535,
        SPENT,
        (1, *range(17, 127)),
    ),
    shared(
        "idle sequences",
        IDLE_SEQUENCES,
        zeros(0),
        32768,
        zeros(0),
        32768,
        SPENT,
        range(16, 127),
    ),
    # Each while holds, 127 idle moves long; then, the plan empty, none does.
    shared("whiles", WHILES, zeros(1), 127, zeros(1), 127, SPENT, range(128)),
    shared("whiles", WHILES, zeros(1), 128, zeros(0, 2, 1), 128, SPENT, range(1, 128)),
    shared("whiles", WHILES, zeros(1), 256, zeros(0, 2, 1), 255, FINISHED, ()),
    # Entry 2 is two times entry 1, which is execute; entry 4 two times entry 3, ...
    shared("in turn", IN_TURN, zeros(3), 1, zeros(2, 2), 1, SPENT, range(1, 127, 2)),
    shared("in turn", IN_TURN, zeros(3), 9, zeros(0, 2, 1), 3, STUCK, (1, *range(5, 127, 2))),
]


def by_hand():
    """All the programs by hand."""
    for trace in TRACES:
        yield from each_of_trace(trace)
    yield from ON_STRIPE
    yield from SHARED
