"""The stored requests, crates/drill/stdin, and the answers to them,
crates/drill/stdout: the gate runs the drill on the first file and holds what it
writes against the second.

    python3 oracle/stored.py            # writes both files
    python3 oracle/stored.py --check    # says whether the files are just that
    python3 oracle/stored.py --header REQUESTS ANSWERS
                                        # the same, and writes to two other files what of both
                                        # the C header has calls for

Both files follow from a fixed seed and hold every clause of document 01's refusal
table and of those of the requests 1, 2, 6, 8 and 9, every range just inside, the edges of
plans, rooms and budgets, the finished count of request 4, the goals struck by request 5,
programs of request 6, deliberations that are gone on with, next moves and names of request
8; all of it for cards of edition 1 and, but for what knows no set, of edition 2. What the
requests from 10 on add stands behind it, of those that are in `drill.LANDED`.
"""

import argparse
import io
import itertools
import os
import sys
from random import Random

import broken
import cards
import cases
import closed
import cuts
import damage
import drill
import finished
import gone_on
import guide
import listed
import next_moves
import prints
import programs
import schemes
import sheets
import slips
import struck
import text
import texts
import weighed
import wordings
from cases import Case

SEED = "stored"
TOP = os.path.dirname(os.path.dirname(os.path.abspath(__file__)))
REQUESTS = os.path.join("crates", "drill", "stdin")
ANSWERS = os.path.join("crates", "drill", "stdout")

# The most bytes of a damaged card: the first of these that its damage fits in.
SIZES = (300, 700, 1500, 3500, 11000, 65535)
SMALL = {1: SIZES[0], 2: 480}

# Of a damage of edition 2, every third card over so many bytes.
LONG_CARD = 3500

# A longer request is left out where there are others to choose from.
SHORT_REQUEST = 182

# Atoms that no small card has: those that an edition 1 place can hold, and the others.
SET_ATOMS = (8, 15, 16, 63, 64, 119, 120, 127)
WIDE_ATOMS = (128, 135, 136, 191, 192, 247, 248, 255)

STRIPE = cards.card(cards.stripe_card())
STRIPES = {1: STRIPE, 2: cards.card(cards.stripe_of_edition_2())}


def random_of(*what):
    """The random numbers of one case, by the seed and what the case is."""
    return Random(" ".join([SEED] + [str(word) for word in what]))


def small_card(random, edition=1):
    """A small good card of an edition with an entry of each kind, and the same card read."""
    card = cards.card(cards.roomy_card(random, SMALL[edition], edition))
    return card, guide.judge(card)[1]


def tempered_card(random, temper, edition=1):
    """A small good card of an edition and of some temper."""
    description = cards.roomy_card(random, SMALL[edition], edition)
    temper(random, description)
    return cards.card(description)


def in_turn(index):
    """The editions in turn."""
    return 1 + index % 2


# --- cards of no bytes and cards with names ---------------------------------


def no_card_case(name):
    """All eight calls about the card of no bytes."""
    return Case(name, b"", cases.damaged_requests(random_of(name), STRIPE))


# The first and the last code of each kind, and codes past all kinds.
END_CODES = (0, 255, 256, 511, 512, 767, 768, 65535)


def end_requests(random):
    """Takes at the ends of the three kinds' codes."""
    return [cases.request_about(random, drill.TAKE, guide.EMPTY, code) for code in END_CODES]


def named_cases():
    """The cards that the document or the drill names, the maximal one among
    them, which has an entry for each code below 768."""
    for name, describe in cases.NAMED_CARDS:
        card, random = cards.card(describe()), random_of(name)
        made = cases.good_requests(random, card)
        made = made if len(card) < 2000 else made[:3] + made[-18:]
        yield Case(name, card, made + end_requests(random))


# --- damaged cards ----------------------------------------------------------


def damaged_case(name, item, edition=1):
    """A case of some damages to a card of an edition, with as small a card as they fit
    in."""
    for largest in SIZES[edition - 1:]:
        case = cases.damaged_case(random_of(name, edition), item, largest, edition)
        if case is not None:
            return case
    raise ValueError("no card for %s" % name)


def thinned(case, turn, count):
    """Check, and so many of the other short requests, others for each turn."""
    first, others = case.requests[0], case.requests[1:]
    at = turn * count % len(others)
    short = [request for request in others[at:] + others[:at] if len(request) <= SHORT_REQUEST]
    return case._replace(requests=[first] + short[:count])


def damaged_cases():
    """Each clause of the refusals 1 to 9 alone, and every two rows at once, twice:
    "they are tested in the table's order"; for cards of either edition. Check answers for
    each, and the other calls take turns."""
    named = [(one.name, (one,), edition) for one in damage.CARD_DAMAGES for edition in cards.EDITIONS]
    named += [
        ("%s %s" % (pair, edition), pair, edition)
        for edition in cards.EDITIONS
        for pair in damage.CARD_PAIRS
    ]
    for turn, (name, item, edition) in enumerate(named):
        case = damaged_case(name, item, edition)
        if edition == 1 or len(case.card) <= LONG_CARD or turn % 6 == 1:
            yield thinned(case, turn // 2, 4 - edition)


def loaded_requests(random, card, takes):
    """Check, load and grade, and the calls on the loaded configuration."""
    _, accepted = guide.judge(card)
    loaded = guide.load(card)[1]
    return cases.plain_requests() + cases.requests_on(random, card, accepted, loaded, takes)


def range_cases():
    """Each range of a card of either edition just inside, and the calls on what it loads
    to."""
    for turn, (one, edition) in enumerate(itertools.product(damage.CARD_RANGES, cards.EDITIONS)):
        case = damaged_case(one.name, (one,), edition)
        if edition == 1 or len(case.card) <= LONG_CARD or turn % 6 == 1:
            random = random_of(one.name, edition)
            yield case._replace(requests=loaded_requests(random, case.card, 3 - edition))


# --- damaged configurations and places --------------------------------------


def short_configuration(random, accepted):
    """A configuration with a plan of 1 to 20 actions, the last of them not 0."""
    while True:
        held = cases.random_configuration(random, accepted)
        if 1 <= held.length <= 20 and held.plan[held.length - 1] != 0:
            return held


def configuration_cases():
    """Each clause of 13 and each range just inside, with each of list, take, run
    and save; once from a plan, and once from the empty configuration, where that
    can be damaged so; under cards of either edition."""
    changes = damage.CONFIGURATION_DAMAGES + damage.CONFIGURATION_RANGES
    for one, edition in itertools.product(changes, cards.EDITIONS):
        random = random_of(one.name, edition)
        card, accepted = small_card(random, edition)
        made = []
        for held in (short_configuration(random, accepted), guide.EMPTY):
            changed = one.change(random, accepted, held)
            if changed is not None:
                made += [
                    cases.call_of_kind(random, kind, changed)
                    for kind in cases.CALLS_ON_CONFIGURATIONS
                ]
        if made:
            yield Case(one.name, card, made)


def place_case(edition, damages):
    """A restore of a place of an edition with some damages; none, where there is no such
    place."""
    name = " and ".join(one.name for one in damages)
    for again in range(8):
        random = random_of(name, edition, again)
        card, accepted = small_card(random, edition)
        described = cases.place_description(short_configuration(random, accepted), edition)
        place = damage.damaged_place(random, accepted, described, *damages)
        if place is not None:
            return [Case(name, card, [cases.request_restore(place)])]
    return []


def place_pair_case(edition, pair):
    """A restore of a place of an edition with damages of two rows."""
    for again in itertools.count():
        damages = damage.pair_of_place_damages(random_of(pair, edition, again), *pair)
        found = place_case(edition, damages)
        if found:
            return found


def place_cases():
    """Each clause of a place's refusals and each range just inside, and every
    two rows of a place at once; of either edition."""
    alone = damage.PLACE_DAMAGES + damage.PLACE_RANGES
    for one, edition in itertools.product(alone, cards.EDITIONS):
        yield from place_case(edition, (one,))
    for edition, pair in itertools.product(cards.EDITIONS, damage.PLACE_PAIRS):
        yield from place_pair_case(edition, pair)


def longest_place_case():
    """The longest place that a request can hold, of 4,096 bytes: 4 offsets."""
    place = cards.place(cards.PlaceDescription(rest=bytes(drill.PLACE_LIMIT - 44)))
    return Case("a place of 4,096 bytes", STRIPE, [cases.request_restore(place)])


def set_case(name, atom, edition):
    """Calls on a configuration with an atom that the card of an edition has not, and a
    restore of its place, where that can hold the atom."""
    what = "atom %d in the %s, edition %d" % (atom, name, edition)
    random = random_of(what)
    card = cards.card(cards.in_edition(cards.roomy_card(random, SMALL[1], 1), edition))
    _, accepted = guide.judge(card)
    held = short_configuration(random, accepted)
    held = held._replace(**{name: damage.with_atom(getattr(held, name), atom)})
    made = [cases.call_of_kind(random, kind, held) for kind in cases.CALLS_ON_CONFIGURATIONS]
    if atom < cards.most_atoms(edition):
        made.append(cases.request_restore(cards.place(cases.place_description(held, edition))))
    return Case(what, card, made)


def set_cases():
    """ "A set has a bit at or above the number of atoms", in the first and the last
    bytes of both sets and between; "under an edition 1 card" from 128 on too."""
    atoms = SET_ATOMS + WIDE_ATOMS
    for edition, name, atom in itertools.product(cards.EDITIONS, ("beliefs", "goals"), atoms):
        yield set_case(name, atom, edition)


# --- long plans -------------------------------------------------------------


def long_plan(length):
    """A configuration of the stripe card with that many actions, the first of
    which revision 0 makes one longer."""
    plan = damage.padded(bytes([4]) + bytes(k % 5 for k in range(length - 1)))
    return guide.Configuration(cards.atoms_set(0, 3), cards.atoms_set(2), plan, length, 2, 300)


def long_plan_case(length, edition):
    """The calls on a plan of that many actions: what a revision leaves has one
    more, and the last of these is over 1,024."""
    random, held, header = random_of("long", length), long_plan(length), cards.place_header(edition)
    asked = [(drill.LIST, 1), (drill.LIST, 0), (drill.TAKE, 512), (drill.TAKE, 513)]
    asked += [(drill.RUN, budget) for budget in (0, 1, 2, 40)]
    asked += [(drill.SAVE, header + length), (drill.SAVE, header - 1 + length)]
    made = [cases.request_about(random, kind, held, value) for kind, value in asked]
    made.append(cases.request_restore(cards.place(cases.place_description(held, edition))))
    return Case("a plan of %d actions" % length, STRIPES[edition], made)


def full_case(index):
    """Takes and runs of a growing card, after which the plan has 1,024 actions or would have
    one more."""
    random = random_of("full", index)
    card = tempered_card(random, cards.temper_growing, in_turn(index))
    return Case("full %d" % index, card, cases.full_requests(random, guide.judge(card)[1]))


def long_plan_cases():
    """Plans of 1,022, 1,023 and 1,024 actions, and revisions of growing cards
    that leave exactly 1,024 and 1,025."""
    for length in (1022, 1023, 1024):
        yield long_plan_case(length, 1)
    yield long_plan_case(1024, 2)
    yield from map(full_case, range(10))


# --- closed moves -----------------------------------------------------------


def closed_by_hand(one):
    """The take of a closed move."""
    request = cases.request_about(random_of(one.name), drill.TAKE, one.held, one.choice)
    return Case(one.name, one.card, [request])


def every_condition_case():
    """Each node of the conditions card judged under each set of beliefs: "the left
    child's where the left alone settles the value, else the right's"."""
    random = random_of("every condition")
    made = [
        cases.request_about(random, drill.TAKE, held, choice) for held, choice in closed.every_condition()
    ]
    return Case("closed: every condition", closed.CONDITIONS, made)


def nested_case(index):
    """False conditions of a card with nested ones, and the choices refused in what
    it loads to."""
    random = random_of("nested", index)
    description = cards.in_edition(cards.nested_card(random), in_turn(index))
    if index % 2 == 1:
        cards.spread(random, description)
    card = cards.card(description)
    _, accepted = guide.judge(card)
    made = [request for _ in range(4) for request in cases.closed_requests(random, accepted)]
    loaded = guide.load(card)[1]
    made += cases.take_requests(random, accepted, loaded, [], 0)
    return Case("closed: nested %d" % index, card, made)


def closed_cases():
    """Each clause of 14, 15 and 16 by hand, conditions of every shape, and their
    order among the other numbers; nested conditions by seed."""
    yield from map(closed_by_hand, closed.ALL)
    yield every_condition_case()
    yield from map(nested_case, range(20))


# --- finished counts --------------------------------------------------------


def finished_takes():
    """Takes that leave the plan empty, that do not, and refused ones, from each
    count."""
    for name, card, held, choice, _, _ in finished.each_take():
        yield Case(name, card, [cases.request_about(random_of(name), drill.TAKE, held, choice)])


def finished_runs():
    """Runs in which the count rises often, stops at its most, or stays."""
    for card, runs in itertools.groupby(finished.RUNS, key=lambda one: one.card):
        random = random_of("finished runs", card)
        made = [cases.request_about(random, drill.RUN, one.held, one.budget) for one in runs]
        yield Case("finished: runs", card, made)


def finished_places():
    """Places with each of the counts restored, and the configurations that they are
    listed and saved."""
    random, made = random_of("finished places"), []
    for place, held in finished.each_place():
        made.append(cases.request_restore(place))
        made.append(cases.request_about(random, drill.LIST, held, 1))
        made.append(cases.request_about(random, drill.SAVE, held, len(place)))
        made.append(cases.request_about(random, drill.SAVE, held, len(place) - 1))
    return Case("finished: places", STRIPE, made)


def turned_case(index):
    """A run in parts with a save and a restore between them: "saving and restoring
    keep it"."""
    name = "finished: turned %d" % index
    random, made = random_of(name), []
    card = tempered_card(random, cards.temper_endless, in_turn(index))
    held = guide.load(card)[1]._replace(finished=random.choice((0, 65530, 65534)))
    for budget in (1, 2, 3, 5, 8):
        made.append(cases.request_about(random, drill.RUN, held, budget))
        held = guide.run(card, held, budget)[1]
        place = guide.save(card, held, drill.SAVE_LIMIT)[1]
        made.append(cases.request_about(random, drill.SAVE, held, len(place)))
        made.append(cases.request_restore(place))
    return Case(name, card, made)


def finished_cases():
    """The finished count by hand in takes, runs and places, and in runs in parts."""
    yield from finished_takes()
    yield from finished_runs()
    yield finished_places()
    yield from map(turned_case, range(8))


# --- goals that are believed ------------------------------------------------


def struck_takes():
    """Actions that strike goals, and selections and revisions that strike none."""
    for name, takes in (("actions", struck.each_action()), ("others", struck.OTHERS)):
        random = random_of("struck", name)
        made = [cases.request_about(random, drill.TAKE, held, code) for held, code, _ in takes]
        yield Case("struck: %s" % name, struck.STRIKING, made)


def struck_loads():
    """Cards that begin with believed goals."""
    for card, _, _ in struck.each_load():
        yield Case("struck: load", card, [cases.request_plain(drill.LOAD)])


def struck_runs():
    """Runs from believed goals, step by step."""
    random = random_of("struck runs")
    made = [cases.request_about(random, drill.RUN, held, budget) for held, budget, _ in struck.RUNS]
    return Case("struck: runs", struck.STRIKING, made)


def struck_places():
    """Believed goals listed, saved and restored."""
    random, made = random_of("struck places"), []
    for held in struck.each_believed():
        place = cards.place(cases.place_description(held))
        made.append(cases.request_about(random, drill.LIST, held, 5))
        made.append(cases.request_about(random, drill.SAVE, held, len(place)))
        made.append(cases.request_restore(place))
    return Case("struck: places", struck.STRIKING, made)


def struck_cases():
    """Goals struck after an action and at load, and kept by all else."""
    yield from struck_takes()
    yield from struck_loads()
    yield struck_runs()
    yield struck_places()


# --- rooms ------------------------------------------------------------------


def room_requests(random, card, held):
    """Lists and saves with exactly the room needed, one less, one more, and
    none."""
    _, count, _ = guide.list_choices(card, held, drill.LIST_LIMIT)
    size = guide.edition_of(card).place_header + held.length
    rooms = [(drill.LIST, room) for room in damage.rooms_around(count, count + 7)]
    rooms += [(drill.SAVE, room) for room in damage.rooms_around(size, size + 9)]
    return [cases.request_about(random, kind, held, room) for kind, room in rooms]


def room_cases():
    """Lent lists and place buffers around the room needed, and the longest that a
    request can lend."""
    most = [(drill.LIST, drill.LIST_LIMIT), (drill.SAVE, drill.SAVE_LIMIT)]
    loaded, random = guide.load(STRIPE)[1], random_of("most")
    made = [cases.request_about(random, kind, loaded, room) for kind, room in most]
    yield Case("the longest lists and buffers", STRIPE, made)
    for index in range(14):
        random = random_of("rooms", index)
        card, accepted = small_card(random, in_turn(index))
        made = []
        for held in (guide.load(card)[1], short_configuration(random, accepted)):
            made += room_requests(random, card, held)
        yield Case("rooms %d" % index, card, made)


# --- budgets and endings ----------------------------------------------------

BUDGETS = (0, 1, 2, 3, 5, 1000, 65535)
RUN_TEMPERS = (
    (cards.temper_striving, 5),
    (cards.temper_bounded, 4),
    (cards.temper_later_specification, 4),
    (cards.temper_growing, 5),
    (cards.temper_endless, 2),
)


def budgets_around(card, held):
    """The budgets, and those around the count at which the run ends by itself."""
    _, _, count, ending = guide.run(card, held, 1000)
    own = () if ending == guide.SPENT else (count - 1, count, count + 1)
    return sorted({budget for budget in BUDGETS + own if budget >= 0})


def budget_case(name, card):
    """Runs of a card from its beginning, in phase 0 with every budget, and in the
    other phases with a few."""
    random, loaded = random_of(name), guide.load(card)[1]
    asked = [(0, budget) for budget in budgets_around(card, loaded)]
    asked += [(phase, budget) for phase in (1, 2) for budget in (1, 40)]
    made = [
        cases.request_about(random, drill.RUN, loaded._replace(phase=phase), budget)
        for phase, budget in asked
    ]
    return Case(name, card, made)


def tempered_budget_case(temper, index):
    """Runs of a small card of some temper."""
    name = "budgets, %s %d" % (temper.__name__, index)
    return budget_case(name, tempered_card(random_of(name, "card"), temper, in_turn(index)))


def budget_cases():
    """Budgets of 0 to 65,535 and runs that end spent, at rest and full."""
    yield budget_case("budgets, the stripe card", STRIPE)
    for temper, count in RUN_TEMPERS:
        for index in range(count):
            yield tempered_budget_case(temper, index)


# --- verdicts ---------------------------------------------------------------

GRADE_TEMPERS = (
    cards.temper_bounded,
    cards.temper_heavy_initial_plan,
    cards.temper_heavy_selection,
    cards.temper_heavy_revision,
    cards.temper_weight_edge,
    cards.temper_wild,
)


def verdict_cases():
    """Cards graded bounded, and open for the initial plan, a selection rule or a
    revision rule."""
    for temper, index in itertools.product(GRADE_TEMPERS, range(12)):
        name = "verdict, %s %d" % (temper.__name__, index)
        card = tempered_card(random_of(name), temper, in_turn(index))
        yield Case(name, card, cases.plain_requests())


# --- texts ------------------------------------------------------------------

# A longer text by hand is left out: each has its like among the clauses and ranges.
LONG_TEXT = 1000

# Clauses and ranges of thousands of bytes that are left out, as they have their like,
# too.
LEFT_OUT = (
    "text: 257 select lines",
    "text: 257 revise lines",
    "text: 1,025 actions in a head",
    "text: 1,025 actions in a body",
    "text range: 128 select lines",
    "text range: 256 revise lines",
    "text range: 8,191 actions in all plans",
    "text range: 1023 actions in a select plan",
    "text range: 1023 actions in a head",
    "text range: 1023 actions in a body",
    "text range: 1023 actions in the start's plan",
    "text range: 1024 actions in a select plan",
    "text range: 1024 actions in a head",
    "text range: 1024 actions in the start's plan",
)

# Rooms that are lent for a refused text.
REFUSED_ROOMS = (0, 1, 7, 20)


def text_case(name, held, spare=0):
    """A text, with just the room for its card and some spare; with any room where
    none is built."""
    _, _, card = text.read(held, drill.CARD_ROOM_LIMIT)
    room = random_of(name, "room").choice(REFUSED_ROOMS) if card is None else max(0, len(card) + spare)
    return Case(name, b"", [cases.request_text(held, room)])


def texts_by_hand():
    """Slips with their places, the other refusals, and one card in many spellings."""
    for one in slips.SLIPS + slips.NUMBERED:
        if len(one.text) <= LONG_TEXT:
            yield text_case(one.name, one.text)
    for at, held in enumerate(slips.SPELLINGS):
        yield text_case("spelling %d" % at, held)


def shortest(name, make, count=12):
    """The shortest of so many texts by seed."""
    return min((make(random_of(name, index)) for index in range(count)), key=lambda sample: len(sample.text))


def clause_case(one):
    """A text with one clause broken, or with a limit just kept."""
    make = texts.clause_sample if one.number else texts.range_sample
    return text_case(one.name, shortest(one.name, lambda random: make(random, one)).text)


def text_pair_cases():
    """Every two refusals of a text at once: "each is judged on the whole text before
    the next is looked at"."""
    for low, high in texts.TEXT_PAIRS:
        name = "text %d and %d" % (low, high)
        yield text_case(name, shortest(name, lambda random: texts.pair_sample(random, low, high)).text)
    for number in texts.ORDER:
        name = "text 17 and %d" % number
        damages = [one for one in texts.TEXT_DAMAGES if one.number == number]
        one = random_of(name).choice(damages)
        held = shortest(name, lambda random: texts.clause_sample(random, one)).text
        yield text_case(name, texts.slip_sample(random_of(name, "slip"), held, name).text)


def stripe_text_case():
    """The stripe card's text with the room for its card, one byte less, one more,
    none, and some more; the card of the case stays."""
    rooms = damage.rooms_around(283, 300)
    made = [cases.request_text(slips.STRIPE_TEXT, room) for room in rooms]
    return Case("the stripe card's text", STRIPE, made + cases.plain_requests())


def long_text(deep):
    """A text whose condition nests so deep, half of it by "!" and half by brackets."""
    word = b"!" * (deep // 2) + slips.in_brackets(deep // 2, b"T")
    return slips.with_condition(word)


def long_text_cases():
    """A condition that nests thousands deep, a slip in the middle of it, and one that
    never closes its brackets."""
    held = long_text(4000)
    at = held.index(b"T)")
    yield text_case("4,000 deep", held)
    yield text_case("a slip behind 4,000 brackets and signs", held[:at] + b"&" + held[at:])
    yield text_case("4,000 brackets and signs and no more", held[:at])


def seeded_text_cases():
    """Good texts and texts with damages to their bytes, by seed."""
    for index in range(36):
        name = "good text %d" % index
        random = random_of(name)
        held = texts.written(random, texts.small_writing(random), random.choice(texts.SPELLINGS))
        yield text_case(name, held, random.choice((0, 0, 1, 5, -1, -1, -60)))
    for index in range(140):
        name = "damaged text %d" % index
        yield text_case(name, shortest(name, texts.damaged_sample, 3).text)


def text_cases():
    """Texts by hand; each clause of their refusals, each limit just kept, every two
    refusals at once; long ones; others by seed."""
    yield stripe_text_case()
    yield from texts_by_hand()
    for one in texts.TEXT_DAMAGES + texts.TEXT_RANGES:
        if one.name not in LEFT_OUT:
            yield clause_case(one)
    yield from text_pair_cases()
    yield from long_text_cases()
    yield from seeded_text_cases()


# --- prints -----------------------------------------------------------------


def print_case(name, card, nodes):
    """Some nodes printed, with just the room for the text, and for every third one
    with one byte less; where nothing is printed, with any room."""
    made = []
    for turn, node in enumerate(nodes):
        number, printed = text.print_node(card, node, drill.PRINT_ROOM_LIMIT)
        rooms = [len(printed), len(printed) - 1][:1 + (turn % 3 == 0)]
        rooms = rooms if number == guide.DONE else [random_of(name, node).choice(REFUSED_ROOMS)]
        made += [cases.request_print(node, room) for room in rooms]
    return Case(name, card, made)


def printed_by_hand_case():
    """The conditions by hand, all of them on one card."""
    nodes = []
    roots = [slips.tree_nodes(tree, nodes) for tree, _ in slips.PRINTED]
    card = cards.card(cards.Description(atoms=128, weights=[1], nodes=nodes))
    return print_case("prints by hand", card, roots)


def wide_atoms_case():
    """Atoms from 128 on in conditions of an edition 2 card."""
    nodes = [cards.Node(kind, atom) for kind in (cards.BELIEVES, cards.HAS_GOAL) for atom in WIDE_ATOMS]
    nodes += [cards.Node(cards.NOT, 7), cards.Node(cards.AND, 16, 15), cards.Node(cards.OR, 17, 8)]
    description = cards.Description(layout=2, atoms=256, weights=[1], nodes=nodes)
    return print_case("prints of atoms from 128 on", cards.card(description), range(len(nodes) + 1))


def print_cases():
    """Conditions by hand; nodes around 32 deep and around 256 printed nodes; cards of
    each refusal; others by seed."""
    yield printed_by_hand_case()
    yield wide_atoms_case()
    yield print_case("prints of the stripe card", STRIPE, [0, 1, 3, 4, 5, 6, 7, 255, 256, 65535])
    yield print_case("prints of shared nodes", closed.SHARED, [0, 1, 2, 6, 7, 8, 9, 32, 33, 34, 254, 255, 256])
    yield print_case("prints of a wide card", prints.WIDE, [126, 127, 128, 129])
    yield print_case("prints of a tall card", closed.TALL, [0, 1, 31, 32, 33, 34, 254, 255, 256, 257])
    for number in range(1, 10):
        for one in damage.damages_of(number)[:2]:
            yield print_case("print and " + one.name, damaged_case(one.name, (one,)).card, [0, 65535])
    yield Case("the longest buffer for a print", STRIPE, [cases.request_print(4, drill.PRINT_ROOM_LIMIT)])
    for index in range(32):
        random = random_of("prints", index)
        card = prints.some_card(random, SIZES[1])
        yield Case("prints %d" % index, card, cases.print_requests(random, card, 6))


# --- programs ---------------------------------------------------------------

# Of the programs by seed, longer requests are left out.
LONG_PROGRAM = 292

# A good program on the card of the programs by hand, and a configuration with a finished
# count.
GOOD_ENTRIES = programs.REPAIR + [programs.while_plan(2)]
GOOD_HELD = closed.configuration((), (0,), (0, 1), 1, 300)


def programs_by_hand():
    """The programs by hand, all those about one card together."""
    for card, some in itertools.groupby(programs.by_hand(), key=lambda one: one.card):
        random = random_of("programs by hand", card)
        made = [
            cases.request_deliberate(random, one.program, one.held, one.budget) for one in some
        ]
        yield Case("programs by hand", card, made)


def clause_programs(one):
    """The bytes of a program with a clause broken or a limit just kept, once."""
    _, accepted = guide.judge(programs.SHED)
    return one.change(random_of(one.name), accepted, GOOD_ENTRIES)


def clause_requests(name, damages, held):
    """A program for each of some damages, from a configuration."""
    random = random_of(name)
    return [
        cases.request_deliberate(random, clause_programs(one), held, random.choice((0, 1, 9)))
        for one in damages
    ]


def program_clauses():
    """Each clause of 19 alone, with 13 and with 9 at once, "after 9 and before 13"; and
    each limit just kept, alone and with 13."""
    wrong = GOOD_HELD._replace(phase=3)
    atoms = cards.card(programs.shed_card())
    atoms = atoms[:32] + b"\x02" + atoms[33:]
    for name, card, damages, held in (
        ("program clauses alone", programs.SHED, broken.PROGRAM_DAMAGES, GOOD_HELD),
        ("program clauses and 13", programs.SHED, broken.PROGRAM_DAMAGES, wrong),
        ("program clauses and 9", atoms, broken.PROGRAM_DAMAGES, GOOD_HELD),
        ("program ranges", programs.SHED, broken.PROGRAM_RANGES, GOOD_HELD),
        ("program ranges and 13", programs.SHED, broken.PROGRAM_RANGES, wrong),
        ("program ranges and 9", atoms, broken.PROGRAM_RANGES[:3], wrong),
    ):
        yield Case(name, card, clause_requests(name, damages, held))


def program_configurations():
    """Each clause of 13 with a good program, and each range just inside."""
    random, made = random_of("program configurations"), []
    _, accepted = guide.judge(programs.SHED)
    whole = programs.program(GOOD_ENTRIES)
    for one in damage.CONFIGURATION_DAMAGES + damage.CONFIGURATION_RANGES:
        held = one.change(random, accepted, GOOD_HELD)
        if held is not None:
            made.append(cases.request_deliberate(random, whole, held, 3))
    return Case("program configurations", programs.SHED, made)


def program_cards():
    """A good program, and a broken one with a broken configuration, about cards of each
    refusal; gone on with too, and the next move."""
    for number in range(1, 10):
        one = damage.damages_of(number)[0]
        name = "program and " + one.name
        random = random_of(name)
        made = [
            cases.request_deliberate(random, whole, held, 3)
            for whole, held in (
                (programs.program(GOOD_ENTRIES), GOOD_HELD),
                (b"", GOOD_HELD._replace(phase=3)),
            )
        ]
        made += [
            cases.request_go_on(random, programs.program(GOOD_ENTRIES), (2, 3), GOOD_HELD, 3),
            cases.request_go_on(random, b"", (4,), GOOD_HELD._replace(phase=3), 3),
            cases.request_next(random, GOOD_HELD._replace(phase=3)),
        ]
        yield Case(name, damaged_case(one.name, (one,)).card, made)


def seeded_cuts(random, card, held):
    """A deliberation that is cut, if it is a short one, and the next move of a
    configuration in each phase."""
    _, accepted = guide.judge(card)
    made = cases.cut_requests(random, card, *cuts.some_cut(random, card, accepted, held))
    if max(map(len, made)) > SHORT_REQUEST:
        made = []
    phases = [held._replace(phase=phase) for phase in guide.KINDS]
    made += [cases.request_next(random, one) for one in phases]
    return [narrowed(request) for request in made]


def seeded_programs():
    """Programs by seed, the shorter ones, of every sixth card with deliberations that are
    cut; and a few of the longer ones."""
    for index in range(60):
        random = random_of("programs", index)
        card = cards.card(cards.good_card(random, SIZES[1]))
        made = cases.program_requests(random, card, guide.judge(card)[1], 12)
        short = [request for request in made if len(request) <= LONG_PROGRAM][:8]
        if index % 6 == 0:
            short += seeded_cuts(random, card, guide.load(card)[1])
        yield Case("programs %d" % index, card, short)
    for index in range(6):
        random = random_of("long programs", index)
        card, accepted = small_card(random, in_turn(index))
        made = []
        for make in (schemes.shared, schemes.deep):
            whole = programs.program(make(random, accepted))
            held = short_configuration(random, accepted)
            made.append(cases.request_deliberate(random, whole, held, random.choice((3, 60, 900))))
        yield Case("long programs %d" % index, card, made)


def program_cases():
    """Programs by hand; each clause of 19 and its order among the others; by seed."""
    yield from programs_by_hand()
    yield from program_clauses()
    yield program_configurations()
    yield from program_cards()
    yield from seeded_programs()


# --- going on ---------------------------------------------------------------

# Of the numbers by hand, longer requests are left out but for these.
LONG_GONE_ON = 332
MOST_NUMBERS = (
    "gone on: 65 whiles, budget 99",
    "gone on: full, budget 9",
    "gone on: 128 whiles, budget 1",
    "gone on, refused: 129 of 128 entries",
)


def gone_on_request(random, one):
    """A program gone on with, by hand."""
    return cases.request_go_on(random, one.program, one.numbers, one.held, one.budget)


def gone_on_by_hand():
    """The numbers by hand, right ones and wrong ones, most of them short; and every
    second trace with plans of a few actions, cut at some place and gone on with to its
    end."""
    random, made = random_of("gone on by hand"), []
    for one in gone_on.BY_HAND:
        request = narrowed(gone_on_request(random, one))
        if len(request) <= LONG_GONE_ON or one.name in MOST_NUMBERS:
            made.append(request)
    yield Case("gone on by hand", programs.SHED, made)
    random, made = random_of("gone on in traces"), []
    for trace in programs.TRACES[::2]:
        ends = [one for one in gone_on.each_cut(trace) if one.ending != gone_on.SPENT]
        if ends and ends[0].held.length < 9:
            made.append(gone_on_request(random, random.choice(ends)))
    yield Case("gone on in traces", programs.SHED, made)


def numbers_of_clauses():
    """Each way to break the bound of numbers and to keep it just so, with a program of four
    entries; the wrong ones with a wrong configuration in turn."""
    random, made = random_of("numbers"), []
    wrong = GOOD_HELD._replace(phase=3)
    for turn, one in enumerate(cuts.NUMBER_DAMAGES + cuts.NUMBER_RANGES):
        numbers = one.change(random, len(GOOD_ENTRIES))
        held = wrong if one.number and turn % 2 else GOOD_HELD
        asked = programs.program(GOOD_ENTRIES), numbers, held, turn % 3
        made.append(cases.request_go_on(random, *asked))
    return Case("numbers: clauses", programs.SHED, made)


# --- next moves -------------------------------------------------------------


def next_by_hand():
    """The next moves by hand, but for some of the long plans, in which only the phase is
    another."""
    for card, some in itertools.groupby(next_moves.BY_HAND, key=lambda one: one.card):
        random, made = random_of("next by hand", card), []
        for one in some:
            if len(drill.image(one.held)) <= SHORT_REQUEST or one.held.phase == 2:
                made.append(narrowed(cases.request_next(random, one.held)))
        yield Case("next by hand", card, made)


def next_configurations():
    """Each clause of 13 and each range just inside, of short plans."""
    random, made = random_of("next configurations"), []
    _, accepted = guide.judge(programs.SHED)
    for one in damage.CONFIGURATION_DAMAGES + damage.CONFIGURATION_RANGES:
        held = one.change(random, accepted, GOOD_HELD)
        if held is not None and len(drill.image(held)) <= SHORT_REQUEST:
            made.append(cases.request_next(random, held))
    return Case("next configurations", programs.SHED, made)


def going_on_cases():
    """Numbers gone on with and next moves, by hand and each clause of their refusals."""
    yield from gone_on_by_hand()
    yield numbers_of_clauses()
    yield from next_by_hand()
    yield next_configurations()


# --- names ------------------------------------------------------------------

# Of the names by seed, longer requests are left out.
LONG_NAME = 200

# A card of three actions and good names for them, all of several bytes, so that every
# clause can be broken.
THREE = sheets.actions_card(3)
GOOD_NAMES = [b"ab", b"\xc3\xa4", b"cde"]
GOOD_SHEET = sheets.sheet(GOOD_NAMES)


def asked_of(which, held, other, action):
    """A name asked for, where `held` is the shed's sheet (1) or the master's (0) and
    `other` is the other one."""
    return cases.request_name(*((held, other) if which else (other, held)), action)


def names_by_hand():
    """The sheets of the stripe card."""
    made = [cases.request_name(one.shed, one.master, one.action) for one in sheets.BY_HAND]
    return Case("names by hand", STRIPE, made)


def name_clauses(which):
    """Each clause of 20 broken in one of the sheets, for actions that the card has and
    has not; then with another in the same sheet, or in the other one."""
    title = "names: clauses of the %s sheet" % ("master", "shed's")[which]
    random, alone, paired = random_of(title), [], []
    for turn, one in enumerate(sheets.CLAUSES[which]):
        held = one.change(random, GOOD_NAMES)
        alone.append(asked_of(which, held, GOOD_SHEET, turn % 4 if turn % 2 else 65535))
        second = random.choice(sheets.CLAUSES[1 - which]).change(random, GOOD_NAMES)
        paired.append(asked_of(which, held, second, turn % 5))
    for one in sheets.SHEET_DAMAGES:
        names = list(GOOD_NAMES)
        names[random.randrange(3)] = bytes.fromhex(random.choice(sheets.NO_CHARACTERS)[1])
        held = one.change(random, names)
        paired.append(asked_of(which, held, random.choice((GOOD_SHEET, b"")), 0))
    yield Case(title, THREE, alone)
    yield Case(title + ", and others", THREE, paired)


def unasked_names():
    """A name that is no UTF-8 and is not the one that is asked for: first or last, in
    either sheet."""
    made = []
    for turn, (_, word) in enumerate(sheets.NO_CHARACTERS):
        names, at = list(GOOD_NAMES), 2 * (turn // 2 % 2)
        names[at] = bytes.fromhex(word)
        made.append(asked_of(turn % 2, sheets.sheet(names), GOOD_SHEET, 2 - at))
    return Case("names: a wrong name not asked for", THREE, made)


def name_ranges():
    """Names that are UTF-8, in either sheet; and what the shed's sheet may be."""
    random, made = random_of("name ranges"), []
    for one in sheets.NAME_RANGES:
        for which in (1, 0):
            held = one.change(random, GOOD_NAMES)
            other = GOOD_SHEET if which else random.choice((b"", GOOD_SHEET))
            made.append(asked_of(which, held, other, random.randrange(3)))
    for one in sheets.SHED_RANGES:
        held = one.change(random, GOOD_NAMES)
        made += [asked_of(1, held, GOOD_SHEET, action) for action in range(4)]
    return Case("names: ranges", THREE, made)


def small_sheets(which):
    """Sheets of every small length: the first bytes of a good one, zeros, and FF."""
    made = []
    for size in range(len(GOOD_SHEET) + 1):
        some = {GOOD_SHEET[:size], bytes(min(size, 12)), b"\xff" * min(size, 5)}
        made += [asked_of(which, held, GOOD_SHEET, 1) for held in sorted(some)]
    made = sorted(set(made), key=made.index)
    return Case("names: sheets of every small length, %d" % which, THREE, made)


def name_cards():
    """Names about cards of each refusal, with good sheets and a known action, and with
    broken ones and an unknown action."""
    for number in range(1, 10):
        one = damage.damages_of(number)[0]
        made = [cases.request_name(GOOD_SHEET, GOOD_SHEET, 0), cases.request_name(b"x", b"", 65535)]
        yield Case("name and " + one.name, damaged_case(one.name, (one,)).card, made)


def one_and_all_actions():
    """A card of one action, and one of 256: the count 256 has a low byte of 0."""
    one = [sheets.sheet([b"x"]), sheets.sheet([b""]), sheets.sheet([b"xy"])]
    made = [cases.request_name(shed, one[0], at) for shed in (b"", *one) for at in (0, 1, 256)]
    made += [cases.request_name(b"", held, 0) for held in one + [bytes([1, 0, 6, 0])]]
    yield Case("names: one action", sheets.actions_card(1), made)
    random = random_of("256 names")
    master = sheets.sheet([bytes([97 + k % 26]) for k in range(256)])
    shed = sheets.sheet(wordings.some_names(random, 256, 0.9))
    none = sheets.sheet([])
    made = [cases.request_name(shed, master, at) for at in (0, 128, 255, 256, 65535)]
    made += [cases.request_name(none, master, 0), cases.request_name(b"", none, 0)]
    made.append(cases.request_name(master + b"x", master, 255))
    yield Case("names: 256 actions", sheets.actions_card(256), made)


def longest_sheets():
    """Sheets of 65,535 bytes, the most that a request can hold and that a last offset can
    say: a good master sheet, and a shed's whose last byte is no character."""
    longest = wordings.filled_up(random_of("longest sheet"), 3, 65535)
    made = [cases.request_name(b"", longest, 2), cases.request_name(longest[:-1] + b"\xc3", b"", 2)]
    return Case("names: the longest sheets", THREE, made)


def seeded_names():
    """Names by seed, the shorter requests."""
    for index in range(60):
        random = random_of("names", index)
        actions = random.choice((1, 2, 3, 5, 9))
        made = cases.name_requests(random, actions, 14, 400)
        short = [request for request in made if len(request) <= LONG_NAME]
        yield Case("names %d" % index, sheets.actions_card(actions, in_turn(index)), short[:8])


def name_cases():
    """Names by hand; each clause of 20 for both sheets and its order among the others;
    small and long sheets; by seed."""
    yield names_by_hand()
    for which in (1, 0):
        yield from name_clauses(which)
        yield small_sheets(which)
    yield unasked_names()
    yield name_ranges()
    yield from name_cards()
    yield from one_and_all_actions()
    yield longest_sheets()
    yield from seeded_names()


# --- bounded cards ----------------------------------------------------------

# Of the requests by seed, longer ones are left out.
LONG_BOUNDED = 300


def bounded_by_hand():
    """Takes and runs on bounded cards by hand, all those about one card together."""
    asked = [(one.card, drill.TAKE, one.held, one.choice) for one in weighed.ALL_TAKES]
    asked += [(one.card, drill.RUN, one.held, one.budget) for one in weighed.ALL_RUNS]
    for card, some in itertools.groupby(asked, key=lambda one: one[0]):
        random = random_of("bounded by hand", card)
        made = [cases.request_about(random, *about) for _, *about in some]
        yield Case("bounded by hand", card, list(map(cases.on_a_bounded_card, made)))


def bounded_configurations(name, card):
    """Each clause of 13 and each range just inside, with a take and a run, of a bounded card
    and of an open one: 22 is "after 13"."""
    random, made = random_of("bounded configurations", name), []
    _, accepted = guide.judge(card)
    held = closed.configuration((1,), (2,), (0, 3), 1, 300)
    for one in damage.CONFIGURATION_DAMAGES + damage.CONFIGURATION_RANGES:
        changed = one.change(random, accepted, held)
        if changed is not None:
            for kind, value in ((drill.TAKE, 256), (drill.RUN, 3)):
                made.append(cases.request_about(random, kind, changed, value))
    return Case("bounded configurations, %s" % name, card, list(map(cases.on_a_bounded_card, made)))


def bounded_cards():
    """A take and a run about cards of each refusal, from a good configuration and from one
    that is wrong."""
    for number in range(1, 10):
        one = damage.damages_of(number)[0]
        name = "bounded and " + one.name
        random, made = random_of(name), []
        for held in (GOOD_HELD, GOOD_HELD._replace(phase=3)):
            made.append(cases.request_about(random, drill.TAKE, held, 0))
            made.append(cases.request_about(random, drill.RUN, held, 3))
        made = list(map(cases.on_a_bounded_card, made))
        yield Case(name, damaged_case(one.name, (one,)).card, made)


def seeded_bounded():
    """Takes and runs on bounded cards by seed, the shorter ones; and a few from long
    plans."""
    for index in range(50):
        random = random_of("bounded", index)
        card = weighed.some_card(random, SMALL[2])
        made = [narrowed(request) for request in cases.bounded_requests(random, card)]
        short = [request for request in made if len(request) <= LONG_BOUNDED]
        long = [request for request in made if len(request) > LONG_BOUNDED]
        random.shuffle(short)
        yield Case("bounded %d" % index, card, short[:9] + long[:index % 5 == 0])


def bounded_cases():
    """Request 10: takes and runs by hand, each clause of 13 and its place before 22, cards of
    each refusal, and others by seed."""
    yield from bounded_by_hand()
    yield bounded_configurations("bounded", STRIPE)
    yield bounded_configurations("open", weighed.OPEN_REVISION)
    yield from bounded_cards()
    yield from seeded_bounded()


# --- lists ------------------------------------------------------------------


def lists_by_hand():
    """The lists by hand, all those about one card together."""
    for card, some in itertools.groupby(sorted(listed.BY_HAND, key=card_of), key=card_of):
        random = random_of("lists by hand", card)
        made = [cases.request_about(random, drill.LIST, one.held, one.room) for one in some]
        yield Case("lists by hand", card, made)


def card_of(one):
    """The card of something by hand."""
    return one.card


def seeded_lists():
    """Lists by seed about cards with many entries of one action, the shorter requests."""
    for index in range(40):
        random = random_of("lists", index)
        most = 4 if index % 4 else 16
        card = cards.card(listed.crowded_card(random, most, in_turn(index)))
        made = [narrowed(request) for request in cases.list_requests(random, card, 12)]
        yield Case("lists %d" % index, card, [one for one in made if len(one) <= SHORT_REQUEST][:8])


def list_cases():
    """Request 11: lists by hand, and others by seed."""
    yield from lists_by_hand()
    yield from seeded_lists()


# --- the plain engine -------------------------------------------------------

# Of the damages of one refusal the first of so many is asked about, and the last of all.
DAMAGE_STEP = 12

# Entries of the largest cards, which have 256 of each kind.
SOME_ENTRIES = (0, 1, 7, 8, 63, 64, 127, 128, 254, 255)


def plain(case):
    """A case as the plain engine is asked it, each image with the least m."""
    asked = cases.on_the_plain_engine(map(narrowed, case.requests))
    return Case("plain: " + case.name, case.card, asked)


def few(case, count):
    """A case with so many of its short requests at most, from the first one to the end."""
    short = [request for request in case.requests if len(narrowed(request)) <= SHORT_REQUEST]
    step = max(1, (len(short) + count - 1) // count)
    return case._replace(requests=short[::step])


def plain_named():
    """The named cards but for the largest ones, and the card of no bytes."""
    yield plain(no_card_case("a card of no bytes"))
    for case in named_cases():
        if len(case.card) <= LONG_CARD:
            yield few(plain(case), 18)


def largest_case(edition):
    """The largest card of an edition: loaded and run, the 256 selections listed in just the
    room and in one less, and entries from the first to the last taken, with the sets that
    they add and delete and the plans that they leave, up to 1,024 actions and one more."""
    name, atoms = "the largest card of edition %d" % edition, range(cards.most_atoms(edition))
    card, random = cards.card(cards.maximal_card(edition)), random_of(name)
    empty = closed.configuration((), atoms)
    asked = [(drill.LIST, empty, room) for room in (256, 255, 0)]
    asked += [(drill.TAKE, empty, n) for n in (0, 128, 255)]
    for n in SOME_ENTRIES:
        asked.append((drill.TAKE, closed.configuration(atoms, atoms, (n,)), 256 + n))
        asked.append((drill.TAKE, closed.configuration((), atoms, (n,), 2, 7), 256 + n))
        asked.append((drill.TAKE, closed.configuration((), (), (7 * n % 256, 3)), 512 + n))
    for n, length in ((1, 1024), (64, 961), (64, 962), (255, 771)):
        plan = bytes([7 * n % 256]) + bytes(k % 256 for k in range(1, length))
        asked.append((drill.TAKE, closed.configuration((), (), plan), 512 + n))
    asked += [(drill.RUN, empty, budget) for budget in (0, 1, 2, 1000, 65535)]
    made = [cases.request_about(random, kind, held, value) for kind, held, value in asked]
    return plain(Case(name, card, [cases.request_plain(drill.LOAD)] + made))


def plain_damaged():
    """Some clauses of each of the refusals 1 to 9, in cards of either edition, with each
    call."""
    for number in range(1, 10):
        some = damage.damages_of(number)
        for turn, one in enumerate(some[::DAMAGE_STEP] + some[-1:]):
            case = damaged_case(one.name, (one,), in_turn(turn))
            if len(case.card) <= LONG_CARD:
                yield plain(case)


def plain_configurations(edition):
    """Each clause of 13 and each range just inside, and atoms in any byte of a set that the
    card of an edition has not, with a list, a take and a run in turn."""
    name = "configurations of edition %d" % edition
    random, calls = random_of("plain", name), (drill.LIST, drill.TAKE, drill.RUN)
    card = cards.card(cards.in_edition(cards.roomy_card(random, SMALL[1], 1), edition))
    _, accepted = guide.judge(card)
    held = short_configuration(random, accepted)
    changes = damage.CONFIGURATION_DAMAGES + damage.CONFIGURATION_RANGES
    changed = [one.change(random, accepted, held) for one in changes]
    for name_of_set, atom in itertools.product(("beliefs", "goals"), SET_ATOMS + WIDE_ATOMS):
        wrong = damage.with_atom(getattr(held, name_of_set), atom)
        changed.append(held._replace(**{name_of_set: wrong}))
    made = [
        cases.call_of_kind(random, calls[(turn + edition) % 3], one)
        for turn, one in enumerate(changed)
        if one is not None
    ]
    return plain(Case(name, card, made))


def plain_closed():
    """The closed moves by hand, all those about one card together; and of the conditions card
    every second node under each set of beliefs."""
    for card, some in itertools.groupby(sorted(closed.ALL, key=card_of), key=card_of):
        random = random_of("plain closed", card)
        made = [cases.request_about(random, drill.TAKE, one.held, one.choice) for one in some]
        yield plain(Case("closed", card, made))
    case = every_condition_case()
    yield plain(case._replace(requests=case.requests[::2]))


def plain_by_hand():
    """Struck goals, finished counts and lists by hand, of some sorts each second or third."""
    actions, others = struck_takes()
    yield plain(actions._replace(requests=actions.requests[::3]))
    yield plain(others)
    yield from map(plain, struck_loads())
    yield plain(struck_runs())
    for case in finished_runs():
        yield plain(case._replace(requests=case.requests[::2]))
    yield from map(plain, lists_by_hand())


def plain_edges():
    """Plans of 1,022 to 1,024 actions and those that get so long, rooms around the number
    needed, and budgets from 0 to 65,535."""
    for length, edition in ((1022, 2), (1023, 1), (1024, 2)):
        yield plain(long_plan_case(length, edition))
    yield from map(plain, map(full_case, range(2)))
    yield from map(plain, itertools.islice(room_cases(), 5))
    for turn, (temper, _) in enumerate(RUN_TEMPERS):
        yield plain(tempered_budget_case(temper, turn % 2))


def plain_cases():
    """Request 12: the plain engine's load, list, take and run, asked much of what the first
    engine is asked above, and others by seed."""
    yield from plain_named()
    yield from map(largest_case, cards.EDITIONS)
    yield from plain_damaged()
    yield from map(plain_configurations, cards.EDITIONS)
    yield from plain_closed()
    yield from plain_by_hand()
    yield from plain_edges()
    for case in cases.generate_plain(SEED, 32, 480):
        yield few(case, 8)


# --- all --------------------------------------------------------------------

# What the requests of document 02 from 10 on add, by their number.
LATER_CASES = {10: bounded_cases, 11: list_cases, 12: plain_cases}


def later_cases():
    """The cases of the requests from 10 on that the drill has."""
    return itertools.chain.from_iterable(
        make() for request, make in sorted(LATER_CASES.items()) if request in drill.LANDED
    )


def seeded_cases():
    """Cases by seed, a few requests of each."""
    for turn, case in enumerate(cases.generate(SEED, 100, 500)):
        yield thinned(case, turn, 11)


def narrowed(request):
    """The same request with the least m in its image."""
    if request[0] == drill.DELIBERATE:
        program, held, budget = cases.read_deliberate(request)
        first = request[:1] + drill.two(len(program)) + program
        return first + drill.image(held) + drill.two(budget)
    if request[0] == drill.GO_ON:
        program, numbers, held, budget = cases.read_go_on(request)
        first = request[:1] + drill.two(len(program)) + program
        first += drill.two(len(numbers)) + numbers
        return first + drill.image(held) + drill.two(budget)
    if request[0] == drill.NEXT:
        return request[:1] + drill.image(cases.read_next(request))
    later = drill.BOUNDED_TAKE, drill.BOUNDED_RUN
    later += drill.PLAIN_LIST, drill.PLAIN_TAKE, drill.PLAIN_RUN
    if request[0] not in cases.CALLS_ON_CONFIGURATIONS + later:
        return request
    kind, held, value = cases.read_about(request)
    return bytes([kind]) + drill.image(held) + drill.two(value)


def all_cases():
    """All the cases, in the order of the file."""
    return itertools.chain(
        [no_card_case("before any card")],
        named_cases(),
        [no_card_case("a card of no bytes")],
        damaged_cases(),
        range_cases(),
        configuration_cases(),
        place_cases(),
        [longest_place_case()],
        set_cases(),
        long_plan_cases(),
        closed_cases(),
        finished_cases(),
        struck_cases(),
        room_cases(),
        budget_cases(),
        verdict_cases(),
        seeded_cases(),
        text_cases(),
        print_cases(),
        program_cases(),
        name_cases(),
        going_on_cases(),
        later_cases(),
    )


def stored_cases():
    """The cases as they are stored: but for every eighth, each image has the
    least m. The first case is asked before any request 0."""
    for index, case in enumerate(all_cases()):
        if index % 8 != 0:
            case = case._replace(requests=[narrowed(request) for request in case.requests])
        yield case


def header_part(some):
    """Of some cases what the C header has calls for: all but the plain engine's, which it does
    not have, and so neither has the module for a page."""
    for case in some:
        asked = [one for one in case.requests if one[0] not in drill.PLAIN.values()]
        if asked:
            yield case._replace(requests=asked)


def make_files(made=None, names=(REQUESTS, ANSWERS)):
    """The bytes of both files, and how often each number was met for each call; of all that is
    stored or of some of its cases, under other names too. "At first the card of no bytes":
    the first case has no request 0."""
    requests, answers = io.BytesIO(), io.BytesIO()
    made = stored_cases() if made is None else made
    met = cases.count_answers(made, requests, answers)
    before = len(cases.request_card(b""))
    return dict(zip(names, (requests.getvalue()[before:], answers.getvalue()))), met


def read(name):
    """The bytes of a file of the repository; none, if there is no such file."""
    path = os.path.join(TOP, name)
    if not os.path.exists(path):
        return None
    with open(path, "rb") as held:
        return held.read()


def write(files):
    """Writes the files."""
    for name, content in files.items():
        with open(os.path.join(TOP, name), "wb") as out:
            out.write(content)


def differing(files):
    """The files of the repository that are not what is made here."""
    return [name for name, content in files.items() if read(name) != content]


def main():
    """Writes both files or checks them, and prints the table: that of the header's requests,
    where these are written."""
    parser = argparse.ArgumentParser(description="the stored requests of crates/drill and their answers")
    parser.add_argument("--check", action="store_true", help="write nothing; say whether the files are just that")
    parser.add_argument(
        "--header",
        nargs=2,
        metavar=("REQUESTS", "ANSWERS"),
        help="check, and write to these two files what the C header has calls for",
    )
    asked = parser.parse_args()
    made = list(stored_cases())
    files, met = make_files(made)
    if not asked.check and not asked.header:
        write(files)
    wrong = differing(files)
    if wrong:
        sys.exit(
            "stored.py: %s: not what oracle/stored.py makes. If the change to oracle/ is meant, run "
            "'python3 oracle/stored.py' and let the gate hold the drill against the new files."
            % " and ".join(wrong)
        )
    for name, content in files.items():
        print("%s is what oracle/stored.py makes: %d bytes" % (name, len(content)))
    if asked.header:
        files, met = make_files(header_part(made), map(os.path.abspath, asked.header))
        write(files)
    print(cases.table(met))


if __name__ == "__main__":
    main()
