"""Cases by seed: a card and requests about it, as drill.md writes them.

As a command it writes the whole stream of requests and the answers, and prints
how often each answer number was met for each call.
"""

import argparse
import itertools
import sys
from random import Random
from typing import NamedTuple

import cards
import cuts
import damage
import deliberation
import drill
import guide
import listed
import prints
import schemes
import sheets
import text
import texts
import weighed
import wordings

REQUEST_LIMIT = 50

# The longest card that a request 0 can hold.
CARD_BYTES_LIMIT = 65535

CALL_NAMES = ("check", "load", "grade", "list", "take", "run", "save", "restore")
CALL_NAMES += ("text", "print", "deliberate", "name", "go on", "next")
CALL_KINDS = (*range(drill.CHECK, drill.NAME + 1), drill.GO_ON, drill.NEXT)
ANSWER_NUMBERS = (*range(23), 25)
CALLS_ON_CONFIGURATIONS = (drill.LIST, drill.TAKE, drill.RUN, drill.SAVE)

# The calls of the requests from 10 on, of which the drill may not have all yet.
LATER_CALLS = {
    drill.BOUNDED_TAKE: "bound take",
    drill.BOUNDED_RUN: "bound run",
    drill.PLAIN_LOAD: "plain load",
    drill.PLAIN_LIST: "plain list",
    drill.PLAIN_TAKE: "plain take",
    drill.PLAIN_RUN: "plain run",
}
CALL_NAMES += tuple(name for kind, name in LATER_CALLS.items() if kind in drill.ANSWERS)
CALL_KINDS += tuple(kind for kind in LATER_CALLS if kind in drill.ANSWERS)


class Case(NamedTuple):
    """A case: its name (which clause or shape), a card, and requests about it
    (kinds 1 to 18, 21 and 22 of the drill). A text is read whatever the card is."""

    name: str
    card: bytes
    requests: list


# --- requests ---------------------------------------------------------------


def request_card(card):
    """0 card: length n (2), n bytes."""
    return bytes([drill.CARD]) + drill.two(len(card)) + card


def request_plain(kind):
    """1 check, 2 load, 3 grade: nothing follows."""
    return bytes([kind])


def plain_requests():
    """Check, load and grade."""
    return [request_plain(kind) for kind in (drill.CHECK, drill.LOAD, drill.GRADE)]


def request_about(random, kind, configuration, value):
    """4 list, 5 take, 6 run, 7 save: an image and a number. The image's m is the
    least that serves or a greater one."""
    m = random.choice((0, 0, 0, min(configuration.length, 1024), 1024))
    return bytes([kind]) + drill.image(configuration, m) + drill.two(value)


def read_about(request):
    """The kind, the configuration and the number of a request 4 to 7, 13, 14 or 16 to 18."""
    reader = drill.Reader(request)
    return reader.byte(), reader.image(), reader.number()


def on_a_bounded_card(request):
    """13 "as 5", 14 "as 6": the same request of the call for bounded cards; None where there
    is no such call."""
    kind = {drill.TAKE: drill.BOUNDED_TAKE, drill.RUN: drill.BOUNDED_RUN}.get(request[0])
    return None if kind is None else bytes([kind]) + request[1:]


def on_the_plain_engine(requests):
    """15, 16, 17 and 18 "as 2, 4, 5, 6": the same requests of the plain engine's calls; those
    that it has no call for are left out."""
    asked = [request for request in requests if request[0] in drill.PLAIN]
    return [bytes([drill.PLAIN[request[0]]]) + request[1:] for request in asked]


def request_restore(place):
    """8 restore: length n (2), n bytes."""
    return bytes([drill.RESTORE]) + drill.two(len(place)) + place


def request_text(held, room):
    """9 text: length n (4), n bytes of text, room (2)."""
    return bytes([drill.TEXT]) + drill.four(len(held)) + held + drill.two(room)


def read_text(request):
    """The text and the room of a request 9."""
    reader = drill.Reader(request[1:])
    return reader.next_bytes(reader.number(drill.TEXT_LIMIT, 4)), reader.number()


def request_print(node, room):
    """10 print: node (2), room (2)."""
    return bytes([drill.PRINT]) + drill.two(node) + drill.two(room)


def request_deliberate(random, program, configuration, budget):
    """11 deliberate: length n (2), n bytes of program, image, budget (2)."""
    about = request_about(random, drill.DELIBERATE, configuration, budget)
    return about[:1] + drill.two(len(program)) + program + about[1:]


def read_deliberate(request):
    """The program, the configuration and the budget of a request 11."""
    reader = drill.Reader(request[1:])
    program = reader.next_bytes(reader.number(drill.PROGRAM_LIMIT))
    return program, reader.image(), reader.number()


def request_go_on(random, program, numbers, configuration, budget):
    """21 go on: length n (2), n bytes of program, m (2), m numbers of one byte, image,
    budget (2)."""
    about = request_about(random, drill.GO_ON, configuration, budget)
    held = drill.two(len(program)) + program + drill.two(len(numbers)) + bytes(numbers)
    return about[:1] + held + about[1:]


def read_go_on(request):
    """The program, the numbers, the configuration and the budget of a request 21."""
    reader = drill.Reader(request[1:])
    program = reader.next_bytes(reader.number(drill.PROGRAM_LIMIT))
    numbers = reader.next_bytes(reader.number(drill.NUMBERS_LIMIT))
    return program, numbers, reader.image(), reader.number()


def request_next(random, configuration):
    """22 next: an image."""
    return request_about(random, drill.NEXT, configuration, 0)[:-2]


def read_next(request):
    """The configuration of a request 22."""
    return drill.Reader(request[1:]).image()


def request_name(shed, master, action):
    """12 name: the shed's sheet and the master sheet, each n (2) and n bytes; action
    (2)."""
    both = b"".join(drill.two(len(held)) + held for held in (shed, master))
    return bytes([drill.NAME]) + both + drill.two(action)


def read_name(request):
    """The shed's sheet, the master sheet and the action of a request 12."""
    reader = drill.Reader(request[1:])
    shed, master = (reader.next_bytes(reader.number()) for _ in range(2))
    return shed, master, reader.number()


def stream(cases):
    """The requests of some cases as one stream, each card set by a request 0."""
    for case in cases:
        yield request_card(case.card)
        for request in case.requests:
            yield request


# --- configurations ---------------------------------------------------------


def walk(random, card, configuration, steps):
    """The configurations met along a run with random choices."""
    met = [configuration]
    for _ in range(steps):
        _, _, codes = guide.list_choices(card, configuration, 1024)
        if not codes:
            break
        number, _, moved = guide.take(card, configuration, random.choice(codes))
        if number == guide.DONE:
            configuration = moved
            met.append(configuration)
    return met


def random_plan(random, accepted):
    """A plan: empty, beginning as some rule's head or plan, or of any actions."""
    style = random.random()
    if style < 0.2:
        return b""
    length = random.choice((0, 1, 1, 2, 3, 5, 20, 1022, 1023, 1024))
    rest = bytes(random.choices(range(accepted.actions), k=length))
    if style < 0.8:
        heads = [rule.head for rule in accepted.revisions]
        heads += [bytes([entry.action]) for entry in accepted.specifications]
        if heads:
            return (random.choice(heads) + rest)[:1024]
    return rest


def random_configuration(random, accepted):
    """Any configuration that the card takes."""
    plan = random_plan(random, accepted)
    return guide.Configuration(
        damage.random_atoms(random, accepted.atoms),
        damage.random_atoms(random, accepted.atoms),
        damage.padded(plan),
        len(plan),
        random.randrange(3),
        damage.random_count(random),
    )


def some_configurations(random, card, accepted):
    """Four configurations: the loaded one, two from walks, one of any kind."""
    _, loaded = guide.load(card)
    other = random_configuration(random, accepted)
    met = walk(random, card, loaded, random.choice((1, 3, 8, 25)))
    far = walk(random, card, other, random.choice((1, 2, 6)))
    chosen = [random.choice(met), random.choice(far), met[-1]]
    return [loaded] + [varied(random, held) for held in chosen]


def varied(random, configuration):
    """The configuration, now and then in another phase or with another finished
    count."""
    if random.random() < 0.3:
        configuration = configuration._replace(phase=random.randrange(3))
    if random.random() < 0.3:
        configuration = configuration._replace(finished=damage.random_count(random))
    return configuration


# --- requests about a good card ---------------------------------------------


def list_request(random, card, configuration):
    """A list with a room around the number needed; the codes it would answer."""
    _, count, codes = guide.list_choices(card, configuration, 1024)
    room = random.choice(damage.rooms_around(count, 1024 if random.random() < 0.05 else count + 5))
    return request_about(random, drill.LIST, configuration, room), codes


def refused_choices(random, accepted, configuration):
    """A choice for each of 14, 15 and 16 that the configuration has one for, and
    one that is 15 though a condition is false, too."""
    unfit, unfit_and_false, false = [], [], []
    for code in damage.choices(accepted):
        kind, n = divmod(code, 256)
        holds = guide.first_false(accepted, configuration, kind, n) is None
        if not guide.front_fits(accepted, configuration, kind, n):
            (unfit if holds else unfit_and_false).append(code)
        elif not holds:
            false.append(code)
    sorts = (damage.wrong_choices(accepted), unfit, unfit_and_false, false)
    return [random.choice(codes) for codes in sorts if codes]


def take_requests(random, accepted, configuration, codes, most):
    """The enabled choices, `most` at most, and refused ones."""
    chosen = list(codes) if len(codes) <= most else sorted(random.sample(codes, most))
    chosen += refused_choices(random, accepted, configuration)
    return [request_about(random, drill.TAKE, configuration, choice) for choice in chosen]


def some_budget(random, card, configuration):
    """A budget: 0, 1, a few, 1,000, and 65,535 where the run ends soon; seldom
    65,535 on a small card whose run does not end."""
    style = random.random()
    if style < 0.75:
        return random.choice((0, 1, 1, 2, 3, 4, 7, random.randint(5, 60)))
    if style < 0.9:
        return 1000
    _, _, _, ending = guide.run(card, configuration, 1500)
    if ending != guide.SPENT or (len(card) < 700 and random.random() < 0.03):
        return 65535
    return 1500


def save_request(random, accepted, configuration):
    """A save with a room around the number needed."""
    rooms = damage.rooms_around(accepted.edition.place_header + configuration.length, 1130)
    return request_about(random, drill.SAVE, configuration, random.choice(rooms))


def requests_on(random, card, accepted, configuration, takes):
    """List, takes, a run, a save and a restore on one configuration."""
    listed, codes = list_request(random, card, configuration)
    made = [listed]
    made += take_requests(random, accepted, configuration, codes, takes)
    budget = some_budget(random, card, configuration)
    made.append(request_about(random, drill.RUN, configuration, budget))
    made.append(save_request(random, accepted, configuration))
    if random.random() < 0.5:
        made.append(request_restore(guide.save(card, configuration, 2048)[1]))
    return made


def full_requests(random, accepted):
    """Takes and runs where a revision leaves exactly 1,024 actions, and one
    more."""
    made = []
    for over in (0, 1):
        found = damage.full_configuration(random, accepted, over)
        if found is not None:
            configuration, code = found
            made.append(request_about(random, drill.TAKE, configuration, code))
            if random.random() < 0.3:
                turned = configuration._replace(phase=2)
                made.append(request_about(random, drill.RUN, turned, random.choice((1, 5, 1000))))
    return made


def closed_requests(random, accepted):
    """Takes of a selection, an action and a revision whose front fits and of
    which a condition is false."""
    made = []
    for kind in guide.KINDS:
        found = damage.closed_configuration(random, accepted, kind)
        if found is not None:
            made.append(request_about(random, drill.TAKE, *found))
    return made


def emptying_requests(random, accepted):
    """Takes of an action and of a revision that leave the plan empty, and now and then
    a run from there, with counts up to the most."""
    made = []
    for kind in (guide.ACTION, guide.REVISION):
        found = damage.emptying_configuration(random, accepted, kind)
        if found is not None:
            made.append(request_about(random, drill.TAKE, *found))
            if random.random() < 0.3:
                budget = random.choice((1, 2, 7))
                made.append(request_about(random, drill.RUN, found[0], budget))
    return made


def believed_requests(random, accepted):
    """A take and a list that a believed goal decides, and a run from there."""
    found = damage.believed_configuration(random, accepted)
    if found is None:
        return []
    asked = (drill.TAKE, found[1]), (drill.LIST, 5), (drill.RUN, random.choice((1, 2, 9)))
    return [request_about(random, kind, found[0], value) for kind, value in asked]


def call_of_kind(random, kind, configuration):
    """A list, take, run or save on a configuration, with some number."""
    value = {
        drill.LIST: (0, 1, 5),
        drill.TAKE: (0, 256, 512, 65535),
        drill.RUN: (0, 1, 40),
        drill.SAVE: (0, 44, 50, 76, 82, 1068, 1069, 1100, 1101),
    }[kind]
    return request_about(random, kind, configuration, random.choice(value))


def call_on(random, configuration):
    """One of the four calls on a configuration, with some number."""
    return call_of_kind(random, random.choice(CALLS_ON_CONFIGURATIONS), configuration)


def damaged_configuration_requests(random, accepted, held):
    """Calls on damaged configurations, and on one just inside a range."""
    chosen = [random.choice(damage.CONFIGURATION_DAMAGES) for _ in range(3)]
    chosen.append(random.choice(damage.CONFIGURATION_RANGES))
    made = []
    for one in chosen:
        configuration = one.change(random, accepted, random.choice(held))
        if configuration is not None:
            made.append(call_on(random, configuration))
    return made


def place_description(configuration, edition=1):
    """The place of a configuration in an edition, described."""
    return cards.PlaceDescription(
        layout=edition,
        plan=configuration.plan[:configuration.length],
        phase=configuration.phase,
        beliefs=configuration.beliefs,
        goals=configuration.goals,
        finished=configuration.finished,
    )


def damaged_place_requests(random, accepted, held):
    """Restores of damaged places, of one damaged twice, of one just inside."""
    chosen = [
        (random.choice(damage.PLACE_DAMAGES),),
        (random.choice(damage.PLACE_DAMAGES),),
        damage.pair_of_place_damages(random, *random.choice(damage.PLACE_PAIRS)),
        (random.choice(damage.PLACE_RANGES),),
    ]
    made = []
    for some in chosen:
        described = place_description(random.choice(held), accepted.edition.number)
        place = damage.damaged_place(random, accepted, described, *some)
        if place is not None:
            made.append(request_restore(place))
    return made


def good_requests(random, card):
    """The requests about a good card, 50 at most."""
    _, accepted = guide.judge(card)
    made = plain_requests()
    held = some_configurations(random, card, accepted)
    made += full_requests(random, accepted)
    made += closed_requests(random, accepted)
    made += emptying_requests(random, accepted)
    made += believed_requests(random, accepted)
    made += damaged_configuration_requests(random, accepted, held)
    made += damaged_place_requests(random, accepted, held)
    for configuration in held:
        about = requests_on(random, card, accepted, configuration, 6)
        if len(made) + len(about) <= REQUEST_LIMIT:
            made += about
    return made


# --- requests about a damaged card ------------------------------------------


def damaged_requests(random, base):
    """Check and one of each other call about a damaged card, on configurations
    and places of the card before the damage, themselves now and then damaged."""
    _, accepted = guide.judge(base)
    _, loaded = guide.load(base)
    made = plain_requests()
    for kind in CALLS_ON_CONFIGURATIONS:
        held = random.choice((guide.EMPTY, loaded, random_configuration(random, accepted)))
        if random.random() < 0.4:
            one = random.choice(damage.CONFIGURATION_DAMAGES)
            held = one.change(random, accepted, held) or held
        made.append(request_about(random, kind, held, random.choice((0, 1, 50, 1000))))
    edition = accepted.edition.number
    place = cards.place(place_description(random_configuration(random, accepted), edition))
    if random.random() < 0.5:
        one = random.choice(damage.PLACE_DAMAGES)
        described = place_description(loaded, edition)
        place = damage.damaged_place(random, accepted, described, one) or place
    made.append(request_restore(place))
    return made


# --- cases ------------------------------------------------------------------

NAMED_CARDS = (
    ("the stripe card", cards.stripe_card),
    ("the smallest card", cards.smallest_card),
    ("the shared-nodes card", cards.shared_nodes_card),
    ("the maximal card", cards.maximal_card),
    ("the card of high atoms", cards.high_atoms_card),
    ("the stripe card in edition 2", cards.stripe_of_edition_2),
    ("the smallest card of edition 2", cards.smallest_of_edition_2),
    ("the maximal card of edition 2", cards.maximal_of_edition_2),
)


def good_case(random, largest):
    """A case of a good card."""
    card = cards.card(cards.good_card(random, largest))
    return Case("good card of %d bytes" % len(card), card, good_requests(random, card))


def named_case(random, at, largest):
    """A case of a card that the document or the drill names, if it is small
    enough; a good card otherwise."""
    name, describe = NAMED_CARDS[at]
    card = cards.card(describe())
    if len(card) > largest:
        return good_case(random, largest)
    return Case(name, card, good_requests(random, card))


def damage_order(seed):
    """All damages and ranges of a card alone, and every pair of rows, in an
    order of the seed's."""
    order = [(one,) for one in damage.CARD_DAMAGES + damage.CARD_RANGES]
    order += damage.CARD_PAIRS
    Random("%s order" % seed).shuffle(order)
    return order


def damages_named(random, item):
    """The damages of an item of the order: one, or two of different rows."""
    if isinstance(item[0], damage.Damage):
        return item
    return damage.pair_of_damages(random, *item)


def damaged_case(random, item, largest, edition=None):
    """A case of a damaged card, made of one of an edition or of either; None if it is too
    large."""
    damages = damages_named(random, item)
    description = cards.roomy_card(random, largest, edition)
    base, card = cards.card(description), damage.damaged_card(random, description, *damages)
    if len(card) > largest:
        return None
    name = " and ".join(one.name for one in damages)
    if damages[0].number == guide.DONE:
        return Case(name, card, good_requests(random, card))
    return Case(name, card, damaged_requests(random, base))


def next_damaged_case(random, items, largest):
    """A case of the next damages whose card is small enough; a good card, if
    none of the next twenty is."""
    for item in itertools.islice(items, 20):
        case = damaged_case(random, item, largest)
        if case is not None:
            return case
    return good_case(random, largest)


def generate(seed, count, largest=cards.CARD_LIMIT):
    """So many cases, by seed: good cards and damaged ones in turn, none of more
    than `largest` bytes."""
    items = itertools.cycle(damage_order(seed))
    for index in range(count):
        random = Random("%s %d" % (seed, index))
        if index % 2 == 1:
            yield next_damaged_case(random, items, largest)
        elif index // 2 < len(NAMED_CARDS):
            yield named_case(random, index // 2, largest)
        else:
            yield good_case(random, largest)


# --- cases of texts and prints ----------------------------------------------


def text_room(random, held):
    """A room around the one that a text's card needs; any, where none is built;
    seldom the most that a request can lend."""
    _, _, card = text.read(held, drill.CARD_ROOM_LIMIT)
    if random.random() < 0.01:
        return drill.CARD_ROOM_LIMIT
    if card is None:
        return random.choice((0, 1, 20, 64, 300))
    return random.choice(damage.rooms_around(len(card), len(card) + 6))


def text_requests(random, largest, count):
    """So many texts, good ones and refused ones, none of more than `largest`
    bytes."""
    held = [texts.sample_within(random, largest).text for _ in range(count)]
    return [request_text(one, text_room(random, one)) for one in held]


def print_requests(random, card, count):
    """So many prints about a card; about a refused one, of any nodes."""
    _, accepted = guide.judge(card)
    if accepted is None:
        asked = [(random.choice((0, 1, 255, 256, 65535)), random.choice((0, 9, 40))) for _ in range(count)]
    else:
        asked = prints.prints(random, card, accepted.nodes.entries, count)
    return [request_print(node, room) for node, room in asked]


def print_card(random, items, largest):
    """A card for the printer: mostly one of its own, now and then any good one or a
    damaged one."""
    style = random.random()
    if style < 0.65:
        return prints.some_card(random, largest)
    if style < 0.75:
        return cards.card(cards.good_card(random, largest))
    return next_damaged_case(random, items, largest).card


def text_case(random, items, largest):
    """A case of prints about a card and of texts, which leave the card of the
    requests that follow as it is."""
    card = print_card(random, items, min(largest, CARD_BYTES_LIMIT))
    made = print_requests(random, card, 5) + text_requests(random, largest, 6)
    random.shuffle(made)
    return Case("texts and prints", card, made + [request_plain(drill.CHECK)])


def generate_texts(seed, count, largest=cards.CARD_LIMIT):
    """So many cases of texts and prints, by seed: no card and no text of more than
    `largest` bytes."""
    items = itertools.cycle(damage_order(seed))
    for index in range(count):
        yield text_case(Random("%s text %d" % (seed, index)), items, largest)


# --- cases of programs ------------------------------------------------------


def program_requests(random, card, accepted, count):
    """So many programs about a good card, the configurations now and then damaged."""
    held, made = some_configurations(random, card, accepted), []
    for _ in range(count):
        whole, found = schemes.some_program(random, card, accepted, random.choice(held))
        budget = schemes.some_budget(random, card, whole, found)
        if random.random() < 0.1:
            one = random.choice(damage.CONFIGURATION_DAMAGES)
            found = one.change(random, accepted, found) or found
        made.append(request_deliberate(random, whole, found, budget))
    return made


def refused_card_requests(random, card, count):
    """So many programs about a refused card, good ones and broken ones."""
    base = cards.card(cards.roomy_card(random, 700))
    _, accepted = guide.judge(base)
    made = []
    for _ in range(count):
        held = random_configuration(random, accepted)
        whole, found = schemes.some_program(random, base, accepted, held)
        made.append(request_deliberate(random, whole, found, random.choice((0, 1, 9, 65535))))
    return made


def program_case(random, items, largest):
    """A case of programs, nine of ten about a good card."""
    if random.random() < 0.1:
        card = next_damaged_case(random, items, largest).card
    else:
        card = cards.card(cards.good_card(random, largest))
    _, accepted = guide.judge(card)
    if accepted is None:
        return Case("programs", card, refused_card_requests(random, card, 3))
    return Case("programs", card, program_requests(random, card, accepted, 10))


def generate_programs(seed, count, largest=cards.CARD_LIMIT):
    """So many cases of programs, by seed: no card of more than `largest` bytes."""
    items = itertools.cycle(damage_order(seed))
    for index in range(count):
        yield program_case(Random("%s program %d" % (seed, index)), items, largest)


# --- cases of deliberations that are cut ------------------------------------

# How many deliberations about one card are cut.
CUTS_OF_A_CARD = 8


def part_request(random, whole, numbers, held, budget):
    """A part of a deliberation: the first, which has no numbers, or a later one."""
    if numbers is None:
        return request_deliberate(random, whole, held, budget)
    return request_go_on(random, whole, numbers, held, budget)


def cut_requests(random, card, whole, held, budgets):
    """A deliberation in parts, each from what is left of the one before it; now and then
    saved and restored between them; and beside them the same in one."""
    made, turned = [], random.random() < 0.2
    for budget, (numbers, here, _) in zip(budgets, cuts.in_parts(card, whole, held, budgets)):
        if turned and numbers is not None:
            place = guide.save(card, here, drill.SAVE_LIMIT)[1]
            made.append(request_about(random, drill.SAVE, here, len(place)))
            made.append(request_restore(place))
        made.append(part_request(random, whole, numbers, here, budget))
    return made + [request_deliberate(random, whole, held, sum(budgets))]


def numbers_request(random, accepted, held):
    """Any numbers gone on with, right ones and wrong ones; now and then with a program that
    is broken or a configuration that is damaged."""
    whole, found = cuts.some_deliberation(random, accepted, held)
    if random.random() < 0.1:
        whole = schemes.broken_program(random, accepted, found) or whole
    if random.random() < 0.1:
        one = random.choice(damage.CONFIGURATION_DAMAGES)
        found = one.change(random, accepted, found) or found
    entries = min(max(1, len(whole) // 4), deliberation.ENTRY_LIMIT)
    numbers = cuts.some_numbers(random, entries)
    budget = random.choice((0, 1, 1, 2, 5, 40, 300))
    return request_go_on(random, whole, numbers, found, budget)


def cuts_case(random, count, largest):
    """So many deliberations about a good card that are cut, and after each of them any
    numbers gone on with."""
    card = cards.card(cards.good_card(random, largest))
    _, accepted = guide.judge(card)
    held, made = some_configurations(random, card, accepted), []
    for _ in range(count):
        cut = cuts.some_cut(random, card, accepted, random.choice(held))
        made += cut_requests(random, card, *cut)
        made.append(numbers_request(random, accepted, random.choice(held)))
    return Case("deliberations that are cut", card, made)


def refused_cuts_case(random, items, largest):
    """Numbers gone on with about a damaged card, or about one just inside a range."""
    card = next_damaged_case(random, items, largest).card
    base = cards.card(cards.roomy_card(random, 700))
    _, accepted = guide.judge(base)
    held = random_configuration(random, accepted)
    made = [numbers_request(random, accepted, held) for _ in range(3)]
    return Case("numbers about another card", card, made)


def generate_cuts(seed, count, largest=cards.CARD_LIMIT):
    """Cases with so many deliberations that are cut, by seed, no card of more than
    `largest` bytes; and cases of damaged cards among them."""
    items = itertools.cycle(damage_order(seed))
    for index, begin in enumerate(range(0, count, CUTS_OF_A_CARD)):
        random = Random("%s cut %d" % (seed, index))
        yield cuts_case(random, min(CUTS_OF_A_CARD, count - begin), largest)
        if index % 5 == 4:
            yield refused_cuts_case(random, items, largest)


# --- cases of next moves ----------------------------------------------------


def growing_card(random, largest):
    """A good card with a revision that grows the plan."""
    description = cards.roomy_card(random, largest)
    cards.temper_growing(random, description)
    return cards.card(description)


def next_card(random, items, largest):
    """A card whose next moves are asked for: mostly a good one, often one that grows plans,
    and one in five a damaged one."""
    style = random.random()
    if style < 0.2:
        return next_damaged_case(random, items, largest).card
    if style < 0.45:
        card = growing_card(random, min(largest, 700))
        if len(card) <= largest:
            return card
    return cards.card(cards.good_card(random, largest))


def next_configurations(random, card, accepted):
    """Configurations that a card takes: loaded, walked to, at the guide's own rest, of any
    kind, and with plans that are nearly full."""
    held = some_configurations(random, card, accepted)
    held.append(guide.run(card, random.choice(held), random.choice((3, 30)))[1])
    held += [varied(random, random_configuration(random, accepted)) for _ in range(3)]
    full = [cuts.nearly_full(random, accepted) for _ in range(3)]
    return held + [one for one in full if one is not None]


def some_next_configurations(random, card):
    """The same, one in five in every phase and one in eight damaged; of a refused card those
    of any other."""
    _, accepted = guide.judge(card)
    if accepted is None:
        base = cards.card(cards.roomy_card(random, 700))
        _, accepted = guide.judge(base)
        return [random_configuration(random, accepted) for _ in range(3)] + [guide.EMPTY]
    made = []
    for one in next_configurations(random, card, accepted):
        if random.random() < 0.125:
            broken = random.choice(damage.CONFIGURATION_DAMAGES).change(random, accepted, one)
            one = broken or one
        every = guide.KINDS if random.random() < 0.2 else (one.phase,)
        made += [one._replace(phase=phase) for phase in every]
    return made


def run_of_next(card, held):
    """What a run with budget 1 answers by what the next move is: it takes that move, or
    ends as it is told."""
    number, ending, code = guide.next_move(card, held)
    if number != guide.DONE or ending != guide.MOVE:
        return number, held, 0, ending
    number, _, moved = guide.take(card, held, code)
    return number, moved, 1, guide.SPENT


def next_requests(random, card, held):
    """The next move, and beside it a run with budget 1."""
    if guide.run(card, held, 1) != run_of_next(card, held):
        raise ValueError("next is %s, and a run is otherwise" % (guide.next_move(card, held),))
    return [request_next(random, held), request_about(random, drill.RUN, held, 1)]


def generate_next(seed, count, largest=cards.CARD_LIMIT):
    """Cases with so many next moves asked for, by seed, each with a run with budget 1 beside
    it: no card of more than `largest` bytes."""
    items, made = itertools.cycle(damage_order(seed)), 0
    for index in itertools.count():
        if made == count:
            return
        random = Random("%s next %d" % (seed, index))
        card = next_card(random, items, largest)
        held = some_next_configurations(random, card)[:count - made]
        made += len(held)
        asked = [request for one in held for request in next_requests(random, card, one)]
        yield Case("next moves", card, asked)


# --- cases of bounded cards -------------------------------------------------


def weighed_configurations(random, accepted):
    """Configurations with plans that weigh just so much: around 1,024, and light ones."""
    weights = random.sample(weighed.WEIGHTS, 4) + [random.randint(1, 1024)]
    found = [weighed.weighing(random, accepted, weight) for weight in weights]
    return [held for held in found if held is not None]


def takes_and_run(random, card, accepted, held):
    """Takes of enabled choices and of refused ones, and a run."""
    _, _, codes = guide.list_choices(card, held, 1024)
    made = take_requests(random, accepted, held, codes, 3)
    budget = some_budget(random, card, held)
    return made + [request_about(random, drill.RUN, held, budget)]


def damaged_bounded_requests(random, accepted, held):
    """A take or a run on damaged configurations, and on one just inside a range."""
    chosen = [random.choice(damage.CONFIGURATION_DAMAGES) for _ in range(2)]
    chosen.append(random.choice(damage.CONFIGURATION_RANGES))
    made = [one.change(random, accepted, random.choice(held)) for one in chosen]
    kinds = drill.TAKE, drill.RUN
    return [call_of_kind(random, random.choice(kinds), one) for one in made if one is not None]


def bounded_requests(random, card):
    """The requests about a good card, bounded or open, 50 at most: from plans that weigh
    just so much, from plans that are nearly full, from those that the card comes to, and
    from damaged configurations."""
    _, accepted = guide.judge(card)
    held = weighed_configurations(random, accepted) + some_configurations(random, card, accepted)
    made = damaged_bounded_requests(random, accepted, held)
    made += full_requests(random, accepted) + closed_requests(random, accepted)
    made += emptying_requests(random, accepted) + believed_requests(random, accepted)
    for one in held:
        made += takes_and_run(random, card, accepted, one)
    asked = [on_a_bounded_card(request) for request in made]
    return [request for request in asked if request is not None][:REQUEST_LIMIT]


def refused_bounded_requests(random, count):
    """So many requests about a refused card, from configurations of another one, light and
    heavy."""
    base = weighed.some_card(random, 700)
    _, accepted = guide.judge(base)
    held = weighed_configurations(random, accepted) + [random_configuration(random, accepted)]
    held.append(held[0]._replace(phase=3))
    kinds = drill.TAKE, drill.RUN
    made = [call_of_kind(random, random.choice(kinds), random.choice(held)) for _ in range(count)]
    return [on_a_bounded_card(request) for request in made]


def bounded_case(random, items, largest):
    """A case of the calls for bounded cards, one in eight about a damaged one."""
    if random.random() < 0.125:
        card = next_damaged_case(random, items, largest).card
    else:
        card = weighed.some_card(random, largest)
    if guide.check(card) != guide.DONE:
        return Case("bounded cards", card, refused_bounded_requests(random, 4))
    return Case("bounded cards", card, bounded_requests(random, card))


def generate_bounded(seed, count, largest=cards.CARD_LIMIT):
    """So many cases of the calls for bounded cards, by seed: no card of more than `largest`
    bytes."""
    items = itertools.cycle(damage_order(seed))
    for index in range(count):
        yield bounded_case(Random("%s bounded %d" % (seed, index)), items, largest)


# --- cases of lists ---------------------------------------------------------

# How many lists about one card are asked for.
LISTS_OF_A_CARD = 12


def list_card(random, items, largest):
    """A card to be listed: mostly one with many entries of one action and heads that begin
    alike, now and then with 256 of each; any good one; or a damaged one."""
    style, edition = random.random(), random.choice(cards.EDITIONS)
    if style < 0.1:
        return next_damaged_case(random, items, largest).card
    if style < 0.75:
        most = random.choice((4, 8, 8, 16, 16, 30, 80, 256))
        card = cards.card(listed.crowded_card(random, most, edition))
        if len(card) <= largest:
            return card
    if style > 0.97:
        card = cards.card(listed.busiest_card(random.choice((255, 256))))
        if len(card) <= largest:
            return card
    return cards.card(cards.good_card(random, largest))


def list_requests(random, card, count):
    """So many lists about a good card, with rooms around the number needed; one in ten of a
    damaged configuration."""
    _, accepted = guide.judge(card)
    held, made = some_configurations(random, card, accepted), []
    for _ in range(count):
        one = random.choice(held) if random.random() < 0.2 else listed.some_held(random, accepted)
        if random.random() < 0.1:
            wrong = random.choice(damage.CONFIGURATION_DAMAGES).change(random, accepted, one)
            made.append(call_of_kind(random, drill.LIST, wrong or one))
        else:
            made.append(list_request(random, card, one)[0])
    return made


def lists_case(random, items, largest):
    """A case of lists."""
    card = list_card(random, items, largest)
    if guide.check(card) == guide.DONE:
        return Case("lists", card, list_requests(random, card, LISTS_OF_A_CARD))
    _, accepted = guide.judge(cards.card(listed.crowded_card(random, 4, 2)))
    held = [listed.some_held(random, accepted) for _ in range(3)]
    return Case("lists", card, [call_of_kind(random, drill.LIST, one) for one in held])


def generate_lists(seed, count, largest=cards.CARD_LIMIT):
    """So many cases of lists, by seed: no card of more than `largest` bytes."""
    items = itertools.cycle(damage_order(seed))
    for index in range(count):
        yield lists_case(Random("%s list %d" % (seed, index)), items, largest)


# --- cases of the plain engine ----------------------------------------------

# How many configurations of a good card are asked about beside those of its case.
HELD_BESIDE = 3


def any_take(random, accepted, held):
    """A take of any code: mostly of an entry, else of whatever number."""
    codes = damage.choices(accepted) if random.random() < 0.75 else ()
    code = random.choice(codes) if codes else random.randrange(65536)
    return request_about(random, drill.TAKE, held, code)


def requests_beside(random, card):
    """A load, and from configurations with plans around the heads of a good card a list, takes
    of listed codes, of refused ones and of any, and a run."""
    _, accepted = guide.judge(card)
    made = [request_plain(drill.LOAD)]
    for _ in range(HELD_BESIDE):
        held = listed.some_held(random, accepted)
        made.append(list_request(random, card, held)[0])
        made += takes_and_run(random, card, accepted, held)
        made.append(any_take(random, accepted, held))
    return made


def plain_case(random, items, index, largest):
    """A case of the plain engine's calls, in turn about a good card, first those with names; a
    damaged one; one with many entries of one action; and a damaged one again. The requests
    are those that the first engine is asked."""
    if index % 2 == 1:
        case = next_damaged_case(random, items, largest)
    elif index % 4 == 2:
        case = lists_case(random, items, largest)
    elif index // 4 < len(NAMED_CARDS):
        case = named_case(random, index // 4, largest)
    else:
        case = good_case(random, largest)
    made = case.requests
    if guide.check(case.card) == guide.DONE:
        made = made + requests_beside(random, case.card)
    return Case("plain: " + case.name, case.card, on_the_plain_engine(made))


def generate_plain(seed, count, largest=cards.CARD_LIMIT):
    """So many cases of the plain engine's calls, by seed: no card of more than `largest`
    bytes."""
    items = itertools.cycle(damage_order("%s plain" % seed))
    for index in range(count):
        yield plain_case(Random("%s plain %d" % (seed, index)), items, index, largest)


# --- cases of names ---------------------------------------------------------

# How many actions the cards of these cases have.
ACTION_COUNTS = (1, 1, 2, 2, 3, 3, 4, 5, 7, 12, 40)


def name_requests(random, actions, count, largest):
    """So many names asked for, with a master sheet and mostly a shed's of about so many
    names each, none of more than `largest` bytes."""
    made = []
    for _ in range(count):
        shed = wordings.some_shed(random, actions, largest)
        master = wordings.sheet_within(random, actions, 0, largest)
        made.append(request_name(shed, master, wordings.some_action(random, actions)))
    return made


def long_name_requests(random, actions, largest):
    """Names asked for with sheets of `largest` bytes, or a few less."""
    held = [wordings.filled_up(random, actions, largest - random.randrange(3)) for _ in range(2)]
    held.append(wordings.damaged_anywhere(random, held[0])[:largest])
    shed, master = random.choice((b"", *held)), random.choice(held)
    return [request_name(shed, master, action) for action in (0, actions - 1, actions)]


def name_card(random, items, largest):
    """A card for names: mostly a small one of some actions, now and then any good one, a
    damaged one, or one of 256 actions."""
    style, edition = random.random(), random.choice(cards.EDITIONS)
    card = b""
    if style < 0.75:
        card = sheets.actions_card(random.choice(ACTION_COUNTS), edition)
    elif style < 0.77:
        card = sheets.actions_card(random.choice((255, 256)), edition)
    elif style < 0.85:
        card = next_damaged_case(random, items, largest).card
    if card == b"" or len(card) > largest:
        card = cards.card(cards.good_card(random, largest))
    return card


def name_case(random, items, largest):
    """A case of names about a card."""
    card = name_card(random, items, largest)
    _, accepted = guide.judge(card)
    actions = 3 if accepted is None else accepted.actions
    if accepted is not None and random.random() < 0.005 and largest > 4 * actions + 1000:
        return Case("long sheets", card, long_name_requests(random, actions, largest))
    count = 4 if accepted is None or actions > 60 else 16
    return Case("names", card, name_requests(random, actions, count, largest))


def generate_names(seed, count, largest=cards.CARD_LIMIT):
    """So many cases of names, by seed: no card and no sheet of more than `largest`
    bytes."""
    items = itertools.cycle(damage_order(seed))
    for index in range(count):
        yield name_case(Random("%s name %d" % (seed, index)), items, largest)


# --- the command ------------------------------------------------------------

# The sorts of cases of the requests from 10 on: the request, the option that says how many,
# what is counted, and what makes so many of them.
LATER_SORTS = (
    (10, "bounded", "cases of takes and runs on bounded cards", generate_bounded),
    (11, "lists", "cases of lists", generate_lists),
    (12, "plain", "cases of the plain engine's calls", generate_plain),
)
LANDED_SORTS = tuple(sort for sort in LATER_SORTS if sort[0] in drill.LANDED)

# The width of a column of the table.
COLUMN = 11


def column(request):
    """The column of the table that a request is counted in."""
    return CALL_KINDS.index(request[0])


def count_answers(cases, requests, answers):
    """Writes requests and answers; how often each number was met for each call,
    and how many requests there were."""
    met = [[0] * (max(ANSWER_NUMBERS) + 1) for _ in CALL_NAMES]
    for case in cases:
        requests.write(request_card(case.card))
        for request in case.requests:
            answer = drill.answer(case.card, request)
            requests.write(request)
            answers.write(answer)
            met[column(request)][guide.number(answer, 0)] += 1
    return met


def table(met):
    """The table of the answers met: a line a number, a column a call."""
    rows = [("answer", CALL_NAMES + ("all",))]
    for number in ANSWER_NUMBERS:
        counts = [column[number] for column in met]
        rows.append((number, counts + [sum(counts)]))
    totals = [sum(column) for column in met]
    rows.append(("all", totals + [sum(totals)]))
    return "\n".join(
        str(first).rjust(6) + "".join(str(one).rjust(COLUMN) for one in others)
        for first, others in rows
    )


def main():
    """Writes the stream of requests and the answers, and prints the table."""
    parser = argparse.ArgumentParser(description="cases by seed, with the oracle's answers")
    parser.add_argument("--seed", required=True)
    parser.add_argument("--cards", type=int, required=True)
    parser.add_argument("--texts", type=int, default=0)
    parser.add_argument("--programs", type=int, default=0)
    parser.add_argument("--names", type=int, default=0)
    parser.add_argument("--cuts", type=int, default=0)
    parser.add_argument("--next", type=int, default=0)
    for _, option, counted, _ in LANDED_SORTS:
        parser.add_argument("--" + option, type=int, default=0, help="how many " + counted)
    parser.add_argument("--largest", type=int, default=cards.CARD_LIMIT)
    parser.add_argument("--requests", required=True)
    parser.add_argument("--answers", required=True)
    asked = parser.parse_args()
    largest = min(asked.largest, CARD_BYTES_LIMIT)
    cases = itertools.chain(
        generate(asked.seed, asked.cards, largest),
        generate_texts(asked.seed, asked.texts, asked.largest),
        generate_programs(asked.seed, asked.programs, largest),
        generate_names(asked.seed, asked.names, largest),
        generate_cuts(asked.seed, asked.cuts, largest),
        generate_next(asked.seed, asked.next, largest),
        *(make(asked.seed, getattr(asked, option), largest) for _, option, _, make in LANDED_SORTS),
    )
    with open(asked.requests, "wb") as requests, open(asked.answers, "wb") as answers:
        met = count_answers(cases, requests, answers)
    sys.stdout.write(table(met) + "\n")


if __name__ == "__main__":
    main()
