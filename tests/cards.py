#!/usr/bin/env python3
"""Holds cards/ against the oracle. The last line is 'N passed, M failed'.

    python3 tests/cards.py            the cards' bytes; the two sheds' programs, as cards/README.md has their entries and their moves;
                                      the stripe card's two sheets of names; what the gate runs the programs for texts and for names
                                      on; the lines of `./rigtemple` for each file of cards/, the card that it writes of each text
                                      card, the stripe card as text, its moves with their names, and which sheet is refused; and that
                                      cards/explain.py finds a line in each refused text of the oracle
    python3 tests/cards.py --bytes    all of it but what needs the programs
    python3 tests/cards.py --write    writes the cards that no text says, as they are described here, the two sheds' programs, the two
                                      sheets, and what the gate runs the programs for texts and for names on

A card that a text can say is kept as that text alone. The others are described here in the oracle's words (oracle/cards.py); the
sheds' programs are those of oracle/programs.py, the names those of oracle/sheets.py.
"""

import glob
import os
import re
import struct
import subprocess
import sys
import tempfile
from random import Random

sys.dont_write_bytecode = True
TOP = os.path.dirname(os.path.dirname(os.path.abspath(__file__)))
FOLDER = os.path.join(TOP, "cards")
sys.path[:0] = [os.path.join(TOP, "oracle"), FOLDER]
import cards  # noqa: E402
import deliberation  # noqa: E402
import explain  # noqa: E402
import guide  # noqa: E402
import names  # noqa: E402
import program  # noqa: E402
import programs  # noqa: E402
import sheet as maker  # noqa: E402
import sheets  # noqa: E402
import slips  # noqa: E402
import text  # noqa: E402
import texts  # noqa: E402
from cards import AND, BELIEVES, HAS_GOAL, NOT, OR, TRUE, Description, Node, Revision, Selection, Specification, atoms_set  # noqa: E402

# ---- the cards that no text says


def loop():
    """Node 0 is its own child."""
    return Description(atoms=1, weights=[1], nodes=[Node(NOT, 0)], selections=[Selection(0, 0, 0, 1)], pool=bytes([0]))


def edition():
    """A good card but for the edition, which the guide does not know."""
    return Description(
        atoms=1,
        weights=[1],
        nodes=[Node(TRUE), Node(HAS_GOAL, 0)],
        specifications=[Specification(0, 0, add=atoms_set(0))],
        selections=[Selection(0, 1, 0, 1)],
        pool=bytes([0]),
        goals=atoms_set(0),
        edition=9,
    )


def shared():
    """Each node is "the one below, and the one below": written out as a tree, node 255 has 2 to the power of 255 leaves. Whoever looks
    at each node once is done at once. Every condition is node 255, which has no atom and so is of both kinds."""
    return Description(
        atoms=1,
        weights=[1, 2],
        nodes=[Node(TRUE)] + [Node(AND, k, k) for k in range(255)],
        specifications=[Specification(0, 255)],
        selections=[Selection(255, 255, 0, 1)],
        revisions=[Revision(255, 0, 1, 1, 1)],
        pool=bytes([1, 0]),
    )


# The nodes of the largest card: where those of each sort begin.
WANTS, SEEN, UNSEEN, EDGE, NEAR = 1, 129, 162, 195, 227


def maximal_nodes():
    """Wants fact k; has seen it; has not; stands between k and k + 1; or has seen k + 2."""
    nodes = [Node(TRUE)] + [Node(HAS_GOAL, k) for k in range(128)]
    nodes += [Node(BELIEVES, k) for k in range(33)] + [Node(NOT, SEEN + k) for k in range(33)]
    nodes += [Node(AND, SEEN + k, UNSEEN + k + 1) for k in range(32)]
    return nodes + [Node(OR, EDGE + k, SEEN + k + 2) for k in range(29)]


def maximal():
    """Every section is as long as it may be. For each of 128 goals there is a figure (action 128 + k), woven by its own action k:
    figure 5 is begun by selection 5 or 133, made plain by revision 5, shortened by revision 133, and woven by specification 5 or
    133. Its plan stands at 64 times k in the pool."""
    each = range(128)
    return Description(
        atoms=128,
        weights=[1] * 128 + [8] * 128,
        nodes=maximal_nodes(),
        specifications=[Specification(k, UNSEEN + k % 32, add=atoms_set(k)) for k in each]
        + [Specification(k, 0, add=atoms_set(k)) for k in each],
        selections=[Selection(NEAR + k % 29, WANTS + k, 64 * k, 64) for k in each]
        + [Selection(0, WANTS + k, 64 * k, 64) for k in each],
        revisions=[Revision(0, 64 * k, 64, 64 * k + 1, 5) for k in each]
        + [Revision(SEEN + k % 32, 64 * k + 1, 3, 64 * k + 1, 1) for k in each],
        pool=b"".join(bytes([128 + k] + [k] * 63) for k in each),
        goals=atoms_set(*each),
    )


def widest():
    """The largest card in edition 2, with 256 atoms: its 128 goals are the odd ones, and the even ones are believed."""
    made = cards.in_edition(maximal(), 2)
    made.atoms = 256
    cards.renamed(made, lambda atom: 2 * atom + 1)
    made.beliefs = atoms_set(*range(0, 256, 2))
    return made


# The jacquard card's atoms: 0 to 191 a hook is up, then those of each row; and its actions, of which those of a row are four.
HOOKS, ROWS = range(192), range(4)
ROW_WOVEN, SHED_OPEN, WOUND, FIGURE_WOVEN = 192, 196, 197, 255
LIFT, THROW, WIND, ROW, FIGURE = 0, 4, 8, 9, 13


def hooks_of(row):
    """The hooks that a row lifts: three of eight, two further in each row."""
    return [hook for hook in HOOKS if (hook + 2 * row) % 8 < 3]


def jacquard():
    """A figure of four rows on a loom of 192 hooks. A row is to lift its hooks and let the others down, which opens the shed, and to
    throw; the weft lasts for two rows and is then wound anew. The figure is the last atom, and a goal."""
    lifts = [
        Specification(LIFT + row, 0, atoms_set(SHED_OPEN, *hooks_of(row)), atoms_set(*(set(HOOKS) - set(hooks_of(row)))))
        for row in ROWS
    ]
    throws = [
        Specification(
            THROW + row,
            4,
            atoms_set(ROW_WOVEN + row, *([FIGURE_WOVEN] if row == 3 else [])),
            atoms_set(SHED_OPEN, *([WOUND] if row % 2 else [])),
        )
        for row in ROWS
    ]
    return Description(
        layout=2,
        atoms=256,
        weights=[1] * 9 + [4] * 4 + [17],
        nodes=[
            Node(TRUE),
            Node(BELIEVES, SHED_OPEN),
            Node(BELIEVES, WOUND),
            Node(NOT, 2),
            Node(AND, 1, 2),
            Node(HAS_GOAL, FIGURE_WOVEN),
        ],
        specifications=lifts + throws + [Specification(WIND, 0, atoms_set(WOUND))],
        selections=[Selection(0, 5, 0, 1)],
        revisions=[Revision(0, 0, 1, 1, 4)]
        + [Revision(2, 1 + row, 1, 6 + 3 * row, 2) for row in ROWS]
        + [Revision(3, 1 + row, 1, 5 + 3 * row, 3) for row in ROWS],
        pool=bytes([FIGURE] + [ROW + row for row in ROWS]) + b"".join(bytes([WIND, LIFT + row, THROW + row]) for row in ROWS),
        goals=atoms_set(FIGURE_WOVEN),
    )


# The stripe card's text without its remarks.
PLAIN_STRIPE = re.sub(rb"(?m)^#.*\n| #.*", b"", slips.STRIPE_TEXT)

MADE = {
    "stripe": cards.stripe_card,
    "loop": loop,
    "edition": edition,
    "shared": shared,
    "maximal": maximal,
    "jacquard": jacquard,
    "widest": widest,
}

# ---- the two sheds

SHEDS = {"teaching": programs.TEACHING, "fast": programs.FAST}
KINDS = ("select", "act", "revise")
ENDINGS = ("spent", "finished", "stuck", "full")
BUDGET = 1000

# A line behind the other "do" lines of stripe.text: a pick is woven as it is, with a broken thread, too.
WOVEN_PICK = b"do 3 if B1 add 2 del 1\n"


def woven_card():
    """The stripe card's text with that line, as a card."""
    before, rest = slips.STRIPE_TEXT.split(b"select", 1)
    return text.read(before + WOVEN_PICK + b"select" + rest, cards.CARD_LIMIT)[2]


def made_between(card, before, after):
    """A move in words: idle, if it leaves the configuration as it is."""
    if before == after:
        return "idle"
    codes = guide.list_choices(card, before, 1024)[2]
    kind, number = divmod(next(code for code in codes if guide.take(card, before, code)[2] == after), 256)
    return "%s %d" % (KINDS[kind], number)


def numbers(values):
    return " ".join(map(str, values)) or "none"


def moves_of(card, whole):
    """What a program makes of a card, move by move: the words, the plan afterwards, and what then remains."""
    held = guide.load(card)[1]
    count = deliberation.deliberate(card, whole, held, BUDGET)[2]
    for budget in range(1, count + 1):
        reached, remaining = deliberation.deliberate(card, whole, guide.load(card)[1], budget)[1::3]
        yield made_between(card, held, reached), numbers(reached.plan[: reached.length]), numbers(remaining)
        held = reached


def table(rows):
    return "".join("| %s |\n" % " | ".join(row) for row in rows)


def end_of(card, whole):
    """How a program ends on a card, in words."""
    _, reached, count, ending, _ = deliberation.deliberate(card, whole, guide.load(card)[1], BUDGET)
    believed = [k for k in range(256) if reached.beliefs[k // 8] >> k % 8 & 1]
    return "%s after %d moves, with the beliefs %s" % (ENDINGS[ending], count, numbers(believed))


def sheds_kept():
    """The sheds' programs are what cards/README.md says, and go as it says."""
    readme = read("README.md").decode()
    flat = " ".join(readme.split())
    yield "each program of cards/ is a shed's", of_folder(".program") == sorted(name + ".program" for name in SHEDS)
    for name, entries in SHEDS.items():
        yield "the bytes of %s.program" % name, read(name + ".program") == programs.program(entries)
        for file in ("stripe.card", "stripe.text"):
            card = read(file) if file.endswith(".card") else text.read(read(file), cards.CARD_LIMIT)[2]
            moves = table((str(count), *move) for count, move in enumerate(moves_of(card, programs.program(entries)), 1))
            yield "the moves of %s.program on %s" % (name, file), moves in readme
            yield "the end of %s.program on %s" % (name, file), "It is %s." % end_of(card, programs.program(entries)) in flat
        yield "the end of %s.program where they part" % name, (
            "`%s.program`: %s" % (name, end_of(woven_card(), programs.program(entries))) in readme
        )
    for number, both in enumerate(zip(programs.TEACHING, programs.FAST)):
        row = "| %d | %s | %s |" % (number, *map(numbers, both))
        yield "entry %d of both programs" % number, row in readme
    octal = "".join("\\%o" % byte for byte in programs.program(programs.TEACHING))
    yield "the teaching shed's program in octal", "printf '%s' >" % octal in readme
    yield "the line with which they part", "    %s" % WOVEN_PICK.decode() in readme
    parting = zip(*(moves_of(woven_card(), programs.program(entries)) for entries in SHEDS.values()))
    rows = [(str(count), *one[:2], *other[:2]) for count, (one, other) in enumerate(parting, 1) if one != other]
    yield "the moves where they part", len(rows) == 2 and table(rows) in readme


# ---- the two languages

# The master's sheet of the stripe card, and a shed's own.
LANGUAGES = {"stripe.en": sheets.ENGLISH, "stripe.sv": sheets.SWEDISH}
MASTER, SHED = (sheets.sheet(of_moves) for of_moves in LANGUAGES.values())
WHICH = {names.MASTERS: "master", names.SHEDS: "shed"}


def moves_named(card, shed, master):
    """The name of each specification's action, a control byte as "?"."""
    for entry in guide.judge(card)[1].specifications:
        _, which, start, length = names.name(card, shed, master, entry.action)
        name = (master, shed)[which][start:start + length]
        yield re.sub(rb"[\x00-\x1f\x7f]", b"?", name)


def name_lines(card, shed, master):
    """What `move_names` writes of a card and two sheets."""
    number, which = names.name(card, shed, master, 0)[:2]
    if number == names.SHEET:
        return b"refused %d %s\n" % (number, WHICH[which].encode())
    if number != guide.DONE:
        return b"refused %d\n" % number
    return b"".join(b"%d %s\n" % line for line in enumerate(moves_named(card, shed, master)))


def lines_with_names(card, shed, master):
    """What `./rigtemple names` writes of an accepted card and two accepted sheets: a name behind each act."""
    of_moves = list(moves_named(card, shed, master))
    for line in program.lines(card):
        words = line.split()
        is_act = len(words) == 5 and words[1] == "act"
        yield line.encode() + (b" " + of_moves[int(words[2])] if is_act else b"") + b"\n"


def shown(lines):
    """Lines as cards/README.md shows them."""
    return "".join("    %s" % line.decode() for line in lines)


def sheets_kept():
    """The sheets are what cards/README.md says, and cards/sheet.py makes them of their names."""
    readme = read("README.md").decode()
    yield "each sheet of cards/ is described", of_folder(".sheet") == sorted(name + ".sheet" for name in LANGUAGES)
    for name, of_moves in LANGUAGES.items():
        yield "the bytes of %s.sheet" % name, read(name + ".sheet") == sheets.sheet(of_moves)
        yield "the names of %s.sheet, made a sheet" % name, maker.sheet(of_moves) == sheets.sheet(of_moves)
        yield "the lines of them", maker.names_in(b"".join(one + b"\n" for one in of_moves)) == of_moves
    yield "the sheets by hand", (MASTER, SHED) == (sheets.MASTER_BYTES, sheets.SHED_BYTES)
    offsets = (numbers(sheets.offsets_for(of_moves)) for of_moves in LANGUAGES.values())
    yield "their offsets in README.md", "| %s | %s |\n" % tuple(offsets) in readme
    words = (b" ".join(filter(None, of_moves)).decode() for of_moves in LANGUAGES.values())
    yield "their names in README.md", "| %s | %s |\n" % tuple(words) in readme
    given = b"".join(one + b"\\n" for one in sheets.SWEDISH).decode()
    yield "the Swedish names in README.md", "printf '%s' | python3 cards/sheet.py >stripe.sv.sheet" % given in readme
    card = text.read(slips.STRIPE_TEXT, cards.CARD_LIMIT)[2]
    yield "the moves with their names in README.md", shown(lines_with_names(card, SHED, MASTER)) in readme


def path_of(name):
    return os.path.join(FOLDER, name)


def read(name):
    with open(path_of(name), "rb") as file:
        return file.read()


def write():
    """Writes the cards that no text says, the sheds' programs, the sheets, and what the gate runs programs on."""
    made = {name + ".card": cards.card(describe()) for name, describe in MADE.items()}
    made.update((name + ".program", programs.program(entries)) for name, entries in SHEDS.items())
    made.update((name + ".sheet", sheets.sheet(of_moves)) for name, of_moves in LANGUAGES.items())
    for name, given, written in gate_runs():
        made["../crates/%s/stdin" % name], made["../crates/%s/stdout" % name] = given, written
    for name, data in made.items():
        with open(path_of(name), "wb") as file:
            file.write(data)


def of_folder(ending):
    return sorted(os.path.basename(path) for path in glob.glob(path_of("*" + ending)))


# ---- what is held


def bytes_kept():
    """The cards are what is described, and each text card is read."""
    yield "each card of cards/ is described", of_folder(".card") == sorted(name + ".card" for name in MADE)
    for name, made in MADE.items():
        yield "the bytes of %s.card" % name, read(name + ".card") == cards.card(made())
    for name in of_folder(".text"):
        yield "the oracle reads %s" % name, text.read(read(name), cards.CARD_LIMIT)[0] == 0
    yield "stripe.text is the text of the documents", read("stripe.text") == slips.STRIPE_TEXT


def after_lengths(*parts):
    """Parts, each after its length in two bytes."""
    return b"".join(struct.pack("<H", len(part)) + part for part in parts)


def gate_runs():
    """What the gate gives the programs for texts and for names, and what they must write: the stripe card's text and the card of it;
    the card of 255 bytes, and the text without its remarks; that card with two sheets, one of whose names has control bytes, and the
    names."""
    card = cards.card(cards.stripe_card())
    shed = sheets.sheet([one.replace(b"spola", b"spo\nla\x7f") for one in sheets.SWEDISH])
    return (
        ("read_text", slips.STRIPE_TEXT, text.read(slips.STRIPE_TEXT, cards.CARD_LIMIT)[2]),
        ("print_text", card, PLAIN_STRIPE),
        ("move_names", after_lengths(card, shed, MASTER), name_lines(card, shed, MASTER)),
    )


def runs_of_the_gate():
    """The gate runs the programs on just that."""
    for name, given, written in gate_runs():
        yield "crates/%s/stdin" % name, read("../crates/%s/stdin" % name) == given
        yield "crates/%s/stdout" % name, read("../crates/%s/stdout" % name) == written
    yield "the stripe card's text makes 283 bytes", len(read("../crates/read_text/stdout")) == 283
    yield "three names by hand", read("../crates/move_names/stdout").decode() == "0 v\u00e4v\n1 spo?la?\n2 repair\n"


def refused_texts():
    """The oracle's refused texts: by hand, each clause broken, every two numbers at once."""
    yield from (one.text for one in slips.SLIPS + slips.NUMBERED)
    yield from (texts.clause_sample(Random(one.name), one).text for one in texts.TEXT_DAMAGES)
    yield from (texts.pair_sample(Random("%d %d" % pair), *pair).text for pair in texts.TEXT_PAIRS)


def could_stand(held, place):
    """The bytes that could stand at a slip's place."""
    return {byte for byte in range(256) if text.slip_of(held[:place] + bytes([byte])) != place}


def explained():
    """A line is found in each refused text; of a slip the place is marked, and what could stand there is in words."""
    for held in refused_texts():
        number, place, _ = text.read(held, cards.CARD_LIMIT)
        what = "%d explained: %r" % (number, held[:60])
        if number == text.TEXT:
            told = list(explain.slip("x", held, place, could_stand(held, place)))
            yield what, len(told) == 3 and told[2].endswith("^") and not re.search(r"could.* (nothing|byte \d)", told[0])
        elif number != 0:
            yield what, re.match(r"x:\d+: ", next(explain.reasons("x", held, number))) is not None


def run(*words):
    """A run of `./rigtemple`."""
    return subprocess.run([os.path.join(TOP, "rigtemple"), *words], capture_output=True, check=False)


def answer(*words):
    """What `./rigtemple` writes on standard output."""
    return run(*words).stdout


def programs_kept():
    """What the programs make of each file of cards/."""
    for name in of_folder(".text") + of_folder(".card"):
        is_text = name.endswith(".text")
        card = text.read(read(name), cards.CARD_LIMIT)[2] if is_text else read(name)
        lines = "".join(line + "\n" for line in program.lines(card)).encode()
        yield "the lines of %s" % name, answer(path_of(name)) == lines
        if is_text:
            yield "the card of %s" % name, answer("card", path_of(name)) == card
    yield "stripe.card as text", answer("text", path_of("stripe.card")) == PLAIN_STRIPE


def sheet_cases():
    """Two sheets for the stripe card: good ones, none of the shed's, and each clause of a sheet but UTF-8 broken, in the one or in the
    other. What they are, the shed's, the master's."""
    yield "two sheets", SHED, MASTER
    yield "a shed without a sheet", b"", MASTER
    yield "a sheet of 65,535 bytes", sheets.sheet([b"", b"w" * (65535 - 14), b"", b"", b""]), MASTER
    yield "a sheet of 65,536 bytes", SHED + bytes(65536 - len(SHED)), MASTER
    yield "a sheet of 65,536 bytes, the master's", SHED, MASTER + bytes(65536 - len(MASTER))
    for one in sheets.SHEET_DAMAGES + sheets.SHED_RANGES:
        yield "the shed's " + one.name, one.change(Random(one.name), sheets.ENGLISH), MASTER
    for one in sheets.SHEET_DAMAGES + sheets.MASTER_DAMAGES:
        yield "the master's " + one.name, SHED, one.change(Random(one.name), sheets.ENGLISH)


def names_shown():
    """What `./rigtemple names` makes of the stripe card and two sheets: the lines, or 20 and in words which sheet."""
    card, file = read("stripe.card"), path_of("stripe.card")
    with tempfile.TemporaryDirectory() as room:
        shed_file, master_file = os.path.join(room, "own"), os.path.join(room, "other")
        for what, shed, master in sheet_cases():
            for path, data in ((shed_file, shed), (master_file, master)):
                with open(path, "wb") as held:
                    held.write(data)
            ran, (number, which) = run("names", file, master_file, shed_file), names.name(card, shed, master, 0)[:2]
            if number == guide.DONE:
                yield what, ran.stdout == b"".join(lines_with_names(card, shed, master)) and ran.returncode == 0
            else:
                told = "%s is refused as the %s's" % ((master_file, shed_file)[which], WHICH[which])
                yield what, (ran.stdout, ran.returncode, told in ran.stderr.decode()) == (b"refused 20\n", 1, True)
    alone = b"".join(lines_with_names(card, b"", MASTER))
    yield "the master's sheet alone", answer("names", file, path_of("stripe.en.sheet")) == alone
    yield "a refused card before its sheets", answer("names", path_of("loop.card"), path_of("stripe.card")) == b"refused 6\n"


def main(words):
    """Prints what is not so, and how much is."""
    if words not in ([], ["--bytes"], ["--write"]):
        print("usage: cards.py [--bytes | --write]", file=sys.stderr)
        return 2
    if words == ["--write"]:
        write()
    passed = failed = 0
    for held in (bytes_kept, sheds_kept, sheets_kept, runs_of_the_gate, explained) + (() if words else (programs_kept, names_shown)):
        for what, so in held():
            passed, failed = passed + so, failed + (not so)
            if not so:
                print("not so: %s" % what)
    print("%d passed, %d failed" % (passed, failed))
    return 1 if failed else 0


if __name__ == "__main__":
    sys.exit(main(sys.argv[1:]))
