"""Texts by hand: slips with their places, other refusals, odd spellings of one card;
and conditions with the text that the printer writes for them.

A slip's place is marked: "^" stands before "the first byte that no continuation could
make right". A text without the mark "just ends", and its place is its length.
"""

from typing import NamedTuple

from cards import AND, BELIEVES, HAS_GOAL, NOT, OR, TRUE, Node


class ByHand(NamedTuple):
    """A text by hand: what it is, its bytes, its number, and its place (0 but with
    17)."""

    name: str
    text: bytes
    number: int
    place: int


# The text of text-card.md, whose card has 283 bytes.
STRIPE_TEXT = b"""# the stripe card: 0 threaded, 1 bobbin, 2 band, 3 broken
atoms 4
action 1 # 0 weave
action 1 # 1 wind
action 1 # 2 repair
action 3 # 3 pick
action 5 # 4 stripe
do 0 if B1&!B3 add 2 del 1
do 1 if T add 1 del
do 2 if B3 add del 3
select if T goal G2 plan 4
revise 4 if T to 1 3
revise 3 if B3 to 2 0
revise 3 if !B3 to 0
begin beliefs 0 3 goals 2 plan
"""

# A line of each kind, in their order.
ATOMS, ACTION, DO, SELECT, REVISE, BEGIN = range(6)
LINES = (
    b"atoms 2\n",
    b"action 1\n",
    b"do 0 if B0 add 1 del 0\n",
    b"select if T goal G1 plan 0\n",
    b"revise 0 if !B1 to\n",
    b"begin beliefs 0 goals 1 plan\n",
)
WHOLE = b"".join(LINES)
KIND_NAMES = ("atoms", "action", "do", "select", "revise", "begin")


def shown(some):
    """Some bytes of a text in a name, the middle of them left out if they are
    many."""
    if len(some) > 60:
        return "%s and so on, %d bytes, %s" % (shown(some[:20]), len(some), shown(some[-20:]))
    return repr(some.decode("latin-1"))


def up_to(kind, line=b""):
    """The text up to the line of a kind, and some bytes in its place."""
    return b"".join(LINES[:kind]) + line


def with_line(kind, line):
    """The text with some bytes in the place of the line of a kind."""
    return up_to(kind, line) + b"".join(LINES[kind + 1:])


def with_line_before(kind, line):
    """The text with some bytes before the line of a kind."""
    return with_line(kind, line + LINES[kind])


def with_condition(word):
    """The text with another condition in its do line."""
    return with_line(DO, b"do 0 if " + word + b" add 1 del 0\n")


# --- 17 ---------------------------------------------------------------------


def slip(name, marked):
    """A text with a slip where the mark is, or at its end."""
    before, _, after = marked.partition(b"^")
    return ByHand("slip: " + name, before + after, 17, len(before))


SLIPS_OF_ORDER = [
    slip("the text of no bytes", b""),
    slip("nothing but notes", b"\n# x\n\n"),
    slip("a remark without its end", b"# x"),
    slip("a space before the first line", b"^ " + WHOLE),
    slip("a line of spaces", b"^  \n" + WHOLE),
    slip("a CR before the first line", b"^\r\n" + WHOLE),
    slip("a mark of the order of bytes", b"^\xef\xbb\xbf" + WHOLE),
    slip("a byte of zero", b"^\0" + WHOLE),
    slip("a space before a note", b"^ # x\n" + WHOLE),
    slip("no atoms line", b"a^" + WHOLE[len(LINES[ATOMS]) + 1:]),
    slip("no atoms and no action line", b"^" + b"".join(LINES[DO:])),
    slip("begin alone", b"^" + LINES[BEGIN]),
    slip("a word in capitals", b"^ATOMS 2\n"),
    slip("a second atoms line", with_line_before(DO, b"a^toms 2\n")),
    slip("a second atoms line at once", with_line_before(ACTION, b"a^toms 2\n")),
    slip("an action after a do line", with_line_before(SELECT, b"^action 1\n")),
    slip("an action after a select line", with_line_before(REVISE, b"^action 1\n")),
    slip("an action after a revise line", with_line_before(BEGIN, b"^action 1\n")),
    slip("a do line after a select line", with_line_before(REVISE, b"^do 0 if T add del\n")),
    slip("a do line after a revise line and notes", with_line_before(BEGIN, b"# x\n\n^do 0 if T add del\n")),
    slip("a select line after a revise line", with_line_before(BEGIN, b"^select if T goal T plan 0\n")),
    slip("an action after begin", WHOLE + b"^action 1\n"),
    slip("a revise line after begin", WHOLE + b"^revise 0 if T to\n"),
    slip("a second begin line", WHOLE + b"^" + LINES[BEGIN]),
    slip("an atoms line after begin and notes", WHOLE + b"\n# x\n^atoms 2\n"),
    slip("a space after begin", WHOLE + b"^ \n"),
    slip("a CR after begin", WHOLE + b"^\r\n"),
    slip("a byte of zero after begin", WHOLE + b"^\0"),
    slip("no begin line", up_to(BEGIN)),
    slip("no begin line, a note", up_to(BEGIN, b"# begin beliefs goals plan\n")),
    slip("the last LF missing", WHOLE[:-1]),
    slip("the last LF missing, a remark", WHOLE[:-1] + b" # x"),
    slip("the last note's LF missing", WHOLE + b"# x"),
    slip("the last note's LF missing, no more than its sign", WHOLE + b"#"),
    slip("an unknown word", with_line_before(DO, b"^note\n")),
    slip("a space before a line", with_line_before(DO, b"^ ")),
    slip("a space before a note between lines", with_line_before(DO, b"^ # x\n")),
    slip("a CR between lines", with_line_before(SELECT, b"^\r\n")),
]

MARKED_LINES = (
    (ATOMS, b"atoms^\n"),
    (ATOMS, b"atoms ^\n"),
    (ATOMS, b"atoms^2\n"),
    (ATOMS, b"atoms ^ 2\n"),
    (ATOMS, b"atoms^\t2\n"),
    (ATOMS, b"atoms ^x\n"),
    (ATOMS, b"atoms ^-2\n"),
    (ATOMS, b"atoms ^+2\n"),
    (ATOMS, b"atoms ^\xb2\n"),
    (ATOMS, b"atoms 2^.0\n"),
    (ATOMS, b"atoms 2^,000\n"),
    (ATOMS, b"atoms 0^x2\n"),
    (ATOMS, b"atoms 2^\r\n"),
    (ATOMS, b"atoms 2 ^\n"),
    (ATOMS, b"atoms 2 ^3\n"),
    (ATOMS, b"atoms 2^# x\n"),
    (ATOMS, b"atoms 2^\t# x\n"),
    (ATOMS, b"atoms 2 ^ # x\n"),
    (ATOMS, b"a^ction 1\n"),
    (ACTION, b"action^s 1\n"),
    (ACTION, b"action ^T\n"),
    (ACTION, b"action 1 ^1\n"),
    (ACTION, b"action 1^:\n"),
    (ACTION, b"ac^\ntion 1\n"),
    (DO, b"do^\n"),
    (DO, b"do ^if T add del\n"),
    (DO, b"do ^T if T add del\n"),
    (DO, b"do 0^if T add del\n"),
    (DO, b"do 0 ^0 if T add del\n"),
    (DO, b"do 0 if^T add del\n"),
    (DO, b"do 0 i^s T add del\n"),
    (DO, b"do 0 if T^add del\n"),
    (DO, b"do 0 if T a^nd del\n"),
    (DO, b"do 0 if T ^del add\n"),
    (DO, b"do 0 if T add^\n"),
    (DO, b"do 0 if T add^1 del\n"),
    (DO, b"do 0 if T add 1^,0 del\n"),
    (DO, b"do 0 if T add ^ 1 del\n"),
    (DO, b"do 0 if T add 1 ^ del\n"),
    (DO, b"do 0 if T add 1^\n"),
    (DO, b"do 0 if T add 1 ^\n"),
    (DO, b"do 0 if T add 1 ^# x\n"),
    (DO, b"do 0 if T add 1 ^add 0 del\n"),
    (DO, b"do 0 if T add 1 d^o\n"),
    (DO, b"do 0 if T add del ^\n"),
    (DO, b"do 0 if T add del 0 ^\n"),
    (DO, b"do 0 if T add del 0^\r\n"),
    (DO, b"do 0 if T add del^#\n"),
    (DO, b"do 0 if T add del 0^# x\n"),
    (DO, b"do 0 if T add del 0^x\n"),
    (DO, b"do 0 if T add del 0 ^x\n"),
    (DO, b"do 0 if T add del ^T\n"),
    (DO, b"do 0 if T add del^\t0\n"),
    (DO, b"do 0 if T add del 0 ^del 1\n"),
    (DO, b"do 0 if T add del 0 ^ 1\n"),
    (SELECT, b"se^t if T goal T plan 0\n"),
    (SELECT, b"select^s if T goal T plan 0\n"),
    (SELECT, b"select ^T goal T plan 0\n"),
    (SELECT, b"select if B^ goal G1 plan 0\n"),
    (SELECT, b"select if T ^plan 0\n"),
    (SELECT, b"select if T g^aol T plan 0\n"),
    (SELECT, b"select if T goal^\n"),
    (SELECT, b"select if T goal ^plan 0\n"),
    (SELECT, b"select if T goal (G1^ plan 0\n"),
    (SELECT, b"select if T goal T^\n"),
    (SELECT, b"select if T goal T p^0\n"),
    (SELECT, b"select if T goal T plan ^T\n"),
    (SELECT, b"select if T goal T plan 0 ^\n"),
    (REVISE, b"revise^0 if T to\n"),
    (REVISE, b"revise ^ if T to\n"),
    (REVISE, b"revise ^T if T to\n"),
    (REVISE, b"revise 0^\n"),
    (REVISE, b"revise 0 ^\n"),
    (REVISE, b"revise 0 ^to 0\n"),
    (REVISE, b"revise 0 if !^ to\n"),
    (REVISE, b"revise 0 if T^\n"),
    (REVISE, b"revise 0 if T ^0\n"),
    (REVISE, b"revise 0 if T to^0\n"),
    (REVISE, b"revise 0 if T to 0 ^ 0\n"),
    (BEGIN, b"begin^\n"),
    (BEGIN, b"begin ^goals plan\n"),
    (BEGIN, b"begin beliefs^\n"),
    (BEGIN, b"begin beliefs 0^\n"),
    (BEGIN, b"begin beliefs 0 ^plan\n"),
    (BEGIN, b"begin beliefs 0 goals^\n"),
    (BEGIN, b"begin beliefs goals ^\n"),
    (BEGIN, b"begin beliefs goals plan ^\n"),
    (BEGIN, b"begin beliefs goals plan 0^;\n"),
)

MARKED_CONDITIONS = (
    b"^",
    b"^&T",
    b"^b0",
    b"^t",
    b"^0",
    b"^x",
    b"^~T",
    b"^)",
    b"B^",
    b"G^",
    b"B^x",
    b"B^T",
    b"B^ 0",
    b"B^-1",
    b"B^(0)",
    b"B1234567890123456789012345678901234567890^x",
    b"T ^&T",
    b"T&^ T",
    b"T^0",
    b"T^T",
    b"T^+T",
    b"T^^T",
    b"T^\xa6T",
    b"B0^B1",
    b"B0^,B1",
    b"T&^",
    b"T|^",
    b"T&^&T",
    b"T|^|T",
    b"T&^|T",
    b"T|^&T",
    b"!^",
    b"!^&T",
    b"!^)",
    b"T^!",
    b"T^!T",
    b"(^)",
    b"(^ T)",
    b"(T^ )",
    b"(T^",
    b"((T)^",
    b"(T&^)",
    b"T^(T)",
    b"T^)",
    b"(T)^T",
    b"(T)^(T)",
    b"(T)^)",
    b"T^#",
    b"T^\n",
    b"T^\r",
    b"(T^\n)",
    b"(" * 33 + b"T" + b")" * 33 + b"^)",
    b"(" * 40 + b"T" + b")" * 39 + b"^",
    b"!" * 40 + b"^)",
    b"(!" * 40 + b"T" + b")" * 40 + b"^T",
    b"(" * 300 + b"^&",
)

ENDINGS = (
    (ATOMS, b"a"),
    (ATOMS, b"atoms"),
    (ATOMS, b"atoms "),
    (ATOMS, b"atoms 2"),
    (ATOMS, b"atoms 2 "),
    (ATOMS, b"atoms 2 #"),
    (ATOMS, b"atoms 2 # x"),
    (ATOMS, b"atoms 2\n"),
    (ACTION, b"a"),
    (ACTION, b"action 1"),
    (ACTION, b"action 1\n"),
    (ACTION, b"#"),
    (ACTION, b"\n"),
    (DO, b"d"),
    (DO, b"do 0"),
    (DO, b"do 0 if "),
    (DO, b"do 0 if B"),
    (DO, b"do 0 if B0"),
    (DO, b"do 0 if !"),
    (DO, b"do 0 if (T"),
    (DO, b"do 0 if (T)"),
    (DO, b"do 0 if T&"),
    (DO, b"do 0 if " + b"(" * 100),
    (DO, b"do 0 if " + b"!" * 100),
    (DO, b"do 0 if T "),
    (DO, b"do 0 if T add"),
    (DO, b"do 0 if T add "),
    (DO, b"do 0 if T add 1"),
    (DO, b"do 0 if T add del"),
    (DO, b"do 0 if T add del "),
    (SELECT, b"select if T goal G"),
    (SELECT, b"select if T goal T plan"),
    (SELECT, LINES[SELECT]),
    (REVISE, b"revise"),
    (REVISE, b"revise 0 "),
    (REVISE, b"revise 0 if T t"),
    (REVISE, b"revise 0 if T to #"),
    (BEGIN, b"begin"),
    (BEGIN, b"begin beliefs"),
    (BEGIN, b"begin beliefs 0 "),
    (BEGIN, b"begin beliefs goals plan"),
    (BEGIN, b"begin beliefs goals plan 0 "),
    (BEGIN, b"begin beliefs goals plan #"),
)

SLIPS = (
    SLIPS_OF_ORDER
    + [slip("%s line %s" % (KIND_NAMES[kind], shown(line)), with_line(kind, line)) for kind, line in MARKED_LINES]
    + [slip("condition %s" % shown(word), with_condition(word)) for word in MARKED_CONDITIONS]
    + [slip("%s line ends with %s" % (KIND_NAMES[kind], shown(line)), up_to(kind, line)) for kind, line in ENDINGS]
)


# --- other numbers ----------------------------------------------------------


def numbered(number, name, text):
    """A text that is refused with another number than 17, or not at all (0)."""
    return ByHand("text %d: %s" % (number, name), text, number, 0)


def conditions(number, *words):
    """Texts with another condition."""
    return [numbered(number, "condition %s" % shown(word), with_condition(word)) for word in words]


def lines(number, kind, *some):
    """Texts with another line of a kind."""
    name = "%s line %%s" % KIND_NAMES[kind]
    return [numbered(number, name % shown(line), with_line(kind, line)) for line in some]


def in_brackets(deep, word):
    """So many brackets around a condition."""
    return b"(" * deep + word + b")" * deep


NESTED = conditions(
    18,
    in_brackets(33, b"T"),
    in_brackets(33, b"B0&B1"),
    b"!" * 33 + b"T",
    b"!" * 17 + in_brackets(16, b"T"),
    in_brackets(17, b"!" * 16 + b"B0"),
    b"!(" * 16 + b"!T" + b")" * 16,
    b"B0|" + in_brackets(33, b"T"),
    in_brackets(33, b"T") + b"&B0",
    b"!" * 33 + b"T|T",
    b"T&" + in_brackets(32, b"T&!T"),
    in_brackets(100, b"T"),
    b"!" * 300 + b"T",
) + [
    numbered(18, "a select line's goals", with_line(SELECT, b"select if T goal " + b"!" * 33 + b"G1 plan 0\n")),
    numbered(18, "a revise line", with_line(REVISE, b"revise 0 if " + in_brackets(33, b"T") + b" to\n")),
]

NOT_NESTED = conditions(
    0,
    in_brackets(32, b"T"),
    in_brackets(32, b"B0&B1"),
    b"!" * 32 + b"T",
    b"!" * 16 + in_brackets(16, b"T"),
    b"!(" * 16 + b"T" + b")" * 16,
    b"!T&" * 40 + b"T",
    b"(T)|" * 40 + b"!(B0)",
    b"B0|" + in_brackets(32, b"T") + b"&" + b"!" * 32 + b"T",
    b"T&" + in_brackets(31, b"T&!T") + b"&!!T",
)

TOO_LARGE = (
    lines(25, ATOMS, b"atoms 65536\n", b"atoms 65538\n", b"atoms 4294967298\n", b"atoms 18446744073709551618\n")
    + lines(25, ATOMS, b"atoms " + b"9" * 300 + b"\n", b"atoms 100000\n", b"atoms 00065536\n")
    + lines(25, ACTION, b"action 65536\n", b"action 65537\n", b"action 1\naction 4294967297\n")
    + lines(25, DO, b"do 256 if T add del\n", b"do 65536 if T add del\n", b"do 0256 if T add del\n")
    + lines(25, DO, b"do 0 if T add 128 del\n", b"do 0 if T add del 256\n", b"do 0 if T add 1 1 257 0 del\n")
    + lines(25, SELECT, b"select if T goal G1 plan 256\n", b"select if T goal G256 plan 0\n")
    + lines(25, REVISE, b"revise 256 if T to\n", b"revise 0 if T to 0 0 65536\n")
    + lines(25, BEGIN, b"begin beliefs 128 goals plan\n", b"begin beliefs goals 255 plan\n")
    + lines(25, BEGIN, b"begin beliefs goals plan 256\n")
    + conditions(25, b"B256", b"G256", b"T|!B4294967296", b"B" + b"1" * 300)
    + conditions(25, b"T|" * 126 + b"T", b"!!(" + b"T&" * 125 + b"T)", b"T|" * 140 + b"!T")
    + lines(25, ACTION, b"action 1\n" * 257)
)

# The other lines have four nodes, "T", "G1", "B1" and its "!": 252 in the do line make
# 256.
KEPT = (
    lines(0, ATOMS, b"atoms 128\n", b"atoms 0002\n", b"atoms " + b"0" * 300 + b"2\n")
    + lines(0, ACTION, b"action 1024\n", b"action 00001\n", b"action 1\n" * 256)
    + lines(0, DO, b"do 000 if T add 000 1 1 0 del 1 0 0 1\n", b"do 0 if B0000000000000 add del\n", b"")
    + lines(0, SELECT, b"", b"select if T goal T plan " + b"0 " * 1023 + b"0\n")
    + lines(0, REVISE, b"revise 0 if T to" + b" 0" * 1024 + b"\n", b"revise" + b" 0" * 1024 + b" if T to\n", b"")
    + lines(0, BEGIN, b"begin beliefs 1 0 1 goals 0 0 plan" + b" 0" * 1024 + b"\n")
    + conditions(0, b"!(" + b"T|" * 125 + b"T)", b"T&" * 125 + b"!T", b"T&" * 125 + b"T")
)

WRONG = (
    lines(3, ATOMS, b"atoms 0\n", b"atoms 129\n", b"atoms 65535\n", b"atoms 256\n")
    + lines(3, ACTION, b"")
    + [numbered(3, "no condition at all", b"".join((LINES[ATOMS], LINES[ACTION], LINES[BEGIN])))]
    + [numbered(3, "nothing but atoms and begin", LINES[ATOMS] + LINES[BEGIN])]
    + lines(5, ACTION, b"action 0\n", b"action 1025\n", b"action 65535\n", b"action 1\naction 0000\n")
    + conditions(6, b"B2", b"B255", b"T|!B127", b"G2", b"G255&B0")
    + lines(6, SELECT, b"select if T goal G2 plan 0\n", b"select if B2 goal T plan\n")
    + lines(7, DO, b"do 1 if T add del\n", b"do 255 if T add del\n")
    + conditions(7, b"G0", b"T|G1", b"!(B0&!G0)")
    + lines(7, SELECT, b"select if T goal B0 plan 0\n", b"select if G0 goal T plan 0\n", b"select if T goal T plan\n")
    + lines(7, REVISE, b"revise if T to 0\n", b"revise 0 if G0 to\n", b"revise" + b" 0" * 1025 + b" if T to\n")
    + lines(7, BEGIN, b"begin beliefs goals plan" + b" 0" * 1025 + b"\n")
    + lines(8, SELECT, b"select if T goal T plan 0 1\n", b"select if T goal T plan 255\n")
    + lines(8, REVISE, b"revise 0 1 if T to\n", b"revise 0 if T to 1\n")
    + lines(8, BEGIN, b"begin beliefs 2 goals 2 plan 1\n")
    + lines(9, DO, b"do 0 if T add 2 del\n", b"do 0 if T add del 127\n", b"do 0 if T add 0 0 127 del\n")
    + lines(9, BEGIN, b"begin beliefs 2 goals plan\n", b"begin beliefs goals 0 1 2 plan\n")
)

NUMBERED = NESTED + NOT_NESTED + TOO_LARGE + KEPT + WRONG


# --- one card in many spellings ---------------------------------------------

SPELLINGS = (
    b"\n\n" + WHOLE,
    b"# x\n" + WHOLE + b"#\n",
    WHOLE + b"\n\n\n# the end\n\n",
    b"#\n#\r\n#\0\xff\n##\n# #\n" + WHOLE,
    WHOLE.replace(b"\n", b" #\n"),
    WHOLE.replace(b"\n", b" # atoms 4\r\n"),
    WHOLE.replace(b"\n", b" ##\n\n"),
    WHOLE.replace(b"\n", b"\n# do 0 if G0 add del\n"),
    WHOLE.replace(b"\n", b" #^ \n"),
    WHOLE.replace(b"0", b"000").replace(b"1", b"01").replace(b"2", b"0000000002"),
    with_condition(b"(B0)"),
    with_condition(b"((B0))"),
    with_line(DO, b"do 0 if B0 add 1 1 1 del 0 00 0\n"),
    with_line(SELECT, b"select if (T) goal ((G1)) plan 0\n"),
    with_line(REVISE, b"revise 0 if !(B1) to\n"),
    with_line(REVISE, b"revise 0 if (!B1) to #\n"),
    with_line(BEGIN, b"begin beliefs 0 0 goals 1 01 plan # 1 2 3\n"),
)


# --- conditions as they are printed -----------------------------------------

A, B, C, D = (BELIEVES, 0), (BELIEVES, 12), (HAS_GOAL, 127), (TRUE,)

# A condition as a tree, and its text.
PRINTED = (
    (A, b"B0"),
    (B, b"B12"),
    (C, b"G127"),
    (D, b"T"),
    ((NOT, A), b"!B0"),
    ((NOT, (NOT, A)), b"!!B0"),
    ((NOT, (NOT, (NOT, D))), b"!!!T"),
    ((AND, A, B), b"B0&B12"),
    ((OR, A, B), b"B0|B12"),
    ((AND, (AND, A, B), C), b"B0&B12&G127"),
    ((AND, A, (AND, B, C)), b"B0&(B12&G127)"),
    ((OR, (OR, A, B), C), b"B0|B12|G127"),
    ((OR, A, (OR, B, C)), b"B0|(B12|G127)"),
    ((OR, (AND, A, B), C), b"B0&B12|G127"),
    ((OR, A, (AND, B, C)), b"B0|B12&G127"),
    ((AND, (OR, A, B), C), b"(B0|B12)&G127"),
    ((AND, A, (OR, B, C)), b"B0&(B12|G127)"),
    ((AND, (OR, A, B), (OR, C, D)), b"(B0|B12)&(G127|T)"),
    ((AND, (AND, A, B), (AND, C, D)), b"B0&B12&(G127&T)"),
    ((OR, (AND, A, B), (AND, C, D)), b"B0&B12|G127&T"),
    ((OR, (OR, A, B), (OR, C, D)), b"B0|B12|(G127|T)"),
    ((NOT, (AND, A, B)), b"!(B0&B12)"),
    ((NOT, (OR, A, B)), b"!(B0|B12)"),
    ((AND, (NOT, A), (NOT, B)), b"!B0&!B12"),
    ((OR, (NOT, A), (NOT, B)), b"!B0|!B12"),
    ((AND, (NOT, (AND, A, B)), C), b"!(B0&B12)&G127"),
    ((NOT, (NOT, (OR, A, (NOT, B)))), b"!!(B0|!B12)"),
    ((NOT, (AND, (OR, A, B), (NOT, (OR, C, D)))), b"!((B0|B12)&!(G127|T))"),
    ((OR, A, (OR, B, (OR, C, D))), b"B0|(B12|(G127|T))"),
    ((AND, A, (AND, B, (AND, C, D))), b"B0&(B12&(G127&T))"),
    ((OR, (OR, A, (AND, B, C)), (AND, (OR, D, A), B)), b"B0|B12&G127|(T|B0)&B12"),
)


def tree_nodes(tree, nodes):
    """Puts a tree's nodes after the others; the number of its own."""
    kind, parts = tree[0], tree[1:]
    if kind in (NOT, AND, OR):
        parts = [tree_nodes(part, nodes) for part in parts]
    nodes.append(Node(kind, *parts))
    return len(nodes) - 1
