"""Sheets of request 8: laid out, by hand, and with each clause of 20 broken.

A damage makes the bytes of a sheet from its names; the number beside it is that of request
8, 0 where a limit is just kept.
"""

import struct
from typing import NamedTuple

import cards
from cards import TRUE, Node
from closed import STRIPE
from damage import Damage

# --- sheets laid out --------------------------------------------------------


def offsets_for(names):
    """The n + 1 offsets of some names: the first 2n + 4, the last the sheet's length."""
    found = [2 * len(names) + 4]
    for name in names:
        found.append(found[-1] + len(name))
    return found


def sheet(names, count=None, offsets=None):
    """A sheet: "a count n, n + 1 offsets ..., then the names". Count and offsets may be
    others than those of the names."""
    offsets = offsets_for(names) if offsets is None else offsets
    count = len(names) if count is None else count
    return struct.pack("<%dH" % (1 + len(offsets)), count, *offsets) + b"".join(names)


def actions_card(actions, edition=1):
    """A small card of so many actions."""
    weights = [1] * actions
    return cards.card(cards.Description(layout=edition, atoms=1, weights=weights, nodes=[Node(TRUE)]))


# --- names by hand ----------------------------------------------------------

# The stripe card's moves in English, and in Swedish with two names missing.
ENGLISH = [b"weave", b"wind", b"repair", b"pick", b"stripe"]
SWEDISH = [word.encode("utf-8") for word in ("v\u00e4v", "spola", "", "inslag", "")]

# The sheets by hand, in bytes: 5 names, the offsets, the names.
MASTER_BYTES = (
    bytes.fromhex("0500 0E00 1300 1700 1D00 2100 2700") + b"weavewindrepairpickstripe"
)
SHED_BYTES = (
    bytes.fromhex("0500 0E00 1200 1700 1700 1D00 1D00") + b"v\xc3\xa4vspolainslag"
)
NO_NAMES = bytes.fromhex("0500 0E00 0E00 0E00 0E00 0E00 0E00")


class Named(NamedTuple):
    """A name asked for: the card, the shed's sheet, the master's, the action; and the
    number, the sheet, the start and the length."""

    card: bytes
    shed: bytes
    master: bytes
    action: int
    number: int
    sheet: int
    start: int
    length: int


# For each action: "the part of the shed's sheet that holds its name, or the part of the
# master sheet where the shed's name is empty".
BY_HAND = [
    Named(STRIPE, SHED_BYTES, MASTER_BYTES, action, 0, *expected)
    for action, expected in enumerate(((1, 14, 4), (1, 18, 5), (0, 23, 6), (1, 23, 6), (0, 33, 6)))
]
BY_HAND += [
    Named(STRIPE, shed, MASTER_BYTES, action, 0, 0, *expected)
    for shed in (b"", NO_NAMES)
    for action, expected in enumerate(((14, 5), (19, 4), (23, 6), (29, 4), (33, 6)))
]
BY_HAND += [
    Named(STRIPE, shed, MASTER_BYTES, action, 21, 0, 0, 0)
    for shed in (b"", NO_NAMES, SHED_BYTES)
    for action in (5, 6, 255, 256, 261, 65535)
]

# A master sheet has to be there, and has to have all names; a sheet of no names is none
# of a card's.
BY_HAND += [
    Named(STRIPE, SHED_BYTES, b"", 0, 20, 0, 0, 0),
    Named(STRIPE, b"", b"", 0, 20, 0, 0, 0),
    Named(STRIPE, b"", b"", 5, 20, 0, 0, 0),
    Named(STRIPE, SHED_BYTES, NO_NAMES, 0, 20, 0, 0, 0),
    Named(STRIPE, b"", SHED_BYTES, 0, 20, 0, 0, 0),
    Named(STRIPE, SHED_BYTES, SHED_BYTES, 0, 20, 0, 0, 0),
    Named(STRIPE, MASTER_BYTES, MASTER_BYTES, 4, 0, 1, 33, 6),
    Named(STRIPE, bytes.fromhex("0000 0400"), MASTER_BYTES, 0, 20, 1, 0, 0),
    Named(STRIPE, MASTER_BYTES, bytes.fromhex("0000 0400"), 0, 20, 0, 0, 0),
    Named(STRIPE, bytes.fromhex("0000 0400"), b"", 0, 20, 1, 0, 0),
]


# --- names that are UTF-8, and names that are not ---------------------------

# The first and the last character of each form, and around surrogates; 00, a byte order
# mark and noncharacters are characters.
CHARACTERS = (
    (0x0000, "00"),
    (0x0041, "41"),
    (0x007F, "7F"),
    (0x0080, "C2 80"),
    (0x00E4, "C3 A4"),
    (0x07FF, "DF BF"),
    (0x0800, "E0 A0 80"),
    (0x0FFF, "E0 BF BF"),
    (0x1000, "E1 80 80"),
    (0x20AC, "E2 82 AC"),
    (0xCFFF, "EC BF BF"),
    (0xD000, "ED 80 80"),
    (0xD7FF, "ED 9F BF"),
    (0xE000, "EE 80 80"),
    (0xFDD0, "EF B7 90"),
    (0xFEFF, "EF BB BF"),
    (0xFFFE, "EF BF BE"),
    (0xFFFF, "EF BF BF"),
    (0x10000, "F0 90 80 80"),
    (0x1FFFE, "F0 9F BF BE"),
    (0x3FFFF, "F0 BF BF BF"),
    (0x40000, "F1 80 80 80"),
    (0xFFFFF, "F3 BF BF BF"),
    (0x100000, "F4 80 80 80"),
    (0x10FFFF, "F4 8F BF BF"),
)

NO_CHARACTERS = (
    ("lone tail", "80"),
    ("lone tail", "BF"),
    ("lone tails", "80 80"),
    ("tail behind a letter", "41 80"),
    ("one tail too many, two bytes", "C3 A4 80"),
    ("one tail too many, three bytes", "E2 82 AC BF"),
    ("one tail too many, four bytes", "F0 90 80 80 80"),
    ("C0", "C0"),
    ("C1", "C1"),
    ("overlong, two bytes, 00", "C0 80"),
    ("overlong, two bytes, 2F", "C0 AF"),
    ("overlong, two bytes, 7F", "C1 BF"),
    ("missing tail, two bytes", "C2"),
    ("missing tail, two bytes", "DF"),
    ("missing tail before a letter, two bytes", "C3 41"),
    ("wrong tail, two bytes, 7F", "C2 7F"),
    ("wrong tail, two bytes, C0", "C2 C0"),
    ("wrong tail, two bytes, FF", "DF FF"),
    ("missing tails, three bytes", "E0"),
    ("missing tail, three bytes", "E0 A0"),
    ("missing tail, three bytes", "E2 82"),
    ("missing tail, three bytes", "EF BF"),
    ("missing tail before a letter, three bytes", "E2 82 41"),
    ("wrong tail, three bytes, second", "E1 7F 80"),
    ("wrong tail, three bytes, second", "E1 C0 80"),
    ("wrong tail, three bytes, third", "E1 80 7F"),
    ("wrong tail, three bytes, third", "EF BF C0"),
    ("overlong, three bytes, 0000", "E0 80 80"),
    ("overlong, three bytes, 07FF", "E0 9F BF"),
    ("surrogate D800", "ED A0 80"),
    ("surrogate DBFF", "ED AF BF"),
    ("surrogate DC00", "ED B0 80"),
    ("surrogate DFFF", "ED BF BF"),
    ("two surrogates for one character", "ED A0 80 ED B0 80"),
    ("missing tails, four bytes", "F0"),
    ("missing tails, four bytes", "F0 90"),
    ("missing tail, four bytes", "F0 90 80"),
    ("missing tail, four bytes", "F4 8F BF"),
    ("missing tail before a letter, four bytes", "F1 80 80 41"),
    ("wrong tail, four bytes, second", "F1 7F 80 80"),
    ("wrong tail, four bytes, second", "F3 C0 80 80"),
    ("wrong tail, four bytes, third", "F1 80 7F 80"),
    ("wrong tail, four bytes, third", "F1 80 C0 80"),
    ("wrong tail, four bytes, fourth", "F1 80 80 7F"),
    ("wrong tail, four bytes, fourth", "F1 80 80 C0"),
    ("overlong, four bytes, 0000", "F0 80 80 80"),
    ("overlong, four bytes, FFFF", "F0 8F BF BF"),
    ("over 10FFFF, 110000", "F4 90 80 80"),
    ("over 10FFFF", "F4 BF BF BF"),
    ("F5", "F5 80 80 80"),
    ("F6", "F6 80 80 80"),
    ("F7", "F7 BF BF BF"),
    ("F8, five bytes", "F8 88 80 80 80"),
    ("FB", "FB BF BF BF BF"),
    ("FC, six bytes", "FC 84 80 80 80 80"),
    ("FD", "FD BF BF BF BF BF"),
    ("FE", "FE"),
    ("FF", "FF"),
    ("another byte order mark", "FF FE"),
    ("another byte order mark", "FE FF"),
)


# --- 20 a sheet, but for UTF-8 ----------------------------------------------


def other_names(change):
    """A sheet of other names."""
    return lambda random, names: sheet(change(list(names)))


def other_count(value):
    """A sheet whose count alone is another."""
    return lambda random, names: sheet(names, count=value(len(names)) % 65536)


def other_offset(at, value):
    """A sheet one of whose offsets is another; the value is made from the right one."""

    def change(random, names):
        offsets = offsets_for(names)
        offsets[at] = value(offsets[at]) % 65536
        return sheet(names, offsets=offsets)

    return change


def fallen(random, names):
    """Two offsets that follow one another turned, so that they fall. The first and the
    last stay as they are, where there are others; there is a name between the two."""
    offsets = offsets_for(names)
    at = random.randrange(1, len(offsets) - 2) if len(offsets) > 3 else 0
    offsets[at], offsets[at + 1] = offsets[at + 1], offsets[at]
    return sheet(names, offsets=offsets)


def low_offset(random, names):
    """An offset between the first and the last that lies in the header."""
    offsets = offsets_for(names)
    offsets[len(offsets) // 2] = random.choice((0, 2, offsets[0] - 1))
    return sheet(names, offsets=offsets)


def past_the_end(random, names):
    """An offset between the first and the last that lies past the sheet's end."""
    offsets = offsets_for(names)
    offsets[len(offsets) // 2] = random.choice((offsets[-1] + 1, 65535))
    return sheet(names, offsets=offsets)


def cut_character(random, names):
    """A character of several bytes whose tail belongs to the next name."""
    if len(names) < 2:
        return None
    offsets = offsets_for([b"\xc3\xa4"] + list(names[1:]))
    offsets[1] -= 1
    return sheet([b"\xc3\xa4"] + list(names[1:]), offsets=offsets)


def header_alone(random, names):
    """The count and the offsets, and no names."""
    return sheet(names)[:2 * len(names) + 4]


SHEET_DAMAGES = [
    Damage("sheet: 1 byte", 20, lambda random, names: sheet(names)[:1]),
    Damage("sheet: the count alone", 20, lambda random, names: sheet(names)[:2]),
    Damage("sheet: count and first offset", 20, lambda random, names: sheet(names)[:4]),
    Damage("sheet: 00 00 04 00", 20, lambda random, names: bytes([0, 0, 4, 0])),
    Damage("sheet: one name less", 20, other_names(lambda names: names[:-1])),
    Damage("sheet: one name more", 20, other_names(lambda names: names + [b"x"])),
    Damage("sheet: one empty name more", 20, other_names(lambda names: names + [b""])),
    Damage("sheet: 256 names more", 20, other_names(lambda names: names + [b"x"] * 256)),
    Damage("sheet: count one less", 20, other_count(lambda count: count - 1)),
    Damage("sheet: count one more", 20, other_count(lambda count: count + 1)),
    Damage("sheet: count 256 more", 20, other_count(lambda count: count + 256)),
    Damage("sheet: count 0", 20, other_count(lambda count: 0)),
    Damage("sheet: count 65,535", 20, other_count(lambda count: 65535)),
    Damage("sheet: first offset one less", 20, other_offset(0, lambda right: right - 1)),
    Damage("sheet: first offset one more", 20, other_offset(0, lambda right: right + 1)),
    Damage("sheet: first offset two less", 20, other_offset(0, lambda right: right - 2)),
    Damage("sheet: first offset 0", 20, other_offset(0, lambda right: 0)),
    Damage("sheet: first offset 65,535", 20, other_offset(0, lambda right: 65535)),
    Damage("sheet: last offset one less", 20, other_offset(-1, lambda right: right - 1)),
    Damage("sheet: last offset one more", 20, other_offset(-1, lambda right: right + 1)),
    Damage("sheet: last offset 256 more", 20, other_offset(-1, lambda right: right + 256)),
    Damage("sheet: last offset 0", 20, other_offset(-1, lambda right: 0)),
    Damage("sheet: last offset 65,535", 20, other_offset(-1, lambda right: 65535)),
    Damage("sheet: offsets fall", 20, fallen),
    Damage("sheet: an offset in the header", 20, low_offset),
    Damage("sheet: an offset past the end", 20, past_the_end),
    Damage("sheet: one byte less", 20, lambda random, names: sheet(names)[:-1]),
    Damage("sheet: one byte more", 20, lambda random, names: sheet(names) + b"x"),
    Damage("sheet: many bytes more", 20, lambda random, names: sheet(names) + b"x" * 300),
    Damage("sheet: the header alone", 20, header_alone),
    Damage("sheet: a character cut by an offset", 20, cut_character),
]


def with_name(name):
    """A sheet one of whose names is another."""

    def change(random, names):
        names = list(names)
        names[random.choice((0, len(names) - 1, random.randrange(len(names))))] = name
        return sheet(names)

    return change


NAME_DAMAGES = [
    Damage("sheet: name, %s (%s)" % (what, word), 20, with_name(bytes.fromhex(word)))
    for what, word in NO_CHARACTERS
]

# Of the master's alone: "no master name is empty".
MASTER_DAMAGES = [
    Damage("sheet: no bytes", 20, lambda random, names: b""),
    Damage("sheet: an empty name", 20, with_name(b"")),
    Damage("sheet: first name empty", 20, other_names(lambda names: [b""] + names[1:])),
    Damage("sheet: last name empty", 20, other_names(lambda names: names[:-1] + [b""])),
    Damage("sheet: all names empty", 20, other_names(lambda names: [b""] * len(names))),
]

# Of the shed's alone: no sheet, and names that are empty.
SHED_RANGES = [damage._replace(number=0) for damage in MASTER_DAMAGES]

NAME_RANGES = [
    Damage("sheet range: U+%04X" % point, 0, with_name(bytes.fromhex(word)))
    for point, word in CHARACTERS
]

# Every clause, for the shed's sheet and for the master's.
CLAUSES = {
    1: SHEET_DAMAGES + NAME_DAMAGES,
    0: SHEET_DAMAGES + NAME_DAMAGES + MASTER_DAMAGES,
}
