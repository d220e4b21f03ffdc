"""Sheets of request 8 by seed: names of any characters, bytes that are no characters,
clauses of 20 broken, and bytes of a sheet damaged anywhere.
"""

import sheets

# Around these bytes a form of UTF-8 begins or ends.
EDGES = bytes.fromhex(
    "00 41 7F 80 8F 90 9F A0 BF C0 C1 C2 DF E0 E1 EC ED EE EF F0 F1 F3 F4 F5 F7 F8 FB FC FE FF"
)

# The first and the last code point of each form, less the surrogates.
FORMS = ((0x00, 0x7F), (0x80, 0x7FF), (0x800, 0xD7FF), (0xE000, 0xFFFF), (0x10000, 0x10FFFF))


def some_character(random):
    """A character: of any form, now and then one by hand."""
    if random.random() < 0.3:
        return bytes.fromhex(random.choice(sheets.CHARACTERS)[1])
    return chr(random.randint(*random.choice(FORMS))).encode("utf-8")


def some_name(random):
    """A name that is not empty: mostly a few characters, seldom many."""
    if random.random() < 0.3:
        return bytes(random.choices(b"abcdefghij klmnop", k=random.randint(1, 8)))
    count = random.choice((1, 1, 2, 2, 3, 5, 8)) if random.random() < 0.99 else 120
    return b"".join(some_character(random) for _ in range(count))


def some_names(random, count, empty):
    """So many names, a share of them empty."""
    return [b"" if random.random() < empty else some_name(random) for _ in range(count)]


def edged_name(random):
    """Bytes around which forms of UTF-8 end, in any order: mostly no UTF-8."""
    return bytes(random.choices(EDGES, k=random.randint(1, 5)))


def nearly(random, name):
    """A name with a byte changed, taken out, or put in."""
    at = random.randrange(len(name) + 1)
    style = random.randrange(3)
    put = b"" if style == 0 else bytes([random.choice(EDGES)])
    return name[:at] + put + name[at + (style != 2):]


def damaged_anywhere(random, held):
    """The bytes of a sheet with one changed, one more, one less, or cut."""
    at, style = random.randrange(len(held)), random.randrange(5)
    if style == 0:
        return held[:at] + bytes([random.choice(EDGES)]) + held[at:]
    if style == 1:
        return held[:at] + held[at + 1:]
    if style == 2:
        return held[:at]
    byte = random.choice((held[at] ^ 1 << random.randrange(8), random.choice(EDGES)))
    return held[:at] + bytes([byte]) + held[at + 1:]


def wrong_name(random, names):
    """A sheet one of whose names is mostly no UTF-8."""
    names, at = list(names), random.randrange(len(names))
    made = edged_name(random) if random.random() < 0.5 else nearly(random, names[at])
    names[at] = made
    return sheets.sheet(names)


def some_sheet(random, count, which):
    """A sheet of so many names, good in two of three, for the shed (1) or the master (0):
    the shed's may have empty names."""
    empty = random.choice((0, 0.3, 0.3, 1)) if which else 0
    names, style = some_names(random, count, empty), random.random()
    if style < 0.68:
        return sheets.sheet(names)
    if style < 0.8:
        return wrong_name(random, names)
    if style < 0.88:
        return damaged_anywhere(random, sheets.sheet(names))
    made = random.choice(sheets.CLAUSES[which]).change(random, names)
    return sheets.sheet(names) if made is None else made


def sheet_within(random, count, which, largest):
    """A sheet of at most `largest` bytes, of those tried; none, if there is none."""
    for _ in range(8):
        held = some_sheet(random, count, which)
        if len(held) <= largest:
            return held
    return b""


def some_shed(random, count, largest):
    """A shed's sheet; for one in five there is none."""
    return b"" if random.random() < 0.2 else sheet_within(random, count, 1, largest)


def filled_up(random, count, length):
    """A good sheet of just so many bytes: the last name is as long as it takes."""
    names = some_names(random, count - 1, 0)
    room = length - 2 * count - 4 - sum(map(len, names))
    return sheets.sheet(names + [b"w" * room])


def some_action(random, count):
    """An action, mostly one that the card has."""
    if random.random() < 0.85:
        return random.choice((0, count - 1, random.randrange(count)))
    return random.choice((count, count + 1, 255, 256, 256 + count, 32768, 65535))
