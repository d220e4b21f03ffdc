"""Request 8 of document 02, "move names in two languages": the part of a sheet that holds
the name of an action.

What is UTF-8 is judged by Python's own strict decoder.
"""

import guide

# "20 a sheet breaking these rules, the shed's before the master; then 21 unknown action."
SHEET = 20
UNKNOWN_ACTION = 21

# Which sheet a part lies in, or which is refused, by the drill's codes.
MASTERS, SHEDS = 0, 1


def is_utf8(name):
    """ "Each in UTF-8 as RFC 3629 defines it." """
    try:
        name.decode("utf-8", "strict")
    except UnicodeDecodeError:
        return False
    return True


def offsets_of(sheet, count):
    """The "n + 1 offsets", "two bytes each", behind the count."""
    return [guide.number(sheet, 2 + 2 * k) for k in range(count + 1)]


def sheet_is_wrong(sheet, actions):
    """Whether a sheet breaks the rules of both: "a count n, n + 1 offsets that never fall
    (two bytes each, the first 2n + 4, the last the sheet's length), then the names, each
    in UTF-8"; the count "must equal the card's"."""
    if len(sheet) < 2 or guide.number(sheet, 0) != actions:
        return True
    names = 2 * actions + 4
    if len(sheet) < names:
        return True
    offsets = offsets_of(sheet, actions)
    if offsets[0] != names or offsets[-1] != len(sheet):
        return True
    parts = list(zip(offsets, offsets[1:]))
    if any(end < start for start, end in parts):
        return True
    return not all(is_utf8(sheet[start:end]) for start, end in parts)


def part(sheet, action):
    """Start and length of the part of a sheet that holds an action's name."""
    start, end = guide.number(sheet, 2 + 2 * action), guide.number(sheet, 4 + 2 * action)
    return start, end - start


def shed_is_wrong(shed, actions):
    """The shed "may have one in its own language (an empty part: none)"."""
    return shed != b"" and sheet_is_wrong(shed, actions)


def master_is_wrong(master, actions):
    """The master sheet: "no master name is empty"."""
    if sheet_is_wrong(master, actions):
        return True
    return any(part(master, action)[1] == 0 for action in range(actions))


def name(card, shed, master, action):
    """Asked for an action, "the part of the shed's sheet that holds its name, or the part
    of the master sheet where the shed's name is empty". Answers number, sheet, start and
    length; "refusals, with an empty part of the master"; with 20 the sheet is the one that
    is refused."""
    refusal, accepted = guide.judge(card)
    if refusal != guide.DONE:
        return refusal, MASTERS, 0, 0
    if shed_is_wrong(shed, accepted.actions):
        return SHEET, SHEDS, 0, 0
    if master_is_wrong(master, accepted.actions):
        return SHEET, MASTERS, 0, 0
    if action >= accepted.actions:
        return UNKNOWN_ACTION, MASTERS, 0, 0
    if shed != b"":
        start, length = part(shed, action)
        if length != 0:
            return guide.DONE, SHEDS, start, length
    return (guide.DONE, MASTERS, *part(master, action))
