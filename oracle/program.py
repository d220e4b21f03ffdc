"""The program of document 01's section "The stripe card".

"A program reads a card on standard input", loads it and "runs with budget 1,000". "An
edition 2 card is at most 32,352 bytes and the program reads one byte more."
"""

import sys

import guide

INPUT_LIMIT = 32353
BUDGET = 1000
KIND_NAMES = ("select", "act", "revise")
VERDICT_NAMES = ("bounded", "open")
ENDING_NAMES = ("spent", "rest", "full")


def step_line(card, count, kind, n, configuration):
    """ "Step lines: count, kind, number, plan length after, plan weight after." """
    weight = guide.weigh(card, configuration.plan[:configuration.length])
    return "%d %s %d %d %d" % (count, KIND_NAMES[kind], n, configuration.length, weight)


def step_lines(card, configuration):
    """One line for each transition of the run with budget 1,000, by the guide's
    own order."""
    found = []
    while len(found) < BUDGET:
        choice = guide.guides_choice(card, configuration)
        moved = None if choice is None else guide.after(card, configuration, *choice)
        if moved is None:
            break
        configuration = moved
        found.append(step_line(card, len(found) + 1, *choice, configuration))
    return found


def lines(card):
    """The lines printed for a card: "first line: bytes, verdict"; the step
    lines; "last: ending (rest, spent, full), count. A refused card prints only
    refused and its number"."""
    refusal, accepted = guide.judge(card)
    if refusal != guide.DONE:
        return ["refused %d" % refusal]
    verdict = guide.grade(card)[1]
    _, start = guide.load(card)
    _, _, count, ending = guide.run(card, start, BUDGET)
    first = "card %d %s" % (len(card), VERDICT_NAMES[verdict])
    last = "%s %d" % (ENDING_NAMES[ending], count)
    return [first] + step_lines(accepted, start) + [last]


def main():
    """Reads a card on standard input and prints its lines."""
    card = sys.stdin.buffer.read(INPUT_LIMIT)
    sys.stdout.write("".join(line + "\n" for line in lines(card)))


if __name__ == "__main__":
    main()
