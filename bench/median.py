#!/usr/bin/env python3
"""The medians of several runs of bench/run.sh, as the tables of docs/MEASURED.md.

    for k in 1 2 3 4 5 6 7; do bench/run.sh; done | python3 bench/median.py

How often to run is decided before: every run that was begun counts. Beside the median of a ratio stand the least and the greatest.
"""

import re
import statistics
import sys

LINE = re.compile(
    r"(check|load|grade|list|take|run of 1000|run of 1|deliberate|save|restore|nodes|rules|plan)\s+(\S.*?)\s+([\d.]+)\s+([\d.]+)\s+([\d.]+)$"
)
ROWS = (("a move in a run of 1,000", "run of 1000"), ("`check`", "check"), ("`list`", "list"), ("`take`", "take"),
        ("`run` of one move", "run of 1"), ("`deliberate`, one plan", "deliberate"), ("`save`", "save"), ("`restore`", "restore"),
        ("`load`", "load"), ("`grade`", "grade"))
CARDS = (("stripe, made endless", "stripe, endless"), ("maximal, typical", "maximal, typical"),
         ("maximal, worst: revisions", "maximal, worst: revisions"),
         ("maximal, worst: actions and revisions", "maximal, worst: acts, revisions"),
         ("the typical one in edition 2", "maximal, typical, edition 2"))
GROWTH = (("nodes", "nodes", ("16", "64", "256")), ("rules of each kind", "rules", ("16", "64", "256")),
          ("actions in the plan", "plan", ("50", "500", "950")))


def told(number):
    """Nanoseconds: a tenth below 1,000."""
    return "%.1f" % number if number < 1000 else "{:,.0f}".format(number)


def main():
    found = {}
    for line in sys.stdin:
        match = LINE.match(line)
        if match:
            found.setdefault((match[1], match[2]), []).append([float(word) for word in match.groups()[2:]])
    print("| | card | ours | engine | ratio | from … to |\n|---|---|---|---|---|---|")
    for name, call in ROWS:
        for title, card in CARDS:
            if (call, card) not in found and call == "deliberate":
                continue  # it is of one plan, and is made on two of the cards
            ours, engine, ratios = zip(*found[call, card])
            print("| %s | %s | %s | %s | %.2f | %.2f … %.2f |" % (name, title, told(statistics.median(ours)),
                  told(statistics.median(engine)), statistics.median(ratios), min(ratios), max(ratios)))
            name = ""
    print()
    for title, what, sizes in GROWTH:
        print("| %s | %s |" % (title, " | ".join(told(statistics.median(x[0] for x in found[what, size])) for size in sizes)))
    print("\n%d runs" % len(found["check", "stripe, endless"]))


if __name__ == "__main__":
    main()
