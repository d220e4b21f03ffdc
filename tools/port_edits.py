#!/usr/bin/env python3
"""Brings the must-fail edits to today's spelling, once, after port.py and port_names.py, as far as it goes by text: paths, clauses,
projections, names. What it leaves is brought over by hand.

usage: python3 tools/port_edits.py        at the top of the repository
"""

import re
from pathlib import Path

CRATES = Path(__file__).resolve().parent.parent / "crates"

# Each pattern of the older spelling, and today's.
SPELLINGS = [
    (r"Rattle·(\w+)·(specs|proofs)\.\2\.", r"Rattle.\1.\2."),
    (r"Rattle·(\w+)\.", r"Rattle.\1."),
    (r"\bthe-variants\b", "TheVariants"),
    (r"′", "'"),
    (r"⌜ (.*?) ⌝", r"\1"),
    (r"\bnow \((\w+) \.entry\)", r"\1.old"),
    (r"\bnow \((\w+) \.exit\)", r"\1.new"),
    (r"\(now (\w+)\)", r"\1.now"),
    (r"\bnow (\w+)\b", r"\1.now"),
    (r"\bgetD\b", "get_or"),
    (r"\bList·(\w+)", r"\1"),
    (r"(?<= |\{)_([^\s_\w]+)_(?=[,} ])", r"◌\1◌"),
]


def known():
    """Every name that stands in the crates."""
    names = set()
    for pattern in ("*/specs/*.antt", "*/proofs/*.antt", "*/src/**/*.rt"):
        for path in CRATES.glob(pattern):
            names |= set(re.findall(r"[\w'₀-₉-]+", path.read_text("utf-8")))
    return names


NAMES = known()


def snake(name):
    """The name in snake case, where it stands so in the crates and not as it is."""
    made = re.sub(r"(?<=[a-z0-9])([A-Z])", lambda m: "_" + m.group(1).lower(), name).replace("-", "_")
    return made if made in NAMES and name not in NAMES else name


def tight(line):
    """A projection is written tight: `(s .a) .b` and `s .a .b` are `s.a.b`; behind a call the call is put in brackets by hand."""
    before = None
    while before != line:
        before = line
        line = re.sub(r"([\w'\])]) \.([\w'-]+)", r"\1.\2", line)
        line = re.sub(r"(?<= |\()\(([^\s()]+)\)", r"\1", line)
    return line


def respelled(line):
    for old, new in SPELLINGS:
        line = re.sub(old, new, line)
    return tight(re.sub(r"(?<![\w'-])[a-z][\w'-]*[A-Z-][\w'-]*", lambda m: snake(m.group(0)), line))


def main():
    left = []
    for path in sorted(CRATES.glob("*/must-fail/*.edit")):
        made, target = [], None
        for line in path.read_text("utf-8").split("\n"):
            if line.startswith("file:"):
                target = path.parent.parent / line[5:].strip()
            elif line.startswith(("old:", "new:")):
                text = target.read_text("utf-8")
                if text.count(line[4:].strip()) != 1:
                    line = line[:4] + respelled(line[4:])
                if line.startswith("old:") and text.count(line[4:].strip()) != 1:
                    left.append(f"{path.relative_to(CRATES)}: {line}")
            made.append(line)
        path.write_text("\n".join(made), "utf-8")
    print("\n".join(left))
    print(f"{len(left)} left by hand")


if __name__ == "__main__":
    main()
