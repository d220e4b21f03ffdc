#!/usr/bin/env python3
"""Brings the names between backticks in README.md and docs/, and those in comments of the crates, to today's spelling, once, after port_names.py.

usage: python3 tools/port_pages.py        at the top of the repository

A name is changed where it no longer stands in the crates and its snake case does. What it leaves is told by tests/promises.py.
"""

import re
from pathlib import Path

TOP = Path(__file__).resolve().parent.parent
PAGES = ["README.md", "CONTRIBUTING.md", *(str(p.relative_to(TOP)) for p in sorted((TOP / "docs").glob("*.md")) if p.name != "PORT.md")]


def known():
    names = set()
    for pattern in ("crates/*/specs/*.antt", "crates/*/proofs/**/*.antt", "crates/*/src/**/*.rt"):
        for path in TOP.glob(pattern):
            text = re.sub(r"(?m)^\s*(?:--|//).*$", "", path.read_text("utf-8"))
            names |= set(re.findall(r"[\w'₀-₉◌∈∪∖⊨≡≢≤⟨⟩/-]+", text))
    return names


NAMES = known()
RESPELLED = dict(line.split() for line in (TOP / "tools/port_names.txt").read_text("utf-8").splitlines())


def today(name):
    if name in NAMES or not re.fullmatch(r"[A-Za-z][\w'-]*", name):
        return name
    made = re.sub(r"(?<=[a-z0-9])([A-Z])", lambda m: "_" + m.group(1).lower(), name).replace("-", "_") if not name[0].isupper() else name.replace("-", "_")
    for word in (RESPELLED.get(name), made, made + "_lem"):
        if word in NAMES:
            return word
    return name


def main():
    for page in PAGES:
        path = TOP / page
        text = path.read_text("utf-8")
        made = re.sub(r"`([^`\n]+)`", lambda m: "`" + re.sub(r"[A-Za-z][\w'-]*", lambda n: today(n.group(0)), m.group(1).replace("′", "'")) + "`" if "/" not in m.group(1) else m.group(0), text)
        made = re.sub(r"`_([^\s\w`]+)_`", r"`◌\1◌`", made)
        made = made.replace("demands/specs/Contracts.antt", "demands/specs/CallContracts.antt")
        if made != text:
            path.write_text(made, "utf-8")
    for pattern in ("crates/*/specs/*.antt", "crates/*/proofs/**/*.antt", "crates/*/src/**/*.rt"):
        for path in sorted(TOP.glob(pattern)):
            text = path.read_text("utf-8")
            made = re.sub(r"(?m)^\s*(?:--|//).*$", lambda line: re.sub(r"(?<![\w'-])[a-z]+[A-Z]\w*", lambda n: today(n.group(0)), line.group(0)), text)
            made = re.sub(r"(?m)^\s*(?:--|//).*$", lambda line: re.sub(r"(?<![^\s(])_([^\s\w.,;:]+)_(?=[\s,.;:)])", r"◌\1◌", line.group(0)), made)
            if made != text:
                path.write_text(made, "utf-8")


if __name__ == "__main__":
    main()
