#!/usr/bin/env python3
"""Respells the names of this repository's own definitions and lemmas, once, after the kit's port.py: each line of
tools/port_names.txt has a name and its new spelling (snake case; a lemma that would have its function's name ends in _lem).

usage: python3 tools/port_names.py        at the top of the repository

It changes every .antt and .rt file and every must-fail edit under crates/. Functions of src/, exported names and strings keep
theirs: no such name stands in the list. In comments a name with a dash is changed only between backticks.
"""

import os
import re
import subprocess
from pathlib import Path

HERE = Path(__file__).resolve().parent
CRATES = HERE.parent / "crates"

# What stands beside a name, but is no part of it.
EDGE = r"\s(){}\[\],;.:\"`|"

# The lemma that stands beside a function of the same spelling, in the files that know both.
BESIDE = {
    "deliberation/proofs/Run.antt": ["one_more"],
    "deliberation/proofs/Equivalence.antt": ["any_move"],
    "runs/proofs/Run.antt": ["one_more"],
    "meaning/proofs/Nodes.antt": ["node_at"],
    "notation/proofs/MadeNumbered.antt": ["node_at"],
    "demands/proofs/Ways.antt": ["false_of"],
    "notation/proofs/MadeFits.antt": ["numbers_fit", "entries_fit"],
}

# The check makes a module specs.contracts of its own.
MOVED = {"demands/specs/Contracts.antt": "demands/specs/CallContracts.antt"}
PATHS = [
    (re.compile(r"Rattle([.·])demands\1specs\1?(?:specs\.)?Contracts\b"), "Rattle.demands.specs.CallContracts"),
    (re.compile(r"Rattle·demands·specs\.specs\.Contracts\b"), "Rattle.demands.specs.CallContracts"),
    (re.compile(r"(?m)^file: specs/Contracts\.antt$"), "file: specs/CallContracts.antt"),
]


def pattern(names):
    """A pattern for any of the names, where it stands by itself."""
    words = "|".join(re.escape(name) for name in sorted(names, key=len, reverse=True))
    return re.compile(f"(?<![^{EDGE}])({words})(?![^{EDGE}])")


def respelled(text, names, every, camel, comment):
    """The text, line by line: in comments only names without a dash, and any between backticks."""
    made = []
    quoted = re.compile("`[^`]*`")
    for line in text.split("\n"):
        if line.lstrip().startswith(comment):
            line = camel.sub(lambda m: names[m.group(1)], line)
            line = quoted.sub(lambda m: every.sub(lambda n: names[n.group(1)], m.group(0)), line)
        else:
            line = every.sub(lambda m: names[m.group(1)], line)
        made.append(line)
    return "\n".join(made)


def main():
    names = dict(line.split() for line in (HERE / "port_names.txt").read_text("utf-8").splitlines())
    every, camel = pattern(names), pattern([name for name in names if "-" not in name])
    for old, new in MOVED.items():
        if (CRATES / old).exists():
            subprocess.run(["git", "mv", str(CRATES / old), str(CRATES / new)], check=True)
    lib = CRATES / "demands/specs/Lib.antt"
    lib.write_text(re.sub(r"(?m)^pub mod Contracts$", "pub mod CallContracts", lib.read_text("utf-8")), "utf-8")
    for folder, folders, files in os.walk(CRATES):
        folders[:] = sorted(name for name in folders if name != "out")
        for file in sorted(files):
            path = Path(folder, file)
            if path.suffix not in (".antt", ".rt", ".edit"):
                continue
            before = text = path.read_text("utf-8")
            for old, new in PATHS:
                text = old.sub(new, text)
            for name in BESIDE.get(str(path.relative_to(CRATES)), []):
                text = pattern([name]).sub(name + "_lem", text)
            text = respelled(text, names, every, camel, {".antt": "--", ".rt": "//", ".edit": "#"}[path.suffix])
            if text != before:
                path.write_text(text, "utf-8")


if __name__ == "__main__":
    main()
