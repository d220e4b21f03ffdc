#!/usr/bin/env python3
"""What every crate keeps, read from its files. The last line is 'N passed, M failed'.

    python3 tests/tidy.py            a line for each thing that is not kept
    python3 tests/tidy.py --lines    the same, and how many things of each sort were looked at
    python3 tests/tidy.py --mend     takes out of the `use` lines what is not used, and the remarks that name a line of code

A function says what it answers (`ensures`), but for those of a program, which only its `main` can reach, and those that answer
nothing and are lent nothing to change; the eight calls of the guide
and those for C have no `requires`; nothing is declared that a checker would have to believe (a foreign function); a function has at
most 40 lines and a comment line at most 132 characters; no remark in a proof names a line of code, which may move; each name that is
brought is used; a must-fail edit names the sentence that it breaks and changes a line that stands once; every crate stands in
crates.txt and in README.md.
"""

import glob
import os
import re
import sys

TOP = os.path.dirname(os.path.dirname(os.path.abspath(__file__)))
MOST_LINES, MOST_CHARACTERS = 40, 132
# The crates whose public functions are the calls of an app.
CALLS = ("guide", "board")
FUNCTION = re.compile(r'(pub )?(?:extern "C" )?fn (\w+)')
CLAUSE = re.compile(r"\s*(?:requires|ensures)\b")
LINE_NAMED = re.compile(r"-- src/\w+\.rt:\d+:\d+$")
BROUGHT = re.compile(r"(?:ghost )?use (\S+?)(?:\.\{([^}]*)\})?( as [^\s;]+)?;?$")


def read(path):
    with open(path, encoding="utf-8") as file:
        return file.read()


def files(*patterns):
    """The files below crates/ of some patterns, by their path from the top."""
    found = [path for pattern in patterns for path in glob.glob(os.path.join(TOP, "crates", pattern), recursive=True)]
    return [os.path.relpath(path, TOP) for path in sorted(found)]


def functions(text):
    """The functions of a file of code: line, whether public, name, clauses, number of lines."""
    lines = text.split("\n")
    for at, line in enumerate(lines):
        match = FUNCTION.match(line)
        if match:
            body = next(n for n in range(at, len(lines)) if lines[n].endswith("{") and not CLAUSE.match(lines[n]))
            end = next(n for n in range(body, len(lines)) if lines[n] == "}")
            yield at + 1, bool(match[1]), match[2], "\n".join(lines[at:body]), end - at + 1


def code_kept():
    """What the functions of the crates keep."""
    for path in files("*/src/**/*.rt"):
        crate = path.split(os.sep)[1]
        text, program = read(path), os.path.exists(os.path.join("crates", crate, "src", "main.rt"))
        yield path, "no foreign function is declared", not re.search(r'^\s*extern "C" \{', text, re.M)
        for at, public, name, clauses, length in functions(text):
            where = "%s:%d: %s" % (path, at, name)
            if (public or not program) and ("->" in clauses or "&mut" in clauses):
                yield where, "says what it answers", re.search(r"^\s*ensures\b", clauses, re.M) is not None
            yield where, "has at most %d lines" % MOST_LINES, length <= MOST_LINES
            if public and crate in CALLS:
                yield where, "requires nothing", not re.search(r"^\s*requires\b", clauses, re.M)


def names_brought(line):
    """The names that a `use` line brings."""
    match = BROUGHT.match(line)
    if not match:
        return []
    if match[3]:
        return [match[3].split()[-1]]
    if match[2]:
        return [name.split(" as ")[-1].strip() for name in match[2].split(",")]
    return [re.split(r"::|\.", match[1])[-1]] if "::" in match[1] else []


def used(name, rest):
    """Whether a name stands in the rest of a file; of an operator, its sign or the name itself."""
    if name in rest and "◌" in name:
        return True
    sign = name.strip("◌").split("◌")[0]
    if re.fullmatch(r"\w[\w'₀-₉-]*", sign):
        return re.search(r"(?<![\w'-])" + re.escape(sign) + r"(?![\w'-])", rest) is not None
    return sign == "[]" and "[]" in rest or re.search(r"(?<![^\s({])" + re.escape(sign) + r"(?![^\s)};,])", rest) is not None


def texts():
    """The files of code, definitions and proofs: the path, the lines, and all but the `use` lines and comments."""
    for path in files("*/src/**/*.rt", "*/specs/**/*.antt", "*/proofs/**/*.antt"):
        lines = read(path).split("\n")
        rest = "\n".join(line for line in lines if not BROUGHT.match(line))
        yield path, lines, re.sub(r"(^|\s)(--|//)[^\n]*", "", rest)


def mended(line, rest):
    """A line without the names that are not used, if it is a `use` line; nothing if nothing is left, or if it names a line of code."""
    if LINE_NAMED.match(line):
        return None
    brought = names_brought(line)
    kept = [name for name in brought if used(name, rest)]
    if kept == brought:
        return line
    match = BROUGHT.match(line)
    if not kept or not match[2]:
        return None
    words = [word.strip() for word in match[2].split(",")]
    return line.replace(match[2], ", ".join(word for word in words if word.split(" as ")[-1].strip() in kept))


def mend():
    """Takes out what is not used and the remarks that name a line of code."""
    for path, lines, rest in texts():
        after = [line for line in (mended(line, rest) for line in lines) if line is not None]
        if after != lines:
            with open(path, "w", encoding="utf-8") as file:
                file.write("\n".join(after))


def text_kept():
    """What the text of the crates keeps."""
    for path, lines, rest in texts():
        for at, line in enumerate(lines, 1):
            where = "%s:%d" % (path, at)
            if re.match(r"\s*(--|//)", line):
                yield where, "has at most %d characters" % MOST_CHARACTERS, len(line) <= MOST_CHARACTERS
                yield where, "names no line of code", not LINE_NAMED.match(line)
            for name in names_brought(line):
                yield where, "uses %s" % name, used(name, rest)


def edits_kept():
    """What the must-fail edits keep."""
    for path in files("*/must-fail/*"):
        crate = os.path.join(TOP, *path.split(os.sep)[:2])
        lines = read(os.path.join(TOP, path)).split("\n")
        yield path, "names the sentence that it breaks", bool(re.match(r'# "[^"]', lines[0]))
        held = ""
        for line in lines:
            if line.startswith("file: "):
                changed = os.path.join(crate, line[len("file: ") :])
                held = read(changed) if os.path.isfile(changed) else ""
            elif line.startswith("old: "):
                yield path, "changes a line that stands once", held.count(line[len("old: ") :]) == 1


def listed():
    """Whether every crate stands in crates.txt and in README.md."""
    listing, readme = read("crates.txt"), read("README.md")
    for crate in sorted(os.listdir("crates")):
        yield crate, "stands in crates.txt", re.search(r"^%s( [^:]*)?:" % crate, listing, re.M) is not None
        yield crate, "stands in README.md", "`crates/%s`" % crate in readme


def main(words):
    """Prints what is not kept, and how much is."""
    if words not in ([], ["--lines"], ["--mend"]):
        print("usage: tidy.py [--lines | --mend]", file=sys.stderr)
        return 2
    os.chdir(TOP)
    if words == ["--mend"]:
        mend()
    passed, failed, looked = 0, 0, {}
    for kept in (code_kept, text_kept, edits_kept, listed):
        for where, what, holds in kept():
            passed, failed = passed + holds, failed + (not holds)
            sort = re.sub(r"^uses .*", "uses what it brings", what)
            looked[sort] = looked.get(sort, 0) + 1
            if not holds:
                print("%s: not so: %s" % (where, what))
    if words == ["--lines"]:
        for sort, count in looked.items():
            print("%6d  %s" % (count, sort))
    print("%d passed, %d failed" % (passed, failed))
    return 1 if failed else 0


if __name__ == "__main__":
    sys.exit(main(sys.argv[1:]))
