#!/usr/bin/env python3
"""Tells at which fact each must-fail edit was first refused, from what the gate printed.

    .ci/run > LOG; python3 tests/edits.py LOG           a line for each edit; the last line is 'N passed, M failed'
    .ci/run > LOG; python3 tests/edits.py LOG --table   the same as a table of Markdown, with the sentence that each edit breaks
    .ci/run > LOG; python3 tests/edits.py LOG --form    a line for each edit that was first refused by form, with the checker's words
    python3 tests/edits.py --sum                        a sum of the files of crates/, which the gate prints too

The gate says at which line of a proof the checker first found an error. The fact is the declaration that this line belongs to, in
the crate with the edit applied: in a function's proof `returns` is what the function ensures, `loop-i-preserved` a loop's invariant,
`NAME-requires` what a call requires; in the other files it is a law or a theorem. Where a function needs no proof file, the line is the
function's own, and the fact is what it ensures. Of a theorem that is a record the fact is its field. An edit fails here if the gate
did not refuse it, or if the line belongs to no such declaration; an edit that is named by a field of the three demands, as
demands/must-fail/demand1_check_listed, if it was refused at another fact.

An edit is refused by a goal that fails, where what a declaration says and what its proof gives differ, or where no proof is found; or by
form, where the proof does not fit the wrong version as text: a name or an argument is missing, a rewriting finds nothing to rewrite, a lemma is
spelled out for the right version and leaves a part open. Which it was, is told by the words of the first error, of which the gate
prints the beginning.
"""

import glob
import hashlib
import os
import re
import sys

TOP = os.path.dirname(os.path.dirname(os.path.abspath(__file__)))
REFUSED = re.compile(r"rt: must-fail (\w+)/([\w.-]+)\.edit: refused, as it must be.*?: (?:note: )?(?:\./)?((?:src|specs|proofs)/[^\s:]+):(\d+):\d+: (.*)")
# A declaration: at the left, in a module, or marked `pub`; what a `where` declares lies further in and is no fact by itself.
DECLARED = re.compile(r"(?:  )?(?:abbrev )?([^\s:()]+) :|\s*pub ([^\s:()]+) :")
FIELD = re.compile(r"      ([^\s=]+) = ")  # of a record that a declaration answers
FUNCTION = re.compile(r"(?:pub )?(?:extern \"C\" )?fn (\w+)")
# What stands before the words of an error.
ERROR = re.compile(r"(?:error: )?(?:`[^`]*`: )?")
# The words for a goal that fails. Where what differs is left open in part, as `?24`, a lemma's spelling was compared and not the goal.
FAILS = re.compile(r"the two (?:types|values|indices)|expected type|does not follow|give a proof of that|no proof of|does not hold|not proved that")
OPEN = re.compile(r"(?<![\w?])\?\d+")
DIFFER = re.compile(r"differ (?:only )?where one has `([^`]*)`.*?the other has `([^`]*)`")


def read(path):
    with open(path, encoding="utf-8") as file:
        return file.read()


def summed():
    """A sum of the files of crates/, by their paths and bytes, but for those that rt leaves in out/: a log belongs to one such tree."""
    whole = hashlib.sha256()
    for path in sorted(glob.glob(os.path.join(TOP, "crates", "**", "*.*"), recursive=True)):
        if os.path.relpath(path, TOP).split(os.sep)[2] == "out":
            continue
        with open(path, "rb") as file:
            whole.update(os.path.relpath(path, TOP).encode() + b"\0" + hashlib.sha256(file.read()).digest())
    return whole.hexdigest()[:16]


def edited(crate, edit, path):
    """The lines of a file of a crate with the edit applied."""
    text, current, old = read(os.path.join(TOP, "crates", crate, path)), "", ""
    for line in edit:
        if line.startswith("file: "):
            current = line[len("file: ") :]
        elif line.startswith("old: "):
            old = line[len("old: ") :]
        elif line.startswith("new: ") and current == path:
            text = text.replace(old, line[len("new: ") :])
    return text.split("\n")


def fact_at(path, lines, number):
    """The declaration at the top of a file that a line belongs to, with the field of a record if it stands in one."""
    declared, field = FUNCTION if path.startswith("src/") else DECLARED, ""
    for line in reversed(lines[:number]):
        match = declared.match(line)
        if match:
            return next(filter(None, match.groups())) + field
        if path == "proofs/Demands.antt" and not field and FIELD.match(line):
            field = " ." + FIELD.match(line)[1]
    return None


def of_field(edit, fact):
    """Whether an edit that is named by a field of a demand was refused at that field; any other edit is."""
    named = re.fullmatch(r"demand(\d)_(\w+)", edit)
    return not named or re.sub("_lem$", "", (fact or "").replace("-", "_")) == "demand_%s .%s" % (named[1], named[2])


def refusals(log):
    """Each refused edit: where the first error was, a file and a line, and the beginning of its words."""
    return {(m[1], m[2]): (m[3], int(m[4]), ERROR.sub("", m[5], count=1)) for m in REFUSED.finditer(log)}


def fails(words):
    """Whether an error's words tell a goal that fails."""
    differ = DIFFER.search(words)
    return bool(FAILS.search(words)) and not OPEN.search(" ".join(differ.groups()) if differ else words)


def print_forms(keys, refused):
    """The edits whose first error is by form; an edit fails if the gate told no error of it."""
    said = {key: refused[key][2] for key in keys if key in refused}
    for key in keys:
        if key not in said:
            print("%-36s has no error in the log" % "/".join(key))
        elif not fails(said[key]):
            print("%-36s %s" % ("/".join(key), said[key]))
    print("%d of %d are refused first by a goal that fails" % (sum(map(fails, said.values())), len(keys)))
    print("%d passed, %d failed" % (len(said), len(keys) - len(said)))
    return 1 if len(said) < len(keys) else 0


def told(key, refused):
    """An edit's sentence, and the file and fact at which it was refused, if it was."""
    crate, name = key
    lines = read(os.path.join(TOP, "crates", crate, "must-fail", name + ".edit")).split("\n")
    if key not in refused:
        return lines[0][2:], None, None
    path, number, _ = refused[key]
    return lines[0][2:], path, fact_at(path, edited(crate, lines, path), number)


def main(words):
    """Prints the edits, and how many are refused at a fact."""
    if words == ["--sum"]:
        print(summed())
        return 0
    if not words or words[1:] not in ([], ["--table"], ["--form"]):
        print("usage: edits.py LOG [--table | --form], or edits.py --sum", file=sys.stderr)
        return 2
    if not os.path.isfile(words[0]):
        print("edits.py: there is no file %s" % words[0], file=sys.stderr)
        return 2
    log = read(words[0])
    if ("ci: crates/ has the sum %s" % summed()) not in log:
        print("edits.py: the gate that printed this log had other crates, or did not say which", file=sys.stderr)
        return 2
    refused = refusals(log)
    paths = sorted(glob.glob(os.path.join(TOP, "crates", "*", "must-fail", "*.edit")))
    keys = [(path.split(os.sep)[-3], os.path.basename(path)[: -len(".edit")]) for path in paths]
    if words[1:] == ["--form"]:
        return print_forms(keys, refused)
    failed = 0
    for key in keys:
        sentence, path, fact = told(key, refused)
        if not of_field(key[1], fact):
            fact = None
        failed += fact is None
        if words[1:]:
            print("| `%s/%s` | %s | %s |" % (*key, sentence.replace("|", "\\|"), "`%s` `%s`" % (path, fact) if fact else "not refused at its fact"))
        else:
            print("%-36s %s" % ("/".join(key), "%s, %s" % (path, fact) if fact else "not refused at its fact"))
    print("%s%d passed, %d failed" % ("\n" if words[1:] else "", len(keys) - failed, failed))
    return 1 if failed else 0


if __name__ == "__main__":
    sys.exit(main(sys.argv[1:]))
