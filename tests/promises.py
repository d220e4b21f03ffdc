#!/usr/bin/env python3
"""Holds docs/PROMISES.md against the tree: every file, name and edit in it is there, every edit of the tree is in it, and every field of
the three demands has an edit of its name; the lines of definitions that docs/TRUSTED.md counts; and that code and definitions cite no
definition under proofs/.

    python3 tests/promises.py [--documents DIR]    the last line is 'N passed, M failed'
    python3 tests/promises.py --lines              how many lines of definitions there are, file by file, in reading order

With --documents the quoted sentences are looked for in the letter and the documents 01 and 02 in DIR too, and those that the comments of
the crates quote in all documents of DIR. The notation is explained at the head of docs/PROMISES.md. Python 3.9 or later, standard library only.
"""

import argparse
import glob
import os
import re
import sys
from typing import NamedTuple

TOP = os.path.dirname(os.path.dirname(os.path.abspath(__file__)))
PROMISES, TRUSTED = "docs/PROMISES.md", "docs/TRUSTED.md"
DOCUMENTS = ("00-letter.md", "01-scope.md", "02-change-requests.md")
THEOREMS = "## The theorems"

# What a reader has to read, in an order in which each file uses only what stands before it.
READING = (
    ("the agent and its transitions", ("paper/specs/Atoms.antt", "paper/specs/Language.antt", "paper/specs/Transitions.antt")),
    ("the transitions as a function", ("paper/specs/Next.antt",)),
    ("the order, a run, the grade", ("runs/src/lib.rt", "runs/specs/Kinds.antt", "runs/specs/Limits.antt", "runs/specs/Order.antt", "runs/specs/Step.antt", "runs/specs/Run.antt", "runs/specs/Weight.antt")),
    ("a card's bytes, a configuration, a place", ("meaning/src/lib.rt", "meaning/specs/Answers.antt", "meaning/specs/Kinds.antt", "meaning/specs/Trees.antt", "meaning/specs/Sizes.antt", "meaning/specs/Card.antt", "meaning/specs/Configurations.antt",
                                                  "meaning/specs/Place.antt")),
    ("the refusals and the nine answers", ("meaning/specs/Refusals.antt", "meaning/specs/Why.antt", "meaning/specs/Calls.antt",
                                            "meaning/specs/Numbers.antt")),
    ("how much the list looks at", ("meaning/specs/Looking.antt", "demands/specs/Looking.antt")),
    ("what is proved of the definitions", ("paper/specs/Theorems.antt", "runs/specs/Theorems.antt", "meaning/specs/Theorems.antt")),
    ("edition 1 as before, and edition 2", ("editions/specs/Edition1.antt", "editions/specs/Moves.antt", "editions/specs/Calls.antt", "editions/specs/AsBefore.antt",
                                            "editions/specs/Edition2.antt")),
    ("the letter's demands", ("demands/specs/CallContracts.antt", "demands/specs/Demands.antt", "demands/specs/TestOrder.antt",
                              "demands/specs/AcceptedAgain.antt", "demands/specs/Struck.antt", "demands/specs/Shown.antt", "demands/specs/Closed.antt")),
    ("the turned screen", ("demands/specs/TurnedScreen.antt",)),
    ("what comes next, and the rule for an app", ("demands/specs/Next.antt",)),
    ("a run and a chosen move on bounded cards", ("meaning/specs/BoundedCalls.antt", "demands/specs/BoundedCalls.antt", "demands/specs/BoundedTurns.antt")),
    ("our own deliberation", ("deliberation/src/lib.rt", "deliberation/specs/Programs.antt", "deliberation/specs/MetaTransitions.antt",
                              "deliberation/specs/FirstMove.antt", "deliberation/specs/Kinds.antt", "deliberation/specs/Entries.antt", "deliberation/specs/Deliberate.antt",
                              "deliberation/specs/Interpreter.antt")),
    ("what is proved of deliberation", ("deliberation/specs/Theorems.antt", "deliberation/specs/Equivalence.antt")),
    ("UTF-8", ("utf8/specs/Grammar.antt", "utf8/specs/Characters.antt", "utf8/specs/Reading.antt")),
    ("move names in two languages", ("names/src/lib.rt", "names/specs/Sheets.antt", "names/specs/Naming.antt")),
    ("what is proved of UTF-8 and of names", ("utf8/specs/Theorems.antt", "names/specs/Theorems.antt")),
    ("cards as text", ("notation/specs/Words.antt", "notation/specs/Conditions.antt", "notation/specs/Lines.antt", "meaning/specs/Assembled.antt",
                       "notation/specs/Built.antt", "notation/specs/Reading.antt", "notation/specs/Printing.antt")),
    ("what is proved of texts", ("notation/specs/Completed.antt", "notation/specs/Theorems.antt", "notation/specs/Meant.antt")),
    ("every call, the count since load, a deliberation turned", ("every_call/specs/EveryCall.antt", "every_call/specs/SinceLoad.antt",
                                                                "every_call/specs/TurnedDeliberation.antt")),
    ("the cases", ("paper/specs/Cases.antt", "meaning/specs/Stripe.antt", "meaning/specs/Cases.antt", "meaning/specs/LookingCases.antt",
                   "notation/specs/Cases.antt", "deliberation/specs/Cases.antt", "editions/specs/Cases.antt", "cases/specs/BoundedCases.antt")),
)
# Definitions that only contracts of inner functions cite, and that a theorem ties to those above.
INNER = ("notation/specs/Scanning.antt", "notation/specs/Values.antt", "notation/specs/Making.antt", "deliberation/specs/Stacked.antt")
READ_CRATES = ("paper", "runs", "meaning", "editions", "demands", "notation", "deliberation", "utf8", "cases", "every_call")


class Piece(NamedTuple):
    """A cell of a table, a paragraph or an item of a list: the line it begins on, its text, the heading it stands under, and its
    column (0 for a row's first cell, -1 outside tables)."""

    line: int
    text: str
    heading: str
    column: int


class Tally:
    """What was looked at: how often it was so, and what was not."""

    def __init__(self):
        self.passed = 0
        self.failed = 0

    def hold(self, line, so, what, path=PROMISES):
        if so:
            self.passed += 1
        else:
            self.failed += 1
            print(f"{path}:{line}: {what}")


# ---- the page


def pieces(text):
    """The pieces of a page; commands (four spaces) and the lines under the heads of tables are left out."""
    found, heading, paragraph, began = [], "", [], 0

    def flush():
        if paragraph:
            found.append(Piece(began, " ".join(paragraph), heading, -1))
        paragraph.clear()

    for number, line in enumerate(text.split("\n"), 1):
        if line.startswith("|"):
            flush()
            if not re.fullmatch(r"[|\s:-]+", line):
                for column, cell in enumerate(line.strip().strip("|").split("|")):
                    found.append(Piece(number, cell.strip(), heading, column))
        elif line.startswith("#"):
            flush()
            heading = line.strip()
        elif not line.strip() or line.startswith("    "):
            flush()
        else:
            if line.startswith("- "):
                flush()
            if not paragraph:
                began = number
            paragraph.append(line.strip())
    flush()
    return found


def spans(text):
    return re.findall(r"`([^`]*)`", text)


# ---- the tree


def where(path):
    """A path from the top of the tree, or from crates/; None if there is nothing."""
    for start in ("", "crates"):
        if os.path.exists(os.path.join(TOP, start, path)):
            return os.path.join(TOP, start, path)
    return None


def read(path):
    with open(path, encoding="utf-8") as file:
        return file.read()


def antt_names(text):
    """The declarations of a file of antt, each with its fields or constructors."""
    names, last = {}, None
    for line in text.split("\n"):
        if line.strip().startswith("--"):
            continue
        head = re.match(r"\s*(?:pub )?(?:record|data) (\S+)", line)
        if head:
            last = head.group(1)
            names[last] = set()
            continue
        signature = re.match(r"\s*(?:(?:unfoldable|abbrev|pub) )*([^\s(){}=,→]+(?: [^\s(){}=,→]+)*) : ", line)
        if line and not line[0].isspace():
            last = None
        if signature and signature.group(1).split()[0] != "let":
            if last:
                names[last].update(signature.group(1).split())
            else:
                names.update((name, set()) for name in signature.group(1).split())
    return names


def rattle_names(text):
    """The functions, types, enums and structs of a file of Rattle, the latter two with their variants or fields."""
    names, last = {}, None
    for line in text.split("\n"):
        head = re.match(r'(?:pub )?(?:extern "C" )?(fn|type|enum|struct|impl) (\w+)', line)
        member = re.match(r"    (?:pub )?(?:fn )?(\w+)", line)
        if head:
            last = head.group(2) if head.group(1) in ("enum", "struct", "impl") else None
            names.setdefault(head.group(2), set())
        elif last and member:
            names[last].add(member.group(1))
    return names


def declares(path, name):
    """Whether a file declares a name; `A.b` is the field, constructor, variant or method b of A."""
    text = read(path)
    if path.endswith(".antt"):
        names = antt_names(text)
    elif path.endswith(".rt"):
        names = rattle_names(text)
    else:
        return re.search(rf"\b{re.escape(name)}\b", text) is not None
    owner, dot, member = name.partition(".")
    return name in names or bool(dot and owner in names and member in names[owner])


def edits():
    """The edits of the tree, as crate/must-fail/name."""
    found = set()
    for crate in sorted(os.listdir(os.path.join(TOP, "crates"))):
        folder = os.path.join(TOP, "crates", crate, "must-fail")
        if os.path.isdir(folder):
            found.update(f"{crate}/must-fail/{name[:-5]}" for name in os.listdir(folder) if name.endswith(".edit"))
    return found


def field_edits():
    """The edits that are named by the fields of the three demands: `Demand1.check-listed` has demands/must-fail/demand1_check_listed."""
    names = antt_names(read(os.path.join(TOP, "crates", "demands", "specs", "Demands.antt")))
    return {f"demands/must-fail/{demand.lower()}_{field.replace('-', '_')}"
            for demand in ("Demand1", "Demand2", "Demand3") for field in names[demand]}


# ---- the checks


def theorem_files(page):
    """The table of theorems: each name with the file that its type stands in."""
    files, name = {}, None
    for piece in page:
        if piece.heading == THEOREMS and piece.column == 0 and spans(piece.text):
            name = spans(piece.text)[0]
        elif piece.heading == THEOREMS and piece.column == 1 and spans(piece.text):
            files[name] = where(spans(piece.text)[0])
    return files


def check_names(page, tally):
    theorems, known, named = theorem_files(page), edits(), set()
    for piece in page:
        path = None
        for span in spans(piece.text):
            if "/must-fail/" in span:
                named.add(span)
                tally.hold(piece.line, span in known, f"there is no edit {span}")
            elif "/" in span:
                path = where(span)
                tally.hold(piece.line, path, f"there is no file {span}")
                if not path:
                    break
            else:
                file = path or theorems.get(span.partition(".")[0])
                if not file:
                    tally.hold(piece.line, False, f"{span} stands behind no file, and is no theorem of the table")
                else:
                    tally.hold(piece.line, os.path.isfile(file) and declares(file, span),
                               f"{os.path.relpath(file, TOP)} declares no {span}")
    fields = field_edits()
    for edit in sorted(fields):
        tally.hold(1, edit in known, f"a field of a demand has no edit {edit}")
    for edit in sorted(known - fields):
        tally.hold(1, edit in named, f"the edit {edit} is not named")


def check_quotes(page, folder, tally):
    """Every quoted sentence stands in a paragraph of a document; its parts, where … joins them, in their order."""
    paragraphs = []
    for name in DOCUMENTS:
        paragraphs += re.sub(r"\*", "", read(os.path.join(folder, name))).split("\n")
    for piece in page:
        if piece.text.count('"') % 2:
            tally.hold(piece.line, False, "a quotation does not end")
            continue
        # the first cell of a row has one sentence, which may have quotation marks of its own
        quotes = re.findall(r'"(.*)"' if piece.column == 0 else r'"([^"]*)"', piece.text)
        for quote in quotes:
            parts = ".*".join(re.escape(part.strip()) for part in quote.split("…"))
            tally.hold(piece.line, any(re.search(parts, line) for line in paragraphs), f"not in the documents: {quote}")


# ---- the quotations in the crates


def stands(parts, text):
    """Whether the parts stand in a text, one behind the other."""
    at = 0
    for part in parts:
        at = text.find(part, at)
        if at < 0:
            return False
        at += len(part)
    return True


def remarks(path):
    """The comments of a file, each with the line that it begins on; lines that follow each other are one."""
    found, open_one = [], False
    for number, line in enumerate(read(path).split("\n"), 1):
        match = re.match(r"\s*(?:--|//|# ) ?(.*)", line)
        if match and open_one:
            found[-1] = (found[-1][0], found[-1][1] + " " + match[1])
        elif match:
            found.append((number, match[1]))
        open_one = match is not None
    return found


def check_remarks(folder, tally):
    """Every quotation in a comment stands in a document (drill.md lies beside their folder), in docs/DECISIONS.md, in docs/TEXT.md or in
    the header. Those with a formula of document 004 are left out: its text has the formulas in another notation. RFC 3629 is none of the
    documents: its productions are held against those that oracle/utf8.py has, its other words are left out."""
    sources = sorted(glob.glob(os.path.join(folder, "*")) + glob.glob(os.path.join(folder, "..", "drill.md")))
    sources += [os.path.join(TOP, name) for name in ("docs/DECISIONS.md", "docs/TEXT.md", "include/rigtemple.h", "oracle/utf8.py")]
    texts = [re.sub(r"\s+", " ", re.sub(r"[*`]", "", read(path))) for path in sources]
    for pattern in ("*/src/*.rt", "*/specs/*.antt", "*/must-fail/*.edit"):
        for path in sorted(glob.glob(os.path.join(TOP, "crates", pattern))):
            for line, text in remarks(path):
                for quote in re.findall(r'"([^"]+)"', text):
                    if "paper" in path and re.search(r"[^ -~…]|\(p\)|L_B", quote):
                        continue
                    if "utf8" in path and "RFC 3629" in text and not re.search(r"%x|UTF8-", quote):
                        continue
                    parts = [re.sub(r"\s+", " ", re.sub(r"[*`]", "", part).strip()) for part in quote.split("…")]
                    so = any(stands(parts, text) for text in texts)
                    tally.hold(line, so, f"not in the documents: {quote}", os.path.relpath(path, TOP))


# ---- what is cited


def check_cited(tally):
    """No file of src/ or specs/ cites a definition under proofs/, but for those of the kit's library, which lie there too."""
    for pattern in ("*/src/**/*.rt", "*/specs/**/*.antt"):
        for path in sorted(glob.glob(os.path.join(TOP, "crates", pattern), recursive=True)):
            cited = [(number, line) for number, line in enumerate(read(path).split("\n"), 1)
                     if re.match(r"\s*(?:pub )?(?:ghost )?use (?!Rattle\.std\.)\S*\.proofs\.", line)]
            tally.hold(cited[0][0] if cited else 1, not cited, "a definition under proofs/ is cited", os.path.relpath(path, TOP))


# ---- the lines


def counted(path):
    """Lines that are neither blank nor a comment nor an import nor an attribute."""
    lines = (line.strip() for line in read(os.path.join(TOP, "crates", path)).split("\n"))
    return sum(1 for line in lines if line and not line.startswith(("--", "//", "use ", "ghost use ", "#[", "#![")))


def check_lines(tally):
    """The table of docs/TRUSTED.md has as many lines of definitions as there are."""
    trusted = read(os.path.join(TOP, TRUSTED))
    for title, files in READING:
        number = sum(map(counted, files))
        tally.hold(1, f"| {number} | {title} |" in trusted, f"{title} has {number} lines", TRUSTED)


def print_lines():
    total, listed = 0, set()
    for title, files in READING:
        numbers = [counted(file) for file in files]
        total += sum(numbers)
        listed.update(files)
        print(f"{sum(numbers):5}  {title}: " + ", ".join(f"{file} {number}" for file, number in zip(files, numbers)))
    print(f"{total:5}  together")
    for crate in READ_CRATES:
        for file in sorted(os.listdir(os.path.join(TOP, "crates", crate, "specs"))):
            path = f"{crate}/specs/{file}"
            if path not in listed and path not in INNER and file != "Lib.antt":
                print(f"not in the reading order: {path}")
                return 1
    return 0


def main():
    parser = argparse.ArgumentParser(description="Holds docs/PROMISES.md against the tree.")
    parser.add_argument("--documents", metavar="DIR", help="the folder of documents 00 and 01, for the quoted sentences")
    parser.add_argument("--lines", action="store_true", help="count the lines of definitions instead")
    options = parser.parse_args()
    if options.documents and not os.path.isdir(options.documents):
        parser.error("there is no folder %s" % options.documents)
    if options.lines:
        return print_lines()
    page = pieces(read(os.path.join(TOP, PROMISES)))
    tally = Tally()
    check_names(page, tally)
    check_lines(tally)
    check_cited(tally)
    if options.documents:
        check_quotes(page, options.documents, tally)
        check_remarks(options.documents, tally)
    else:
        print("the quoted sentences were not looked for: --documents DIR names the folder of documents 00 and 01")
    print(f"{tally.passed} passed, {tally.failed} failed")
    return 1 if tally.failed else 0


if __name__ == "__main__":
    sys.exit(main())
