#!/usr/bin/env python3
"""Has the checker compute the definitions and compares them with the independent program.

    python3 tests/definitions.py --seed 1 --cards 500 --texts 50 --programs 50

Cards, places, configurations and choices come from oracle/ by the seed; the answers to them from oracle/ too. Each request
becomes one equation, "what the definition answers is what the oracle answers", in a temporary crate over the project's own
definitions, and the checker computes both sides. The last line is 'N passed, M failed': N requests on which both agree.
Nothing is written into the repository.

A case of --programs has a card and ten programs to deliberate by, or three if the card is refused. A case of --texts has six
texts to be read, a card, and five of its nodes to be printed; --stored has those of the gate too. The
grammar is a relation, which does not compute: what reading a text answers is computed as crates/notation/proofs/Computing.antt
does it, where it is proved that this is so by the relation `Reads`.
"""

import argparse
import os
import shutil
import subprocess
import sys
import tempfile
from collections import Counter
from random import Random

TOP = os.path.dirname(os.path.dirname(os.path.abspath(__file__)))
sys.path.insert(0, os.path.join(TOP, "oracle"))
sys.dont_write_bytecode = True

import cases  # noqa: E402
import drill  # noqa: E402
import guide  # noqa: E402
import stored  # noqa: E402
import text  # noqa: E402

DEFINITIONS = ("paper", "runs", "meaning", "notation", "deliberation")
CALLS = ("check", "load", "grade", "list", "take", "run", "save", "restore", "text", "print", "deliberate")
# The numbers that the guide may answer; some of them are those of a text or a print alone, or of a program.
ANSWERS = (*range(10), *range(11, 20), 25)
OF_TEXTS = (17, 18, 25)
OF_PROGRAMS = (19,)
# The checker computes a run step by step, so longer budgets are cut to this.
LONGEST_RUN = 200
# The checker computes the whole tree of a node, each occurrence of a shared one, so nodes of larger trees are left out.
LARGEST_TREE = 5000
PER_CRATE = 50

HEAD = """use mathlib.Core.Path.{◌≡◌, refl}
use mathlib.Core.List.{List, [], ◌∷◌, ◌++◌}
use Prim.Native.Nat.{ℕ, ◌-◌}
use lib.ListN.{replicate}
use Rattle.meaning.specs.declared.Configuration.{Configuration}
use Rattle.meaning.specs.Configurations.{padded}
use Rattle.meaning.proofs.Computing.{computing}
use Rattle.notation.proofs.Computing as Text
use Rattle.CRATE.specs.Drill.{image, check_bytes, load_bytes, grade_bytes, list_bytes, take_bytes, run_bytes, save_bytes, restore_bytes, all_shown}
use Rattle.CRATE.specs.Drill.{text_bytes, print_bytes, deliberate_bytes}

"""

DRILL = """-- The answers of the nine calls, of reading a text and of printing a node, as the drill writes them.
use mathlib.Core.List.{List, [], ◌∷◌, ◌++◌, map, flatten}
use mathlib.Core.Option.{Option, none, some}
use Prim.Native.Nat.{ℕ, zero, suc, ◌/◌}
use lib.ListN.{length, take, replicate}
use Rattle.runs.specs.declared.Ending.{Ending}
use Rattle.runs.specs.declared.Offender.{Offender}
use Rattle.runs.specs.declared.Verdict.{Verdict}
use Rattle.std.specs.Prelude.{Ok, Err}
use Rattle.meaning.specs.Answers.{Answer, Checked}
use Rattle.meaning.specs.declared.Configuration.{Configuration}
use Rattle.meaning.specs.declared.Reply.{Reply}
use Rattle.meaning.specs.declared.Graded.{Graded}
use Rattle.meaning.specs.declared.Listed.{Listed}
use Rattle.meaning.specs.declared.Ran.{Ran}
use Rattle.meaning.specs.Card.{Bytes}
use Rattle.meaning.specs.Place.{two_bytes}
use Rattle.meaning.specs.Refusals.{number_of, answer_number, answer_carried}
use Rattle.meaning.specs.Calls.{checks, loads, grades, lists, list_leaves, takes, runs, saves, save_leaves, restores}
use Rattle.meaning.specs.Refusals.{carried}
use Rattle.deliberation.specs.declared.Deliberated.{Deliberated}
use Rattle.deliberation.specs.declared.Remaining.{Remaining}
use Rattle.deliberation.specs.Programs.{𝒲}
use Rattle.deliberation.specs.FirstMove.{lowest_action, if_enabled}
use Rattle.deliberation.specs.Entries.{entry_of, entries_of, program_good, program_table, numbers_table, go_on_answer, first_move_of}
use Rattle.deliberation.specs.Deliberate.{leads, deliberate, remaining_of, goes_on, deliberates, deliberation_ending_number}
use Rattle.notation.specs.Printing.{print_answer, print_count, print_leaves}
use Rattle.notation.proofs.Computing.{TextComputed, text_answered}

-- a byte before what is left of the bytes after it, once zeros at the end are left off
abbrev before : ℕ → Bytes → Bytes
before zero [] = []
before zero (y ∷ ys) = zero ∷ y ∷ ys
before (suc n) ys = suc n ∷ ys

abbrev trimmed : Bytes → Bytes
trimmed [] = []
trimmed (x ∷ xs) = before x (trimmed xs)

abbrev with_plan : Configuration → Bytes → Bytes
with_plan c plan =
    let numbers : Bytes = two_bytes (c.mind.length) ++ (c.mind.phase ∷ two_bytes (c.mind.finished)) in
    c.mind.beliefs ++ (c.mind.goals ++ (numbers ++ (two_bytes (length plan) ++ plan)))

unfoldable pub image : Configuration → Bytes
image c = with_plan c (trimmed (c.plan))

abbrev number : Answer → Bytes
number a = two_bytes (answer_number a)

abbrev checked_bytes : Checked → Bytes
checked_bytes (Ok l) = two_bytes 0
checked_bytes (Err r) = two_bytes (number_of r)

unfoldable pub check_bytes : Bytes → Bytes
check_bytes b = checked_bytes (checks b)

abbrev reply_bytes : Reply → Bytes
reply_bytes r = number (r.answer) ++ image (r.configuration)

unfoldable pub load_bytes : Bytes → Bytes
load_bytes b = reply_bytes (loads b)

abbrev taken_bytes : Reply → Bytes
taken_bytes r = number (r.answer) ++ (two_bytes (answer_carried (r.answer)) ++ image (r.configuration))

unfoldable pub take_bytes : Bytes → Configuration → ℕ → Bytes
take_bytes b c k = taken_bytes (takes b c k)

unfoldable pub restore_bytes : Bytes → Bytes → Bytes
restore_bytes b p = reply_bytes (restores b p)

abbrev verdict_bytes : Answer → Verdict → Bytes
verdict_bytes (Err r) v = 0 ∷ 0 ∷ 0 ∷ 0 ∷ []
verdict_bytes (Ok _) Verdict.Bounded = 0 ∷ 0 ∷ 0 ∷ 0 ∷ []
verdict_bytes (Ok _) (Verdict.Open Offender.InitialPlan) = 1 ∷ 1 ∷ 0 ∷ 0 ∷ []
verdict_bytes (Ok _) (Verdict.Open (Offender.Selection n)) = 1 ∷ 2 ∷ two_bytes n
verdict_bytes (Ok _) (Verdict.Open (Offender.Revision n)) = 1 ∷ 3 ∷ two_bytes n

abbrev graded_bytes : Graded → Bytes
graded_bytes g = number (g.answer) ++ verdict_bytes (g.answer) (g.verdict)

unfoldable pub grade_bytes : Bytes → Bytes
grade_bytes b = graded_bytes (grades b)

abbrev listed_bytes : Listed → Bytes
listed_bytes r = number (r.answer) ++ (two_bytes (r.count) ++ (two_bytes (r.judged) ++ two_bytes (r.goals)))

unfoldable pub list_bytes : Bytes → Configuration → ℕ → Bytes
list_bytes b c room = listed_bytes (lists b c (replicate room 0xEEEE)) ++ flatten (map two_bytes (list_leaves b c (replicate room 0xEEEE)))

unfoldable pub save_bytes : Bytes → Configuration → ℕ → Bytes
save_bytes b c room = number (saves b c (replicate room 0xEE)).answer ++ save_leaves b c (replicate room 0xEE)

abbrev ending_byte : Ending → ℕ
ending_byte Ending.Spent = 0
ending_byte Ending.Rest = 1
ending_byte Ending.Full = 2

abbrev ran_bytes : Ran → Bytes
ran_bytes r = number (r.answer) ++ (image (r.configuration) ++ (two_bytes (r.count) ++ (ending_byte (r.ending) ∷ [])))

unfoldable pub run_bytes : Bytes → Configuration → ℕ → Bytes
run_bytes b c budget = ran_bytes (runs b c budget)

abbrev remaining_bytes : Remaining → Bytes
remaining_bytes r = two_bytes (r.length) ++ take (r.length) (r.numbers)

abbrev deliberated_bytes : Deliberated → Bytes
deliberated_bytes d =
    let told : Bytes = two_bytes (d.count) ++ (deliberation_ending_number (d.ending) ∷ remaining_bytes (d.remaining)) in
    number (d.answer) ++ (image (d.configuration) ++ told)

unfoldable pub deliberate_bytes : Bytes → Bytes → Configuration → ℕ → Bytes
deliberate_bytes b p c budget = deliberated_bytes (deliberates b p c budget (replicate 128 0))

abbrev place : Answer → ℕ
place (Ok _) = 0
place (Err r) = carried r

abbrev answered_bytes : Option TextComputed → Bytes
answered_bytes none = []
answered_bytes (some a) =
    let p = place (a.answer) in
    number (a.answer) ++ (two_bytes p ++ (two_bytes (p / 65536) ++ (two_bytes (a.count) ++ a.leaves)))

unfoldable pub text_bytes : Bytes → ℕ → Bytes
text_bytes t room = answered_bytes (text_answered t (replicate room 0xEE))

unfoldable pub print_bytes : Bytes → ℕ → ℕ → Bytes
print_bytes b n room =
    let out : Bytes = replicate room 0xEE in
    number (print_answer b n out) ++ (two_bytes (print_count b n out) ++ print_leaves b n out)

unfoldable pub all_shown : Unit {0}
unfolding flatten image check_bytes load_bytes grade_bytes list_bytes take_bytes run_bytes save_bytes restore_bytes text_bytes print_bytes deliberate_bytes 𝒲 lowest_action if_enabled entry_of entries_of program_good program_table numbers_table go_on_answer first_move_of leads deliberate remaining_of goes_on deliberation_ending_number
all_shown = tt
"""


def two(data, at):
    return data[at] + 256 * data[at + 1]


def literal(data):
    """Bytes as a list of the definitions' language; a run of one value is written as `replicate`."""
    text, at = [], 0
    while at < len(data):
        end = at
        while end < len(data) and data[end] == data[at]:
            end += 1
        if end - at >= 12:
            text.append(f"replicate {end - at} {data[at]} ++ (")
        else:
            end = at + 1
            text.append(f"{data[at]} ∷ (")
        at = end
    return "(" + "".join(text) + "[]" + ")" * len(text) + ")"


def cut_budget(request):
    """A budget cut to what the checker computes in a moment."""
    if request[0] in (drill.RUN, drill.DELIBERATE) and two(request, len(request) - 2) > LONGEST_RUN:
        return request[:-2] + bytes([LONGEST_RUN % 256, LONGEST_RUN // 256])
    return request


def image_term(request):
    """The configuration of a request's image, which starts at byte 1, and the place after it."""
    m = two(request, 70)
    plan = f"({literal(request[72:72 + m])} ++ replicate {1024 - m} 0)"
    term = (
        f"(record {{ mind = record {{ beliefs = {literal(request[1:33])}; goals = {literal(request[33:65])}; "
        f"length = {two(request, 65)}; phase = {request[67]}; finished = {two(request, 68)} }}; plan = {plan} }})"
    )
    return term, 72 + m


def term(card, request):
    """What the definition answers to a request, as a term."""
    call = CALLS[request[0] - 1]
    if call in ("check", "load", "grade"):
        return f"{call}_bytes {card}"
    if call == "restore":
        return f"restore_bytes {card} {literal(request[3:])}"
    if call == "text":
        held, room = cases.read_text(request)
        return f"text_bytes {literal(held)} {room}"
    if call == "print":
        return f"print_bytes {card} {two(request, 1)} {two(request, 3)}"
    program = ""
    if call == "deliberate":
        length = two(request, 1)
        program, request = literal(request[3 : 3 + length]), request[:1] + request[3 + length :]
    configuration, at = image_term(request)
    return f"{call}_bytes {card} {program} {configuration} {two(request, at)}"


def theorem(name, card, request, answer):
    return (
        f"pub {name} : {term(card, request)} ≡ {literal(answer)}\n"
        f"unfolding computing Text.computing all_shown {card}\n{name} = refl\n\n"
    )


def write_crate(root, number, chunk):
    """A crate of equations: a file for each case, with its card once."""
    crate = f"held{number}"
    here = os.path.join(root, "crates", crate)
    for folder in ("src", "specs", "proofs"):
        os.makedirs(os.path.join(here, folder))
    write(os.path.join(here, "src", "lib.rt"), "// Equations that the checker computes.\n")
    write(os.path.join(here, "specs", "Lib.antt"), "pub mod Drill\n")
    write(os.path.join(here, "specs", "Drill.antt"), DRILL)
    for index, (case, answered) in enumerate(chunk):
        text = HEAD.replace("CRATE", crate)
        text += f"unfoldable pub card : List ℕ\ncard = {literal(case.card)}\n\n"
        for j, (request, answer) in enumerate(answered):
            text += theorem(f"r{j}", "card", request, answer)
        write(os.path.join(here, "proofs", f"C{index}.antt"), text)
    write(os.path.join(here, "proofs", "Lib.antt"), "".join(f"pub mod C{i}\n" for i in range(len(chunk))))
    return crate


def write(path, text):
    with open(path, "w", encoding="utf-8") as out:
        out.write(text)


def prepare(root):
    """A temporary repository with the project's definitions, without their must-fail edits."""
    for name in DEFINITIONS:
        shutil.copytree(
            os.path.join(TOP, "crates", name),
            os.path.join(root, "crates", name),
            ignore=shutil.ignore_patterns("must-fail", "out"),
        )


def checked(root, crate):
    """What the kit says of a crate, and its status."""
    environment = dict(os.environ, PATH=os.environ.get("PATH", "/usr/bin:/bin") + ":/usr/local/bin")
    here = os.path.join(root, "crates", crate)
    done = subprocess.run(["rt", "check"], cwd=here, env=environment, capture_output=True, text=True)
    return done.returncode, done.stdout + done.stderr


def disagreements(output, chunk):
    """The requests whose equation was refused, by the lines of the checker's errors."""
    found = {}
    for line in output.split("\n"):
        marker = "./proofs/C"
        if marker in line and "error: `r" in line:
            index = int(line.split(marker)[1].split(".antt")[0])
            request = int(line.split("error: `r")[1].split("`")[0])
            found[index, request] = f"{chunk[index][0].name}, request {request}: {line.split('error: ')[1][:200]}"
    return found


def arguments():
    parser = argparse.ArgumentParser(description=__doc__.split("\n")[0])
    parser.add_argument("--seed", type=int, default=1)
    parser.add_argument("--cards", type=int, default=500)
    parser.add_argument("--texts", type=int, default=50, help="cases of texts and prints")
    parser.add_argument("--programs", type=int, default=50, help="cases of programs")
    parser.add_argument("--stored", action="store_true", help="the texts and prints on which the gate runs the drill, too")
    parser.add_argument("--largest", type=int, default=700, help="bytes of the largest card and text")
    parser.add_argument("--requests", type=int, default=8, help="the most requests of a card")
    parser.add_argument("--spoil", action="store_true", help="change a byte of one answer, which must then be refused")
    parser.add_argument("--keep", help="a folder for the temporary crates, kept afterwards")
    return parser.parse_args()


def chosen(random, requests, most):
    """At most so many of a case's requests, in their order."""
    if len(requests) <= most:
        return requests
    return [requests[i] for i in sorted(random.sample(range(len(requests)), most))]


def asked(options):
    """The cases, each with those of its requests that are asked."""
    random = Random(options.seed)
    for case in cases.generate(options.seed, options.cards, largest=options.largest):
        yield case, chosen(random, case.requests, options.requests)
    for case in cases.generate_programs(options.seed, options.programs, options.largest):
        yield case, case.requests
    made = enumerate(cases.generate_texts(options.seed, options.texts, options.largest))
    texts = [case._replace(name=f"texts and prints {index}") for index, case in made]
    if options.stored:
        texts += [*stored.text_cases(), *stored.print_cases()]
    for case in texts:
        yield case, [request for request in case.requests if request[0] in (drill.TEXT, drill.PRINT)]


def is_left_out(card, request, largest):
    """Whether a request has a longer text than the largest, or prints a node of a larger tree than LARGEST_TREE."""
    if request[0] == drill.TEXT:
        return len(cases.read_text(request)[0]) > largest
    _, accepted = guide.judge(card) if request[0] == drill.PRINT else (0, None)
    if accepted is None or two(request, 1) >= len(accepted.nodes.entries):
        return False
    return text.measures(accepted.nodes.entries)[two(request, 1)].size > LARGEST_TREE


def gather(options):
    """The cases, each with its requests and the oracle's answers; how often each answer was met for each call; and how many
    texts and prints were left out."""
    met, gathered, left = Counter(), [], 0
    for case, requests in asked(options):
        answered = []
        for request in map(cut_budget, requests):
            if is_left_out(case.card, request, options.largest):
                left += 1
                continue
            answer = drill.answer(case.card, request)
            met[CALLS[request[0] - 1], two(answer, 0)] += 1
            answered.append((request, answer))
        gathered.append((case, answered))
    return gathered, met, left


def table(met):
    """How often each answer was met for each call."""
    lines = ["answer  " + "".join(f"{call:>11}" for call in CALLS) + "      all"]
    for number in ANSWERS:
        row = [met[call, number] for call in CALLS]
        lines.append(f"{number:>6}  " + "".join(f"{n:>11}" for n in row) + f"{sum(row):>9}")
    return "\n".join(lines)


def hold(root, chunks):
    """Checks the crates of equations; answers the refused requests, and what else went wrong."""
    refused, trouble = [], ""
    for number, chunk in enumerate(chunks):
        status, output = checked(root, f"held{number}")
        found = disagreements(output, chunk)
        refused += found.values()
        if status != 0 and not found:
            trouble += output[-3000:]
    return refused, trouble


def spoil(gathered):
    """Changes the first byte of the last answer."""
    answered = gathered[-1][1]
    request, answer = answered[-1]
    answered[-1] = (request, bytes([answer[0] ^ 1]) + answer[1:])


def main():
    options = arguments()
    gathered, met, left = gather(options)
    print(table(met), flush=True)
    if options.spoil:
        spoil(gathered)
    root = options.keep or tempfile.mkdtemp(prefix="definitions-")
    prepare(root)
    chunks = [gathered[i : i + PER_CRATE] for i in range(0, len(gathered), PER_CRATE)]
    names = [write_crate(root, i, chunk) for i, chunk in enumerate(chunks)]
    subprocess.run(["git", "init", "-q", root], check=True)
    listed = ["paper:", "runs: paper", "meaning: paper runs", "notation: paper runs meaning", "deliberation: paper runs meaning"]
    listed += [f"{name}: paper runs meaning notation deliberation" for name in names]
    write(os.path.join(root, "crates.txt"), "\n".join(listed) + "\n")
    refused, trouble = hold(root, chunks)
    if not options.keep:
        shutil.rmtree(root)
    if left:
        print(f"{left} left out: texts of more than {options.largest} bytes and prints of more than {LARGEST_TREE} nodes")
    report(options, met, sum(len(answered) for _, answered in gathered), refused, trouble)


def report(options, met, total, refused, trouble):
    print("\n".join(refused) + trouble)
    expected = [n for n in ANSWERS if options.texts or options.stored or n not in OF_TEXTS]
    expected = [n for n in expected if options.programs or n not in OF_PROGRAMS]
    rare = [n for n in expected if sum(met[call, n] for call in CALLS) < 10]
    if rare:
        print("answers met fewer than ten times:", *rare)
    failed = total if trouble else len(refused)
    programs = f", {options.programs} cases of programs" if options.programs else ""
    texts = f", {options.texts} cases of texts and prints" if options.texts else ""
    print(f"{options.cards} cards{programs}{texts} of at most {options.largest} bytes, {total} requests, by seed {options.seed}")
    print(f"{total - failed} passed, {failed} failed")
    sys.exit(1 if failed else 0)


if __name__ == "__main__":
    main()
