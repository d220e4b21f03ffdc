#!/usr/bin/env python3
"""Holds the proved programs against the independent one, on fresh cases by seed.

    python3 tests/compare.py --seed 1 --cases 200000 --texts 20000 --programs 5000 --names 7000 --cuts 50000 --next 50000
    python3 tests/compare.py --seed 1 --cases 0 --cuts 50000      # deliberations that are cut, and no others

A case is a request of drill.md about a card. With --texts so many cases of texts to be read and nodes to be printed are added, six texts
and five nodes each; with --programs so many cases of programs to deliberate by, ten of them about a good card, three about a damaged
one; with --names so many cases of names asked for, most of them sixteen. With --cuts so many deliberations are cut at random places,
once to three times, and gone on with, each with the same deliberation in one beside it and with other numbers to go on with, right and
wrong ones; with --next so many next moves are asked for, each with a run with budget 1 beside it. The oracle's parts of a deliberation
have to be its one deliberation, and its next moves what its runs make, or nothing is compared. With --bounded so many cases of takes and
runs on bounded cards are added, about forty about a good card and four about a damaged one; with --lists so many cases of lists, twelve
about a good card and three about a damaged one. With --plain so many cases of the plain engine's loads, lists, takes and runs are added,
thirty to seventy about a good card and four about a damaged one: these are for the drill alone, as neither the header nor the module for
a page has such calls. A sort of cases whose request of document 02 is not in drill.LANDED of oracle/ has no option here.

The cases and the answers to them come from oracle/ by the seed. Each request goes through target/bin/drill, and the answer is compared
byte for byte; each card that the program of document 01 can read whole goes through target/bin/rigtemple too, and the lines are compared
with those of oracle/program.py. The first disagreement is told in words. The last line is 'N passed, M failed': requests and runs of the
program on which both agree.

--drill COMMAND, which may stand more than once, puts other programs in the drill's place: each request goes through each of them, and
target/bin/rigtemple is not run.

--spoil changes one of the oracle's answers and one of its lines, so that the last line has to say '2 failed'.
"""

import argparse
import multiprocessing
import os
import platform
import shlex
import shutil
import subprocess
import sys
from typing import Callable, NamedTuple

TOP = os.path.dirname(os.path.dirname(os.path.abspath(__file__)))
sys.path.insert(0, os.path.join(TOP, "oracle"))
sys.dont_write_bytecode = True

import cases  # noqa: E402
import drill  # noqa: E402
import guide  # noqa: E402
import program  # noqa: E402

PROCESSES = 2
REQUESTS_PER_CHUNK = 5000
CASES_PER_CHUNK = 250
SHOWN = 40


class Sort(NamedTuple):
    """A sort of cases: its option, the word for it in a chunk's seed, what makes so many of them by seed, the most bytes of a card or
    text that they can have, and what is counted."""

    option: str
    word: str
    generate: Callable
    most: int
    counted: str


TEXT_LIMIT, CARD_LIMIT = drill.TEXT_LIMIT, cases.CARD_BYTES_LIMIT
SORTS = (
    Sort("texts", "text", cases.generate_texts, TEXT_LIMIT, "cases of texts and printed nodes"),
    Sort("programs", "program", cases.generate_programs, CARD_LIMIT, "cases of programs"),
    Sort("names", "name", cases.generate_names, CARD_LIMIT, "cases of names"),
    Sort("cuts", "cut", cases.generate_cuts, CARD_LIMIT, "deliberations cut and gone on with"),
    Sort("next", "next", cases.generate_next, CARD_LIMIT, "next moves"),
) + tuple(Sort(option, option, make, CARD_LIMIT, counted) for _, option, counted, make in cases.LANDED_SORTS)


class Job(NamedTuple):
    """A chunk: its seed, the option of its sort of cases ('cases' for requests of document 01), how many of them, the largest card,
    text or sheet, whether the oracle is spoiled, and the commands that stand in the drill's place."""

    seed: str
    option: str
    count: int
    largest: int
    spoil: bool
    drills: tuple


class Held(NamedTuple):
    """What came of a chunk: how often each number was met for each call, how many runs of the program, how many
    disagreements, and the first of them in words."""

    met: list
    cards: int
    runs: int
    failed: int
    first: str


# ---- the proved programs


def build(names):
    """Has the kit prove and link the programs; what has not changed since is not proved again. The kit runs a program when it has linked
    it: here on no input."""
    places = os.environ.get("PATH", "/usr/bin:/bin") + ":/usr/local/bin"
    rt = shutil.which("rt", path=places) or sys.exit("compare.py: the command rt of the Rattle kit is missing")
    for name in names:
        folder = os.path.join(TOP, "crates", name)
        done = subprocess.run(
            [rt, "run"],
            cwd=folder,
            env=dict(os.environ, PATH=places),
            stdin=subprocess.DEVNULL,
            stdout=subprocess.DEVNULL,
            stderr=subprocess.PIPE,
            text=True,
        )
        if done.returncode != 0:
            last = "".join(done.stderr.splitlines(keepends=True)[-4:])
            sys.exit(f"{last}compare.py: nothing was compared, for 'rt run' in crates/{name} fails")
        os.makedirs(os.path.dirname(path(name)), exist_ok=True)
        shutil.copy2(os.path.join(folder, "out", name), path(name))


def path(name):
    """Where a program is kept."""
    return os.path.join(TOP, "target", "bin", name)


def command(name):
    """The words that run a program. The programs are for x86-64; elsewhere they run in the kit's emulator."""
    own = platform.machine() in ("x86_64", "AMD64")
    return (path(name),) if own else (os.path.join(TOP, "tests", "run_c.sh"), path(name))


def output(words, data):
    """What a command writes for some input."""
    return subprocess.run(words, input=data, stdout=subprocess.PIPE, stderr=subprocess.DEVNULL).stdout


# ---- the cases of a chunk


def cases_of(job):
    """The cases of some sort; or cases with just as many requests, of which the last is cut."""
    for sort in SORTS:
        if sort.option == job.option:
            yield from sort.generate(job.seed, job.count, min(job.largest, sort.most))
            return
    left = job.count
    for case in cases.generate(job.seed, job.count, job.largest):
        yield case._replace(requests=case.requests[:left])
        left -= len(case.requests[:left])
        if left == 0:
            return


def nothing_met():
    """How often each number was met for each call: not yet."""
    return [[0] * (max(cases.ANSWER_NUMBERS) + 1) for _ in cases.CALL_NAMES]


def answered(job):
    """The cases, each with the oracle's answers, and the table of these."""
    met, found = nothing_met(), []
    for case in cases_of(job):
        answers = [drill.answer(case.card, request) for request in case.requests]
        for request, answer in zip(case.requests, answers):
            met[cases.column(request)][guide.number(answer, 0)] += 1
        found.append((case, answers))
    return found, met


def spoiled(data):
    """The bytes with the first one changed."""
    return bytes([data[0] ^ 1]) + data[1:]


# ---- comparing


def shortened(data):
    """Bytes in hex, the first of them where there are many."""
    more = f"... ({len(data)} bytes)" if len(data) > SHOWN else ""
    return (data[:SHOWN].hex(" ") or "nothing") + more


def requests_that_differ(job, drill_words, found):
    """The requests to which a drill answers otherwise, in words; each is asked by itself."""
    for case, answers in found:
        for request, answer in zip(case.requests, answers):
            got = output(drill_words, cases.request_card(case.card) + request)
            if got != answer:
                call = cases.CALL_NAMES[cases.column(request)]
                yield (
                    f"seed {job.seed}, case '{case.name}', {call}:\n"
                    f"  request {shortened(request)}\n  drill   {shortened(got)}\n  oracle  {shortened(answer)}"
                )


def hold_requests(job, drill_words, found):
    """The disagreements of a drill. The requests are asked in one stream, and one by one only if that differs."""
    stream = b"".join(cases.stream(case for case, _ in found))
    expected = b"".join(b"".join(answers) for _, answers in found)
    got = output(drill_words, stream)
    if got == expected:
        return []
    at = len(os.path.commonprefix([got, expected]))
    alone = list(requests_that_differ(job, drill_words, found))
    return alone or [f"seed {job.seed}: the drill's answers differ in one stream only, first at byte {at}"]


def hold_program(job, found):
    """The disagreements of the program, and how many cards it was run on: those of at most 32,353 bytes, which it reads, in cases that
    are not of another sort."""
    runs = job.option == "cases" and job.drills == (command("drill"),)
    read = [case for case, _ in found if len(case.card) <= program.INPUT_LIMIT and runs]
    differing = []
    for number, case in enumerate(read):
        expected = "".join(line + "\n" for line in program.lines(case.card)).encode()
        if job.spoil and number == 0:
            expected = spoiled(expected)
        got = output(command("rigtemple"), case.card)
        if got != expected:
            differing.append(
                f"seed {job.seed}, case '{case.name}', the program's lines:\n"
                f"  program {ascii(got[-200:])}\n  oracle  {ascii(expected[-200:])}"
            )
    return differing, len(read)


def hold(job):
    """Compares all of a chunk."""
    found, met = answered(job)
    if job.spoil:
        found[-1][1][-1] = spoiled(found[-1][1][-1])
    differing = [one for words in job.drills for one in hold_requests(job, words, found)]
    others, runs = hold_program(job, found)
    differing += others
    return Held(met, len(found), runs, len(differing), differing[0] if differing else "")


# ---- the command


def arguments():
    """The seed, how many requests, and the rest of the command's words."""
    parser = argparse.ArgumentParser(description=__doc__.split("\n")[0])
    parser.add_argument("--seed", default="1")
    parser.add_argument("--cases", type=int, default=200000, help="how many requests")
    for sort in SORTS:
        parser.add_argument(f"--{sort.option}", type=int, default=0, help=f"how many {sort.counted}")
    parser.add_argument("--largest", type=int, default=65535, help="bytes of the largest card, text and sheet")
    parser.add_argument("--drill", action="append", default=[], help="another program in the drill's place, as a command")
    parser.add_argument("--spoil", action="store_true", help="change one answer and one line of the oracle's")
    options = parser.parse_args()
    if options.cases < 1 and (options.spoil or not any(getattr(options, sort.option) for sort in SORTS)):
        parser.error("--cases takes a number from 1 on, where nothing else is asked for and with --spoil")
    return options


def chunks(count):
    """So many cases in chunks: the number of each, and how many it has."""
    for number, begin in enumerate(range(0, count, CASES_PER_CHUNK)):
        yield number, min(CASES_PER_CHUNK, count - begin)


def jobs(options):
    """The chunks, each with a seed of its own."""
    drills = tuple(tuple(shlex.split(words)) for words in options.drill) or (command("drill"),)
    for number, begin in enumerate(range(0, options.cases, REQUESTS_PER_CHUNK)):
        count = min(REQUESTS_PER_CHUNK, options.cases - begin)
        yield Job(f"{options.seed}.{number}", "cases", count, options.largest, options.spoil and number == 0, drills)
    for sort in SORTS:
        for number, count in chunks(getattr(options, sort.option)):
            yield Job(f"{options.seed}.{sort.word}.{number}", sort.option, count, options.largest, False, drills)


def main():
    """Compares all chunks, and prints the table and the counts."""
    options = arguments()
    if not options.drill:
        build(("drill", "rigtemple"))
    met = nothing_met()
    cards = runs = failed = 0
    with multiprocessing.Pool(PROCESSES) as pool:
        for held in pool.imap(hold, jobs(options)):
            met = [[x + y for x, y in zip(*columns)] for columns in zip(met, held.met)]
            if held.failed and not failed:
                print("the first disagreement: " + held.first, flush=True)
            cards, runs, failed = cards + held.cards, runs + held.runs, failed + held.failed
    print(cases.table(met))
    requests = sum(sum(column) for column in met)
    through = f", each through {len(options.drill)} programs" if options.drill else f" and {runs} runs of the program"
    print(f"{requests} requests about {cards} cards{through}, by seed {options.seed}")
    print(f"{requests * max(1, len(options.drill)) + runs - failed} passed, {failed} failed")
    sys.exit(1 if failed else 0)


if __name__ == "__main__":
    main()
