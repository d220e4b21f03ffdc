#!/bin/sh
# The turned screen through include/rigtemple.h (tests/turned.c): the screen is turned after every
# single move of random cards, and each run is compared with the one that was never turned, and what
# comes next is told before each. Deliberations are cut anywhere, and gone on with from the numbers
# that remain. A caller that forgets the phase at a turn, one that forgets the finished count, and
# one that forgets the numbers have to be found. The last line is 'N passed, M failed'.
#
#   tests/turned.sh [--engine] [--seed N] [--cards N] [--largest BYTES]
#
# The cards are made by oracle/ from the seed: so many good ones, each with four configurations that
# it accepts and one that it refuses, and three programs, now and then broken; and a tenth as many
# damaged ones. --engine puts the C engine of
# bench/ in the library's place.
set -eu

die() { printf 'turned.sh: %s\n' "$*" >&2; exit 2; }

engine=
seed=1
cards=1000
largest=32352
while [ $# -gt 0 ]; do
    case $1 in
    --engine) engine=--engine ;;
    --seed) seed=${2:?--seed takes a number}; shift ;;
    --cards) cards=${2:?--cards takes a number}; shift ;;
    --largest) largest=${2:?--largest takes a number}; shift ;;
    *) die "usage: turned.sh [--engine] [--seed N] [--cards N] [--largest BYTES]" ;;
    esac
    shift
done

command -v python3 >/dev/null || die "python3 is missing"
root=$(cd "$(dirname "$0")/.." && pwd)
tests=$root/tests
work=$root/target/c
mkdir -p "$work"
archive=$("$tests/archive.sh" $engine)
"$tests/build_c.sh" "$work/turned" "$tests/turned.c" "$archive"

# The drill's requests 0, 6 and 11: a card, the runs on it, and the deliberations.
PYTHONPATH=$root/oracle python3 -B - "$seed" "$cards" "$largest" >"$work/turned.requests" <<'END'
import itertools
import sys
from random import Random

import cards
import cases
import damage
import drill
import guide
import schemes

seed, count, largest = sys.argv[1], int(sys.argv[2]), int(sys.argv[3])
items = itertools.cycle(cases.damage_order(seed))


def damaged_configuration(random, accepted, held):
    order = random.sample(damage.CONFIGURATION_DAMAGES, len(damage.CONFIGURATION_DAMAGES))
    return next(filter(None, (one.change(random, accepted, held) for one in order)))


def damaged_card(random):
    while True:
        card = cases.next_damaged_case(random, items, largest).card
        if guide.judge(card)[1] is None:
            return card


def put(random, card, held):
    sys.stdout.buffer.write(cases.request_card(card))
    for configuration in held:
        budget = random.choice((3, 10, 20, 40))
        sys.stdout.buffer.write(cases.request_about(random, drill.RUN, configuration, budget))


def put_programs(random, card, accepted, held):
    for _ in range(3):
        whole, found = schemes.some_program(random, card, accepted, random.choice(held))
        budget = random.choice((3, 10, 20, 40))
        sys.stdout.buffer.write(cases.request_deliberate(random, whole, found, budget))


for index in range(count):
    random = Random("%s turned %d" % (seed, index))
    card = cards.card(cards.good_card(random, largest))
    _, accepted = guide.judge(card)
    held = cases.some_configurations(random, card, accepted)
    refused = damaged_configuration(random, accepted, held[0])
    put(random, card, held + [refused])
    put_programs(random, card, accepted, held + [refused])
    if index % 10 == 0:
        put(random, damaged_card(random), [guide.EMPTY, held[0]])
        put_programs(random, card, accepted, held)
END

said=$("$tests/run_c.sh" "$work/turned" <"$work/turned.requests") || true
last=$(printf '%s\n' "$said" | tail -n 1)
case $last in
*' passed, '*' failed') ;;
*) printf '%s\n' "$said"; die "tests/turned.c did not end" ;;
esac
printf '%s\n' "$said" | sed '$d'
passed=${last%% passed*}
failed=${last##*passed, }
failed=${failed% failed}

# The controls: what is forgotten at a turn is found.
for forgotten in phase count numbers; do
    found=$("$tests/run_c.sh" "$work/turned" "$forgotten" <"$work/turned.requests" | tail -n 1) || true
    case $found in
    *' passed, 0 failed' | '') failed=$((failed + 1)) what='is not found' ;;
    *) passed=$((passed + 1)) what="is found: $found" ;;
    esac
    printf 'a turn that forgets the %s %s\n' "$forgotten" "$what"
done
printf '%s passed, %s failed\n' "$passed" "$failed"
[ "$failed" -eq 0 ]
