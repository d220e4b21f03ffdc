#!/usr/bin/env bash
# Runs every test that stands outside the gate, a line for each with what it counts and its seconds; the last line is
# 'N passed, M failed'. A test that fails is told with its last lines.
#
#   tests/all.sh [--seed N] [--cases N]
#
# --seed chooses the fresh cases (1), --cases how many go through the drill (20,000). Programs and library are proved and linked
# first where they are missing or old. tests/definitions.py, tests/compare.py, tests/c.sh and tests/kill.sh take larger numbers by
# themselves.
set -eu

die() { printf 'all.sh: %s\n' "$*" >&2; exit 2; }

seed=1
cases=20000
while [ $# -gt 0 ]; do
    case $1 in
    --seed) seed=${2:-}; shift $(($# > 1)) ;;
    --cases) cases=${2:-}; shift $(($# > 1)) ;;
    *) die "usage: all.sh [--seed N] [--cases N]" ;;
    esac
    shift
done
case $seed,$cases in ,* | *, | *[!0-9,]*) die "--seed and --cases take a number" ;; esac
cd "$(dirname "$0")/.."
# shellcheck source=tests/kit.sh
. tests/kit.sh
command -v python3 >/dev/null || die "python3 is missing"
room=$(mktemp -d)
trap 'rm -rf "$room"' EXIT
passed=0
failed=0

# Runs one test: what it counts is in its last line, 'N passed, M failed'; one that counts nothing passes or fails as a whole.
try() { # COMMAND...
    began=$SECONDS
    ended=0
    "$@" >"$room/said" 2>&1 </dev/null || ended=$?
    counted=$(tail -n 1 "$room/said" | sed -n 's/^\([0-9]*\) passed, \([0-9]*\) failed$/\1 \2/p')
    [ -n "$counted" ] || if [ "$ended" -eq 0 ]; then counted='1 0'; else counted='0 1'; fi
    [ "$ended" -eq 0 ] || [ "${counted#* }" -gt 0 ] || counted="${counted% *} 1"
    passed=$((passed + ${counted% *}))
    failed=$((failed + ${counted#* }))
    printf '%-58s %7d passed, %d failed, %4d s\n' "$*" "${counted% *}" "${counted#* }" $((SECONDS - began))
    [ "$ended" -eq 0 ] || tail -n 20 "$room/said" | sed 's/^/    /'
}

documents=../shared/documents
try python3 tests/tidy.py
if [ -d "$documents" ]; then try python3 tests/promises.py --documents "$documents"; else try python3 tests/promises.py; fi
try python3 -B oracle/test_oracle.py
try python3 -B oracle/test_text.py
try python3 -B oracle/stored.py --check
try tests/script.sh
try python3 tests/cards.py
try tests/c.sh --seed "$seed"
try tests/c.sh --seed "$seed" --engine
try tests/turned.sh --seed "$seed"
try tests/turned.sh --seed "$seed" --engine
try tests/library.sh
try tests/example.sh
try tests/languages.sh
try tests/kill.sh --kills 3 --fresh 5 --seed "$seed"
try tests/room.sh
try tests/bound.sh
try tests/tablets.sh --seed "$seed" --cases $((cases / 10)) --texts $((cases / 400)) --programs $((cases / 400)) \
    --names $((cases / 400)) --cuts $((cases / 100)) --next $((cases / 100)) --bounded $((cases / 1000)) \
    --lists $((cases / 1000))
try python3 tests/definitions.py --seed "$seed" --cards 100
try python3 tests/compare.py --seed "$seed" --cases "$cases" --texts $((cases / 20)) --programs $((cases / 20)) \
    --names $((cases / 20)) --cuts $((cases / 20)) --next $((cases / 20)) --bounded $((cases / 200)) --lists $((cases / 200)) \
    --plain $((cases / 200))
try python3 tests/every_place.py
printf '%d passed, %d failed\n' "$passed" "$failed"
[ "$failed" -eq 0 ]
