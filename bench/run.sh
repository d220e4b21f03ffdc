#!/bin/sh
# Measures the library against the C engine: nanoseconds for each call and for a move of a run, and
# how a move's time grows. bench/growth.py draws the last table.
#
#   bench/run.sh [--engine]
#
# --engine puts the engine on both sides: all ratios are then about 1. Both sides are compiled for
# x86-64 with no extensions; on other machines they run in the kit's emulator, and only the ratios
# mean something.
set -eu

die() { printf 'run.sh: %s\n' "$*" >&2; exit 2; }

[ $# -eq 0 ] || [ "$*" = --engine ] || die "usage: run.sh [--engine]"
root=$(cd "$(dirname "$0")/.." && pwd)
archive=$("$root/tests/archive.sh" "$@")
"$root/tests/build_c.sh" "$root/target/c/bench" "$root/bench/bench.c" "$root/bench/engine.c" \
    "$root/tests/cards.c" "$root/tests/programs.c" "$archive"
exec "$root/tests/run_c.sh" "$root/target/c/bench"
