#!/bin/sh
# Measures the library's call for names against the C engine's, which has a UTF-8 validator of its
# own: megabytes a second of sheets checked, in the same run.
#
#   bench/names.sh [--engine]
#
# --engine puts the engine on both sides: all ratios are then about 1. On machines that are not
# x86-64 both sides run in the kit's emulator, and only the ratios mean something.
set -eu

die() { printf 'names.sh: %s\n' "$*" >&2; exit 2; }

[ $# -eq 0 ] || [ "$*" = --engine ] || die "usage: names.sh [--engine]"
root=$(cd "$(dirname "$0")/.." && pwd)
archive=$("$root/tests/archive.sh" "$@")
"$root/tests/build_c.sh" "$root/target/c/names" "$root/bench/names.c" "$root/bench/engine.c" \
    "$root/bench/engine_names.c" "$root/tests/cards.c" "$root/tests/sheets.c" "$archive"
exec "$root/tests/run_c.sh" "$root/target/c/names"
