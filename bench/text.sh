#!/bin/sh
# Measures the text calls of the library against the C engine: megabytes a second of text read and
# printed, in the same run.
#
#   bench/text.sh [--engine]
#
# --engine puts the engine on both sides: all ratios are then about 1. On machines that are not
# x86-64 both sides run in the kit's emulator, and only the ratios mean something.
set -eu

die() { printf 'text.sh: %s\n' "$*" >&2; exit 2; }

[ $# -eq 0 ] || [ "$*" = --engine ] || die "usage: text.sh [--engine]"
root=$(cd "$(dirname "$0")/.." && pwd)
archive=$("$root/tests/archive.sh" "$@")
"$root/tests/build_c.sh" "$root/target/c/text" "$root/bench/text.c" "$root/bench/engine.c" \
    "$root/bench/engine_text.c" "$root/tests/cards.c" "$root/tests/texts.c" "$archive"
exec "$root/tests/run_c.sh" "$root/target/c/text"
