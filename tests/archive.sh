#!/bin/sh
# Prints the path of what a C program links for include/rigtemple.h.
#
#   tests/archive.sh             the archive of the crate board, built if it is missing or old
#   tests/archive.sh --engine    the C engine of bench/ under the library's names
set -eu

die() { printf 'archive.sh: %s\n' "$*" >&2; exit 2; }

[ $# -eq 0 ] || [ "$*" = --engine ] || die "usage: archive.sh [--engine]"

root=$(cd "$(dirname "$0")/.." && pwd)
if [ "${1:-}" = --engine ]; then
    # shellcheck source=tests/engine.sh
    . "$root/tests/engine.sh"
    CFLAGS=$names "$root/tests/build_c.sh" "$root/target/c/engine_as_board.o" "$root/bench/engine.c" \
        "$root/bench/engine_text.c" "$root/bench/engine_names.c"
    printf '%s\n' "$root/target/c/engine_as_board.o"
    exit 0
fi

# shellcheck source=tests/board.sh
. "$root/tests/board.sh"
build_board
printf '%s\n' "$archive"
