#!/bin/sh
# Makes every call through include/rigtemple.h on a stack of its bound and no more (tests/bound.c):
# 2,048 bytes, and for reading a text what the header's head states. Two stacks that are known to be
# too small show that going over is seen. The last line is 'N passed, M failed'.
#
#   tests/bound.sh
set -eu

die() { printf 'bound.sh: %s\n' "$*" >&2; exit 2; }

[ $# -eq 0 ] || die "usage: bound.sh"
tests=$(cd "$(dirname "$0")" && pwd)
work=$tests/../target/c
# shellcheck source=tests/stated.sh
. "$tests/stated.sh"
text=$(stated text)
[ -n "$text" ] || die "the header states no bytes of stack for text"
text=$(((text + 15) / 16 * 16)) # a stack is aligned so
archive=$("$tests/archive.sh")
"$tests/build_c.sh" "$work/bound" "$tests/bound.c" "$tests/calls.c" "$tests/cards.c" \
    "$tests/programs.c" "$tests/sheets.c" "$tests/texts.c" "$archive"
passed=0
failed=0

# Makes a call in all its cases on a stack of so many bytes, and holds what is said of it against what is wanted.
hold() { # WANTED CALL BYTES
    said=$("$tests/run_c.sh" "$work/bound" "$2" "$3") || true
    said=${said#"$2 $3 "}
    case $said in
    "$1"*) passed=$((passed + 1)) fault= ;;
    *) failed=$((failed + 1)) fault="; failed: wanted is '$1'" ;;
    esac
    printf '%-12s %6d bytes of stack: %s%s\n' "$2" "$3" "${said:-nothing is said}" "$fault"
}

for call in check load grade list next take run take_bounded run_bounded save restore deliberate go_on print name; do
    hold ok "$call" 2048
done
hold ok text "$text"

# The controls: what is too small for any check, and 16 bytes too few for the deepest text.
hold 'goes over' check 384
hold 'goes over' text $((text - 16))

printf '%d passed, %d failed\n' "$passed" "$failed"
[ "$failed" -eq 0 ]
