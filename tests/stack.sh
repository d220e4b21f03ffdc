#!/bin/sh
# Measures the deepest stack of each call through include/rigtemple.h; fails over 2,048 bytes, for
# reading a text over 33,792, and where the header's head states another figure. The last line is 'N passed, M failed'.
#
#   tests/stack.sh [--engine]
#
# --engine measures the C engine of bench/ instead of the library.
set -eu

die() { printf 'stack.sh: %s\n' "$*" >&2; exit 2; }

[ $# -eq 0 ] || [ "$*" = --engine ] || die "usage: stack.sh [--engine]"
tests=$(cd "$(dirname "$0")" && pwd)
work=$tests/../target/c
# shellcheck source=tests/stated.sh
. "$tests/stated.sh"
archive=$("$tests/archive.sh" "$@")
"$tests/build_c.sh" "$work/stack" "$tests/stack.c" "$tests/calls.c" "$tests/cards.c" \
    "$tests/programs.c" "$tests/sheets.c" "$tests/texts.c" "$archive"
"$tests/run_c.sh" "$work/stack" >"$work/stack.out"
passed=0
failed=0

while read -r call bytes; do
    fault=
    most=2048
    [ "$call" != text ] || most=33792
    [ "$bytes" -le $most ] || fault=", which is over $most"
    [ $# -gt 0 ] || [ "$bytes" = "$(stated "$call")" ] || fault="$fault, not as the header states"
    if [ -z "$fault" ]; then passed=$((passed + 1)); else failed=$((failed + 1)); fi
    printf '%-12s %6d bytes of stack%s\n' "$call" "$bytes" "$fault"
done <"$work/stack.out"
printf '%d passed, %d failed\n' "$passed" "$failed"
[ "$passed" -eq 16 ]
