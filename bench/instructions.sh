#!/bin/sh
# Counts the instructions that a call of the library takes, and of the C engine: on the stripe card made endless and on a typical
# card, after three moves, with a copy of the configuration for each call; of a deliberation of one plan, from where the first plan is
# finished, and gone on with after three moves of it; of the text calls on the stripe card's text and node 4, and on a text of 31 KB and a node that prints 255; of a name with two
# sheets for the stripe card, and with two of about 10 KB each. Unlike a time, a count is the same in every run and wherever the code lies.
#
#   bench/instructions.sh [--engine]
#
# --engine puts the engine on both sides: all ratios are then about 1.
# It counts in an emulator: the kit's own, which the kit has for machines that are not x86-64, or Debian's (qemu-user).
set -eu

die() { printf 'instructions.sh: %s\n' "$*" >&2; exit 2; }

[ $# -eq 0 ] || [ "$*" = --engine ] || die "usage: instructions.sh [--engine]"
root=$(cd "$(dirname "$0")/.." && pwd)
# shellcheck source=tests/kit.sh
. "$root/tests/kit.sh"
emulator=$own/qemu-x86_64
[ -x "$emulator" ] || emulator=$(command -v qemu-x86_64) || die "there is no emulator: install Debian's package qemu-user"
# One instruction at a time: the emulator's word for it changed with its version 8.1.
step=-singlestep
! "$emulator" -help | grep -q one-insn-per-tb || step=-one-insn-per-tb
program=$root/target/c/instructions
archive=$("$root/tests/archive.sh" "$@")
"$root/tests/build_c.sh" "$program" "$root/bench/instructions.c" "$root/bench/engine.c" \
    "$root/bench/engine_text.c" "$root/bench/engine_names.c" "$root/tests/cards.c" "$root/tests/programs.c" \
    "$root/tests/sheets.c" "$root/tests/texts.c" "$archive"
log=$(mktemp)
trap 'rm -f "$log"' EXIT

# How many instructions the program takes with the words that are given.
count() {
    "$emulator" $step -d exec,nochain -D "$log" "$lib/ld-linux-x86-64.so.2" \
        --library-path "$lib" "$program" "$@" || [ $? -eq 1 ] || die "no such card or call"
    grep -c '^Trace' "$log"
}

# How many a call takes: of two calls, less those of one.
call() { echo $(($(count "$1" "$2" "$3" 2) - $(count "$1" "$2" "$3" 1))); }

printf '%-28s %10s %10s %7s\n' instructions ours engine ratio
for card in 0:stripe 1:typical; do
    for what in 0:check 1:load 2:grade 3:list 4:take 5:'take, with 16' 6:'run of 1' \
        7:'run of 9' 8:save 9:restore 10:deliberate 11:text 12:print 13:name 14:next \
        15:'take on a bounded card' 16:'run of 9 on a bounded card' 17:'go on by 1' 18:'go on to the end'; do
        [ "$card $what" != '1:typical 5:take, with 16' ] || continue
        ours=$(call 0 "${card%%:*}" "${what%%:*}")
        engine=$(call 1 "${card%%:*}" "${what%%:*}")
        printf '%-28s %10d %10d %7s\n' "${what#*:}, ${card#*:}" "$ours" "$engine" \
            "$(awk "BEGIN { printf \"%.2f\", $ours / $engine }")"
    done
done
