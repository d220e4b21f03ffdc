#!/bin/sh
# The example that an app's programmer is handed, examples/turned_screen.c, built from the folder of
# ./library with nothing but what is in it: by the kit's compiler, and by the machine's own where
# there is one. Every case is run with each; examples/bounded_screen.c beside it. The last line is
# 'N passed, M failed'.
#
#   tests/example.sh
set -eu

die() { printf 'example.sh: %s\n' "$*" >&2; exit 2; }

[ $# -eq 0 ] || die "usage: example.sh"
root=$(cd "$(dirname "$0")/.." && pwd)
tests=$root/tests
room=$(mktemp -d)
trap 'rm -rf "$room"' EXIT
stripe=$root/cards/stripe.card
teaching=$root/cards/teaching.program
passed=0
failed=0

# Runs the example on a card and a kept file, maybe with a program, with lines of input, and holds its
# exit status and a part of what it says against what is expected.
expect() { # WHAT STATUS PART LINES CARD KEPT [PROGRAM]
    told=$1 wanted=$2 part=$3 lines=$4 ended=0
    shift 4
    # shellcheck disable=SC2086  # a command of words
    printf '%b' "$lines" | $example "$@" >"$room/said" 2>&1 || ended=$?
    if [ "$ended" -eq "$wanted" ] && grep -qF -- "$part" "$room/said"; then
        passed=$((passed + 1))
    else
        failed=$((failed + 1))
        printf 'failed: %s (exit status %d)\n' "$told" "$ended"
        sed 's/^/    /' "$room/said"
    fi
}

# Counts one thing that a command has to find so.
holds() { # WHAT COMMAND...
    what_holds=$1
    shift
    if "$@"; then passed=$((passed + 1)); else
        failed=$((failed + 1))
        printf 'failed: %s\n' "$what_holds"
    fi
}

not() { ! "$@"; }

# Writes bytes over those of the kept file.
over() { # AT BYTES
    printf '%b' "$2" | dd of="$kept" bs=1 seek="$1" conv=notrunc 2>/dev/null
}

# The lines that say that the moves up to a number are made, one after the other.
all_up_to() { # NUMBER
    seq 1 "$1" | tr '\n' '+' | sed 's/+/\\n/g'
}

# The screen is turned after each move, and what is kept is the same as without a turn. The sixth move
# finishes a band.
turned() { # ENDING [PROGRAM]
    ending=$1
    shift
    rm -f "$kept"
    expect 'nothing is done' 0 'last: none' '' "$stripe" "$kept" "$@"
    for move in 1 2 3 4 5 6; do
        expect "move $move, then a turn" 0 "last: $move " "$move\n" "$stripe" "$kept" "$@"
        holds 'it was shown as the next' grep -q "^next: $move " "$room/said"
    done
    expect 'a band is finished after six' 0 'bands finished: 1' '' "$stripe" "$kept" "$@"
    holds 'the card is at its end' grep -qx "end: $ending" "$room/said"
    holds 'the last move is shown again' grep -qx 'last: 6 act 0' "$room/said"
    rm -f "$kept.straight"
    expect 'six moves without a turn' 0 "end: $ending" "$(all_up_to 7)" "$stripe" "$kept.straight" "$@"
    holds 'the same is kept' cmp "$kept" "$kept.straight"
    holds 'nothing lies beside it' test ! -e "$kept.beside"
}

# A line that does not say that the shown move is made changes nothing.
touches() {
    rm -f "$kept"
    expect 'a second touch changes nothing' 0 'last: 1 select 0' '1\n1\n' "$stripe" "$kept"
    holds 'the same is the next' test "$(grep -c '^next: 2 ' "$room/said")" -eq 2
    holds 'nothing behind it is' test "$(grep -c '^next: 3 ' "$room/said")" -eq 0
    for line in '' 0 3 two -2 2x '2 x' 4294967298; do
        expect "the line '$line' changes nothing" 0 'next: 2 revise 0' "$line\n" "$stripe" "$kept"
        holds 'the same is the last' test "$(grep -c '^last: 1 ' "$room/said")" -eq 2
    done
    over 24 '\0002\0001'
    expect 'the bands are those of the kept place' 0 'bands finished: 258' '' "$stripe" "$kept"
}

choices() {
    rm -f "$kept"
    expect 'a choice of the weaver is taken' 0 'last: 1 select 0' '1 0\n' "$stripe" "$kept"
    expect 'one that is closed is refused by name' 0 'refused: front: ' '2 0\n' "$stripe" "$kept"
    expect 'there is no such choice' 0 'refused: no rule: ' '2 70000\n' "$stripe" "$kept"
    expect 'all is where it stood' 0 'open: 512' '' "$stripe" "$kept"
    expect 'a condition that is false' 0 'refused: condition: ' '2 512\n3\n4 514\n' "$stripe" "$kept"
    expect 'the node that settled it' 0 '(node 2)' '4 514\n' "$stripe" "$kept"
    expect 'another reason has no node' 0 'refused: front: ' '4 512\n' "$stripe" "$kept"
    holds 'no node was told' not grep -qF '(node ' "$room/said"
    rm -f "$kept"
    expect 'a choice beside a program' 0 'next: 2 revise 0' '1 0\n' "$stripe" "$kept" "$teaching"
    rm -f "$kept"
    expect 'a plan that would get too long' 0 'end: full' "$(all_up_to 681)" "$room/growing.card" "$kept"
}

# How a program ends, and which program it is.
programs() {
    rm -f "$kept"
    printf '\0\0\0\0' >"$room/execute"
    printf '\0\0\0\0\3\0\0\0\4\0\1\0' >"$room/idle"
    expect 'a program that has no move' 0 'end: stuck' '' "$stripe" "$kept" "$room/execute"
    rm -f "$kept"
    expect 'a program that idles for ever' 0 'end: idle' '' "$stripe" "$kept" "$room/idle"
    rm -f "$kept"
    expect 'a file that is no program' 1 'the program is refused: program: ' '' "$stripe" "$kept" "$stripe"
    head -c 516 /dev/zero >"$room/long"
    expect 'a program of 129 entries' 1 'the program is refused: program: ' '' "$stripe" "$kept" "$room/long"
    holds 'nothing is kept of them' test ! -e "$kept"
    expect 'the program is kept' 0 'last: 1 select 0' '1\n' "$stripe" "$kept" "$teaching"
    expect 'another one given is not gone on with' 0 'next: 3 act 1' '2\n' "$stripe" "$kept" "$room/execute"
    expect 'nor is none' 0 'end: finished' '3\n4\n5\n6\n' "$stripe" "$kept"
}

# What is refused of a kept file is told, and the file stays as it is.
stays() { # WHAT PART CARD
    cp "$kept" "$kept.bad"
    expect "$1" 1 "$2" '1\n2\n' "$3" "$kept"
    holds "$1 stays" cmp "$kept" "$kept.bad"
}
refused_files() {
    : >"$kept"
    stays 'an empty file' 'is cut off' "$stripe"
    rm -f "$kept"
    expect 'no file is a beginning' 0 'last: none' '1\n' "$stripe" "$kept" "$teaching"
    stays "another card's" 'is of another card' "$room/growing.card"
    cp "$kept" "$kept.good"
    over 63 '\0003'
    stays 'a place with phase 3' 'refused: count: ' "$stripe"
    cp "$kept.good" "$kept" && over 54 '\0012'
    stays 'a number that is no entry' 'refused: program: ' "$stripe"
    cp "$kept.good" "$kept" && over 14 '\0011'
    stays 'an entry of an unknown kind' 'refused: program: ' "$stripe"
    cp "$kept.good" "$kept" && over 8 '\0000\0003'
    stays 'a last move that is none' 'or is no such file' "$stripe"
    cp "$kept.good" "$kept" && over 12 '\0001\0001'
    stays 'more numbers than there are' 'or is no such file' "$stripe"
    head -c 53 "$kept.good" >"$kept"
    stays 'one that is cut off' 'is cut off' "$stripe"
    { cat "$kept.good" && head -c 2000 /dev/zero; } >"$kept"
    stays 'a longer one' 'refused: offsets: ' "$stripe"
}

# What cannot be kept is told, nothing is shown, and what was kept stays.
not_kept() {
    expect 'there is no such folder' 2 'nothing is kept in' '1\n' "$stripe" "$room/none/kept"
    holds 'nothing was shown' test "$(wc -l <"$room/said")" -eq 1
    rm -f "$kept"
    expect 'something to go on from' 0 'last: 1 ' '1\n' "$stripe" "$kept"
    cp "$kept" "$kept.good"
    mkdir "$kept.beside"
    expect 'nothing can be written beside it' 2 'nothing is kept in' '2\n' "$stripe" "$kept"
    holds 'the move does not count' not grep -q '^last: 2 ' "$room/said"
    holds 'what was kept stays' cmp "$kept" "$kept.good"
    rmdir "$kept.beside"
    echo half >"$kept.beside"
    expect 'what a stop left beside it is written over' 0 'last: 2 ' '2\n' "$stripe" "$kept"
    expect 'a folder is no file' 2 'what was kept is not read from' '' "$stripe" "$room"
}

cards() {
    expect 'a refused card is told by name' 1 'refused: node: ' '' "$root/cards/loop.card" "$kept"
    expect 'a card that is not there' 2 'the card is not read from' '' "$room/none.card" "$kept"
    cat "$root/cards/maximal.card" "$stripe" >"$room/long.card"
    expect 'a file longer than any card' 1 'refused: offsets: ' '' "$room/long.card" "$kept"
}

# The screen for bounded cards: how a run ends, a choice, why one is closed, and an open card.
bounded() { # COMMAND...
    example=$*
    expect 'a run on a bounded card rests' 0 'rests after 6 moves, bands finished: 1' '' "$stripe"
    expect 'a choice on a bounded card' 0 'took 0: 1 actions are left' '' "$stripe" 0
    expect 'a closed choice' 1 'refused: front: ' '' "$stripe" 256
    expect 'an open card' 1 'refused: open or heavy: ' '' "$room/growing.card"
}

try_all() { # COMMAND...
    example=$* kept=$room/kept
    rm -rf "$room/kept"*
    turned rest
    turned finished "$teaching"
    touches
    choices
    programs
    refused_files
    not_kept
    cards
}

"$root/library" "$room/handed" 2>/dev/null || die './library failed'
"$root/rigtemple" card "$root/cards/growing.text" >"$room/growing.card" 2>/dev/null ||
    die './rigtemple card failed'
folder=$room/handed
CFLAGS="-I $folder" "$tests/build_c.sh" "$room/kit" "$folder/turned_screen.c" \
    "$folder/librigtemple.a"
try_all "$tests/run_c.sh" "$room/kit"
CFLAGS="-I $folder" "$tests/build_c.sh" "$room/bounded" "$root/examples/bounded_screen.c" \
    "$folder/librigtemple.a"
bounded "$tests/run_c.sh" "$room/bounded"
printf "by the kit's compiler with the library: %d passed, %d failed\n" "$passed" "$failed"

# shellcheck source=tests/machine.sh
. "$tests/machine.sh"
if [ -n "$linked" ]; then
    cc -std=c99 -Wall -Wextra -Werror -I "$folder" "$folder/turned_screen.c" \
        "$linked/librigtemple.a" -o "$room/machine"
    try_all "$room/machine"
    cc -std=c99 -Wall -Wextra -Werror -I "$folder" "$root/examples/bounded_screen.c" \
        "$linked/librigtemple.a" -o "$room/bounded"
    bounded "$room/bounded"
    printf "and by the machine's compiler with %s\n" "$what"
fi
printf '%d passed, %d failed\n' "$passed" "$failed"
[ "$failed" -eq 0 ]
