#!/usr/bin/env bash
# Measures the room that the guide needs: the deepest stack of each call through the header (tests/stack.sh), what an app lends with
# the largest card, and the stack of the program. The last line is 'N passed, M failed': each call within 2,048 bytes, reading a text
# within 33,792, and all together, and the program, within 65,536.
#
#   tests/room.sh
set -eu

die() { printf 'room.sh: %s\n' "$*" >&2; exit 2; }

[ $# -eq 0 ] || die "usage: room.sh"
root=$(cd "$(dirname "$0")/.." && pwd)
most=65536
passed=0
failed=0

# Says whether a figure is within its bound.
within() { # WHAT BYTES BOUND
    if [ "$2" -le "$3" ]; then passed=$((passed + 1)); else failed=$((failed + 1)); fi
    printf '%-42s %6d bytes, at most %d\n' "$1" "$2" "$3"
}

calls=$("$root/tests/stack.sh" | grep ' bytes of stack') || die "tests/stack.sh failed"
deepest=0
reading=0
while read -r call bytes _; do
    bound=2048
    [ "$call" != text ] || bound=33792
    within "the stack of $call" "$bytes" $bound
    [ "$call" != text ] || { reading=$bytes; continue; }
    [ "$bytes" -le "$deepest" ] || deepest=$bytes
done <<END
$calls
END

# What an app lends: the largest card, of edition 2, a configuration as the header lays it out, a list of every choice, the largest place, the
# longest program, and what remains of it twice: to go on from, and then. Names take two sheets of 65,535 bytes at most; here each has 40 bytes for each of 256 actions.
card=32352
configuration=1094
list=$((2 * 768))
place=$((76 + 1024))
of_text=24128
longest=512
remaining=$((2 * 128))
sheet=$((2 * 256 + 4 + 256 * 40))
printf '%-42s %6d bytes\n' 'the largest card' "$card" 'a configuration' "$configuration" 'a list of 768 choices' "$list" \
    'the largest place' "$place" 'the longest program' "$longest" 'what remains of it, twice' "$remaining" \
    'a sheet of 256 names, 40 bytes each' "$sheet"
within 'all of it with the deepest stack' $((card + configuration + list + place + longest + remaining + deepest)) "$most"
within 'the same with two such sheets' $((card + configuration + list + place + longest + remaining + 2 * sheet + deepest)) "$most"
# To read a text an app lends the text, of any length, and room for a card of edition 1.
within 'the largest card of a text, with its stack' $((of_text + reading)) "$most"

# The program: the least limit of its stack, by 4,096 bytes, under which it runs the largest card to its end. What the system and
# the C library put on the stack before the program begins is in it.
if [ "$(uname -m)" = x86_64 ]; then
    "$root/rigtemple" "$root/cards/stripe.card" >/dev/null 2>&1 || die "./rigtemple failed"
    program=$root/target/bin/rigtemple
    want=$("$program" <"$root/cards/widest.card")
    limit=4
    while [ "$limit" -le 256 ]; do
        { got=$(ulimit -s "$limit" && env -i "$program" <"$root/cards/widest.card"); } 2>/dev/null || got=
        [ "$got" != "$want" ] || break
        limit=$((limit + 4))
    done
    within 'the program on the largest card' $((1024 * limit)) "$most"
else
    printf 'the program is not measured here: it runs in an emulator, whose stack this would be\n'
fi
printf '%d passed, %d failed\n' "$passed" "$failed"
[ "$failed" -eq 0 ]
