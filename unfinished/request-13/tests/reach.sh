#!/bin/sh
# Tests of ./rigtemple reach: tables against lines written by hand, what is refused, and that the
# pictures show what the tables say. The last line is 'N passed, M failed'.
#
#   tests/reach.sh             with the proved programs
#   tests/reach.sh --oracle    with the oracle's in their place, for which no kit is needed
#
# Tests of a drill that fails and of the way on another machine are made with the oracle's alone, in
# a copy of the house with stand-ins for uname, rt and the emulator.
set -u
case "$#${1-}" in 0 | 1--oracle) ;; *) echo 'usage: reach.sh [--oracle]' >&2; exit 2 ;; esac
top=$(CDPATH='' cd -- "$(dirname -- "$0")/.." && pwd)
room=$(mktemp -d) || exit 2
trap 'rm -rf "$room"' EXIT
# shellcheck source=tests/expect.sh
. "$top/tests/expect.sh"

# ---- the house with the oracle's programs

house() {
    bin=$room/house/target/bin emulator=$room/kit/on/aarch64/toolchain/bin/qemu-x86_64
    mkdir -p "$bin" "$room/house/crates" "$room/bin" "$room/kit/docs" "$(dirname "$emulator")"
    : >"$room/house/crates.txt"
    cp "$top/rigtemple" "$room/house/rigtemple"
    ln -s "$top/cards" "$room/house/cards"
    # shellcheck disable=SC2016
    printf '#!/bin/sh\necho "${MACHINE-x86_64}"\n' >"$room/bin/uname"
    printf '#!/bin/sh\necho "%s"\n' "$room/kit/docs/START-HERE.md" >"$room/bin/rt"
    # the emulator is given the loader, two words for the library, and the program
    printf '#!/bin/sh\nshift 3\nexec "$@"\n' >"$emulator"
    cat >"$bin/read_text" <<'TEXT'
#!/usr/bin/env python3
import sys
sys.dont_write_bytecode = True
sys.path.insert(0, "ORACLE")
import text
number, place, card = text.read(sys.stdin.buffer.read(), 24200)
sys.stdout.buffer.write(b"refused %d %d\n" % (number, place) if number else card)
TEXT
    sed "s|ORACLE|$top/oracle|" "$bin/read_text" >"$room/text" && cat "$room/text" >"$bin/read_text"
    printf '#!/bin/sh\nexec python3 -B "%s"\n' "$top/oracle/drill.py" >"$bin/drill"
    chmod +x "$room/bin/"* "$emulator" "$bin/"*
}

by_oracle() { PATH="$room/bin:$PATH" "$room/house/rigtemple" "$@"; }
case ${1-} in
--oracle) reach() { by_oracle reach "$@"; } ;;
*)
    reach() { "$top/rigtemple" reach "$@"; }
    # what it says while the programs are made is no part of a test
    reach "$top/cards/stripe.text" 0 >"$room/made" 2>&1
    ;;
esac

# ---- the cards

# Two ways to the same: either of two specifications, and then one for each.
diamond() {
    printf '%s\n' 'atoms 3' 'action 1' 'action 1' 'do 0 if T add 0 del' 'do 0 if T add 1 del' \
        'do 1 if B0 add 1 2 del' 'do 1 if B1 add 0 2 del' 'begin beliefs goals 2 plan 0 1'
}

# Five actions, each of which adds an atom or none: twice as many with each move.
doubling() {
    printf '%s\n' 'atoms 5' 'action 1' 'action 1' 'action 1' 'action 1' 'action 1'
    for n in 0 1 2 3 4; do printf 'do %s if T add %s del\ndo %s if T add del\n' $n $n $n; done
    echo 'begin beliefs goals plan 0 1 2 3 4'
}

# One action that so many specifications take, each to another belief.
star() { # SPECIFICATIONS
    printf 'atoms %d\naction 1\n' "$1"
    n=0
    while [ $n -lt "$1" ]; do echo "do 0 if T add $n del"; n=$((n + 1)); done
    echo 'begin beliefs goals plan 0'
}

# A plan of 1,023 actions that each revision makes longer by one.
nearly_full() {
    printf 'atoms 1\naction 1\nrevise 0 if T to 0 0\nbegin beliefs goals plan'
    printf '%1023s\n' '' | sed 's/ / 0/g'
}

# A loop on one configuration, arrows to the side and two back, one of them over two rows.
looping() {
    printf '%s\n' 'atoms 2' 'action 1' 'action 1' 'do 0 if !B0 add 0 del' 'do 0 if B0 add del 0' \
        'select if T goal T plan 0' 'select if T goal T plan 1' 'revise 0 if T to 0' \
        'revise 1 if T to 0' 'begin beliefs goals plan'
}

cards() {
    diamond >"$room/diamond.text"
    doubling >"$room/doubling.text"
    star 31 >"$room/star.text"
    star 32 >"$room/more.text"
    nearly_full >"$room/nearly full.text"
    looping >"$room/looping.text"
    cp "$room/diamond.text" "$room/a \"b\" <c> & 'd'.text"
    cp "$top/cards/stripe.card" "$room/mine.card"
}

# ---- tables by hand

stripe_0='k  moves  choices  beliefs  goals  plan  leads to
0  0      -        B0 B3    G2     -     select 0 → …
1 configuration, 0 at rest; with more moves there are others'

stripe_3='k  moves  choices                    beliefs   goals  plan  leads to
0  0      -                          B0 B3     G2     -     select 0 → 1
1  1      select 0                   B0 B3     G2     4     revise 0 → 2
2  2      select 0, revise 0         B0 B3     G2     1 3   act 1 → 3
3  3      select 0, revise 0, act 1  B0 B1 B3  G2     3     revise 1 → …
4 configurations, 0 at rest; with more moves there are others'

stripe_16='k  moves  choices                                            beliefs   goals  plan  leads to
0  0      -                                                  B0 B3     G2     -     select 0 → 1
1  1      select 0                                           B0 B3     G2     4     revise 0 → 2
2  2      select 0, revise 0                                 B0 B3     G2     1 3   act 1 → 3
3  3      select 0, revise 0, act 1                          B0 B1 B3  G2     3     revise 1 → 4
4  4      select 0, revise 0, act 1, revise 1                B0 B1 B3  G2     2 0   act 2 → 5
5  5      select 0, revise 0, act 1, revise 1, act 2         B0 B1     G2     0     act 0 → 6
6  6      select 0, revise 0, act 1, revise 1, act 2, act 0  B0 B2     -      -     rest
7 configurations, 1 at rest; there are no others'

diamond_2='k  moves  choices       beliefs   goals  plan  leads to
0  0      -             -         G2     0 1   act 0 → 1, act 1 → 2
1  1      act 0         B0        G2     1     act 2 → 3
2  1      act 1         B1        G2     1     act 3 → 3
3  2      act 0, act 2  B0 B1 B2  -      -     rest
4 configurations, 1 at rest; there are no others'

looping_16='k  moves  choices                    beliefs  goals  plan  leads to
0  0      -                          -        -      -     select 0 → 1, select 1 → 2
1  1      select 0                   -        -      0     act 0 → 3, revise 0 → 1
2  1      select 1                   -        -      1     revise 1 → 1
3  2      select 0, act 0            B0       -      -     select 0 → 4, select 1 → 5
4  3      select 0, act 0, select 0  B0       -      0     act 1 → 0, revise 0 → 4
5  3      select 0, act 0, select 1  B0       -      1     revise 1 → 4
6 configurations, 0 at rest; there are no others'

full_1='k  moves  choices   beliefs  goals  plan            leads to
0  0      -         -        -      0 0 0 … (1023)  revise 0 → 1
1  1      revise 0  -        -      0 0 0 … (1024)  revise 0 → full
2 configurations, 0 at rest; with more moves a plan gets too long'

tables() {
    expect 'the stripe card, 0' 0 "$stripe_0" '' reach "$top/cards/stripe.text" 0
    expect 'the stripe card, 3' 0 "$stripe_3" '' reach "$top/cards/stripe.text" 3
    expect 'the stripe card, 16' 0 "$stripe_16" '' reach "$top/cards/stripe.text" 16
    # shellcheck disable=SC2016
    sed -n '/^    \$ .*reach cards\/stripe.text 3$/,/^$/s/^    \([^$]\)/\1/p' \
        "$top/cards/README.md" >"$room/out"
    holds 'the same in cards/README.md' test "$(cat "$room/out")" = "$stripe_3"
    expect 'the same of a card' 0 "$stripe_16" '' reach "$top/cards/stripe.card" 16
    expect 'zeros in front' 0 "$stripe_3" '' reach "$top/cards/stripe.text" 000003
    expect 'a diamond' 0 "$diamond_2" '' reach "$room/diamond.text" 2
    expect 'the same with more moves' 0 "$diamond_2" '' reach "$room/diamond.text" 16
    expect 'a loop' 0 "$looping_16" '' reach "$room/looping.text" 16
    expect 'a plan that is full' 0 "$full_1" '' reach "$room/nearly full.text" 1
    reach "$top/cards/endless.text" 16 >"$room/out" 2>"$room/err"
    holds 'a long way back' grep -q '^9  9 .* B0 B1     G2     3     revise 2 → 5$' "$room/out"
    holds 'and no end' grep -q ', 0 at rest; there are no others$' "$room/out"
    reach "$top/cards/jacquard.card" 5 >"$room/out" 2>"$room/err"
    holds 'many beliefs' grep -q ' B0 B1 B2 … B186 B196 B197 (74)  G255 ' "$room/out"
    reach "$room/star.text" 1 >"$room/out" 2>"$room/err"
    holds '32 are told' grep -q '^32 configurations, 31 at rest; there are no others$' "$room/out"
}

# ---- refusals

refusals() {
    expect 'over 16' 1 'refused 23' 'stripe.text with D = 17 is refused: too far: D is over 16' \
        reach "$top/cards/stripe.text" 17
    expect 'far over 16' 1 'refused 23' 'too far' reach "$top/cards/stripe.text" 65552
    expect 'a card comes before D' 1 'refused 6' 'loop.card is refused: node: ' \
        reach "$top/cards/loop.card" 17
    expect 'over 32' 1 'refused 24' 'too many: more than 32 can be reached in at most 5 moves' \
        reach "$room/doubling.text" 5
    holds 'what is answered' grep -q 'fewer moves: the most that is answered is 4 ' "$room/err"
    expect 'over 32 with the first move' 1 'refused 24' 'the most that is answered is 0 ' \
        reach "$room/more.text" 16
    expect 'a plan that would be full' 1 'refused 11' 'plan full: one that is reached in fewer' \
        reach "$room/nearly full.text" 16
    holds 'before it' grep -q 'fewer moves: the most that is answered is 1 ' "$room/err"
    echo 'atoms x' >"$room/slip.text"
    expect 'a text with a slip' 1 'refused 17' ':1:7: ' reach "$room/slip.text" 3
    expect 'no picture of what is refused' 1 'refused 24' 'too many' \
        reach "$room/more.text" 16 --svg "$room/none.svg"
    holds 'nothing is written' test ! -e "$room/none.svg"
}

# ---- pictures

pictures() {
    for of in "$room/diamond.text,2" "$room/doubling.text,4" "$room/star.text,1" \
        "$room/nearly full.text,1" "$room/looping.text,2" "$room/looping.text,16" \
        "$room/a \"b\" <c> & 'd'.text,2" "$top/cards/stripe.text,0" "$top/cards/stripe.text,3" \
        "$top/cards/stripe.card,16" "$top/cards/endless.text,16" "$top/cards/jacquard.card,16"; do
        drawn "${of%,*}" "${of##*,}"
    done
    expect 'a picture over its card' 2 '' 'it is the card itself' \
        reach "$room/mine.card" 3 --svg "$room/mine.card"
    holds 'the card is as it was' cmp -s "$room/mine.card" "$top/cards/stripe.card"
    expect 'a picture in no folder' 2 '' "$room/none/a.dot cannot be written" \
        reach "$room/mine.card" 3 --dot "$room/none/a.dot"
}

# The table is the same with a picture, and the pictures show what it says.
drawn() { # FILE D
    rm -f "$room/a picture.svg" "$room/a graph.dot"
    reach "$1" "$2" >"$room/table" 2>"$room/err"
    expect "a table with a picture: $1, $2" 0 "$(cat "$room/table")" '' \
        reach "$1" "$2" --svg "$room/a picture.svg"
    expect "a table with a graph: $1, $2" 0 "$(cat "$room/table")" '' \
        reach "$1" "$2" --dot "$room/a graph.dot"
    expect "what they show: $1, $2" 0 '' '' python3 -B "$top/tests/reach_pictures.py" \
        "$1" "$room/table" "$room/a picture.svg" "$room/a graph.dot"
}

# ---- with the oracle's programs alone

stand_ins() {
    expect 'on Arm' 0 "$stripe_3" '' env MACHINE=aarch64 PATH="$room/bin:$PATH" \
        "$room/house/rigtemple" reach "$top/cards/stripe.text" 3
    printf '#!/bin/sh\nexit 3\n' >"$bin/drill"
    expect 'the drill fails' 2 '' 'nothing is told: the drill itself failed, with status 3' \
        by_oracle reach "$top/cards/stripe.card" 3
    printf '#!/bin/sh\nexec cat /dev/null\n' >"$bin/drill"
    expect 'the drill does not answer' 2 '' 'the drill has ended before its last answer' \
        by_oracle reach "$top/cards/stripe.card" 3
}

house
cards
tables
refusals
pictures
stand_ins
echo "$passed passed, $failed failed"
[ "$failed" -eq 0 ]
