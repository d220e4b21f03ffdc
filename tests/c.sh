#!/bin/sh
# The library as C sees it: include/rigtemple.h as C and as C++, its words for the answers, the
# eight calls with a turned screen, both editions, what comes next, the two for bounded cards, the two
# over text, deliberation and going on, names, and the drill over the header against the oracle, byte for byte: on the stored requests of
# crates/drill, and on requests by seed. The last line is 'N passed, M failed'.
#
#   tests/c.sh [--engine] [--seed N] [--cards N] [--texts N] [--programs N] [--names N]
#              [--cuts N] [--next N] [--bounded N] [--lists N] [--largest BYTES]
#
# --engine puts the C engine of bench/ in the library's place, and so holds that one against the
# oracle the same way.
set -eu

die() { printf 'c.sh: %s\n' "$*" >&2; exit 2; }

engine=
seed=1
cards=400
texts=400
programs=400
names=400
cuts=400
next=400
bounded=50
lists=50
largest=32352
while [ $# -gt 0 ]; do
    case $1 in
    --engine) engine=--engine ;;
    --seed) seed=${2:?--seed takes a number}; shift ;;
    --cards) cards=${2:?--cards takes a number}; shift ;;
    --texts) texts=${2:?--texts takes a number}; shift ;;
    --programs) programs=${2:?--programs takes a number}; shift ;;
    --names) names=${2:?--names takes a number}; shift ;;
    --cuts) cuts=${2:?--cuts takes a number}; shift ;;
    --next) next=${2:?--next takes a number}; shift ;;
    --bounded) bounded=${2:?--bounded takes a number}; shift ;;
    --lists) lists=${2:?--lists takes a number}; shift ;;
    --largest) largest=${2:?--largest takes a number}; shift ;;
    *) die "usage: c.sh [--engine] [--seed N] [--cards N] [--texts N] [--programs N]" \
        "[--names N] [--cuts N] [--next N] [--bounded N] [--lists N] [--largest BYTES]" ;;
    esac
    shift
done

command -v python3 >/dev/null || die "python3 is missing"
root=$(cd "$(dirname "$0")/.." && pwd)
tests=$root/tests
work=$root/target/c
# shellcheck source=tests/kit.sh
. "$tests/kit.sh"
archive=$("$tests/archive.sh" $engine)
mkdir -p "$work"
passed=0
failed=0

# Counts one check: the words after the first are a command that has to succeed.
expect() { # WHAT COMMAND...
    what=$1
    shift
    if "$@"; then
        passed=$((passed + 1))
    else
        failed=$((failed + 1))
        printf 'failed: %s\n' "$what"
    fi
}

# The header by itself, and with what is read from standard input after it.
header() { # LANGUAGE EDITION
    { printf '#include "rigtemple.h"\n'; cat; } | "$own/clang" -x "$1" "-std=$2" -pedantic -Wall \
        -Wextra -Werror --target=x86_64-unknown-linux-gnu -nostdinc -isystem "$tests/libc" \
        -fsyntax-only -I "$root/include" - 2>"$work/header.err"
}
told() { # LANGUAGE EDITION
    ! echo 'static inline void f(const uint8_t *c) { rigtemple_check(c, 0); }' | header "$1" "$2" &&
        grep -q 'ignoring return value' "$work/header.err"
}
for edition in 'c c99' 'c c11' 'c c2x' 'c++ c++11' 'c++ c++17'; do
    # shellcheck disable=SC2086  # two words
    expect "the header is $edition" header $edition </dev/null
    # shellcheck disable=SC2086
    expect "an answer that is ignored is told in $edition" told $edition
done

# The symbols have the version's first number, so that an app that was built with an older header,
# whose sets were shorter, does not link.
old_app() {
    printf '%s\n' '#include <stddef.h>' '#include <stdint.h>' \
        'uint16_t rigtemple_check_parts(const uint8_t *card, size_t card_len);' \
        'int main(void) { return rigtemple_check_parts((const uint8_t *)"", 0); }' \
        >"$work/old_app.c"
    ! "$tests/build_c.sh" "$work/old_app" "$work/old_app.c" "$archive" 2>"$work/old_app.err" &&
        grep -q 'undefined symbol: rigtemple_check_parts' "$work/old_app.err"
}
expect 'an app of an older version does not link' old_app
numbered() {
    first=$(sed -n 's/^#define RIGTEMPLE_VERSION_FIRST //p' "$root/include/rigtemple.h")
    [ "$(grep -c "^uint16_t rigtemple_${first}_[a-z_]*_parts(" "$root/include/rigtemple.h")" -eq 17 ] &&
        [ "$(grep -c "^#define rigtemple_\([a-z_]*\)_parts rigtemple_${first}_\1_parts$" \
            "$root/include/rigtemple.h")" -eq 17 ]
}
expect "the symbols have the version's first number" numbered

# The names and the sentences of the answers are those of docs/API.md's table.
same_words() {
    {
        sed -n 's/^| \([0-9]*\) | \([a-z ]*\) | \([^|]*\) |.*/\1|\2|\3/p' "$root/docs/API.md" |
            tr -d '`'
        for number in 23 24 26; do
            echo "$number|no answer of the guide|the guide gives no such answer"
        done
    } | sort -n >"$work/words.wanted"
    "$tests/run_c.sh" "$work/answer_words" | diff "$work/words.wanted" -
}
"$tests/build_c.sh" "$work/answer_words" "$tests/answer_words.c"
expect "the words of the answers are docs/API.md's" same_words

# The eight calls, with the screen turned in the middle of a run, both editions, what comes next, the
# two for bounded cards, the two over text, deliberation and going on, and names.
for program in eight_calls edition_calls next_calls bounded_calls text_calls deliberate_calls name_calls; do
    "$tests/build_c.sh" "$work/$program" "$tests/$program.c" "$tests/cards.c" "$tests/programs.c" \
        "$tests/sheets.c" "$archive"
    "$tests/run_c.sh" "$work/$program" >"$work/$program.out" || true
    cat "$work/$program.out"
    last=$(tail -n 1 "$work/$program.out")
    case $last in
    *' passed, '*' failed')
        passed=$((passed + ${last%% passed*}))
        counted=${last##*passed, }
        failed=$((failed + ${counted% failed}))
        ;;
    *)
        printf 'failed: %s did not end\n' "$program"
        failed=$((failed + 1))
        ;;
    esac
done

# The drill over the header, and the oracle's answers: a check for each request. The table that the
# oracle prints ends with their number.
"$tests/build_c.sh" "$work/header_drill" "$tests/header_drill.c" "$archive"
held() { # WHAT TABLE REQUESTS ANSWERS
    requests=$(awk 'END { print $NF }' "$2")
    printf '%s, %s requests\n' "$1" "$requests"
    "$tests/run_c.sh" "$work/header_drill" <"$3" >"$work/got" ||
        printf 'header_drill ended before its input\n'
    if cmp "$4" "$work/got"; then
        passed=$((passed + requests))
    else
        printf 'failed: the drill over the header answers otherwise than the oracle\n'
        failed=$((failed + 1))
    fi
}

# The stored requests of crates/drill, but for the plain engine's, which the header has no calls for;
# then those of the seed, for the same reason without --plain.
python3 -B "$root/oracle/stored.py" --header "$work/stored.requests" "$work/stored.answers" \
    >"$work/stored.out" || die "the stored requests are others"
held 'the stored requests' "$work/stored.out" "$work/stored.requests" "$work/stored.answers"
python3 -B "$root/oracle/cases.py" --seed "$seed" --cards "$cards" --texts "$texts" \
    --programs "$programs" --names "$names" --cuts "$cuts" --next "$next" --bounded "$bounded" \
    --lists "$lists" --largest "$largest" \
    --requests "$work/requests" --answers "$work/answers" >"$work/cases.out"
fresh="$cards cards, $texts texts, $programs cases of programs, $names of names, $cuts cuts"
held "seed $seed, $fresh, $next next moves, $bounded on bounded cards, $lists of lists" "$work/cases.out" "$work/requests" "$work/answers"

printf '%s passed, %s failed\n' "$passed" "$failed"
[ "$failed" -eq 0 ]
