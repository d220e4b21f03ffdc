#!/bin/sh
# The library from other languages than C: as a shared object made from the archive, which passes
# the stored requests; from Rust by examples/rust, which passes them too; and from Python by
# examples/by_ctypes.py. The machine's Rust and Python link and load what the machine runs
# (tests/machine.sh); a language that is missing is told. The last line is 'N passed, M failed'.
#
#   tests/languages.sh
set -eu

die() { printf 'languages.sh: %s\n' "$*" >&2; exit 2; }

[ $# -eq 0 ] || die "usage: languages.sh"
root=$(cd "$(dirname "$0")/.." && pwd)
tests=$root/tests
# shellcheck source=tests/kit.sh
. "$tests/kit.sh"
room=$(mktemp -d)
trap 'rm -rf "$room"' EXIT
passed=0
failed=0

# Counts one check: the words after the first are a command that has to succeed.
expect() { # WHAT COMMAND...
    told=$1
    shift
    if "$@" >"$room/said" 2>&1; then
        passed=$((passed + 1))
    else
        failed=$((failed + 1))
        printf 'failed: %s\n' "$told"
        tail -n 20 "$room/said" | sed 's/^/    /'
    fi
}

"$root/library" "$room/handed" 2>/dev/null || die './library failed'
folder=$room/handed

# The archive as a shared object, by the kit's linker, under a program that is linked to it; the
# stored requests without the plain engine's, which the header has no calls for.
shared() {
    "$own/ld.lld" -shared --whole-archive "$folder/librigtemple.a" --no-whole-archive \
        "$lib/libc.so.6" -o "$room/librigtemple.so" &&
        "$tests/build_c.sh" "$room/drill" "$tests/header_drill.c" "$room/librigtemple.so" &&
        python3 -B "$root/oracle/stored.py" --header "$room/requests" "$room/answers" &&
        "$tests/run_c.sh" "$room/drill" <"$room/requests" >"$room/got" &&
        cmp "$room/answers" "$room/got"
}
expect 'a shared object passes the stored requests' shared
printf 'a shared object with the library\n'

# shellcheck source=tests/machine.sh
. "$tests/machine.sh"

rust() {
    (cd "$root/examples/rust" && RIGTEMPLE_FOLDER=$linked CARGO_TARGET_DIR=$root/target/rust \
        cargo test --offline --locked --tests -- --nocapture)
}
if [ -n "$linked" ] && command -v cargo >/dev/null; then
    expect 'Rust passes the stored requests' rust
    printf 'Rust with %s: %s\n' "$what" "$(grep ' bytes answered' "$room/said")"
else
    printf 'Rust is not tried: there is no cargo, or no C compiler\n'
fi

python() {
    cc -shared -Wl,--whole-archive "$linked/librigtemple.a" -Wl,--no-whole-archive \
        -o "$room/machine.so" &&
        python3 -B "$root/examples/by_ctypes.py" "$room/machine.so" "$@"
}
# Each of the six moves is said to be made, and what is shown behind the last.
woven() { # ENDING [PROGRAM]
    ending=$1
    shift
    rm -f "$room/kept"
    seq 6 | python "$root/cards/stripe.card" "$room/kept" "$@" >"$room/lines" &&
        printf '%s\n' 'bands finished: 1' 'last: 6 act 0' "end: $ending" >"$room/wanted" &&
        tail -n 3 "$room/lines" | cmp - "$room/wanted"
}
# The stripe card's sheets: in English, and in Swedish with two names left out.
sheets() {
    printf '\005\0\016\0\023\0\027\0\035\0\041\0\047\0weavewindrepairpickstripe' >"$room/master" &&
        printf '\005\0\016\0\022\0\027\0\027\0\035\0\035\0v\303\244vspolainslag' >"$room/shed"
}
named() {
    sheets && PYTHONUTF8=1 python "$root/cards/stripe.card" --names "$room/master" "$room/shed" >"$room/lines" &&
        printf '%s\n' '0 väv' '1 spola' '2 repair' '3 inslag' '4 stripe' | cmp - "$room/lines"
}
refused_sheet() {
    sheets && ! python "$root/cards/stripe.card" --names "$room/shed" &&
        grep -q 'name is refused with 20' "$room/said"
}
refused() {
    ! python "$root/cards/loop.card" "$room/none" && grep -q 'load is refused with 6' "$room/said"
}
refused_program() {
    ! python "$root/cards/stripe.card" "$room/none" "$root/cards/stripe.card" &&
        grep -q 'deliberate is refused with 19' "$room/said"
}
if [ -n "$linked" ]; then
    expect 'Python guides through the stripe card' woven rest
    expect 'Python guides by the program of the teaching shed' woven finished "$root/cards/teaching.program"
    expect 'Python is told of a refusal' refused
    expect 'Python is told of a refused program' refused_program
    expect "Python finds the stripe card's names" named
    expect 'Python is told of a refused sheet' refused_sheet
    printf 'Python with %s\n' "$what"
else
    printf 'Python is not tried: there is no C compiler\n'
fi
printf '%d passed, %d failed\n' "$passed" "$failed"
[ "$failed" -eq 0 ]
