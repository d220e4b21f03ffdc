#!/bin/sh
# The library on the tablets' own processors, in the folder that ./tablets makes: 64-bit Arm through
# the header, natively on an Arm machine and in Debian's emulator elsewhere; WebAssembly through the
# JavaScript module, in node. Each is held against the oracle, byte for byte, with guard bytes around
# what is lent: on the stored requests of crates/drill, and on requests by seed. The stack of each
# call is measured, and what a page and an app for Android do is tried as far as it can be here. The
# last line is 'N passed, M failed'.
#
#   tests/tablets.sh [--seed N] [--cases N] [--texts N] [--programs N] [--names N] [--cuts N]
#                    [--next N] [--bounded N] [--lists N] [--emulated]
#
# --cases, --texts, --programs, --names, --cuts, --next, --bounded and --lists are those of
# tests/compare.py. --emulated takes Debian's compiler and emulator for 64-bit Arm on an Arm machine
# too. Beside the kit and Python 3 it needs Debian's packages nodejs and, on an Arm machine, gcc, elsewhere
# gcc-aarch64-linux-gnu, libc6-dev-arm64-cross and qemu-user. Where there are tsc (node-typescript)
# and cmake, the types and a build by CMake are tried too.
set -eu

die() { printf 'tablets.sh: %s\n' "$*" >&2; exit 2; }

seed=1
cases=2000
texts=50
programs=50
names=50
cuts=200
next=200
bounded=20
lists=20
emulated=
while [ $# -gt 0 ]; do
    case $1 in
    --seed) seed=${2:?--seed takes a number}; shift ;;
    --cases) cases=${2:?--cases takes a number}; shift ;;
    --texts) texts=${2:?--texts takes a number}; shift ;;
    --programs) programs=${2:?--programs takes a number}; shift ;;
    --names) names=${2:?--names takes a number}; shift ;;
    --cuts) cuts=${2:?--cuts takes a number}; shift ;;
    --next) next=${2:?--next takes a number}; shift ;;
    --bounded) bounded=${2:?--bounded takes a number}; shift ;;
    --lists) lists=${2:?--lists takes a number}; shift ;;
    --emulated) emulated=yes ;;
    *) die "usage: tablets.sh [--seed N] [--cases N] [--texts N] [--programs N] [--names N]" \
        "[--cuts N] [--next N] [--bounded N] [--lists N] [--emulated]" ;;
    esac
    shift
done

root=$(cd "$(dirname "$0")/.." && pwd)
tests=$root/tests
command -v python3 >/dev/null || die "python3 is missing: install Debian's package python3"
command -v node >/dev/null || die "node is missing: install Debian's package nodejs"
# shellcheck source=tests/arm.sh
. "$tests/arm.sh"
# shellcheck source=tests/kit.sh
. "$tests/kit.sh"
# shellcheck source=tests/stated.sh
. "$tests/stated.sh"
room=$(mktemp -d)
trap 'rm -rf "$room"' EXIT
passed=0
failed=0

# Counts one check: the words after the first are a command that has to succeed.
expect() { # WHAT COMMAND...
    what=$1
    shift
    if "$@" >"$room/said" 2>&1; then
        passed=$((passed + 1))
    else
        failed=$((failed + 1))
        printf 'failed: %s\n' "$what"
        tail -n 20 "$room/said" | sed 's/^/    /'
    fi
}

# Adds what a command counts in its last line, 'N passed, M failed'.
count() { # WHAT COMMAND...
    what=$1
    shift
    "$@" >"$room/said" 2>&1 || true
    last=$(tail -n 1 "$room/said")
    case $last in
    *' passed, '*' failed') ;;
    *) last='0 passed, 1 failed' ;;
    esac
    counted=${last##*passed, }
    passed=$((passed + ${last%% passed*}))
    failed=$((failed + ${counted% failed}))
    printf '%s: %s\n' "$what" "$last"
    [ "${counted% failed}" -eq 0 ] || tail -n 20 "$room/said" | sed 's/^/    /'
}

not() { ! "$@"; }

# ---- the folder

folder=$room/handed
"$root/tablets" "$folder" 2>"$room/told" || { cat "$room/told" >&2; die './tablets failed'; }
grep '^tablets: ' "$room/told" | sed "s|$room/||" >&2
version=$(sed -n 's/^#define RIGTEMPLE_VERSION "\(.*\)"$/\1/p' "$folder/rigtemple.h")

# The archives that ./library and ./tablets make for x86-64 are one.
same_archive() { cmp "$folder/x86_64/librigtemple.a" "$root/target/staticlib/libboard.a"; }
twice() { "$root/tablets" "$room/again" && diff -r "$folder" "$room/again"; }
expect 'ten files are in the folder' test "$(find "$folder" -type f | wc -l)" -eq 10
expect "HOW-TO-LINK.txt has the header's version" grep -q "^rigtemple $version," "$folder/HOW-TO-LINK.txt"
expect 'the header is the one of include/' cmp "$root/include/rigtemple.h" "$folder/rigtemple.h"
expect 'the archive for x86-64 is the one that rt makes' same_archive
expect 'made twice, it is the same' twice
expect 'no path of this machine is in it' not grep -rqF "$root" "$folder"
expect 'nothing else is asked for' not "$root/tablets" --engine
expect 'a file in its place' not "$root/tablets" "$root/crates.txt"

# What it stops for, in words: in a house of its own, with the module and the archive of this one.
says() { # PART COMMAND...
    part=$1 ended=0
    shift
    "$@" >"$room/words" 2>&1 || ended=$?
    cat "$room/words"
    [ "$ended" -eq 2 ] && grep -qF "$part" "$room/words"
}
house=$room/house
mkdir -p "$house/crates/board" "$house/cards" "$house/target/staticlib" "$room/bare"
cp -R "$root/tablets" "$root/tests" "$root/include" "$root/tablet" "$root/crates.txt" "$house"
cp "$root/cards/stripe.card" "$house/cards"
for tool in readlink dirname; do ln -s "$(command -v "$tool")" "$room/bare/$tool"; done
made_of() { # ARCHIVE
    cp "$1" "$house/target/staticlib/libboard.a"
    rm -rf "$house/target/module"
    cp -R "$root/target/module" "$house/target/module"
}
expect 'without Python it names the package' says "install Debian's package python3" \
    env PATH="$room/bare" /bin/sh "$root/tablets" "$room/none"
made_of "$folder/aarch64/librigtemple.a"
expect 'an archive of another module is told' says 'is not made of' "$house/tablets"
made_of "$folder/x86_64/librigtemple.a"
echo -fomit-frame-pointer >>"$house/target/module/words"
expect 'a word of the compiler that is not known is told' \
    says 'with -fomit-frame-pointer, which is not known here' "$house/tablets"
sed -i 's/^uint16_t rigtemple_4_check_parts(/uint16_t rigtemple_4_checked_parts(/' \
    "$house/include/rigtemple.h"
expect 'another header is told' says 'the header does not declare it' "$house/tablets"
expect 'nothing is left then' test ! -e "$house/target/tablets"

# What ./tablets looks for in the module, and refuses.
"${own:?}/clang" --target=x86_64-unknown-linux-gnu -O0 -Xclang -disable-llvm-passes -x ir -S \
    -emit-llvm "$root/target/module/module.bc" -o "$room/module.ll"
count 'changes of the module that are refused' \
    python3 -B "$tests/neutral_edits.py" "$room/module.ll" "$folder/rigtemple.h"

# ---- the stored requests

# Those of crates/drill, but for the plain engine's, which header and module have no calls for.
python3 -B "$root/oracle/stored.py" --header "$room/requests" "$room/answers" >"$room/said" 2>&1 ||
    { cat "$room/said" >&2; die 'the stored requests are others'; }

# ---- 64-bit Arm

arm=$folder/aarch64/librigtemple.a
# With -D_DEFAULT_SOURCE the C library's headers have what Linux adds to C11's.
build_arm() { # PROGRAM FILE...
    built=$room/$1
    shift
    # shellcheck disable=SC2086  # words
    ${arm_cc:?} -std=c11 -D_DEFAULT_SOURCE -O2 -Wall -Wextra -Werror -o "$built" "$@" "$arm"
}
run_arm() { # PROGRAM ARGUMENT...
    run=$room/$1
    shift
    ${arm_run:-} "$run" "$@"
}

build_arm arm_drill "$tests/header_drill.c"
stored_arm() { run_arm arm_drill <"$room/requests" | cmp - "$room/answers"; }
expect 'the stored requests on 64-bit Arm' stored_arm
for program in eight_calls edition_calls next_calls bounded_calls text_calls deliberate_calls name_calls; do
    build_arm "$program" "$tests/$program.c" "$tests/cards.c" "$tests/programs.c" "$tests/sheets.c"
    count "$program on 64-bit Arm" run_arm "$program"
done

# A list that runs over by one entry ends the drill.
build_arm arm_overrun -Wl,--wrap=rigtemple_4_list_looks_parts "$tests/header_drill.c" "$tests/overrun.c"
overrun() { ended=0; run_arm arm_overrun <"$room/requests" || ended=$?; [ "$ended" -eq 3 ]; }
expect 'a guard byte that is written is seen' overrun

# Reading one number more than are given faults there (signal 11).
build_arm arm_overread -Wl,--wrap=rigtemple_4_go_on_parts "$tests/header_drill.c" "$tests/overread.c"
overread() { ended=0; run_arm arm_overread <"$room/requests" || ended=$?; [ "$ended" -eq 139 ]; }
expect 'a byte that is read past the numbers is seen' overread

# ---- WebAssembly

page_drill() { node "$tests/page_drill.mjs" "$folder" "$@"; }
stored_page() { page_drill <"$room/requests" | cmp - "$room/answers"; }
expect 'the stored requests in a page' stored_page
count 'the JavaScript module' node "$tests/page.mjs" "$folder"
typed() {
    mkdir "$room/types"
    cp "$tests/page_types.ts" "$folder/rigtemple.js" "$folder/rigtemple.d.ts" "$room/types"
    (cd "$room/types" && tsc --noEmit --strict --target es2022 --module es2022 \
        --moduleResolution node --lib es2022,dom page_types.ts)
}
if command -v tsc >/dev/null; then
    expect 'the types of the JavaScript module' typed
else
    printf "its types are not tried: there is no tsc (Debian's package node-typescript)\n"
fi

# ---- stack and room

# All that an app lends with the largest card: the card, a configuration, a list, a place, a program
# and what remains of it, twice to go on with that. To read a text it lends the card alone, and the
# text; for a name two sheets too, here with 40 bytes for each of 256 actions.
lent=$((32352 + 1094 + 2 * 768 + 76 + 1024 + 512 + 2 * 128))
sheets=$((2 * (2 * 256 + 4 + 256 * 40)))
stack_arm() {
    build_arm stack "$tests/stack.c" "$tests/calls.c" "$tests/cards.c" "$tests/programs.c" \
        "$tests/sheets.c" "$tests/texts.c"
    run_arm stack >"$room/arm.stack"
}
stack_page() {
    page_drill --stack <"$room/requests" >"$room/page.functions"
    sed 's/^rigtemple_4_\(.*\)_parts /\1 /; s/^list_looks /list /' "$room/page.functions" >"$room/page.stack"
}
# Each call within its bound, and with what is lent within 65,536 bytes. The list is measured as
# list_looks, which list is with two numbers fewer.
within() { # PROCESSOR
    while read -r call bytes; do
        most=2048 all=$((lent + bytes))
        case $call in
        text) most=34816 all=$((24128 + bytes)) ;;
        name) all=$((lent + sheets + bytes)) ;;
        esac
        if [ "$bytes" -gt "$most" ] || [ "$all" -gt 65536 ]; then
            echo "$call takes $bytes bytes of stack, with what is lent $all"
            return 1
        fi
    done <"$room/$1.stack"
    [ "$(wc -l <"$room/$1.stack")" -eq \
        "$(grep '^uint16_t rigtemple_4_.*_parts(' "$folder/rigtemple.h" | grep -vc '_4_list_parts(')" ]
}
# What the header's head says of 64-bit Arm: the bytes of text, and how many more than on x86-64 each
# other call takes at most.
as_stated() {
    head=$(tr -s '\n *' ' ' <"$folder/rigtemple.h" | tr -d , | sed -n \
        's/.*On 64-bit Arm text takes \([0-9]*\) and each other call at most \([0-9]*\) .*/\1 \2/p')
    [ -n "$head" ] || { echo "the header's head says nothing of it"; return 1; }
    reading=${head% *} more=${head#* }
    while read -r call bytes; do
        case $call in
        text) [ "$bytes" -eq "$reading" ] ;;
        *) [ "$bytes" -le $(($(stated "$call") + more)) ] ;;
        esac || { echo "$call takes $bytes bytes of stack"; return 1; }
    done <"$room/arm.stack"
}
expect 'the stack on 64-bit Arm is measured' stack_arm
expect 'the stack in a page is measured' stack_page
printf '%-12s %10s %10s\n' 'bytes' '64-bit Arm' 'in a page'
while read -r call bytes; do
    printf '%-12s %10d %10d\n' "$call" "$bytes" "$(sed -n "s/^$call //p" "$room/page.stack")"
done <"$room/arm.stack"
expect 'stack and room on 64-bit Arm' within arm
expect "the stack on 64-bit Arm is as the header's head says" as_stated
expect 'stack and room in a page' within page

# ---- CMake and Android

# shellcheck source=tests/android.sh
. "$tests/android.sh"

# ---- fresh cases

count "seed $seed, fresh requests through both" python3 -B "$tests/compare.py" --seed "$seed" \
    --cases "$cases" --texts "$texts" --programs "$programs" --names "$names" \
    --cuts "$cuts" --next "$next" --bounded "$bounded" --lists "$lists" \
    --drill "${arm_run:+$arm_run }'$room/arm_drill'" --drill "node '$tests/page_drill.mjs' '$folder'"
grep ' requests about ' "$room/said" || :

printf '%d passed, %d failed\n' "$passed" "$failed"
[ "$failed" -eq 0 ]
