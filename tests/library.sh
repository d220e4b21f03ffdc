#!/bin/sh
# Tests of ./library and of tests/progress.sh. The folder is made for real once. Then a copy of the
# script runs in a temporary folder with a stand-in for rt, which says that crates are proved, and
# can be told to fail or to go on for ever. The last line is 'N passed, M failed'.
#
#   tests/library.sh
set -u

[ $# -eq 0 ] || { echo 'usage: library.sh' >&2; exit 2; }
root=$(cd "$(dirname "$0")/.." && pwd)
room=$(mktemp -d) || exit 2
trap 'rm -rf "$room"' EXIT
passed=0 failed=0

# Runs a command, and holds its exit status and a part of what it says against what is expected.
expect() { # WHAT STATUS PART COMMAND...
    what=$1 status=$2 part=$3
    shift 3
    "$@" >"$room/said" 2>&1 </dev/null
    ended=$?
    if [ "$ended" -eq "$status" ] && grep -qF -- "$part" "$room/said"; then
        passed=$((passed + 1))
    else
        failed=$((failed + 1))
        printf 'failed: %s (exit status %d)\n' "$what" "$ended"
        sed 's/^/    /' "$room/said"
    fi
}

holds() { # WHAT COMMAND...
    what=$1
    shift
    if "$@"; then passed=$((passed + 1)); else
        failed=$((failed + 1))
        printf 'failed: %s\n' "$what"
    fi
}

# ---- the folder

made() {
    folder="$room/a folder"
    expect 'the folder is made' 0 'has the library' "$root/library" "$folder"
    holds 'six files are in it' test "$(find "$folder" -type f | wc -l)" -eq 6
    holds 'the header is the one of include/' cmp "$root/include/rigtemple.h" "$folder/rigtemple.h"
    holds 'the archive is the one of the crate board' cmp \
        "$root/target/staticlib/libboard.a" "$folder/librigtemple.a"
    version=$(sed -n 's/^Version: //p' "$folder/rigtemple.pc")
    holds "the package has the header's version" grep -qF \
        "#define RIGTEMPLE_VERSION \"$version\"" "$folder/rigtemple.h"
    holds 'the version is of its two numbers' test "$version" = "$(number FIRST).$(number SECOND)"
    holds 'no path of this machine is in it' not grep -rqF "$root" "$folder"
    command -v pkg-config >/dev/null || return
    mv "$folder" "$room/moved"
    # shellcheck disable=SC2046  # words
    set -- $(PKG_CONFIG_PATH=$room/moved pkg-config --cflags --libs rigtemple)
    holds 'pkg-config finds the folder where it lies' test \
        "$*" = "-I$room/moved -L$room/moved -lrigtemple"
}

number() { sed -n "s/^#define RIGTEMPLE_VERSION_$1 //p" "$folder/rigtemple.h"; }
not() { ! "$@"; }

words() {
    expect '-h helps' 0 'usage: ./library [FOLDER]' "$root/library" -h
    expect 'an option that there is not' 2 'usage: ./library [FOLDER]' "$root/library" --engine
    expect 'two folders' 2 'usage: ./library [FOLDER]' "$root/library" a b
    expect 'a name that is empty' 2 'usage: ./library [FOLDER]' "$root/library" ''
    expect 'a file in its place' 2 'is a file, not a folder' "$root/library" "$root/crates.txt"
}

# ---- with the stand-in for rt

# "rt lib" in crates/board says what rt says of two crates (of one that is proved it says nothing), and leaves an archive. RT_FAILS lets it
# fail, RT_WAITS lets it start a job that ignores INT and wait for it.
stand_in() {
    house=$room/house
    mkdir -p "$house/crates/board" "$house/cards" "$room/bin" "$room/kit"
    cp -R "$root/library" "$root/tests" "$root/include" "$root/examples" "$house"
    cp "$root/cards/stripe.card" "$house/cards"
    printf '# crates\npaper:\nspare: paper\nguide: paper\nboard staticlib: paper guide\n' \
        >"$house/crates.txt"
    cat >"$room/bin/rt" <<END
#!/bin/sh
case "\$*" in
doc) echo "$room/kit/START-HERE.md" ;;
version) echo kit ;;
'lib '*)
    [ "\${PWD##*/}" = board ] || exit 2
    echo 'crate guide: modules loaded=1 checked=0'
    [ -z "\${RT_WAITS-}" ] || { sleep 600 & echo "\$!" >"$room/job"; wait; }
    [ -z "\${RT_FAILS-}" ] || { echo 'logic=not-proved'; exit 1; }
    echo 'logic=proved functions=1'
    mkdir -p out && echo archive >out/libboard.a
    echo 'crate board: modules loaded=1 checked=0'
    echo 'logic=proved functions=1' ;;
*) exit 2 ;;
esac
END
    chmod +x "$room/bin/rt"
}

ours() { env PATH="$room/bin:$PATH" "$@"; }

progress() {
    library=$house/library
    expect 'the time is said first' 0 'proving 3 crates: usually ' ours "$library"
    holds 'a crate that is proved' grep -qx 'guide proved, 1 of 3, 2 left' "$room/said"
    holds 'the library itself' grep -qx 'board proved, 2 of 3, 1 left' "$room/said"
    holds 'nothing else that rt says' not grep -q modules "$room/said"
    expect 'nothing is proved again' 0 'has the library' ours "$library"
    holds 'it says one line then' test "$(wc -l <"$room/said")" -eq 1
    touch "$house/crates/board/newer"
    touch -t 200001010000 "$house/target/staticlib/libboard.a"
    expect 'older than its sources, and refused' 2 'guide NOT PROVED' ours env RT_FAILS=1 "$library"
    holds 'no archive is left' test ! -e "$house/target/staticlib/libboard.a"
}

# Starts the script as a terminal does, in a group of its own and with INT not ignored; sends a
# signal while rt works, to the whole group or to the script alone; and waits for the script's end.
stop() { # SIGNAL GROUP-OR-ALONE
    rm -f "$room/job" "$room/pid"
    ours env RT_WAITS=1 python3 -c 'import os, signal, sys
os.setsid()
signal.signal(signal.SIGINT, signal.SIG_DFL)
with open(sys.argv[1], "w") as file:
    file.write(str(os.getpid()))
os.execv(sys.argv[2], sys.argv[2:])' "$room/pid" "$house/library" &
    starter=$!
    while [ ! -s "$room/job" ] || [ ! -s "$room/pid" ]; do sleep 0.1; done
    pid=$(cat "$room/pid")
    case $2 in
    group) kill -s "$1" -- "-$pid" ;;
    alone) kill -s "$1" "$pid" ;;
    esac
    wait "$starter" 2>/dev/null
}

gone() { ! kill -s 0 "$(cat "$room/job")" 2>/dev/null; }

stopped() {
    for how in 'INT group' 'INT alone' 'TERM alone' 'TERM group' 'HUP group'; do
        # shellcheck disable=SC2086  # two words
        expect "$how is told" "$(status_of "$how")" '' stop $how
        holds "$how: the same command goes on" grep -q 'the same command goes on' "$room/said"
        holds "$how leaves no job" gone
    done
}

status_of() { case $1 in HUP*) echo 129 ;; INT*) echo 130 ;; *) echo 143 ;; esac; }

made
words
stand_in
progress
stopped
printf '%d passed, %d failed\n' "$passed" "$failed"
[ "$failed" -eq 0 ]
