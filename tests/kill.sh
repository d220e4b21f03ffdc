#!/bin/sh
# No pick is lost: each example, in C, Rust, Python and JavaScript, is killed at random moments, with a program and without, while
# tests/kill.py works from what it shows as a weaver does. Four wrong apps, made of the C example by a change of one line, have to
# be found out. The last line is 'N passed, M failed'.
#
#   tests/kill.sh [--kills N] [--seed N] [--fresh N] [--engine]
#
# --kills is how often each is killed at least, each way (500), and --fresh on how many cards by seed each is tried before that (50);
# --seed chooses both (1). They are linked with what the machine runs (tests/machine.sh), and a language that is missing is told;
# --engine puts the C engine of bench/ in the library's place, which there is none of for a page. TMPDIR names the folder to keep in.
set -eu

die() { printf 'kill.sh: %s\n' "$*" >&2; exit 2; }

engine=
kills=500
seed=1
fresh=50
while [ $# -gt 0 ]; do
    case $1 in
    --engine) engine=--engine ;;
    --kills) kills=${2:?--kills takes a number}; shift ;;
    --seed) seed=${2:?--seed takes a number}; shift ;;
    --fresh) fresh=${2:?--fresh takes a number}; shift ;;
    *) die "usage: kill.sh [--kills N] [--seed N] [--fresh N] [--engine]" ;;
    esac
    shift
done

command -v python3 >/dev/null || die "python3 is missing"
python=$(python3 -c 'import sys; print(sys.executable)') # itself, and no script that looks for it
root=$(cd "$(dirname "$0")/.." && pwd)
tests=$root/tests
room=$(mktemp -d)
trap 'rm -rf "$room"' EXIT
passed=0
failed=0

# Puts the example into a file, with a line of it changed for others.
wrong() { # NAME LINE OTHERS
    awk -v line="$2" -v others="$3" '$0 == line { print others; found++; next } { print }
        END { exit found != 1 }' "$root/examples/turned_screen.c" >"$room/$1.c" ||
        die "the example has no such line: $2"
}
# It keeps a move before it is made, and shows the one before it as the last.
wrong early '            status = show(w, choice, end);' \
    '        { struct weaving kept = after;
          if (status == 0 && end == NULL && (w->program_len != 0 || take(&kept, choice) == 0))
              kept.moves++, kept.last = choice, status = keep(name, &kept);
          if (status == 0) status = show(w, choice, end); }'
# It shows the one after before it keeps.
wrong hasty '        status = keep(name, &after);' \
    '        { struct weaving shown = after;
          status = after.program_len == 0 ? next_of_guide(&after, &choice, &end)
                                          : next_of_program(&after, &shown, &choice, &end);
          if (status == 0) status = show(&after, choice, end);
          if (status == 0) status = keep(name, &after); }'
# It keeps every second move.
wrong late '        status = keep(name, &after);' \
    '        status = after.moves % 2 == 0 ? keep(name, &after) : 0;'
# It begins the program anew.
wrong anew '    memcpy(w->numbers, kept + HEAD_BYTES + w->program_len, w->numbers_len);' \
    '    w->numbers[0] = (uint8_t)(w->program_len / RIGTEMPLE_ENTRY_BYTES - 1); w->numbers_len = w->program_len != 0;'

# ---- the examples, each as a command that is handed a card, a file and a program

if [ -n "$engine" ]; then
    # shellcheck source=tests/engine.sh
    . "$tests/engine.sh"
    linked=$room/engine what='the C engine in its place'
    mkdir "$linked"
    for part in engine engine_text engine_names; do
        # shellcheck disable=SC2086  # names are words
        cc -O2 -fPIC ${names:?} -c "$root/bench/$part.c" -o "$linked/$part.o"
    done
    ar rcs "$linked/librigtemple.a" "$linked"/*.o
else
    "$root/library" "$room/handed" 2>/dev/null || die './library failed'
    # shellcheck disable=SC2034  # for tests/machine.sh
    folder=$room/handed
    # shellcheck source=tests/machine.sh
    . "$tests/machine.sh"
fi

set --
# Builds a program of the example's, or of a wrong one, by the machine's compiler or by the kit's.
build() { # SOURCE PROGRAM
    if [ -n "$linked" ]; then
        cc -std=c99 -O2 -Wall -Wextra -Werror -I "$root/include" "$1" "$linked/librigtemple.a" -o "$2"
    else
        CFLAGS="-I $root/include" "$tests/build_c.sh" "$2" "$1" "$room/handed/librigtemple.a"
    fi
}
[ -n "$linked" ] && run='' || run=$tests/run_c.sh
build "$root/examples/turned_screen.c" "$room/turned_screen"
set -- "$@" "C=$run '$room/turned_screen'"

if [ -n "$linked" ] && command -v cargo >/dev/null; then
    (cd "$root/examples/rust" && RIGTEMPLE_FOLDER=$linked CARGO_TARGET_DIR=$root/target/rust \
        cargo build --quiet --release --offline --locked --examples) || die 'cargo failed'
    set -- "$@" "Rust='$root/target/rust/release/examples/turned_screen'"
else
    printf 'Rust is not tried: there is no cargo, or no C compiler\n'
fi
if [ -n "$linked" ]; then
    cc -shared -Wl,--whole-archive "$linked/librigtemple.a" -Wl,--no-whole-archive \
        -o "$room/librigtemple.so"
    set -- "$@" "Python='$python' -B '$root/examples/by_ctypes.py' '$room/librigtemple.so'"
else
    printf 'Python is not tried: there is no C compiler\n'
fi
if [ -z "$engine" ] && command -v node >/dev/null; then
    "$root/tablets" "$room/tablets" 2>/dev/null || die './tablets failed'
    set -- "$@" "JavaScript=node '$root/examples/by_node.mjs' '$room/tablets'"
else
    printf 'JavaScript is not tried: there is no node, or the engine is\n'
fi

# What an example shows, reads and keeps is said in the same words in all four.
words_of() { # EXAMPLE
    sed -n '/It shows the last move done/,/Without a file the card begins/p' "$root/examples/$1" |
        sed 's|^ \* \{0,1\}||; s|^//! \{0,1\}||'
}
words_of turned_screen.c >"$room/words"
for example in by_ctypes.py by_node.mjs rust/examples/turned_screen.rs; do
    if [ -s "$room/words" ] && words_of "$example" | cmp -s - "$room/words"; then
        passed=$((passed + 1))
    else
        failed=$((failed + 1))
        printf 'failed: %s says in other words what it shows, reads and keeps\n' "$example"
    fi
done

# ---- the weaver

python3 -B "$tests/kill.py" --kills "$kills" --seed "$seed" --fresh "$fresh" "$@" | tee "$room/said" | grep --line-buffered -v ' passed, [0-9]* failed$' || :
last=$(tail -n 1 "$room/said")
case $last in
*' passed, '*' failed') ;;
*) last='0 passed, 1 failed' ;;
esac
counted=${last##*passed, }
passed=$((passed + ${last%% passed*}))
failed=$((failed + ${counted% failed}))
printf 'with %s: %s\n' "${what:-the library}" "$last"

for name in early hasty late anew; do
    build "$room/$name.c" "$room/$name"
    python3 -B "$tests/kill.py" --kills 40 --seed "$seed" --fresh 0 "$name=$run '$room/$name'" >"$room/said" 2>&1 || :
    if found=$(grep -m 1 '^failed: .* deaths and ' "$room/said"); then
        passed=$((passed + 1))
        printf 'a wrong app is found out: %s\n' "${found#failed: }"
    else
        failed=$((failed + 1))
        printf 'failed: a wrong app is not found out: %s\n' "$name"
    fi
done
printf '%d passed, %d failed\n' "$passed" "$failed"
[ "$failed" -eq 0 ]
