# shellcheck shell=sh
# Read by ./tablets: `build_module` leaves the library's one module, as the kit proved it and before
# the optimiser, at $module, the archive that the kit made of it at $archive, and the words that the
# kit's compiler was called with at $words. They are made where one is missing or older than what it
# is made of. `root` and `die` are the script's own.
#
# The kit keeps no module. But rt takes as its kit the folder above its own: it is copied into a
# folder of links to the kit in which only the compiler is another, a script that keeps each module
# and its words, and then is the kit's own.

# shellcheck source=tests/board.sh
. "${root:?}/tests/board.sh"

module=$root/target/module/module.bc words=$root/target/module/words

# Links to all that is in one folder, but for some names, from another.
link_all_but() { # FOLDER OTHER NAME...
    mkdir -p "$2"
    for entry in "$1"/*; do
        case " $3 " in
        *" ${entry##*/} "*) ;;
        *) ln -s "$entry" "$2/${entry##*/}" ;;
        esac
    done
}

# The kit with its compiler watched, in the folder kit of another, which modules and words are kept
# in. The prover empties the compiler's environment, so that the script finds all by links beside it.
watched_kit() { # FOLDER
    link_all_but "${kit:?}" "$1/kit" 'bin toolchain'
    link_all_but "$kit/bin" "$1/kit/bin" 'rt rtlib.py'
    cp "$kit/bin/rt" "$kit/bin/rtlib.py" "$1/kit/bin"
    link_all_but "$kit/toolchain" "$1/kit/toolchain" bin
    link_all_but "$kit/toolchain/bin" "$1/kit/toolchain/bin" clang
    watching=$1/kit/toolchain/bin
    mkdir "$watching/own"
    ln -s "$kit/toolchain/bin/clang" "$watching/own/clang"
    ln -s "$1" "$watching/kept"
    cat >"$watching/clang" <<'END'
#!/bin/sh
here=${0%/*}
for word in "$@"; do
    case $word in *.bc)
        cp "$word" "$here/kept/module.$$.bc"
        printf '%s\n' "$@" >"$here/kept/words.$$"
        ;;
    esac
done
exec "$here/own/clang" "$@"
END
    chmod +x "$watching/clang"
}

build_module() {
    [ -f "$module" ] && [ -f "$words" ] && [ -f "${archive:?}" ] &&
        [ -z "$(find "$archive" -newer "$module")" ] &&
        [ -z "$(find "$root/crates" "$root/crates.txt" -name out -prune -o -type f -newer "$archive" -print)" ] && return
    keep=$root/target/module before=$PATH
    rm -rf "$keep" "$archive"
    watched_kit "$keep"
    PATH=$keep/kit/bin:$PATH
    build_board
    PATH=$before
    rm -rf "$keep/kit" "$keep/rattle-kept" # what rt keeps stands beside its kit
    set -- "$keep"/module.*.bc
    [ -f "$1" ] || die 'the kit handed its compiler no module, which is not known here'
    [ $# -eq 1 ] || die "the kit made the library of $# modules, and one is known here"
    mv "$keep"/words.* "$words"
    mv "$1" "$module"
}
