# shellcheck shell=sh
# Read by ./library and tests/archive.sh: `build_board` leaves the archive of the crate board, as rt
# builds it, at $archive. It is proved and built where it is missing or older than what it is made
# of. `root` and `die` are the script's own.

# shellcheck source=tests/kit.sh
. "${root:?}/tests/kit.sh"
# shellcheck source=tests/progress.sh
. "$root/tests/progress.sh"

archive=$root/target/staticlib/libboard.a

build_board() {
    [ -d "$root/crates/board" ] || die "crates/board is missing"
    [ -f "$archive" ] &&
        [ -z "$(find "$root/crates" "$root/crates.txt" -name out -prune -o -type f -newer "$archive" -print)" ] && return
    mkdir -p "$root/target/c"
    touch "$root/target/c/asked" # what changes from here on is newer than the archive
    built=0
    # without the word the code would need a processor with SSE4.2 and POPCNT (x86-64-v2)
    prove_with_progress board rt lib --cpu=x86-64 >&2 || built=$?
    if [ "$built" -ne 0 ]; then
        rm -f "$archive" # it is older than what it is made of
        [ "$built" -le 128 ] || exit "$built"
        die "rt lib failed in crates/board, so there is no library"
    fi
    mkdir -p "${archive%/*}"
    cp "$root/crates/board/out/libboard.a" "$archive"
    touch -r "$root/target/c/asked" "$archive"
}
