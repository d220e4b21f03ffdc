# shellcheck shell=sh
# Read by the scripts that hold the bytes of stack: `stated CALL` prints the figure that the head of
# include/rigtemple.h states for a call, without its comma. `tests` is the script's own.
stated() { # CALL
    sed -n '/Bytes of stack/,/\./p' "${tests:?}/../include/rigtemple.h" |
        grep -o "$1 [0-9][0-9,]*[0-9]" | tr -cd 0-9
}
