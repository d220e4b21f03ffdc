#!/bin/sh
# Builds a C program with the Rattle kit's own compiler, linker and C library, for x86-64.
#
#   tests/build_c.sh PROGRAM FILE...
#
# A FILE that ends in .c is compiled at -O3; all others (objects, archives) are linked as they
# are. CFLAGS are given to the compiler too. Where PROGRAM ends in .o, the files become one
# object. The kit has no C headers, and tests/libc/ stands in for them. tests/run_c.sh runs
# the program.
set -eu

die() { printf 'build_c.sh: %s\n' "$*" >&2; exit 2; }

[ $# -ge 2 ] || die "usage: build_c.sh PROGRAM FILE..."
# shellcheck source=tests/kit.sh
. "$(dirname "$0")/kit.sh"
headers=$(cd "$(dirname "$0")/libc" && pwd)
[ -x "$own/clang" ] || die "the kit has no clang for $(uname -m)"
[ -x "$own/ld.lld" ] || die "the kit has no ld.lld for $(uname -m)"

# No -ffreestanding: with it memcpy of two bytes would be a call.
compile() { # FILE OBJECT
    # shellcheck disable=SC2086  # CFLAGS are words
    "$own/clang" --target=x86_64-unknown-linux-gnu -std=c11 -O3 -fPIC -nostdinc \
        -isystem "$headers" -Wall -Wextra -Werror ${CFLAGS:-} -c "$1" -o "$2"
}

program=$1
shift
mkdir -p "$(dirname "$program")"
count=$#
for file in "$@"; do
    case $file in *.c)
        object=$program.$(basename "$file" .c).o
        compile "$file" "$object"
        set -- "$@" "$object"
        ;;
    *) set -- "$@" "$file" ;;
    esac
done
shift "$count"
case $program in *.o) exec "$own/ld.lld" -r -o "$program" "$@" ;; esac

# -z now: no call looks a function up at its first use, so that a stack measured is the call's own.
"$own/ld.lld" -pie -z now -dynamic-linker /lib64/ld-linux-x86-64.so.2 -o "$program" \
    "$lib/Scrt1.o" "$lib/crti.o" "$lib/crtbeginS.o" "$@" \
    "$lib/libc.so.6" "$lib/libc_nonshared.a" "$lib/libgcc.a" "$lib/crtendS.o" "$lib/crtn.o"
