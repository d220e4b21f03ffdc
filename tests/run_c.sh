#!/bin/sh
# Runs a program that tests/build_c.sh built: directly on x86-64, in the kit's emulator elsewhere.
#
#   tests/run_c.sh PROGRAM ARGUMENT...
set -eu

die() { printf 'run_c.sh: %s\n' "$*" >&2; exit 2; }

[ $# -ge 1 ] || die "usage: run_c.sh PROGRAM ARGUMENT..."
# shellcheck source=tests/kit.sh
. "$(dirname "$0")/kit.sh"

[ -f "$1" ] || die "there is no program $1"
program=$(cd "$(dirname "$1")" && pwd)/$(basename "$1")
shift
set -- "$lib/ld-linux-x86-64.so.2" --library-path "$lib" "$program" "$@"
case $(uname -m) in
x86_64 | amd64) ;;
*)
    [ -x "$own/qemu-x86_64" ] || die "the kit has no emulator for $(uname -m)"
    set -- "$own/qemu-x86_64" "$@"
    ;;
esac
exec "$@"
