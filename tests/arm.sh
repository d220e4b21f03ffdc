# shellcheck shell=sh
# Read by the tests of the library for 64-bit Arm: sets `arm_cc`, the words of a C compiler for it,
# and `arm_run`, the words that run what it made. On an Arm machine these are the machine's own, and
# elsewhere, or where `emulated` is not empty, Debian's compiler and emulator. The programs are
# linked whole, and no function is looked up at its first use: a stack measured is the call's own.
# `die` is the script's own.
case $(uname -m)${emulated:+, emulated} in
aarch64 | arm64)
    command -v cc >/dev/null || die "there is no C compiler: install Debian's package gcc"
    arm_cc='cc -static' arm_run=''
    ;;
*)
    command -v aarch64-linux-gnu-gcc >/dev/null ||
        die "there is no C compiler for 64-bit Arm: install Debian's packages" \
            "gcc-aarch64-linux-gnu and libc6-dev-arm64-cross"
    command -v qemu-aarch64 >/dev/null ||
        die "there is no emulator for 64-bit Arm: install Debian's package qemu-user"
    # shellcheck disable=SC2034  # for the script that reads this
    arm_cc='aarch64-linux-gnu-gcc -static' arm_run='qemu-aarch64'
    ;;
esac
