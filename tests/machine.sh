# shellcheck shell=sh
# Read by the tests that use the machine's own compilers: sets `linked`, a folder with a
# librigtemple.a that they can link, and `what`, which it is. Where they make code for x86-64 it is
# the library, from the folder $folder, and for 64-bit Arm the one that ./tablets makes; elsewhere
# the C engine of bench/ under the library's names, compiled here. Without a C compiler `linked` is
# empty. `root` and `die` are the script's own.
linked='' what=''
case $(cc -dumpmachine 2>/dev/null) in
'') ;;
x86_64-*linux*) linked=${folder:?} what='the library' ;;
aarch64-*linux*)
    "${root:?}/tablets" "$root/target/c/tablets" 2>/dev/null || die './tablets failed'
    linked=$root/target/c/tablets/aarch64 what='the library for 64-bit Arm'
    ;;
*)
    # shellcheck source=tests/engine.sh
    . "${root:?}/tests/engine.sh"
    linked=$root/target/c/machine what='the C engine in its place'
    mkdir -p "$linked"
    # shellcheck disable=SC2086,SC2154  # names are words, which tests/engine.sh sets
    for part in engine engine_text engine_names; do
        cc -O2 -fPIC $names -c "$root/bench/$part.c" -o "$linked/$part.o"
    done
    rm -f "$linked/librigtemple.a"
    ar rcs "$linked/librigtemple.a" "$linked/engine.o" "$linked/engine_text.o" "$linked/engine_names.o"
    ;;
esac
