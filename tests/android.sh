# shellcheck shell=sh
# Read by tests/tablets.sh: builds examples/tablet by CMake, for the machine and for Android. There
# is no Android kit here: a toolchain file that sets what Android's own sets for arm64-v8a, for what
# CMake and the compiler know of it, stands for it, with the kit's compiler and without Android's C
# library. `root`, `tests`, `room`, `folder`, `own` and `expect` are the script's own.

android_toolchain() { # PROCESSOR TARGET
    cat <<END
set(CMAKE_SYSTEM_NAME Android)
set(CMAKE_SYSTEM_VERSION 1)
set(CMAKE_SYSTEM_PROCESSOR $1)
set(CMAKE_C_COMPILER "${own:?}/clang")
set(CMAKE_C_COMPILER_TARGET $2)
set(CMAKE_C_FLAGS_INIT "-ffreestanding -nostdinc -isystem ${tests:?}/libc")
set(CMAKE_SHARED_LINKER_FLAGS_INIT "-nostdlib -fuse-ld=lld -Wl,-z,max-page-size=16384")
set(CMAKE_TRY_COMPILE_TARGET_TYPE STATIC_LIBRARY)
set(CMAKE_FIND_ROOT_PATH "${room:?}/no sysroot")
set(CMAKE_FIND_ROOT_PATH_MODE_LIBRARY ONLY)
set(CMAKE_FIND_ROOT_PATH_MODE_INCLUDE ONLY)
set(CMAKE_FIND_ROOT_PATH_MODE_PACKAGE ONLY)
END
}

# Builds the example in a folder of its own.
built_by_cmake() { # NAME WORD...
    at=$room/$1
    shift
    cmake -S "${root:?}/examples/tablet" -B "$at" -DRIGTEMPLE_FOLDER="${folder:?}" "$@" &&
        cmake --build "$at" && test -f "$at/libapp.so"
}

# The example is not built for a processor that the folder does not have, nor with a version that it
# does not have, and CMake says why.
refused_by_cmake() { # PART WORD...
    part=$1
    shift
    ! cmake "$@" -DRIGTEMPLE_FOLDER="$folder" >"$room/cmake.said" 2>&1 &&
        tr -s ' \n' '  ' <"$room/cmake.said" | grep -qF "$part"
}
of_version() { # VERSION
    mkdir "$room/version.$1"
    sed "s/(rigtemple [0-9.]*/(rigtemple $1/" "$root/examples/tablet/CMakeLists.txt" \
        >"$room/version.$1/CMakeLists.txt"
    cp "$root/examples/tablet/app.c" "$room/version.$1"
}

# The example in a shared object makes six moves of the stripe card and rests, and refuses the loop
# card, another place and a closed move.
six_moves() { # SHARED-OBJECT
    python3 -B - "$1" "$root/cards/stripe.card" "$root/cards/loop.card" <<'END'
import ctypes
import sys

app = ctypes.CDLL(sys.argv[1])
card, loop = (open(name, "rb").read() for name in sys.argv[2:])
held = ctypes.c_char_p, ctypes.c_size_t
app.app_begin.argtypes = (*held, ctypes.c_char_p)
app.app_next.argtypes = (*held, *held)
app.app_made.argtypes = (*held, *held, ctypes.c_uint16, ctypes.c_char_p)
buffer = ctypes.create_string_buffer(1100)
assert app.app_begin(loop, len(loop), buffer) == -6
count, moves = app.app_begin(card, len(card), buffer), []
place = buffer.raw[:count]
assert app.app_made(card, len(card), place, len(place), 512, buffer) == -15
while (code := app.app_next(card, len(card), place, len(place))) >= 0:
    count = app.app_made(card, len(card), place, len(place), code, buffer)
    place, moves = buffer.raw[:count], [*moves, code]
assert (moves, code) == ([0, 512, 257, 513, 258, 256], -100), (moves, code)
assert app.app_next(card, len(card), place, len(place) - 1) == -1
END
}

# A shared object for Android is for that processor, has pages of 16 KiB, and needs three functions.
for_android() { # SHARED-OBJECT MACHINE
    ln -sf "$own/clang" "$room/llvm-readelf"
    ln -sf "$own/clang" "$room/llvm-nm"
    "$room/llvm-readelf" -h -l "$1" >"$room/elf" && grep -q "Machine: .*$2" "$room/elf" &&
        ! grep -E '^ *LOAD .* 0x1000$' "$room/elf" &&
        [ "$("$room/llvm-nm" -D "$1" | awk '$1 == "U" { print $2 }' | sort | tr '\n' ' ')" = \
            'memcpy memmove memset ' ]
}

if command -v cmake >/dev/null && command -v cc >/dev/null; then
    expect 'the example by CMake' built_by_cmake cmake_own
    expect 'it makes six moves' six_moves "$room/cmake_own/libapp.so"
    for processor in aarch64 x86_64; do
        android_toolchain "$processor" "$processor-none-linux-android24" >"$room/$processor.cmake"
        expect "the example by CMake for Android, $processor" built_by_cmake "android_$processor" \
            "-DCMAKE_TOOLCHAIN_FILE=$room/$processor.cmake"
    done
    expect 'it is for 64-bit Arm' for_android "$room/android_aarch64/libapp.so" AArch64
    expect 'it is for x86-64' for_android "$room/android_x86_64/libapp.so" X86-64
    [ ! -f "$room/android_$(uname -m)/libapp.so" ] ||
        expect "Android's makes six moves here" six_moves "$room/android_$(uname -m)/libapp.so"
    android_toolchain armv7-a armv7-none-linux-androideabi24 >"$room/armv7-a.cmake"
    expect 'another processor is refused' refused_by_cmake "the processor is 'armv7-a'" \
        -S "$root/examples/tablet" -B "$room/armv7-a" "-DCMAKE_TOOLCHAIN_FILE=$room/armv7-a.cmake"
    for version in 4.999 5.0 3.3; do
        of_version "$version"
        expect "version $version is refused" refused_by_cmake "requested version \"$version\"" \
            -S "$room/version.$version" -B "$room/version.$version/build"
    done
    printf 'an app by CMake, for the machine and, without its C library, for Android\n'
else
    printf "CMake is not tried: there is no cmake, or no C compiler (Debian's packages cmake and gcc)\n"
fi
