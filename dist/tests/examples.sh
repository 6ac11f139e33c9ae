#!/usr/bin/env bash
# Builds the examples from an installed tree alone, in an empty folder, with pkg-config, CMake and
# rustc, and runs them on stored keys: examples.sh PREFIX. The last line is `N passed, M failed`.
set -uo pipefail
prefix=$(realpath "$1")
here=$(realpath "$(dirname "$0")")
keys=$here/../../tests/keys
work=$(mktemp -d)
trap 'rm -rf "$work"' EXIT
mkdir "$work/empty"
cd "$work/empty" || exit 2
examples=$prefix/share/doc/sec1/examples
export PKG_CONFIG_PATH=$prefix/lib/pkgconfig LD_LIBRARY_PATH=$prefix/lib
programs=()
. "$here/counts.sh"

missing() { # TOOL PACKAGE
    failed=$((failed + 1))
    echo "FAILED: $1 is missing (Debian: $2)"
}
made() { # NAME PROGRAM COMMAND..: the command makes the program
    local name=$1 program=$2
    shift 2
    check "$name" "$@"
    [[ -x $program ]] && programs+=("$program")
}
warnings="-Wall -Wextra -Wpedantic -Wconversion -Werror"

if command -v pkg-config > "$work/said"; then
    flags=$(pkg-config --cflags --libs sec1)
    check "pkg-config has the version" pkg-config --exact-version="$(sed -n \
        's/^#define SEC1_VERSION_[A-Z]* //p' "$prefix/include/sec1.h" | paste -s -d .)" sec1
    made "C by pkg-config" ./c ${CC:-cc} -std=c99 $warnings "$examples/key_parts.c" $flags -o c
    check "sec1_dump.c" ${CC:-cc} -std=c99 $warnings "$here/../sec1_dump.c" $flags -o sec1_dump
    check "sec1_dump draws examples/p256.der" eval 'cmp "$here/../examples/p256-view.txt" \
        <("$prefix/bin/sec1_dump" "$here/../examples/p256.der")'
    if [[ -f $here/../../tests/dump/programs.py ]]; then
        check "it draws what a second reader draws" \
            python3 -B "$here/../../tests/dump/programs.py" "$prefix/bin/sec1_dump"
    fi
    sed -n '/^```c$/,/^```$/{/^```/d;p}' "$prefix/share/doc/sec1/CALLS.md" > read_key.c
    check "C of CALLS.md" ${CC:-cc} -std=c99 $warnings read_key.c $flags -o read_key
    grep -A 1 '^    private key: 32 bytes at 7$' "$prefix/share/doc/sec1/CALLS.md" | sed -n 's/^    //p' |
        head -n 2 > "$work/wanted"
    key=$here/../examples/p256.der
    check "it prints what CALLS.md says" \
        eval 'diff "$work/wanted" <(./read_key < "$key"; head -c 60 "$key" | ./read_key)'
    if command -v g++ > "$work/said"; then
        made "C++ by pkg-config" ./cpp \
            g++ -x c++ -std=c++11 $warnings "$examples/key_parts.c" -x none $flags -o cpp
        check "sec1_dump.c as C++" \
            g++ -x c++ -std=c++11 $warnings "$here/../sec1_dump.c" -x none $flags -o sec1_dump_cpp
    else
        missing g++ g++
    fi
else
    missing pkg-config pkgconf
fi

if command -v cmake > "$work/said"; then
    cat > CMakeLists.txt <<END
cmake_minimum_required(VERSION 3.13)
project(examples C CXX)
find_package(sec1 0.2 REQUIRED)
configure_file($examples/key_parts.c key_parts.cc COPYONLY)
add_executable(cmake_c $examples/key_parts.c)
set_property(TARGET cmake_c PROPERTY C_STANDARD 99)
target_link_libraries(cmake_c sec1::sec1)
add_executable(cmake_cpp key_parts.cc)
set_property(TARGET cmake_cpp PROPERTY CXX_STANDARD 11)
target_link_libraries(cmake_cpp sec1::static)
END
    check "CMake finds the package" cmake -S . -B build -DCMAKE_PREFIX_PATH="$prefix"
    made "C by CMake" build/cmake_c cmake --build build
    made "C++ by CMake" build/cmake_cpp cmake --build build
    for asked in 0.1 0.3 1.0 0.2.99; do
        sed "s/sec1 0.2 REQUIRED/sec1 $asked REQUIRED/" CMakeLists.txt > "$work/CMakeLists.txt"
        check "CMake refuses it where $asked is asked for" \
            eval "! cmake -S '$work' -B '$work/other' -DCMAKE_PREFIX_PATH='$prefix'"
        rm -rf "$work/other"
    done
else
    missing cmake cmake
fi

if command -v rustc > "$work/said"; then
    made "Rust" ./rust rustc --edition 2021 -O -D warnings -L native="$prefix/lib" \
        -o rust "$examples/key_parts.rs"
else
    missing rustc rustc
fi
if command -v python3 > "$work/said"; then
    printf '#!/bin/sh\nexec python3 -B "%s" "%s" "$1"\n' \
        "$examples/key_parts.py" "$prefix/lib/libsec1.so.0" > python
    chmod +x python
    programs+=(./python)
    python3 -B "$here/examples.py" "$keys" "$here/../examples" "${programs[@]}" > "$work/compared"
    sed '$d' "$work/compared"
    if [[ $(tail -n 1 "$work/compared") =~ ^([0-9]+)\ passed,\ ([0-9]+)\ failed$ ]]; then
        passed=$((passed + BASH_REMATCH[1])) failed=$((failed + BASH_REMATCH[2]))
    else
        failed=$((failed + 1))
        echo "FAILED: examples.py ended before its last line"
    fi
else
    missing python3 python3
fi
finish
