#!/usr/bin/env bash
# Compiles the header as each standard of C and C++ that the compilers here have, and looks for the
# warnings that its attributes give: compilers.sh INCLUDE ARCHIVE. The last line is
# `N passed, M failed`.
set -uo pipefail
include=$1 archive=$2
cd "$(dirname "$0")"
passed=0 failed=0
work=$(mktemp -d)
trap 'rm -rf "$work"' EXIT
strict="-Wall -Wextra -Wpedantic -Wconversion -Wsign-conversion -Wshadow -Wundef -Wredundant-decls"

expect() { # NAME FOUND WANTED
    if [[ $2 == "$3" ]]; then
        passed=$((passed + 1))
    else
        failed=$((failed + 1))
        echo "FAILED: $1: $2 isn't $3"
    fi
}
has() { "$@" -x c -E -o "$work/null" /dev/null 2> "$work/null"; }
warnings() { # COMMAND..: how many different warnings and errors the command prints
    "$@" 2>&1 | grep -E '(warning|error):' | sort -u | tee "$work/warnings" | wc -l
}
# Prints the first of these.
shown() { sed 's/^/  /' "$work/warnings" | head -n 3; }

# ---- each standard: without a warning, and linked with and without optimization

standards() { # COMPILER LANGUAGE STANDARD..
    local compiler=$1 language=$2 standard found level count=0
    shift 2
    for standard in "$@"; do
        $compiler -x "$language" -std="$standard" -E -o "$work/null" /dev/null 2> "$work/null" ||
            continue
        for level in -O0 -O2; do
            found=$(warnings $compiler -x "$language" -std="$standard" "$level" $strict \
                -I "$include" -c -o "$work/calls.o" attributes.c)
            expect "$compiler -std=$standard $level: warnings of the right calls" "$found" 0
            [[ $found == 0 ]] || shown
            $compiler -x "$language" -std="$standard" "$level" -I "$include" \
                -o "$work/text" text.c -x none "$archive" 2> "$work/null"
            expect "$compiler -std=$standard $level: text.c" "$("$work/text")" "ok 200"
        done
        count=$((count + 1))
    done
    echo "$compiler: $count standards"
}
for compiler in gcc clang; do
    has $compiler && standards $compiler c c89 gnu89 c99 gnu99 c11 c17 gnu17 c2x c23
done
for compiler in g++ clang++; do
    has $compiler && standards $compiler c++ c++98 c++11 c++14 c++17 gnu++17 c++20 c++2b c++23 c++26
done

# ---- the attributes: one warning of each wrong call, none of the right ones

for compiler in gcc clang; do
    has $compiler || continue
    last=5
    echo '__has_attribute(access)' | $compiler -E - 2> "$work/null" | grep -qx 1 && last=17
    for wrong in $(seq 0 $last); do
        found=$(warnings $compiler -std=c99 -O2 -Wall -Wextra -DWRONG="$wrong" -I "$include" \
            -c -o "$work/calls.o" attributes.c)
        expect "$compiler: warnings of wrong call $wrong" "$found" $((wrong > 0))
    done
    echo "$compiler: $last wrong calls"
done

# ---- other machines

refused() { # COMPILER..: how often the header itself is refused
    echo '#include <sec1.h>' | "$@" -x c -fsyntax-only -I "$include" - 2>&1 |
        grep -c 'error: .*libsec1'
}
has gcc && expect "gcc -m32" "$(refused gcc -m32)" 1
has gcc && expect "gcc -mx32" "$(refused gcc -mx32)" 1
if has clang; then
    for target in x86_64-linux-gnu aarch64-linux-gnu aarch64_be-linux-gnu aarch64-linux-android \
        riscv64-linux-gnu s390x-linux-gnu powerpc64le-linux-gnu aarch64-none-elf \
        x86_64-unknown-freebsd arm64-apple-macos x86_64-w64-mingw32 aarch64-windows-msvc; do
        expect "clang for $target" "$(refused clang --target=$target)" 0
    done
    for target in i686-linux-gnu arm-linux-gnueabihf riscv32-none-elf i686-w64-mingw32 \
        wasm32-unknown-unknown; do
        expect "clang for $target" "$(refused clang --target=$target)" 1
    done
    echo "clang: 17 machines"
fi
echo "$passed passed, $failed failed"
[[ $failed -eq 0 ]]
