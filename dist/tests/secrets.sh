#!/usr/bin/env bash
# Runs secrets.c under valgrind, which reports each branch and each address that depends on a byte
# of a private key: secrets.sh ARCHIVE. The program is built by each compiler, with optimization,
# which takes the bodies of the small functions from sec1.h, and without, which calls those of the
# archive. The last line is `N passed, M failed`, or `N passed, M failed, 1 skipped` where valgrind
# is missing. CC is a compiler in place of gcc. COMPILERS and LEVELS are others in place of these.
set -uo pipefail
archive=$(realpath "$1")
cd "$(dirname "$0")/.."
work=$(mktemp -d)
trap 'rm -rf "$work"' EXIT
. tests/counts.sh

# The calls of the library that secrets.c doesn't make, but for those that get no key in DER.
not_made() {
    local call
    for call in $(sed -n 's/^ *\(sec1_[a-z0-9_]*\);$/\1/p' packaging/libsec1.map); do
        case ${call#sec1_} in
        point_* | identifier_* | curve_* | public_key_* | certificate_* | signature_*) ;;
        status_* | version | pem_decode) ;;
        *) grep -q "\b$call(" tests/secrets.c || echo "$call" ;;
        esac
    done
}
finds_nothing() {
    valgrind -q --error-exitcode=9 --leak-check=no "$1"
}
built() { # COMPILER LEVEL ARCHIVE
    "$1" -std=c99 -Wall -Wextra "$2" -gdwarf-4 -I. -o "$work/secrets" tests/secrets.c "$3"
}
check "secrets.c makes each call on private keys: $(not_made | paste -s -d ' ')" \
    test -z "$(not_made)"
if ! command -v valgrind >"$work/said" ||
    ! echo '#include <valgrind/memcheck.h>' | ${CC:-cc} -E -o "$work/said" - 2>"$work/null"; then
    skip "valgrind is missing (Debian: apt-get install valgrind)"
    finish
fi
for compiler in ${COMPILERS:-${CC:-gcc} clang}; do
    command -v "$compiler" >"$work/said" || continue
    for level in ${LEVELS:--O0 -O2}; do
        check "$compiler $level compiles secrets.c" built "$compiler" "$level" "$archive"
        check "no branch and no address depends on a private byte: $compiler $level" \
            finds_nothing "$work/secrets"
        echo "$compiler $level: $(tail -n 1 "$work/said")"
    done
done
finish
