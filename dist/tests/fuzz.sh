#!/usr/bin/env bash
# Runs fuzz.c over the inputs in corpus, and over what libFuzzer makes of them for some seconds:
# fuzz.sh LIBRARY SECONDS [FOLDER]. What it finds worth keeping is put into the folder, if one is
# given. LIBRARY is an archive, or sec1.c: of that, libFuzzer sees which lines an input reaches, the
# sanitizers see each read and write of it, and memcpy takes the place of memmove, of which the
# address sanitizer tells memory that overlaps. An archive isn't instrumented. The last line is
# `N passed, M failed`, or `0 passed, 0 failed, 1 skipped` where clang or its libFuzzer is missing.
set -uo pipefail
library=$(realpath "$1") seconds=$2
grown=${3:+$(realpath "$3")}
cd "$(dirname "$0")/.."
work=$(mktemp -d)
trap 'rm -rf "$work"' EXIT
. tests/counts.sh

built() {
    clang -std=c11 -g -O1 -Wall -Wextra -fsanitize=fuzzer,address,undefined \
        -fno-sanitize-recover=all -I. -o "$work/fuzz" "$1" "${@:2}"
}
echo 'int LLVMFuzzerTestOneInput(void) { return 0; }' >"$work/empty.c"
if ! built "$work/empty.c" 2>"$work/said"; then
    skip "clang or its libFuzzer is missing (Debian: apt-get install clang libclang-rt-dev)"
    finish
fi
found_nothing() { # SECONDS
    mkdir -p "$work/grown"
    "$work/fuzz" -max_total_time="$1" -timeout=3600 -max_len=700 -print_final_stats=1 \
        -artifact_prefix="$work/" "${grown:-$work/grown}" tests/corpus
}
if [[ $library == *.c ]]; then
    sed 's/memmove(/memcpy(/' "$library" >"$work/sec1.c"
    check "sec1.c calls memmove at one place" test "$(grep -c 'memmove(' "$library")" = 1
    library=$work/sec1.c
fi
check "clang builds fuzz.c" built tests/fuzz.c "$library"
check "each stored input" "$work/fuzz" tests/corpus/*
check "no input of $seconds seconds gives another answer than the second readers" \
    found_nothing "$seconds"
grep -oE '^(stat::number_of_executed_units.*|FAILED.*)|INITED cov: [0-9]+' "$work/said"
for input in "$work"/crash-* "$work"/timeout-*; do
    [[ -f $input ]] && echo "$(basename "$input"): $(od -An -v -tx1 "$input" | tr -d ' \n')"
done
finish
