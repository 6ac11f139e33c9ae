#!/usr/bin/env bash
# Proves the library, and builds the proved object for both processors, out/libsec1_c.a for x86-64
# and out/libsec1_c-aarch64.a, and the module for WebAssembly, out/sec1.wasm, which it links from
# out/libsec1_c-wasm64.a. With a folder it also builds the rest, which is in dist, for x86-64, and
# installs it there: build.sh [FOLDER].
# RT names the command `rt`, JOBS the number of its jobs, BUILD the folder of what the rest is built
# in. With SEC1_C_BUILT=1 the objects that stand in out/ are taken as they are; with ONLY_X86_64=1
# only the object for x86-64 is built.
set -euo pipefail
folder=${1:+$(realpath -m "$1")}
cd "$(dirname "$0")"
if [[ ! ${SEC1_C_BUILT:-} ]]; then
    rm -f out/libsec1_c-*.a out/sec1.wasm
    if [[ ! ${ONLY_X86_64:-} ]]; then
        ${RT:-rt} lib --target=wasm64-unknown-unknown ${JOBS:+--jobs "$JOBS"}
        kit=$(dirname "$(realpath "$(${RT:-rt} doc)")")
        "$kit/bin/rattle-link" --target wasm64-unknown-unknown --toolchain "$kit/toolchain" \
            --stack 65536 -o out/sec1.wasm out/libsec1_c.a
        mv out/libsec1_c.a out/libsec1_c-wasm64.a
        ${RT:-rt} lib --target=aarch64-unknown-linux-gnu ${JOBS:+--jobs "$JOBS"}
        mv out/libsec1_c.a out/libsec1_c-aarch64.a
    fi
    # x86-64 is the processor that every x86-64 has: without the option the code asks for SSE4.1.
    ${RT:-rt} lib --cpu=x86-64 ${JOBS:+--jobs "$JOBS"}
fi
if [[ $folder ]]; then
    make -C ../../dist install BUILD="${BUILD:-$PWD/out/build}" \
        PROVED="$PWD/out/libsec1_c.a" PREFIX="$folder"
fi
