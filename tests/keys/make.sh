#!/usr/bin/env bash
# Makes keys with OpenSSL, one of each named curve that it has, and prints each form that it writes them in: a line of hexadecimal
# behind a line with the curve and the form. The keys are new in each run.
set -eu
folder=$(mktemp -d)
trap 'rm -rf "$folder"' EXIT
cd "$folder"

# Prints the file as a line of hexadecimal, behind a line that says what it is.
show() {
    printf '# %s, %s\n%s\n' "$curve" "$1" "$(od -An -v -tx1 "$2" | tr -d ' \n' | tr a-f A-F)"
}

# Writes the key of the first file in the form that the other words ask for, and shows it where OpenSSL can.
form() {
    local name=$1 from=$2
    shift 2
    if openssl ec -inform DER -in "$from" -outform DER -out form "$@" 2>errors; then
        show "$name" form
    fi
}

# Takes the key out of its PKCS#8 form, in which it has no parameters (RFC 5915 section 3).
inner() {
    openssl pkcs8 -topk8 -nocrypt -inform DER -in "$2" -outform DER -out pkcs8 2>errors || return 0
    at=$(openssl asn1parse -inform DER -in pkcs8 | sed -n 's/^ *\([0-9]*\):d=1 .*OCTET STRING.*/\1/p')
    openssl asn1parse -inform DER -in pkcs8 -strparse "$at" -noout -out inner
    show "$1" inner
}

openssl version | sed 's/^/# /'
for curve in $(openssl ecparam -list_curves | sed -n 's/^ *\([A-Za-z0-9-]*\) *:.*/\1/p'); do
    openssl ecparam -name "$curve" -genkey -noout -outform DER -out key 2>errors || continue
    form "uncompressed" key -conv_form uncompressed
    form "compressed" key -conv_form compressed
    form "hybrid" key -conv_form hybrid
    form "without public key" key -no_public
    form "explicit parameters" key -param_enc explicit
    inner "without parameters" key
    openssl ec -inform DER -in key -outform DER -out compressed -conv_form compressed 2>errors
    inner "without parameters, compressed" compressed
    openssl ec -inform DER -in key -outform DER -out alone -no_public 2>errors
    inner "without parameters and public key" alone
done
