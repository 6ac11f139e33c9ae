#!/usr/bin/env bash
# Prints OpenSSL's version and each of its named curves over a prime field: the name, the length of the prime in bits,
# and the DER of the object identifier in hexadecimal.
set -eu
openssl version | sed 's/^/# /'
openssl ecparam -list_curves | sed -n 's/^ *\([A-Za-z0-9-]*\) *:.* \([0-9]*\) bit prime field$/\1 \2/p' |
    while read -r name bits; do
        identifier=$(openssl ecparam -name "$name" -outform DER | od -An -v -tx1 | tr -d ' \n' | tr a-f A-F)
        printf '%s %s %s\n' "$name" "$bits" "$identifier"
    done
