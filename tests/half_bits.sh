#!/usr/bin/env bash
# What crates/half_bits must print is what the script writes.
set -eu
cd "$(dirname "$0")/.."
folder=$(mktemp -d)
trap 'rm -r "$folder"' EXIT
python3 tests/make_half_bits.py "$folder/stdout"
cmp "$folder/stdout" crates/half_bits/stdout
