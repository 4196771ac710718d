#!/usr/bin/env bash
# Blank images through the C boundary: tests/c/blank.c makes them and runs sessions on them, and each byte is held to a reading of 02, W12 in Python.
# samples/blank.img is one of them. `tests/blank.sh --all` compares all 4096 sizes of either kind.
set -eu -o pipefail
cd "$(dirname "$0")/.."
bash tests/archive
folder=$(mktemp -d)
trap 'rm -r "$folder"' EXIT
cc -std=c99 -O2 -Wall -Wextra -Werror -pedantic -I include tests/c/blank.c target/staticlib/libgateway.a -o "$folder/blank"
"$folder/blank"
"$folder/blank" 0 2 | cmp - samples/blank.img
PYTHONDONTWRITEBYTECODE=1 python3 tests/blank_images.py "$folder/blank" "$@"
