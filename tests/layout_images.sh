#!/usr/bin/env bash
# The images and answers of crates/layout_images are the ones that the script writes.
set -eu
cd "$(dirname "$0")/.."
folder=$(mktemp -d)
trap 'rm -r "$folder"' EXIT
python3 tests/make_layout_images.py "$folder"
cmp "$folder/stdin" crates/layout_images/stdin
cmp "$folder/stdout" crates/layout_images/stdout
