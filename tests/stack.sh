#!/usr/bin/env bash
# The stack that the calls with marks take is what include/teplovist.h says, and the fault list's half of it: tests/c/stack.c calls each on a thread that
# has no more. The listing goes a thousand folders deep. On less than its marks the listing must fail, or the thread's size bounds nothing.
set -eu -o pipefail
cd "$(dirname "$0")/.."
bash tests/archive
folder=$(mktemp -d)
trap 'rm -r "$folder"' EXIT
cc -std=c99 -O2 -Wall -Wextra -Werror -pedantic -I include tests/c/stack.c target/staticlib/libgateway.a -o "$folder/stack" -lpthread
"$folder/stack"
if "$folder/stack" list_names 400000 2>/dev/null; then
    echo 'stack: a listing on 400000 bytes did not fail'
    exit 1
fi
echo 'stack: a listing on 400000 bytes fails'
