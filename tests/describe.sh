#!/usr/bin/env bash
# What target/bin/describe prints. The texts of the samples are those of the independent implementation (tests/outside, `describe`), the
# first also the paper's own; the others follow from the paper's table of refusals.
set -eu
cd "$(dirname "$0")/.."
python3 tests/libraries.py program describe
folder=$(mktemp -d)
trap 'rm -r "$folder"' EXIT
failed=0 passed=0

prints_of_input() { # WHAT LINE..
    what=$1
    shift
    printf '%s\n' "$@" >"$folder/expected"
    target/bin/describe >"$folder/printed" || echo "status $?" >>"$folder/printed"
    if cmp -s "$folder/expected" "$folder/printed"; then
        passed=$((passed + 1))
    else
        echo "describe: $what: expected, and printed:"
        diff "$folder/expected" "$folder/printed" || failed=$((failed + 1))
    fi
}

prints() { # WHAT IMAGE LINE..
    what=$1 image=$2
    shift 2
    prints_of_input "$what" "$@" <"$image"
}

zeros() { head -c "$1" /dev/zero; }

prints 'a DISA of one partition' samples/disa-one.img DISA 'partitions 1' 'table secondary' 'A level4 4096 blocks 1 stands 1'
prints 'a DIFF' samples/diff.img DIFF 'partitions 1' 'table primary' 'A level4 2500 blocks 5 stands 5'
prints 'two partitions' samples/disa-two.img DISA 'partitions 2' 'table secondary' \
    'A level4 5000 blocks 20 stands 15' 'B level4 5000 blocks 20 stands 20'
prints 'a blank image' samples/blank.img DISA 'partitions 1' 'table primary' 'A level4 8192 blocks 2 stands 2'
prints 'external level 4' samples/external.img DIFF 'partitions 1' 'table secondary' 'A level4 3000 blocks 3 stands 3'

# The longest input: bytes that no field names may follow.
size=$(wc -c <samples/disa-one.img)
{ cat samples/disa-one.img; zeros $((65536 - size)); } >"$folder/longest"
prints '65,536 bytes, an image' "$folder/longest" DISA 'partitions 1' 'table secondary' 'A level4 4096 blocks 1 stands 1'
{ cat "$folder/longest"; zeros 1; } >"$folder/image"
prints '65,537 bytes, an image' "$folder/image" 'too long'
zeros 65537 >"$folder/image"
prints '65,537 zero bytes' "$folder/image" 'too long'
zeros 65536 >"$folder/image"
prints '65,536 zero bytes' "$folder/image" 'refused 2'

zeros 0 >"$folder/image"
prints 'no bytes' "$folder/image" 'refused 1'
zeros $((0x1FF)) >"$folder/image"
prints '0x1FF zero bytes' "$folder/image" 'refused 1'
zeros $((0x200)) >"$folder/image"
prints '0x200 zero bytes' "$folder/image" 'refused 2'

# One byte of a good image changed: the count (offset 8 of the header) to 3, and a byte of the table hash (offset 0x6C).
changed() { # OFFSET BYTE
    cp samples/disa-one.img "$folder/image"
    printf "\\x$2" | dd of="$folder/image" bs=1 seek=$(($1)) conv=notrunc status=none
}
changed 0x108 03
prints 'a count of 3' "$folder/image" 'refused 3'
first=$(od -An -tx1 -j $((0x16C)) -N 1 samples/disa-one.img | tr -d ' ')
changed 0x16C "$(printf %02x $((0x$first ^ 1)))"
prints 'another table hash' "$folder/image" 'refused 5'

# Standard input may come in pieces.
mkfifo "$folder/pipe"
{ head -c 1000 samples/disa-two.img; sleep 0.2; tail -c +1001 samples/disa-two.img; } >"$folder/pipe" &
prints 'in two pieces' "$folder/pipe" DISA 'partitions 2' 'table secondary' \
    'A level4 5000 blocks 20 stands 15' 'B level4 5000 blocks 20 stands 20'
wait

# Standard input that cannot be read: closed, a folder, and open for writing alone.
prints_of_input 'a closed input' 'cannot read' <&-
prints 'a folder' "$folder" 'cannot read'
prints_of_input 'an input that is open for writing alone' 'cannot read' 0>"$folder/image"

echo "describe: $passed right, $failed wrong"
[ "$failed" -eq 0 ]
