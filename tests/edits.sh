#!/usr/bin/env bash
# Each must-fail edit is refused at the fact that it breaks: tests/edits.txt names the file and the goal (or law) where the prover first finds
# fault. An edit that is refused for its shape, or elsewhere, would show nothing of the fact. It reads what `rt ci` says of each, which .ci/run keeps in
# target/must-fail.log; `rt must-fail > target/must-fail.log` makes that too. Once it has been read that all is as it should be,
# `python3 tests/edits.py --write tests/edits.txt crates target/must-fail.log` writes the list.
set -eu
cd "$(dirname "$0")/.."
folder=$(mktemp -d)
trap 'rm -r "$folder"' EXIT

# The test itself: one edit that is refused where the list says, and what must be found.
mkdir -p "$folder/crates/one/must-fail" "$folder/crates/one/src"
touch "$folder/crates/one/must-fail/wrong.edit"
printf '%s\n' 'fn f() {' '}' '' 'pub extern "C" fn g() {' '    f();' '}' >"$folder/crates/one/src/lib.rt"
told='rt: must-fail one/wrong.edit: refused, as it must be'
good="$told: ./proofs/f/Answers.antt:7:3: error: \`returns\`: differs"
other="$told: ./proofs/g/Answers.antt:7:3: error: \`returns\`: differs"
open="$told: note: src/lib.rt:5:5: it is not proved that what the function ensures holds when it returns (\`returns\`); the facts known there allow"
try() { # LIST LOG
    printf '%s\n' "$1" >"$folder/list"
    printf '%s\n' 'rt: one proved' "$2" '1 passed, 0 failed' >"$folder/log"
    python3 tests/edits.py "$folder/list" "$folder/crates" "$folder/log" >"$folder/said" 2>&1
}
must_be_found() { # LIST LOG
    if try "$1" "$2"; then
        echo "edits: not found: $1 against $2"
        exit 1
    fi
}
must_pass() { # LIST LOG
    if ! try "$1" "$2"; then
        echo "edits: a good list is refused: $1 against $2"
        exit 1
    fi
}
line='one/wrong proofs/f/Answers.antt returns'
must_pass "$line" "$good"
must_pass "$line" "$good
$good"
# a function whose goals the tactics prove has its fault in its source
must_pass 'one/wrong src/lib.rt#g returns' "$open"
must_be_found 'one/wrong src/lib.rt#f returns' "$open"
must_be_found 'one/wrong src/lib.rt returns' "$open"
must_be_found "$line" "$open"
must_be_found "$line" "$other"
must_be_found "$line" "$good
$other"
must_be_found 'one/wrong proofs/f/Answers.antt returns-2' "$good"
# refused for its shape, or by a limit of the prover
must_be_found "$line" "$told"
must_be_found "$line" "$told (only because a proof file names what the edit took away, so this says little of the contract: change a value and keep the names): ${good#*: refused, as it must be: }"
must_be_found "$line" "$told (only by a limit of the prover, which gave no verdict, so this says less of the contract: choose a change that it refuses sooner): ${good#*: refused, as it must be: }"
# not refused at all
must_be_found "$line" "${told%: *}: NOT REFUSED: the crate is still proved with this edit"
must_be_found "$line" "${told%: *}: BAD EDIT: the prover cannot read the edited text"
must_be_found "$line" 'rt: one is kept'
must_be_found '' "$good"
must_be_found "$line
one/gone proofs/f/Answers.antt returns" "$good"
# and the list that is written is the one that holds
printf '# the list\n' >"$folder/list"
printf '%s\n' "$good" >"$folder/log"
python3 tests/edits.py --write "$folder/list" "$folder/crates" "$folder/log" >"$folder/said"
printf '%s\n' '# the list' "$line" | cmp - "$folder/list"
rm "$folder/log"
if python3 tests/edits.py "$folder/list" "$folder/crates" "$folder/log" >"$folder/said" 2>&1; then
    echo 'edits: a log that is not there is not missed'
    exit 1
fi

python3 tests/edits.py tests/edits.txt crates target/must-fail.log
