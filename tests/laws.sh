#!/usr/bin/env bash
# No import that its file does not use, no law that nobody cites (neither a proof nor a page), and no two laws that say the same.
set -eu
cd "$(dirname "$0")/.."
folder=$(mktemp -d)
trap 'rm -r "$folder"' EXIT

# The test itself, on a crate of two files of laws.
mkdir -p "$folder/crates/one/proofs/f" "$folder/crates/one/src" "$folder/crates/one/out/rlib"
first="$folder/crates/one/proofs/FirstLaws.antt"
second="$folder/crates/one/proofs/SecondLaws.antt"
code="$folder/crates/one/src/lib.rt"
page="$folder/page.md"
write() {
    printf '%s\n' 'use lib.Nat.{ℕ, ◌≡◌, ◌+◌, zero}' '' '-- a law' 'pub left : (a : ℕ) → a + zero ≡ a' 'left a = refl' >"$first"
    printf '%s\n' 'use lib.Nat.{ℕ, ◌≡◌, ◌+◌, zero}' 'use Rattle.one.proofs.FirstLaws.{left}' '' 'pub twice : (a : ℕ) → a + zero + zero ≡ a' 'twice a = left (a + zero)' >"$second"
    printf '%s\n' 'ghost use lib.Nat.{◌≡◌};' '' 'pub fn f(a: u64) -> u64' '    ensures { result ≡ a }' '{' '    a' '}' >"$code"
    printf '%s\n' 'use Rattle.one.proofs.f.Goals as goal' '' 'pub returns : goal.returns' 'returns c = refl' >"$folder/crates/one/proofs/f/Answers.antt"
    cp "$first" "$folder/crates/one/out/rlib/FirstLaws.antt"
    printf '%s\n' 'The law `twice` is the aim.' >"$page"
}
judged() {
    python3 tests/laws.py "$folder/crates" "$page" >"$folder/said" 2>&1
}
must_be_found() { # WHAT
    if judged || ! grep -q "$1" "$folder/said"; then
        echo "laws: not found: $1"
        cat "$folder/said"
        exit 1
    fi
}
write
if ! judged; then
    echo "laws: good files are refused"
    cat "$folder/said"
    exit 1
fi
sed -i 's/◌+◌, zero}/◌+◌, zero, suc}/' "$second"
must_be_found 'SecondLaws.antt: imports suc for nothing'
write
sed -i 's/◌+◌, zero}/◌+◌, ◌*◌, zero}/' "$first"
must_be_found 'FirstLaws.antt: imports ◌\*◌ for nothing'
write
sed -i 's/{◌≡◌}/{◌+◌, ◌≡◌}/' "$code"
must_be_found 'lib.rt: imports ◌+◌ for nothing'
write
sed -i 's/twice/thrice/' "$page"
must_be_found 'SecondLaws.antt: nothing cites twice'
write
sed -i 's/= left (a + zero)/= refl/; s/^use Rattle.one.*//' "$second"
must_be_found 'FirstLaws.antt: nothing cites left'
# a function that hands it to the tactics cites it
sed -i 's/^pub fn/#[tactic(auto, using(Rattle.one.proofs.FirstLaws.left))]\n&/' "$code"
if ! judged; then
    echo 'laws: a law that a function hands to the tactics is refused'
    cat "$folder/said"
    exit 1
fi
write
printf '%s\n' '' 'again : (b : ℕ) → b + zero ≡ b' 'again b = refl' '' 'pub both : (a : ℕ) → a + zero + zero + zero ≡ a' 'both a = again (a + zero + zero)' >>"$second"
echo 'So is `both`.' >>"$page"
must_be_found 'FirstLaws.antt: left says the same as .*SecondLaws.antt: again'

python3 tests/laws.py crates docs/*.md docs/landings/*.md
