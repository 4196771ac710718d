#!/usr/bin/env bash
# Every single store that the proved library makes to an image while it runs, as valgrind's lackey writes it down, on random images: begin and write
# store to no protected byte, not even to put it back, but for a write's own range of an external level 4; a commit or a revert stores each byte of
# its header once and nothing else, a signed one each byte of its signature too, and no other call stores.
# The protected bytes come from the independent implementation in tests/outside.
set -euo pipefail
cd "$(dirname "$0")/.."
if ! command -v valgrind >/dev/null; then
  echo 'stores_at_run: valgrind is missing (Debian has it as the package valgrind)'
  exit 1
fi
bash tests/archive
(cd tests/outside && cargo build --offline --release --quiet --features gateway)
outside=tests/outside/target/release/outside
folder=$(mktemp -d)
trap 'rm -r "$folder"' EXIT

judged() { # CALLS [WORDS FOR THE REPLAY]
  valgrind --tool=lackey --trace-mem=yes --log-fd=9 "$outside" stores replay "$@" 9>&1 >/dev/null | "$outside" stores judge "$1"
}

"$outside" stores prepare "$folder/calls"
judged "$folder/calls"

# With a store too many, of a byte that stays as it was, the same way of looking must find it.
"$outside" stores prepare "$folder/few" --calls 1
if judged "$folder/few" --fault yes 2>"$folder/found" || ! grep -q 'a store to byte 0x100, which is protected from it' "$folder/found"; then
  cat "$folder/found"
  echo 'stores_at_run: a store too many was not found'
  exit 1
fi
echo 'stores_at_run: every store seen was allowed, and a store too many was found'
