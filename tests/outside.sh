#!/usr/bin/env bash
# The independent implementation: its own tests, then random cases against the proved library behind its C boundary.
set -eu
cd "$(dirname "$0")/.."
if ! grep -q '^gateway staticlib:' crates.txt; then
  echo 'outside: crates.txt has no gateway, so there is no library to compare with'
  exit 1
fi
bash tests/archive
cd tests/outside
if ! openssl mac -cipher AES-128-CBC -macopt hexkey:00000000000000000000000000000000 CMAC </dev/null >/dev/null 2>&1; then
  echo 'outside: NOT COMPARED with openssl, which has no command mac here'
fi
cargo test --offline --quiet --features gateway
cargo run --offline --release --quiet --features gateway -- check
