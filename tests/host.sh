#!/usr/bin/env bash
# The host's side: the crate over the C boundary, images in files, and the program, with their examples. Its form and clippy's advice are looked at
# where they are at hand.
set -eu
cd "$(dirname "$0")/.."
bash tests/archive
cd host
if cargo fmt --version >/dev/null 2>&1; then cargo fmt --check; else echo 'host: no rustfmt, so its form was not looked at'; fi
if cargo clippy --version >/dev/null 2>&1; then
  cargo clippy --offline --quiet --all-targets -- -D warnings
else
  echo 'host: no clippy, so its advice was not asked'
fi
RUSTDOCFLAGS='-D warnings' cargo doc --offline --quiet --no-deps
cargo test --offline --quiet
