#!/usr/bin/env bash
# Power failures, failing stores and a killed process under the host's own code, judged by the independent implementation: docs/RELIABILITY.md. Wrong hosts
# must be found first. `cargo run --offline --release -- crashes --images 1000000 --threads 2` in tests/power judges a million crash images.
set -eu
cd "$(dirname "$0")/.."
bash tests/archive
cd tests/power
if cargo fmt --version >/dev/null 2>&1; then cargo fmt --check; else echo 'power: no rustfmt, so its form was not looked at'; fi
if cargo clippy --version >/dev/null 2>&1; then
  cargo clippy --offline --release --quiet --all-targets -- -D warnings
else
  echo 'power: no clippy, so its advice was not asked'
fi
cargo test --offline --release --quiet
run() { cargo run --offline --release --quiet -- "$@"; }
run crashes
run errors
run killed
