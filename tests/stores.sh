#!/usr/bin/env bash
# Which functions store into an image, where, and how often. A contract sees an image at entry and at exit alone, so that no proof can tell a
# store that is undone from none. Hence this reading of the compiler's MIR, as the proved libraries have it: tests/stores/rules.py says what must hold,
# tests/stores/edits.py has the wrong programs that it must find.
set -eu
cd "$(dirname "$0")/.."
export PYTHONDONTWRITEBYTECODE=1
python3 tests/libraries.py mir
python3 tests/stores/check.py .
python3 tests/stores/built.py .
python3 tests/stores/try_edits.py .
