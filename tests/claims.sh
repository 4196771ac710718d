#!/usr/bin/env bash
# docs/CLAIMS.md cites definitions, contracts, theorems and tests as `FILE#NAME` (or `FILE` alone), and other pages do too. This fails where a page or a
# cited file is not there, or does not define the cited name, so that the pages cannot rot. First the check itself is tried on pages that are wrong.
set -eu
cd "$(dirname "$0")/.."
pages=$(mktemp -d)
trap 'rm -rf "$pages"' EXIT

# A page with one citation must pass, or be reported with the given words.
passes() {
  printf 'A sentence, settled by `%s`.\n' "$1" > "$pages/page.md"
  python3 tests/claims.py "$pages/page.md" > "$pages/said" || { echo "claims: $1 is taken for wrong"; cat "$pages/said"; exit 1; }
}
reports() {
  if python3 tests/claims.py "$1" > "$pages/said" || ! grep -qF "$2" "$pages/said"; then
    echo "claims: not reported: $2"
    cat "$pages/said"
    exit 1
  fi
}
reports_name() {
  printf 'A sentence, settled by `%s#%s`.\n' "$1" "$2" > "$pages/page.md"
  reports "$pages/page.md" "page.md:1: $1 defines no $2"
}

passes 'crates/ivfc/src/verifying.rt#judge'
passes 'crates/ivfc/specs/Verified.antt#verified'
passes 'tests/claims.py#defines'
passes 'tests/claims.sh#passes'
reports_name crates/ivfc/src/verifying.rt if
reports_name crates/ivfc/src/verifying.rt fn
reports_name crates/ivfc/src/verifying.rt no_such_function
reports_name crates/stores/src/staging.rt image
reports_name crates/ivfc/specs/Verified.antt pub
reports_name crates/ivfc/specs/Verified.antt verifi
reports_name crates/number/proofs/BlockLaws.antt to
reports_name include/teplovist.h teplovist_open
printf 'A sentence, settled by `crates/ivfc/src/nowhere.rt`.\n' > "$pages/page.md"
reports "$pages/page.md" 'page.md:1: no file crates/ivfc/src/nowhere.rt'
reports "$pages/missing.md" "no page $pages/missing.md"
printf 'A sentence ([`no_such_law`](%s)).\n' "$PWD/crates/ivfc/specs/Verified.antt" > "$pages/page.md"
reports "$pages/page.md" 'Verified.antt defines no no_such_law'
printf 'A sentence ([`verified`](nowhere/Verified.antt)).\n' > "$pages/page.md"
reports "$pages/page.md" 'page.md:1: no file'
printf 'A sentence that cites nothing.\n' > "$pages/page.md"
reports "$pages/page.md" 'claims: 0 citations, 0 wrong'

# Nor may a page have the marks of a merge that was left half done.
if grep -nE '^(<{7}|={7}|>{7})( |$)' README.md host/*.md docs/*.md docs/landings/*.md; then
  echo 'claims: a page has the marks of a merge'
  exit 1
fi

python3 tests/claims.py docs/*.md README.md host/*.md
