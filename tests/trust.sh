#!/usr/bin/env bash
# docs/TRUST.md lists what a reader has to believe: files of definitions, types, modules of the kit. This computes them from what the public contracts
# and the closed statements use, and fails where one is not listed, or is listed for nothing, or where there are too many lines of definitions. First the
# check itself is tried on lists that are wrong.
set -eu
cd "$(dirname "$0")/.."
pages=$(mktemp -d)
trap 'rm -rf "$pages"' EXIT

# A page that differs from docs/TRUST.md by a sed command must be reported with the given words.
reports() { # COMMAND WORDS [BARS..]
  sed "$1" docs/TRUST.md > "$pages/page.md"
  if python3 tests/trust.py "$pages/page.md" "${@:3}" > "$pages/said" || ! grep -qF "$2" "$pages/said"; then
    echo "trust: not reported: $2"
    cat "$pages/said"
    exit 1
  fi
}

reports 's|`crates/layout/specs/Every.antt`, ||' 'does not list crates/layout/specs/Every.antt: '
reports 's|`crates/views/specs/Versions.antt`||' 'does not list crates/views/specs/Versions.antt: '
reports 's|`crates/signing/specs/Placing.antt`||' 'does not list crates/signing/specs/Placing.antt: '
reports 's|`crates/layout/specs/Every.antt`|&, `crates/layout/specs/Guarantees.antt`|' 'lists crates/layout/specs/Guarantees.antt, on which no contract'
reports 's|`crates/number/specs/Frame.antt`|&, `crates/aes/specs/Aes.antt`|' 'crates/aes/specs/Aes.antt is listed among the base'
reports "s|\`crates/layout/specs/Every.antt\`, ||; s|\`crates/signatures/specs/Signatures.antt\`|&, \`crates/layout/specs/Every.antt\`|" "01's calls rest on crates/layout/specs/Every.antt"
reports 's|`crates/ivfc/src/lib.rt`, ||' 'does not list crates/ivfc/src/lib.rt: View'
reports 's|`lib.Dec`, ||' 'does not list lib.Dec'
reports 's|\(Of the base[^,]*\), [0-9,]* lines|\1, 7 lines|' 'Of the base: 7 lines, and there are'
reports '' 'more than 1000' 1000 2400
reports '' 'more than 2000' 1200 2000

python3 tests/trust.py docs/TRUST.md
