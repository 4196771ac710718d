#!/usr/bin/env bash
# include/teplovist.h as a program in C sees it: the header compiles as strict C99 and as C++, and tests/c/session.c, linked with the archive of
# the proved library, compares every number of each sample's description by its name, looks at the blocks that are signed and runs whole
# sessions; tests/c/blank.c makes blank images (tests/blank.sh). The archive exports what the header declares.
set -eu -o pipefail
cd "$(dirname "$0")/.."
bash tests/archive
folder=$(mktemp -d)
trap 'rm -r "$folder"' EXIT
strict=(-Wall -Wextra -Werror -pedantic)
samples=(samples/disa-one.img samples/disa-two.img samples/diff.img samples/external.img samples/blank.img)

program() { # HEADER-FOLDER PROGRAM
    cc -std=c99 "${strict[@]}" -I "$1" tests/c/session.c target/staticlib/libgateway.a -o "$2"
    cc -std=c99 "${strict[@]}" -I "$1" tests/c/blank.c target/staticlib/libgateway.a -o "$2-blank"
}

cc -std=c99 "${strict[@]}" -fsyntax-only -x c include/teplovist.h
c++ -std=c++11 "${strict[@]}" -fsyntax-only -x c++ include/teplovist.h
program include "$folder/session"
"$folder/session" "${samples[@]}"
"$folder/session-blank"

# The archive exports what the header declares, and nothing else.
nm target/staticlib/libgateway.a | sed -n 's/.* T //p' | sort >"$folder/exported"
grep -oE '^[a-z0-9_]+ teplovist_[a-z0-9_]+\(' include/teplovist.h | sed -E 's/.* (.*)\(/\1/' | sort >"$folder/declared"
diff "$folder/declared" "$folder/exported"
[ -s "$folder/declared" ]

# A header with another number must be found.
for moved in TEPLOVIST_PRIMARY_OFFSET=6 TEPLOVIST_B=43 TEPLOVIST_SELECTOR=10 TEPLOVIST_IVFC_LEVEL1_LOG=18 TEPLOVIST_DPFS_LEVEL3_LOG=29 \
    TEPLOVIST_SIGNER_KIND=14 TEPLOVIST_SIGNATURE=17 TEPLOVIST_NO_SAVE=18 TEPLOVIST_BLANK_SIZE=19 TEPLOVIST_NOTHING_TO_REVERT=20 TEPLOVIST_DIGEST_TOO_LONG=21; do
    sed -E "s/^( *${moved%=*} = )[0-9]+/\\1${moved#*=}/" include/teplovist.h >"$folder/teplovist.h"
    program "$folder" "$folder/moved"
    if cmp -s include/teplovist.h "$folder/teplovist.h" || { "$folder/moved" "${samples[@]}" && "$folder/moved-blank"; } >"$folder/said"; then
        echo "header: $moved was not found"
        exit 1
    fi
done
echo 'header: each of 11 other numbers was found'
