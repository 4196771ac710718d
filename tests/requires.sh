#!/usr/bin/env bash
# A public call asks nothing of its caller: no `requires` stands in container, in the calls on a save, in the digest that is lent, in the calls for
# blank images, nor in the file of the C boundary's functions.
cd "$(dirname "$0")/.." || exit 1
grep -rn 'requires' crates/container/src crates/save/src/calls.rt crates/signing/src/digests.rt crates/blank/src/making.rt crates/gateway/src/lib.rt
if [ $? -ne 1 ]; then
  echo 'requires: a public call may ask nothing'
  exit 1
fi
echo 'requires: none in container, none in the calls on a save, none in the digest that is lent, none for blank images, none at the boundary'
