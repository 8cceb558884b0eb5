#!/usr/bin/env bash
# Tries the wrong programs that are no part of the tests, crates/NAME/wrong/*.edit, on the prover, which must refuse each for a fact: tools/wrong.sh NAME ..
# They say what another edit in must-fail says too, or stand in a crate whose check takes long: run this where a contract of such a crate has changed.
# Works on a copy. What checks have kept on this machine of the same crates is taken there too, so that unchanged ones are not proved again.
set -euo pipefail
cd "$(dirname "$0")/.."
[ $# -gt 0 ] || { sed -n '2,4s/^# \{0,1\}//p' "$0"; exit 2; }
copy=$(mktemp -d)
trap 'rm -rf "$copy"' EXIT
cp -R crates.txt tools "$copy"
[ ! -f HANDLES ] || cp HANDLES "$copy"
tar -cf - --exclude='crates/*/out' --exclude='crates/*/must-fail' crates | tar -xf - -C "$copy"
cd "$copy"
git init -q
for name in "$@"; do mv "crates/$name/wrong" "crates/$name/must-fail"; done
status=0
rt must-fail "$@" >said || status=1
grep must-fail said || status=1
tools/why.sh said || status=1
exit "$status"
