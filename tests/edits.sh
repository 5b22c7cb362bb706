#!/usr/bin/env bash
# Tries the wrong bodies in tests/edits: the prover must refuse each. They are of crates whose wrong bodies the gate leaves out,
# and each crate is proved once more for them, so no gate calls this. Words name crates; without words it tries all.
set -eu
home="$(cd "$(dirname "${BASH_SOURCE[0]}")/.." && pwd)"
[ "$#" -gt 0 ] || set -- $(ls "$home/tests/edits")
top="$(mktemp -d)"
trap 'rm -rf "$top"' EXIT
cp -r "$home/crates" "$home/crates.txt" "$home/HANDLES" "$top"
for name in "$@"; do
  mkdir -p "$top/crates/$name/must-fail"
  cp "$home/tests/edits/$name"/*.edit "$top/crates/$name/must-fail"
done
cd "$top"
rt must-fail "$@"
