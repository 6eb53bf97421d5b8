#!/usr/bin/env bash
# Tries the edits of crates/NAME/must-fail: the prover must refuse each. The gate tries the same edits, so this is for trying some of them alone.
# Works in a copy of the repository, so the work there can go on. Without NAME: of all crates.
#   tools/slow-edits.sh [NAME...]
set -euo pipefail
root=$(cd "$(dirname "$0")/.." && pwd)
copy=$(mktemp -d)
trap 'rm -rf "$copy"' EXIT
(cd "$root" && tar cf - --exclude=out crates crates.txt) | tar xf - -C "$copy"
if [ -f "$root/HANDLES" ]; then cp "$root/HANDLES" "$copy"; fi
cd "$copy"
rt must-fail "$@"
