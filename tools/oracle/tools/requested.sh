#!/bin/bash
# The patches of requests/, in order, on a copy of upstream/command.rs: oracle/src/requested/command.rs, and the state cut out of it.
set -eu
cd "$(dirname "$0")/.."
to=oracle/src/requested; new=$(mktemp); trap 'rm -f "$new" "$new.orig" "$new.rej"' EXIT
cat upstream/command.rs > "$new"
for p in requests/*.patch; do patch --quiet --fuzz=0 "$new" "$p"; done
mkdir -p $to
cat "$new" > $to/command.rs
python3 tools/extract.py --requested
