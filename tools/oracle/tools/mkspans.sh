#!/bin/bash
# Makes crates/span_masks/stdin and stdout anew: spans with their sessions, and the lines that the program has to print. Prints how many there are of
# each kind and fails if there are too few, or if they are too large.
set -euo pipefail
cd "$(dirname "$0")/.."
tools/build.sh --requested --release
python3 tools/mkspans.py
