#!/bin/bash
# Makes crates/list_names/stdin and stdout anew: printed sessions of data/sessions.out, random command lines of a fixed seed and a wrong line, and what
# the program has to print. Prints how many there are of each kind and fails if a name of a map is never shown, no number is left bare, or they are too large.
set -euo pipefail
cd "$(dirname "$0")/.."
tools/build.sh --requested
python3 tools/mknames.py
