#!/bin/bash
# upstream/ is the source as published: its sums are those of SHA256SUMS; the extraction and the requested file reproduce.
set -eu
cd "$(dirname "$0")/.."
(cd upstream && sha256sum -c SHA256SUMS)
reproduces() { # WHAT TOOL FILE...
  local what=$1 tool=$2 a b; shift 2
  a=$(cat "$@" | sha256sum); $tool; b=$(cat "$@" | sha256sum)
  [ "$a" = "$b" ] || { echo "$what: the tool writes something else" >&2; exit 1; }
  echo "$what reproduces"
}
reproduces extraction "python3 tools/extract.py" oracle/src/extracted/*.rs shims/wgt/src/formats.rs
reproduces "the requested command.rs" tools/requested.sh oracle/src/requested/*.rs
