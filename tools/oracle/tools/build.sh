#!/bin/bash
# Builds the oracle twice: with the landed requests (TARGET/debug/oracle) and as published (TARGET/published/debug/oracle).
# build.sh [--requested] [OPTION...]   --requested: the first alone; options are cargo's (--release)
set -eu
cd "$(dirname "$0")/.."
target=${CARGO_TARGET_DIR:-target}; only=
if [ "${1:-}" = --requested ]; then only=1; shift; fi
cargo build --quiet --offline --target-dir "$target" "$@"
[ -n "$only" ] || cargo build --quiet --offline --target-dir "$target/published" --features oracle/published "$@"
