#!/bin/sh
# bench.sh [--repeats N] [--program PATH] [--before PATH] [ROW...]: the same calls on the Rust (tools/oracle, as published, release build) and on this library (public
# calls over lent runs, native at -O3, unproved), in turn, in one run. First the library must record the Rust's list, as published or with the
# landed requests (request 6 sends less in immediate_16 and immediate_192; their commands are then shown as Rust/this); then the
# figures: ns a turn of each side and the ratio of the medians. `taskset -c 1 tools/bench.sh` keeps it on one processor.
#   --repeats N     starts of each program for each row: 7 if not given; a start has 60 runs of 4,000 turns
#   --program PATH  a program that tools/native/build.py made from tools/bench, with --plain
#   --before PATH   one more such program, of the library before a change: it takes turns with the others in the same run
#   ROW...          only these rows
# It needs a Rust compiler, as tools/oracle/README.md says, and `rt` on the path.
set -eu
here=$(cd "$(dirname "$0")" && pwd -P)
command -v cargo >/dev/null || { echo "bench.sh: no cargo: a Rust compiler is needed" >&2; exit 2; }
target=${CARGO_TARGET_DIR:-$here/oracle/target}
"$here/oracle/tools/build.sh" --release
exec python3 "$here/bench.py" "$target/published/release/oracle" "$target/release/oracle" "$@"
