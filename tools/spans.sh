#!/bin/sh
# spans.sh FROM TO [--calls N] [--program PATH] [--native]
# The random sessions of the seeds from FROM to TO (without TO), each with a span of first instances, on the Rust with the landed requests (tools/oracle)
# and on a program that reads them (document 02, request 11); the lines are compared. The expected masks come from drawing every number of the span on
# the Rust. Exit 1 on a difference, with the first seed that differs and the file that holds its span and session.
# The expected lines are the release build's, whose sums wrap: it draws where refusal 6 is put aside. The checked build must have the same lines for the
# spans without such a draw and give the others up, and span_model.py, which works the masks out from the calls, must have the same for all.
# Exit 1 too if fewer than a quarter of the spans have two different masks, none is reversed, or none has full instancing.
#   --calls N       calls of a session before it is cut: 60 if not given
#   --program PATH  the program: crates/span_masks/out/span_masks if not given (rt run in crates/span_masks)
#   --native        the program span_masks built natively and unproved (tools/native/build.py)
# It needs a Rust compiler with the packages that tools/oracle/README.md names.
set -eu
here=$(cd "$(dirname "$0")" && pwd -P)
command -v cargo >/dev/null || { echo "spans.sh: no cargo: a Rust compiler is needed" >&2; exit 2; }
"$here/oracle/tools/build.sh" --requested
"$here/oracle/tools/build.sh" --requested --release
target=${CARGO_TARGET_DIR:-$here/oracle/target}
exec python3 "$here/spans.py" "$target/debug/oracle" "$target/release/oracle" "$@"
