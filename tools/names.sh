#!/bin/sh
# names.sh FROM TO [--calls N] [--lines N] [--script PATH] [--program PATH] [--native]
# The commands of lists with names in place of GL numbers (document 02, request 2). For the random sessions of the seeds from FROM to TO (without TO):
# what the Rust with the landed requests prints (tools/oracle), through tools/lists/names_model.py, and the same sessions through `script` and
# `list_names`, line for line. Then random command lines, whose numbers are entries of the maps, their neighbours, 0 to 16, the largest and random ones,
# and random wrong lines, one a run, through the model and `list_names`. The maps are the Rust's own (`oracle maps`).
# Exit 1 on a difference, with the first line that differs; also if a name of the seven maps is never shown, or no number is left bare.
# Printed: sessions, lists, lines by command, names shown by map, numbers left bare by map.
#   --calls N       calls of a session: 60 if not given
#   --lines N       random lines: 200000 if not given
#   --script PATH   `script`: crates/script/out/script if not given (rt run in crates/script)
#   --program PATH  `list_names`: crates/list_names/out/list_names if not given (rt run in crates/list_names)
#   --native        those of the two that are not given, built natively and unproved (tools/native/build.py)
# It needs a Rust compiler with the packages that tools/oracle/README.md names.
set -eu
here=$(cd "$(dirname "$0")" && pwd -P)
command -v cargo >/dev/null || { echo "names.sh: no cargo: a Rust compiler is needed" >&2; exit 2; }
"$here/oracle/tools/build.sh" --requested
target=${CARGO_TARGET_DIR:-$here/oracle/target}
exec python3 "$here/names.py" "$target/debug/oracle" "$@"
