#!/bin/sh
# later.sh FROM TO [--break] [--program PATH] [--native]
# Later passes (document 02, request 13). For each seed from FROM to TO (without TO) a pair of random recordings on one board with one common last render pass, which
# sets pipeline, described slots, index buffer and blend constants before its draws. What stands before it is random and different in both; every third pair begins one
# recording with the pass. Both are recorded by the Rust with the landed requests and by the library, and each whole list is played by tools/lists/machine.py,
# which shares no code with either: each draw of the pass must find the same in both lists, as far as the request says, and the fetches that the calls of the pass name.
# Pairs in which a call is refused are left out. Exit 1 on a difference, with the seed; also if more than half of the seeds are left out.
#   --break         one of the four things is left out of the pass; exit 1 if there is one whose pairs all find the same
#   --program PATH  the program `script`: crates/script/out/script if not given (rt run in crates/script)
#   --native        the program `script` built natively and unproved (tools/native/build.py)
# It needs a Rust compiler with the packages that tools/oracle/README.md names.
set -eu
here=$(cd "$(dirname "$0")" && pwd -P)
command -v cargo >/dev/null || { echo "later.sh: no cargo: a Rust compiler is needed" >&2; exit 2; }
"$here/oracle/tools/build.sh" --requested
target=${CARGO_TARGET_DIR:-$here/oracle/target}
exec python3 "$here/later.py" "$target/debug/oracle" "$@"
