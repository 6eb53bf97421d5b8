#!/bin/sh
# boards.sh FROM TO [--calls N] [--program PATH] [--times]
# Two lists compared (document 02, requests 3 and 12). For each seed from FROM to TO (without TO) a pair of random sessions, most of them the same calls on a board
# with vertex buffer layout and on one without, others with other flags, with one call less, or two different sessions; and three pairs of such
# sessions with edits: one number of a command changed, numbers at a limit and beyond it, ranges and counts at their ends and beyond, floats that are
# alike or not, draws more or less. Each is recorded over lent runs by the public calls and compared (tools/boards); the printed lists are
# compared by tools/lists/model.py, which shares no code with the library, and the answers must be the same.
# The model also has the answer by request 3's comparison of floats: what was unequal by it must be unequal.
# Exit 1 on a difference, with the first pair that differs and the file that holds it; also if an answer (equal, draw 0, a later draw, 2, 3, 7, 9) or a kind of
# pair never occurs, or request 12 changes no answer that was equal, or none that named a later draw. Printed: pairs, commands, answers, those that request 12
# changed, pairs by kind.
#   --calls N       calls of a session before it is cut to one list: 60 if not given
#   --program PATH  a program that tools/boards/build.sh made; if not given it is built, natively and unproved
#   --times         also, or without FROM and TO alone: the time of a comparison by the length of the lists
# It needs a Rust compiler with the packages that tools/oracle/README.md names: the random sessions are the oracle's.
set -eu
here=$(cd "$(dirname "$0")" && pwd -P)
command -v cargo >/dev/null || { echo "boards.sh: no cargo: a Rust compiler is needed" >&2; exit 2; }
"$here/oracle/tools/build.sh" --requested
target=${CARGO_TARGET_DIR:-$here/oracle/target}
exec python3 "$here/boards.py" "$target/debug/oracle" "$@"
