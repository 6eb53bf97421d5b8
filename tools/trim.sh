#!/bin/sh
# trim.sh FROM TO [--calls N] [--program PATH] [--times]
# A list without the settings that a later one supersedes (document 02, request 7). For each seed from FROM to TO (without TO) the list of a random
# session, on each board in turn, and three such lists with edits: one of the 49 commands between settings of the seven kinds; settings piled up, at the
# same and at other slots and units, with and without a command between them; every slot or unit; a full list; settings alone; some with settings past the
# count, or with numbers and counts at their limits and beyond. Each is recorded over lent runs by the public calls and treated twice (tools/trim).
# tools/lists/trim_model.py, which shares no code with the library, says from the list what must be printed: the answers, both treated lists, that a list
# that is turned away is as it was and that the run past the used records is; for the lists without edits also what `trim` prints, with its counts.
# The printed lists are played by tools/lists/machine.py: each draw, clear, dispatch and reset, and the end, must find the same whole machine before and after.
# Exit 1 on a difference, with the first list that differs and the file that holds it; also if an answer (left all, left fewer, 2, 3, 7), a kind of list or a
# board never occurs, none of one of the seven kinds is taken out, one of the 13 commands that end the wait never stands alone between two settings of a
# thing, or one of the others never between two of which the first goes. Printed: lists, commands, answers, settings taken out by kind, what stood alone
# between two settings, lists by kind.
#   --calls N       calls of a session before it is cut to one list: 60 if not given
#   --program PATH  a program that tools/trim/build.sh made; if not given it is built, natively and unproved
#   --times         also, or without FROM and TO alone: the time of a treatment by the length of the list, beside the published Rust's time to record it
# It needs a Rust compiler with the packages that tools/oracle/README.md names: the random sessions are the oracle's.
set -eu
here=$(cd "$(dirname "$0")" && pwd -P)
command -v cargo >/dev/null || { echo "trim.sh: no cargo: a Rust compiler is needed" >&2; exit 2; }
"$here/oracle/tools/build.sh" --requested
for word in "$@"; do
    [ "$word" != --times ] || "$here/oracle/tools/build.sh" --release
done
target=${CARGO_TARGET_DIR:-$here/oracle/target}
exec python3 "$here/trim.py" "$target/debug/oracle" "$target/published/release/oracle" "$@"
