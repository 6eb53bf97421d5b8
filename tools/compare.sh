#!/bin/sh
# compare.sh FROM TO [--long] [--even] [--slider] [--calls N] [--program PATH] [--native] [--harness]
# The random sessions of the seeds from FROM to TO (without TO) on the Rust with the landed requests (tools/oracle) and on a program
# that reads the flat form; everything that they print is compared byte for byte. Exit 1 on a difference, with the first seed that differs.
# The same sessions on the published Rust, which refuses the same calls with 7: it must print the same but for what a landed request allows
# (tools/oracle/tools/requests.py). Exit 1 too if no session is equal to it, none differs by a landed request, fewer than half are equal but for
# request 6 (--long: counted by pass), or fewer than half of the set_immediates are compared by their uniforms.
# Printed: how many sessions are equal to the published Rust, differ by each request, are even, and bind a slot by its number alone; how many
# set_immediates were compared by their uniforms, and the commands and bytes that they record in both builds.
#   --long          sessions of 2,000 calls in one list, most of them until the list is full
#   --even          sessions in which every draw follows a pipeline of its pass and all pipelines describe the same slots, on boards with
#                   layout and emulated instancing: request 5 changes nothing there
#   --slider        sessions with many set_immediates and pipelines with several descriptors over few words, for request 6; none has to be equal to
#                   the published Rust or to differ by request 5
#   --calls N       calls of a session: 60 if not given
#   --program PATH  the program: crates/script/out/script if not given (rt run in crates/script)
#   --native        the program `script` built natively and unproved (tools/native/build.py)
#   --harness       the 31 public calls over lent runs, built natively and unproved (tools/harness)
# Odd seeds have refused calls; every 16 pairs of seeds have each set of flags once; sessions are whole, cut inside a pass, or have
# a room that just suffices or is short by one (tools/oracle/README.md, `batch`). It needs a Rust compiler with the
# packages that tools/oracle/README.md names.
set -eu
here=$(cd "$(dirname "$0")" && pwd -P)
command -v cargo >/dev/null || { echo "compare.sh: no cargo: a Rust compiler is needed" >&2; exit 2; }
"$here/oracle/tools/build.sh"
target=${CARGO_TARGET_DIR:-$here/oracle/target}
exec python3 "$here/compare.py" "$target/debug/oracle" "$target/published/debug/oracle" "$@"
