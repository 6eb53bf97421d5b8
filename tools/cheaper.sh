#!/bin/sh
# cheaper.sh FROM TO [--questions N] [--program PATH] [--native]
# Draws in a cheaper order (document 02, request 10). For each seed from FROM to TO (without TO) a random line for `cheaper_draws` (0 to 9 pieces of few
# values; budgets 0, 1, small ones, all orders or one less, 40,320, the largest) through the program and through tools/cheaper/cheaper.rs, plain Rust,
# line for line; every 20th line, and those with at most 120 orders to try, through tools/cheaper/model.py too, which works them out by brute force.
# Then damaged lines, one a run, through all three.
# Exit 1 on a difference, with the first line that differs; also if no line is refused with 13 or with 14, none has a cheaper order than the given one,
# none has the floor for its price, none has a tie, or no damaged line is refused.
# Printed: lines, refusals, lines by what is found, and the time of a question of 8 pieces with all 40,320 orders, of the program and of the Rust: the
# difference between N such questions and the same with a budget of 1, divided by N; the least of three.
#   --questions N   questions that are timed: 500 if not given
#   --program PATH  `cheaper_draws`: crates/cheaper_draws/out/cheaper_draws if not given (rt run in crates/cheaper_draws)
#   --native        the program built natively and unproved (tools/native/build.py)
# It needs a Rust compiler, without packages.
set -eu
here=$(cd "$(dirname "$0")" && pwd -P)
command -v rustc >/dev/null || { echo "cheaper.sh: no rustc: a Rust compiler is needed" >&2; exit 2; }
exec python3 "$here/cheaper.py" "$@"
