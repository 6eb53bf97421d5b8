#!/bin/sh
# build.sh OUTPUT [--plain]: the program of this folder (main.rt.txt says what it reads), built natively and unproved; --plain: for timing, as
# tools/native/build.py says.
set -eu
[ $# -eq 1 ] || [ "$#${2-}" = 2--plain ] || { echo "usage: build.sh OUTPUT [--plain]" >&2; exit 2; }
here=$(cd "$(dirname "$0")" && pwd -P)
exec python3 "$here/../native/build.py" compare_boards "$@" --source "$here" --also "$here/../harness/play.rt.txt" --also "$here/../bench/clock.rt.txt"
