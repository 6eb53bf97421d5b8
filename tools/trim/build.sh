#!/bin/sh
# build.sh OUTPUT [--plain]: the program of this folder (main.rt.txt says what it reads), built natively and unproved; --plain: for timing, as
# tools/native/build.py says. It shares the reading of sessions and edits with tools/boards.
set -eu
[ $# -eq 1 ] || [ "$#${2-}" = 2--plain ] || { echo "usage: build.sh OUTPUT [--plain]" >&2; exit 2; }
here=$(cd "$(dirname "$0")" && pwd -P)
set -- "$@" --also "$here/../harness/play.rt.txt" --also "$here/../bench/clock.rt.txt"
for part in checked commands edits faults limited printed recording settings transfers views words; do
    set -- "$@" --also "$here/../boards/$part.rt.txt"
done
exec python3 "$here/../native/build.py" trim_list "$@" --source "$here"
