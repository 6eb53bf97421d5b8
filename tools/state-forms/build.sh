#!/bin/sh
# build.sh DIR: builds DIR/main.rt, unproved, at -O3, to the executable DIR/program.
# Beside it: program.ll (the optimised IR), program.size (bytes of the state). x86-64 only.
set -eu

[ $# -eq 1 ] && [ -f "$1/main.rt" ] || { echo "usage: build.sh DIR, with DIR/main.rt there" >&2; exit 2; }
here=$(cd "$(dirname "$0")" && pwd -P)
dir=$(cd "$1" && pwd -P)
cd "$dir"
rm -rf source kept program program.*
mkdir source
cp main.rt source/main.rt.txt
python3 "$here/../native/build.py" program program --source source --plain --keep kept
mv kept/program.ll program.ll

# The state is the largest value that `start` makes.
sed -n '/^define.*::start"/,/^}/p' kept/program.in.ll | sed -n 's/.*alloca \[\([0-9]*\) x i8\].*/\1/p' | sort -n | tail -n 1 >program.size
rm -rf source kept
