#!/bin/sh
# run.sh [FILE]: sessions in the flat form, from FILE or standard input, through the library's 31 public calls over lent runs.
# It prints what the program `script` prints. The program is built natively, unproved, from a temporary copy of the repository.
set -eu
here=$(cd "$(dirname "$0")" && pwd -P)
folder=$(mktemp -d)
trap 'rm -rf "$folder"' EXIT
python3 "$here/../native/build.py" harness "$folder/harness" --source "$here"
if [ $# -gt 0 ]; then "$folder/harness" <"$1"; else "$folder/harness"; fi
