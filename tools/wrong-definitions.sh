#!/usr/bin/env bash
# Tries the must-fail edits of `machine` and `book` on the theorem. In the gate the rows of proofs/Worked.antt refuse them, in their own
# small crate; here these rows are left out, and the proof of the order theorem (`order`), or a worked list (`cases`), must refuse them.
#   tools/wrong-definitions.sh [CRATE/NAME...]     without names: all
set -euo pipefail
root=$(cd "$(dirname "$0")/.." && pwd)
cd "$root"
[ $# -gt 0 ] || set -- $(ls crates/machine/must-fail/*.edit crates/book/must-fail/*.edit | sed 's|crates/\(.*\)/must-fail/\(.*\)\.edit|\1/\2|')
bad=0
for one in "$@"; do
    crate=${one%/*} name=${one#*/}
    copy=$(mktemp -d)
    trap 'rm -rf "$copy"' EXIT
    tar cf - --exclude=out crates crates.txt | tar xf - -C "$copy"
    python3 - "$copy/crates/$crate" "crates/$crate/must-fail/$name.edit" <<'PY'
import os, sys
crate, edit = sys.argv[1:]
for line in open(edit):
    word, _, text = line.rstrip("\n").partition(": ")
    if word == "file": path = os.path.join(crate, text)
    if word == "old": old = text
    if word == "new":
        content = open(path).read()
        assert content.count(old) == 1, (edit, old)
        open(path, "w").write(content.replace(old, text))
os.remove(os.path.join(crate, "proofs", "Worked.antt"))
lib = os.path.join(crate, "proofs", "Lib.antt")
left = [line for line in open(lib) if line.strip() != "pub mod Worked"]
if left: open(lib, "w").writelines(left)
else: os.rmdir(os.path.dirname(lib)) if os.remove(lib) is None and not os.listdir(os.path.dirname(lib)) else None
PY
    # `cases` stands on `order`: rt check proves first what is below, and stops at the first crate that is not proved
    if (cd "$copy/crates/cases" && rt check) > "$copy/said" 2>&1; then
        echo "$one: NOT refused"; bad=1
    else
        refused=$(awk '/^rt: chose --jobs [0-9]+ for / { crate = $NF } END { print crate }' "$copy/said")
        case $refused in
        order | cases) echo "$one: refused by $refused: $(grep -m1 -oE '^\./[^:]*\.antt:[0-9:]* error: `[^`]*`' "$copy/said" || true)" ;;
        *) echo "$one: NOT refused by order or cases: ${refused:-nothing} stops"; bad=1 ;;
        esac
    fi
    rm -rf "$copy"
done
exit $bad
