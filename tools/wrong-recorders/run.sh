#!/usr/bin/env bash
# Tries the patches of this folder: recorders that are wrong in definition, code and proof alike. A patch's first line names the theorems
# that must refuse it, and the files of their proofs: everything else must be proved, and each first error must stand in one of these files.
#   tools/wrong-recorders/run.sh [NAME...]            on the tree that definitions.py makes: no functions, no worked rows
#   tools/wrong-recorders/run.sh --layers [NAME...]   with functions and rows, `calls` and the crates whose functions it changes: all must be proved
set -euo pipefail
here=$(cd "$(dirname "$0")" && pwd)
root=$(cd "$here/../.." && pwd)
layers=no
if [ "${1:-}" = --layers ]; then layers=yes; shift; fi
[ $# -gt 0 ] || set -- $(cd "$here" && ls ./*.patch | sed 's|^./||; s|\.patch$||')
work=$(mktemp -d)
trap 'rm -rf "$work"' EXIT
bad=0

# the repository with a patch, in the folder $1
patched() {
    mkdir "$1"
    (cd "$root" && tar cf - --exclude=out crates crates.txt) | tar xf - -C "$1"
    (cd "$1" && patch -s -p1 < "$2")
}

# checks the crate $2 of the repository $1, after those below it
check() {
    (cd "$1/crates/$2" && rt check) >> "$work/out" 2>&1
}

# errors that do not merely follow from another, in what rt check printed: crate, file and lemma
errors() {
    awk '/^rt: chose --jobs [0-9]+ for / { crate = $NF }
        /^\.\/[^:]*\.antt:[0-9]+:[0-9]+: error: `/ {
            split($0, part, ":")
            match($0, /error: `[^`]*`/)
            print crate "/" substr(part[1], 3), substr($0, RSTART + 7, RLENGTH - 7)
        }' "$work/out" | sort -u
}

if [ $layers = no ]; then
    python3 "$here/definitions.py" "$root" "$work/base"
    if ! check "$work/base" uniforms; then
        echo "the tree without a patch is not proved"; tail -n 3 "$work/out"; exit 1
    fi
fi
for name in "$@"; do
    patched "$work/whole" "$here/$name.patch"
    : > "$work/out"
    if [ $layers = yes ]; then
        changed=$(sed -n 's|^+++ b/crates/\([a-z_]*\)/src/.*|\1|p' "$here/$name.patch" | sort -u)
        tried=$(printf '%s\n' calls $changed | awk '!seen[$0]++')
        refused=
        for crate in $tried; do
            check "$work/whole" "$crate" || { refused=$crate; break; }
        done
        if [ -z "$refused" ]; then
            echo "$name: proved:" $tried
        else
            echo "$name: NOT PROVED: $refused: $(grep -m1 'error' "$work/out" || true)"; bad=1
        fi
    else
        theorems=$(sed -n '1s/^# refused by \(.*\) (.*)$/\1/p' "$here/$name.patch")
        files=$(sed -n '1s/^# refused by .* (\(.*\))$/\1/p' "$here/$name.patch")
        python3 "$here/definitions.py" "$work/whole" "$work/tree"
        if check "$work/tree" uniforms; then
            echo "$name: NOT refused: all is proved"; bad=1
        else
            errors > "$work/errors"
            elsewhere=$(while read -r file lemma; do case " $files " in *" $file "*) ;; *) echo "$file $lemma" ;; esac; done < "$work/errors")
            if [ -s "$work/errors" ] && [ -z "$elsewhere" ]; then
                echo "$name: refused by $theorems, at $(head -n 1 "$work/errors")"
            else
                echo "$name: NOT refused by $theorems alone: ${elsewhere:-$(grep -m1 'error' "$work/out" || echo 'no error')}"; bad=1
            fi
        fi
        rm -rf "$work/tree"
    fi
    rm -rf "$work/whole"
done
exit $bad
