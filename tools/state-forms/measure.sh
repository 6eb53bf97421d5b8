#!/bin/sh
# measure.sh [-n TIMES] [-d DIR] [ROW...]: builds and runs the rows of docs/BENCHMARKS.md, or those named.
# Writes into DIR only, or into a new temporary folder.
set -eu
here=$(cd "$(dirname "$0")" && pwd -P)
times=6
dir=
while getopts n:d: option; do
    case $option in
    n) times=$OPTARG ;;
    d) dir=$OPTARG ;;
    *) echo "usage: measure.sh [-n TIMES] [-d DIR] [ROW...]" >&2; exit 2 ;;
    esac
done
shift $((OPTIND - 1))
[ -n "$dir" ] || dir=$(mktemp -d)
dir=$(realpath -m -- "$dir")
case $dir/ in
"$(cd "$here/../.." && pwd -P)"/*) echo "measure.sh: DIR must lie outside the repository: rt ci refuses .rt files of no crate" >&2; exit 2 ;;
esac

# row, form, options other than the defaults
rows='
f1 f1
f2 f2
f3 f3
f4 f4
f5 f5
f6 f6
f3_split f3 draw=split
f1_plain f1 order=plain
f2_plain f2 order=plain
f3_plain f3 order=plain
f3_two_sites f3 sites=two
f2_direct f2 set=direct
f3_turn f3 drive=turn
f3_built f3 start=built
f3_merged f3 loop=merged
f3_built_merged f3 start=built loop=merged
'
wanted=${*:-$(printf '%s' "$rows" | awk 'NF { print $1 }')}
programs=
for row in $wanted; do
    words=$(printf '%s' "$rows" | awk -v row="$row" '$1 == row { sub(/^[^ ]* /, ""); print }')
    [ -n "$words" ] || { echo "measure.sh: no row $row" >&2; exit 2; }
    mkdir -p "$dir/$row"
    # the words are a form and options, without spaces of their own
    python3 "$here/gen.py" $words >"$dir/$row/main.rt"
    sh "$here/build.sh" "$dir/$row"
    programs="$programs $row"
done
cd "$dir"
python3 "$here/run.py" --times "$times" $programs
echo "programs: $dir"
