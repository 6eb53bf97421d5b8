#!/bin/bash
# Runs every case, compares with its '#=' lines, keeps the whole output in cases/*.out. A case is run on both builds, or on the one that its
# '#build' line names; the kept output is the requested one where there are two.
# check_cases.sh [--published | --requested]   only on that build, and nothing is kept
cd "$(dirname "$0")/.." || exit 2
T=$(mktemp -d); n=0; bad=0; runs=0; only=${1:-}
target=${CARGO_TARGET_DIR:-target}
program() { case $1 in requested) echo "${ORACLE:-$target/debug/oracle}";; published) echo "${PUBLISHED:-$target/published/debug/oracle}";; esac; }
fail() { echo "FAIL $f ($b build) $1"; bad=$((bad+1)); }
for f in cases/*.txt; do
  builds=$(sed -n 's/^#build //p' "$f"); builds=${builds:-published requested}
  [ -z "$only" ] || { case " $builds " in *" ${only#--} "*) builds=${only#--};; *) continue;; esac; }
  n=$((n+1)); options=$(sed -n 's/^#options //p' "$f")
  for b in $builds; do
    O=$(program "$b"); out="$T/out"; runs=$((runs+1))
    if [ -z "$O" ] || ! $O run "$f" $options > "$out"; then fail "(run)"; continue; fi
    if grep -q '^#0' "$f"; then
      # the list is the one without the last call
      sed '/^#/d' "$f" | sed '$d' | $O run - $options > "$T/before.out"
      cmp -s "$out" "$T/before.out" || fail "(records something)"
    else
      k=$(grep -c '^#= ' "$f")
      diff <(grep '^#= ' "$f" | cut -c4-) <(tail -n "$k" "$out") > "$T/d.out" || { fail; cat "$T/d.out"; }
    fi
    [ -n "$only" ] || cp "$out" "${f%.txt}.out"
  done
done
rm -rf "$T"
echo "$n cases, $runs runs, $bad bad"; [ $bad = 0 ]
