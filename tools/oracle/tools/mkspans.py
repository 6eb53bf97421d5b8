#!/usr/bin/env python3
"""Writes the stored spans of the program span_masks: those of spans/*.txt, which have hand-written lines, and those of random sessions of fixed seeds.
Each expected line is the Rust's: every number of the span is drawn on it (`oracle spans`, `oracle span`; the release build, which also draws where a
sum leaves its field). span_model.py must say the same, and so must the hand-written line. Of a span too wide for that only the numbers are drawn
that span_model.py names: its ends, the slots' numbers and the neighbours of these. That no other number matters is that rule's word alone."""
import collections
import glob
import os
import re
import subprocess
import sys
import tempfile
import span_model

ROOT = os.path.dirname(os.path.dirname(os.path.abspath(__file__)))
ORACLE = os.path.join(os.environ.get("CARGO_TARGET_DIR", os.path.join(ROOT, "target")), "release", "oracle")
TO = os.path.join(os.path.dirname(os.path.dirname(ROOT)), "crates", "span_masks")
CALLS, SEEDS, LONGEST, LARGEST = 24, 2000, 1900, 200000    # calls of a random session, seeds tried, bytes of one, bytes of both files
MASKS = re.compile(r"always (\d+) sometimes (\d+)$")
# how many random spans of each kind
WANTED = {"reversed": 6, "full instancing": 6, "a sum outside its field": 3, "up to 4294967295": 4, "without layout, masks differ": 10,
          "without layout, masks equal": 4, "masks differ, always not 0": 18, "masks differ, always 0": 10, "masks equal, not 0": 8, "both masks 0": 3}


def oracle(*args):
    p = subprocess.run([ORACLE, *map(str, args)], capture_output=True, text=True)
    if p.returncode or p.stderr: sys.exit(f"oracle {' '.join(map(str, args))}: {p.returncode}\n{p.stderr}")
    return p.stdout


def drawn(script, spanned):
    """The Rust's line for a span."""
    tried = spanned.left().tried(spanned.lower, spanned.upper)
    if isinstance(tried, range): return oracle("span", script, spanned.lower, spanned.upper).strip()
    masks = [int(MASKS.match(oracle("span", script, n, n)).group(1)) for n in tried]
    always = sometimes = masks[0]
    for mask in masks: always, sometimes = always & mask, sometimes | mask
    return f"always {always} sometimes {sometimes}"


def by_hand():
    """The spans of spans/*.txt with their hand-written lines, each held against the Rust."""
    for script in sorted(glob.glob(os.path.join(ROOT, "spans", "*.txt"))):
        flat = oracle("flat", script)
        for lower, upper, line in re.findall(r"^#span (\d+) (\d+) = (.+)$", open(script).read(), re.M):
            one, = span_model.spanned(f"{lower} {upper}\n{flat}")
            have = drawn(script, one)
            if have != line: sys.exit(f"{os.path.basename(script)}: {lower} {upper}: by hand {line}, the Rust {have}")
            yield one, line


def kinds(one, line, over):
    """The kinds of a random span, the first that is still wanted counts."""
    if line == "refused 15": return ["reversed"]
    always, sometimes = map(int, MASKS.match(line).groups())
    differ = always != sometimes
    found = ["a sum outside its field"] if over else []
    if one.upper == 2 ** 32 - 1 and differ: found.append("up to 4294967295")
    if one.full: return found + (["full instancing"] if sometimes else [])
    if not sometimes: return found + ["both masks 0"]
    if not one.layout: return found + ["without layout, masks " + ("differ" if differ else "equal")]
    return found + ["masks differ, always " + ("not 0" if always else "0") if differ else "masks equal, not 0"]


def random():
    """For each kind as many spans of random sessions as are wanted, in the order of their seeds."""
    with tempfile.TemporaryDirectory() as folder:
        files = [os.path.join(folder, name) for name in ("in", "out", "index")]
        oracle("spans", 0, SEEDS, "--calls", CALLS, "--in", files[0], "--out", files[1], "--index", files[2])
        given, lines, index = (open(name).read() for name in files)
    left = dict(WANTED)
    for one, line, row in zip(span_model.spanned(given), lines.splitlines(), index.splitlines()):
        kind = next((k for k in kinds(one, line, int(row.split()[-1])) if left[k]), None)
        if kind is None or len(one.text) > LONGEST: continue
        left[kind] -= 1
        yield one, line, kind
    if any(left.values()): sys.exit(f"too few: {left}")


def main():
    hand = list(by_hand())
    chosen = list(random())
    pairs = hand + [(one, line) for one, line, _ in chosen]
    for one, line in pairs:
        if one.line() != line: sys.exit(f"{one.text}: the Rust {line}, by span_model.py {one.line()}")
    texts = ["".join(one.text for one, _ in pairs), "".join(line + "\n" for _, line in pairs)]
    os.makedirs(TO, exist_ok=True)
    for name, text in zip(("stdin", "stdout"), texts): open(os.path.join(TO, name), "w").write(text)
    count(pairs, chosen, sum(map(len, texts)))
    if sum(map(len, texts)) > LARGEST: sys.exit("too large")


def count(pairs, chosen, size):
    print(f"spans {len(pairs)}, of them by hand {len(pairs) - len(chosen)}; bytes {size}")
    found = collections.Counter(kind for _, _, kind in chosen)
    for kind in WANTED: print(f"  random: {kind} {found[kind]}")
    masks = [tuple(map(int, m.groups())) for m in (MASKS.match(line) for _, line in pairs) if m]
    wide = sum(one.upper - one.lower >= span_model.WIDEST for one, _ in pairs)
    print(f"  of all: reversed {len(pairs) - len(masks)}, masks differ {sum(a != b for a, b in masks)}, both 0 {sum(b == 0 for _, b in masks)}, "
          f"single numbers {sum(one.lower == one.upper for one, _ in pairs)}, full instancing {sum(one.full for one, _ in pairs)}, "
          f"without layout {sum(not one.layout for one, _ in pairs)}, wider than {span_model.WIDEST} {wide}")


main()
