#!/usr/bin/env python3
"""spans.py CHECKED RELEASE FROM TO [options]: see tools/spans.sh."""
import argparse
import itertools
import os
import subprocess
import sys
import tempfile

HERE = os.path.dirname(os.path.abspath(__file__))
sys.path.insert(0, os.path.join(HERE, "oracle", "tools"))
import span_model  # noqa: E402  (tools/oracle/tools/span_model.py)

BATCH = 1000  # sessions that are held on disk at a time
COUNTS = ("spans", "masks differ", "both 0", "reversed", "full instancing", "without layout", "single numbers", "with a sum outside its field")


def stop(message):
    sys.exit(f"spans: {message}")


def arguments():
    parser = argparse.ArgumentParser(prog="spans.sh")
    parser.add_argument("checked")
    parser.add_argument("release")
    parser.add_argument("first", metavar="FROM", type=int)
    parser.add_argument("end", metavar="TO", type=int)
    parser.add_argument("--calls", type=int, default=60)
    which = parser.add_mutually_exclusive_group()
    which.add_argument("--program", default=os.path.join(os.path.dirname(HERE), "crates", "span_masks", "out", "span_masks"))
    which.add_argument("--native", action="store_true")
    args = parser.parse_args()
    if not 0 <= args.first < args.end:
        stop("FROM must be below TO")
    return args


def build(args, folder):
    """The program that is compared with the Rust."""
    if not args.native:
        if not os.access(args.program, os.X_OK):
            stop(f"no program {args.program}: rt run in crates/span_masks makes it, --native builds it unproved")
        return os.path.abspath(args.program)
    program = os.path.join(folder, "program")
    if subprocess.run([sys.executable, os.path.join(HERE, "native", "build.py"), "span_masks", program]).returncode:
        sys.exit(2)
    return program


class Row:
    """A span: its seed and flags, the text that a program reads, the line that it has to print."""
    def __init__(self, index, spanned, line):
        self.seed, _, lower, upper, _, layout, self.full, self.over = map(int, index.split())
        self.spanned, self.line, self.reversed, self.single, self.bare = spanned, line, lower > upper, lower == upper, not layout
        masks = line.split()[1::2] if line.startswith("always ") else []
        self.differ, self.none = len(set(masks)) == 2, masks == ["0", "0"]

    def counts(self):
        return [1, self.differ, self.none, self.reversed, self.full, self.bare, self.single, self.over > 0]


def rust(oracle, args, folder, first, end):
    """The spans of the seeds as a build of the Rust has them, and the file that a program reads."""
    files = [os.path.join(folder, name) for name in ("in", "out", "index")]
    options = ["--calls", str(args.calls), "--in", files[0], "--out", files[1], "--index", files[2]]
    p = subprocess.run([oracle, "spans", str(first), str(end), *options], stdout=subprocess.DEVNULL)
    if p.returncode:
        stop(f"the oracle failed on the seeds {first} to {end}")
    given, lines, index = (open(name).read() for name in files)
    rows = list(itertools.zip_longest(index.splitlines(), span_model.spanned(given), lines.splitlines()))
    if any(None in row for row in rows):
        stop("the oracle's files have other numbers of spans")
    return [Row(*row) for row in rows], files[0]


def hold(checked, rows):
    """The checked build has the same spans and lines but for those that it gives up; span_model.py has the same lines."""
    told = [r for r in rows if not r.over]
    if [(r.seed, r.spanned.text, r.line) for r in checked] != [(r.seed, r.spanned.text, r.line) for r in told]:
        stop("the checked build and the release build of the Rust differ")
    for r in rows:
        mine = r.spanned.line()
        if mine != r.line:
            stop(f"seed {r.seed}: the Rust {r.line}, by span_model.py {mine}; {kept(r)}")


def kept(row):
    """The span and session of a row, left in a file."""
    path = os.path.join(tempfile.gettempdir(), f"span-{row.seed}.txt")
    with open(path, "w") as file:
        file.write(row.spanned.text)
    return f"its span and session: {path}"


def mine(program, given, rows):
    with open(given, "rb") as file:
        p = subprocess.run([program], stdin=file, capture_output=True)
    lines = p.stdout.decode(errors="replace").splitlines()
    if p.returncode or p.stderr:
        row = rows[min(len(lines), len(rows) - 1)]
        stop(f"seed {row.seed}: the program stops with status {p.returncode}\n{p.stderr.decode(errors='replace')[:1000]}\n{kept(row)}")
    return lines


def differences(rows, lines):
    """The seeds whose line differs, and the first difference in words."""
    seeds, told = [], None
    for row, line in itertools.zip_longest(rows, lines):
        if row is None:
            return seeds + [rows[-1].seed], told or f"after seed {rows[-1].seed}: more is printed than asked for"
        if row.line == line:
            continue
        seeds.append(row.seed)
        span = f"seed {row.seed}, from {row.spanned.lower} to {row.spanned.upper}"
        told = told or f"{span}\n  the Rust: {row.line}\n  compared: {'(no line)' if line is None else line[:300]}\n  {kept(row)}"
    return seeds, told


def faults(total):
    """Why the comparison shows too little."""
    n = dict(zip(COUNTS, total))
    bad = ["fewer than a quarter of the spans have two different masks"] if 4 * n["masks differ"] < n["spans"] else []
    return bad + [f"no span is {what}" for what, k in (("reversed", "reversed"), ("of a board with full instancing", "full instancing")) if not n[k]]


def main():
    args = arguments()
    total, differ, told = [0] * len(COUNTS), [], None
    with tempfile.TemporaryDirectory() as folder:
        program = build(args, folder)
        for first in range(args.first, args.end, BATCH):
            end = min(first + BATCH, args.end)
            checked, _ = rust(args.checked, args, folder, first, end)
            rows, given = rust(args.release, args, folder, first, end)
            hold(checked, rows)
            seeds, first_told = differences(rows, mine(program, given, rows))
            differ += seeds
            told = told or first_told
            total = [sum(column) for column in zip(total, *(r.counts() for r in rows))]
    print(", ".join(f"{name} {n}" for name, n in zip(COUNTS, total)) + f", differences {len(differ)}")
    if differ:
        print(told, file=sys.stderr)
    bad = faults(total)
    for fault in bad:
        print(f"spans: {fault}", file=sys.stderr)
    if differ or bad:
        sys.exit(1)


main()
