#!/usr/bin/env python3
"""compare.py ORACLE PUBLISHED FROM TO [options]: see tools/compare.sh."""
import argparse
import itertools
import os
import subprocess
import sys
import tempfile

HERE = os.path.dirname(os.path.abspath(__file__))
sys.path.insert(0, os.path.join(HERE, "oracle", "tools"))
import requests  # noqa: E402  (tools/oracle/tools/requests.py)

BATCH = 1000  # sessions that are held on disk at a time
END = b"===\n"


def stop(message):
    sys.exit(f"compare: {message}")


def arguments():
    parser = argparse.ArgumentParser(prog="compare.sh")
    parser.add_argument("oracle")
    parser.add_argument("published")
    parser.add_argument("first", metavar="FROM", type=int)
    parser.add_argument("end", metavar="TO", type=int)
    parser.add_argument("--long", action="store_true")
    parser.add_argument("--even", action="store_true")
    parser.add_argument("--slider", action="store_true")
    parser.add_argument("--calls", type=int)
    which = parser.add_mutually_exclusive_group()
    which.add_argument("--program", default=os.path.join(os.path.dirname(HERE), "crates", "script", "out", "script"))
    which.add_argument("--native", action="store_true")
    which.add_argument("--harness", action="store_true")
    args = parser.parse_args()
    if not 0 <= args.first < args.end:
        stop("FROM must be below TO")
    return args


def build(args, folder):
    """The program that is compared with the Rust."""
    if not (args.native or args.harness):
        if not os.access(args.program, os.X_OK):
            stop(f"no program {args.program}: rt run in crates/script makes it, --native builds it unproved")
        return os.path.abspath(args.program)
    program = os.path.join(folder, "program")
    what = ["script", program] if args.native else ["harness", program, "--source", os.path.join(HERE, "harness")]
    if subprocess.run([sys.executable, os.path.join(HERE, "native", "build.py"), *what]).returncode:
        sys.exit(2)
    return program


def rust(args, folder, first, end):
    """Writes the files flat, out and index of the seeds, by both builds; answers the index: seed, calls, refused, commands."""
    options = [f"--{name}" for name in ("long", "even", "slider") if getattr(args, name)]
    if args.calls is not None:
        options += ["--calls", str(args.calls)]
    like = ["--like", os.path.join(folder, "flat")]  # the published build refuses with 7 what the requested one does
    for build, ending, more in ((args.oracle, "", []), (args.published, ".published", like)):
        files = [os.path.join(folder, name + ending) for name in ("flat", "out", "index")]
        p = subprocess.run([build, "batch", str(first), str(end), *options, *more, "--flat", files[0], "--out", files[1], "--index", files[2]])
        if p.returncode:
            stop(f"the oracle{ending} failed on the seeds {first} to {end}")
    return [tuple(map(int, line.split())) for line in open(os.path.join(folder, "index"))]


def read(folder, name):
    with open(os.path.join(folder, name), "rb") as file:
        return file.read()


def sessions(flat):
    """The sessions of a flat file, each by itself."""
    lines, at = flat.decode().splitlines(keepends=True), 0
    while at < len(lines):
        end = at + 1 + int(lines[at].split()[7])
        yield "".join(lines[at:end])
        at = end


def both_builds(folder, index, tally):
    """The two builds of the Rust make the same calls, and answer and print the same but for what a landed request allows."""
    both = []
    for ending in (".published", ""):
        texts = [p.decode() for p in parts(read(folder, "out" + ending))]
        both.append(itertools.zip_longest(sessions(read(folder, "flat" + ending)), texts))
    for row, published, requested in itertools.zip_longest(index, *both):
        if None in (row, *(published or [None]), *(requested or [None])):
            stop("the two builds of the Rust print other numbers of sessions")
        try:
            tally.add(requests.hold(published, requested))
        except requests.Unequal as e:
            stop(f"seed {row[0]}: the two builds of the Rust differ otherwise than a request allows: {e}")


def mine(program, folder, index):
    with open(os.path.join(folder, "flat"), "rb") as given:
        p = subprocess.run([program], stdin=given, capture_output=True)
    if p.returncode or p.stderr:
        done = p.stdout.count(b"\n" + END)
        seed = index[min(done, len(index) - 1)][0]
        stop(f"seed {seed}: the program stops with status {p.returncode}\n{p.stderr.decode(errors='replace')[:1000]}")
    return p.stdout


def parts(text):
    """What is printed for each session; what follows the last end is a part too."""
    *whole, rest = text.split(b"\n" + END)
    return whole + ([rest] if rest else [])


def differences(index, expected, got):
    """The seeds whose output differs, and the first difference in words."""
    seeds, told = [], None
    for row, want, have in itertools.zip_longest(index, parts(expected), parts(got)):
        if want == have:
            continue
        seed = row[0] if row else index[-1][0]
        seeds.append(seed)
        told = told or words(seed, want, have)
    return seeds, told


def words(seed, want, have):
    if want is None or have is None:
        return f"seed {seed}: " + ("more is printed than asked for" if want is None else "nothing is printed")
    pairs = itertools.zip_longest(want.split(b"\n"), have.split(b"\n"))
    at, (a, b) = next((i, p) for i, p in enumerate(pairs) if p[0] != p[1])
    show = lambda line: "(no line)" if line is None else line[:300].decode(errors="replace")
    return f"seed {seed}: line {at + 1} of its output\n  the Rust: {show(a)}\n  compared: {show(b)}"


def main():
    args = arguments()
    total, differ, told, tally = [0] * 5, [], None, requests.Tally()
    with tempfile.TemporaryDirectory() as folder:
        program = build(args, folder)
        for first in range(args.first, args.end, BATCH):
            index = rust(args, folder, first, min(first + BATCH, args.end))
            both_builds(folder, index, tally)
            got = mine(program, folder, index)
            expected = read(folder, "out")
            if got != expected:
                seeds, first_told = differences(index, expected, got)
                differ += seeds
                told = told or first_told
            counts = [len(index), sum(r[2] > 0 for r in index), *(sum(r[k] for r in index) for k in (1, 2, 3))]
            total = [a + b for a, b in zip(total, counts)]
    print("sessions {}, with refused calls {}, calls {}, refused {}, commands {}, differences {}".format(*total, len(differ)))
    print(tally.text())
    if differ:
        print(told, file=sys.stderr)
    # a long session has so many passes that nearly every one has a clear after an empty place
    faults = tally.faults(by_pass=args.long, even=args.even, slider=args.slider)
    for fault in faults:
        print(f"compare: {fault}", file=sys.stderr)
    if differ or faults:
        sys.exit(1)


main()
