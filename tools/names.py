#!/usr/bin/env python3
"""names.py ORACLE FROM TO [options]: see tools/names.sh."""
import argparse
import itertools
import os
import random
import subprocess
import sys
import tempfile

HERE = os.path.dirname(os.path.abspath(__file__))
sys.path.insert(0, os.path.join(HERE, "lists"))
import names_lines  # noqa: E402  (tools/lists/names_lines.py)
import names_model  # noqa: E402  (tools/lists/names_model.py)

BATCH = 1000  # sessions that are held on disk at a time
SEED = 2      # of the random lines
WRONG = 1000  # wrong lines
# lines that are dropped or stand as they are
OTHERS = (b"---", b"error: line 3: expected a number from 0 to 30 at character 3", b"state topology 4", b"bytes 1 00", b"0 SetProgram 4", b"answer 0 0",
          b"Draw 4", b"", b"0 Drawn 4", b"0 draw 4", b" ", b"----", b"===4", b" error:", b"7 SetDept 519 1", b"7  SetDepth 519 1", b"===")


def stop(message):
    sys.exit(f"names: {message}")


def arguments():
    parser = argparse.ArgumentParser(prog="names.sh")
    parser.add_argument("oracle")
    parser.add_argument("first", metavar="FROM", type=int)
    parser.add_argument("end", metavar="TO", type=int)
    parser.add_argument("--calls", type=int, default=60)
    parser.add_argument("--lines", type=int, default=200000)
    parser.add_argument("--script")
    parser.add_argument("--program")
    parser.add_argument("--native", action="store_true")
    args = parser.parse_args()
    if not 0 <= args.first < args.end:
        stop("FROM must be below TO")
    return args


def program(name, given, native, folder):
    """A program: the one that is given, or the proved one, or built natively."""
    if native and not given:
        made = os.path.join(folder, name)
        if subprocess.run([sys.executable, os.path.join(HERE, "native", "build.py"), name, made]).returncode:
            sys.exit(2)
        return made
    path = given or os.path.join(os.path.dirname(HERE), "crates", name, "out", name)
    if not os.access(path, os.X_OK):
        stop(f"no program {path}: rt run in crates/{name} makes it, --native builds it unproved")
    return os.path.abspath(path)


def run(command, given):
    p = subprocess.run(command, input=given, capture_output=True)
    if p.returncode or p.stderr:
        stop(f"{command[0]} stops with status {p.returncode}\n{p.stderr.decode(errors='replace')[:1000]}")
    return p.stdout


def printed(args, folder, first, end):
    """The sessions of the seeds in the flat form, and what the Rust prints for them."""
    files = [os.path.join(folder, name) for name in ("flat", "out", "index")]
    run([args.oracle, "batch", str(first), str(end), "--calls", str(args.calls), "--flat", files[0], "--out", files[1], "--index", files[2]], b"")
    return [open(name, "rb").read() for name in files[:2]]


class Comparison:
    """Expected lines against those of the program: how many differ, and the first that does."""
    def __init__(self):
        self.differ, self.told = 0, None

    def hold(self, where, expected, got):
        got = got.split(b"\n")
        got = got[:-1] if got[-1] == b"" else got + [b"(no end of line)"]
        if got == expected:
            return
        for i, (want, have) in enumerate(itertools.zip_longest(expected, got)):
            if want != have:
                self.differ += 1
                self.told = self.told or f"{where(i)}\n  expected: {shown(want)}\n  printed:  {shown(have)}"


def shown(line):
    return "(no line)" if line is None else line[:300].decode(errors="replace")


def sessions(args, folder, script, names, maps, comparison):
    """The random sessions; answers the model with its counts, and the lists."""
    model, lists = names_model.Model(maps), 0
    for first in range(args.first, args.end, BATCH):
        end = min(first + BATCH, args.end)
        flat, out = printed(args, folder, first, end)
        expected = model.named(out)
        if expected.count(b"===") != end - first:
            stop(f"the oracle prints {expected.count(b'===')} sessions for the seeds {first} to {end}")
        lists += expected.count(b"===") + expected.count(b"---")
        seed = lambda i: f"seed {first + expected[:i].count(b'===')}, line {i + 1} of what is printed for the seeds {first} to {end}"
        comparison.hold(seed, expected, run([names], run([script], flat)))
    return model, lists


def lines(args, names, maps, comparison):
    """Random lines; answers the model with its counts."""
    model = names_model.Model(maps)
    made = names_lines.Lines(random.Random(SEED), model.words)
    given = [made.line(i) for i in range(args.lines)]
    expected = model.named(b"".join(line + b"\n" for line in given))
    comparison.hold(lambda i: f"random line {given[i].decode() if i < len(given) else i}", expected, run([names], b"".join(line + b"\n" for line in given)))
    return model


def wrong_lines(names, maps, comparison):
    """Lines with a damage, each in a run of its own, other lines before and after it; answers how many are refused."""
    model, refused = names_model.Model(maps), 0
    made = names_lines.Lines(random.Random(SEED), model.words)
    for i in range(WRONG):
        before = [OTHERS[i % len(OTHERS)], *(made.line(k) for k in range(i % 3))]
        given = b"\n".join([*before, made.wrong(i), made.line(i + 1), b"==="]) + b"\n" * (i % 2)
        expected = model.named(given)
        refused += expected[-1].startswith(b"error:")
        comparison.hold(lambda k: f"wrong line {i}: {given.decode()}", expected, run([names], given))
    return refused


def count(title, model):
    by_map = lambda n: ", ".join(f"{name} {n(name)}" for name in names_model.MAPS)
    print(f"{title}: " + ", ".join(f"{name.decode()} {model.lines[name.decode()]}" for name in names_model.FIELDS))
    print(f"  names shown {sum(model.shown.values())}: " + by_map(lambda name: sum(model.shown[name, word] for word in model.words[name].values())))
    print(f"  different names {len(model.shown)}; never shown: " + (", ".join(model.missing()) or "none"))
    print(f"  numbers left bare {sum(model.bare.values())}: " + by_map(lambda name: model.bare[name]))


def main():
    args = arguments()
    comparison = Comparison()
    maps = run([args.oracle, "maps"], b"").decode()
    with tempfile.TemporaryDirectory() as folder:
        script = program("script", args.script, args.native, folder)
        names = program("list_names", args.program, args.native, folder)
        of_sessions, lists = sessions(args, folder, script, names, maps, comparison)
        of_lines = lines(args, names, maps, comparison)
        refused = wrong_lines(names, maps, comparison)
    count(f"sessions {args.end - args.first}, lists {lists}, lines {sum(of_sessions.lines.values())}", of_sessions)
    count(f"random lines {sum(of_lines.lines.values())}", of_lines)
    print(f"lines with a damage {WRONG}, of them refused {refused}")
    print(f"differences {comparison.differ}")
    bad = [f"never shown: {name}" for name in of_lines.missing() if name in of_sessions.missing()]
    if not sum(of_lines.bare.values()) + sum(of_sessions.bare.values()):
        bad.append("no number is left bare")
    if not refused:
        bad.append("no wrong line is refused")
    if comparison.told:
        bad.append(comparison.told)
    for fault in bad:
        print(f"names: {fault}", file=sys.stderr)
    if bad:
        sys.exit(1)


main()
