#!/usr/bin/env python3
"""cheaper.py FROM TO [options]: see tools/cheaper.sh."""
import argparse
import itertools
import math
import os
import random
import subprocess
import sys
import tempfile
import time

HERE = os.path.dirname(os.path.abspath(__file__))
MODEL = [sys.executable, os.path.join(HERE, "cheaper", "model.py")]
MOST = 4294967295
ORDERS = 40320  # of eight pieces
PART = 20       # every so many lines are held to the model,
FEW = 120       # and those with at most so many orders to try
SEED = 10       # of the timed questions and the wrong lines


def stop(message, status=2):
    print(f"cheaper: {message}", file=sys.stderr)
    sys.exit(status)


def arguments():
    parser = argparse.ArgumentParser(prog="cheaper.sh")
    parser.add_argument("first", metavar="FROM", type=int)
    parser.add_argument("end", metavar="TO", type=int)
    parser.add_argument("--questions", type=int, default=500)
    parser.add_argument("--program")
    parser.add_argument("--native", action="store_true")
    args = parser.parse_args()
    if not 0 <= args.first < args.end:
        stop("FROM must be below TO")
    if args.questions < 1:
        stop("there must be a question to time")
    return args


def program(given, native, folder):
    """`cheaper_draws`: the one that is given, or the proved one, or built natively."""
    if native and not given:
        made = os.path.join(folder, "cheaper_draws")
        if subprocess.run([sys.executable, os.path.join(HERE, "native", "build.py"), "cheaper_draws", made, "--plain"]).returncode:
            sys.exit(2)
        return made
    path = given or os.path.join(os.path.dirname(HERE), "crates", "cheaper_draws", "out", "cheaper_draws")
    if not os.access(path, os.X_OK):
        stop(f"no program {path}: rt run in crates/cheaper_draws makes it, --native builds it unproved")
    return os.path.abspath(path)


def rust(folder):
    made = os.path.join(folder, "cheaper")
    if subprocess.run(["rustc", "-O", "-o", made, os.path.join(HERE, "cheaper", "cheaper.rs")]).returncode:
        stop("rustc does not build cheaper.rs")
    return made


def run(command, given):
    p = subprocess.run(command, input=given, capture_output=True)
    if p.returncode or p.stderr:
        stop(f"{command[0]} stops with status {p.returncode}\n{p.stderr.decode(errors='replace')[:1000]}", 1)
    return p.stdout


def lines_of(text):
    lines = text.decode(errors="replace").split("\n")
    return lines[:-1] if lines[-1] == "" else lines + ["(no end of line)"]


def row(budget, pieces):
    return " ".join(map(str, [budget, len(pieces), *(thing for piece in pieces for thing in piece)]))


def piece(source, values):
    return [source.choice(values) for _ in range(18)]


def question(source):
    """A random line."""
    count = source.choice((0, 1, 2, 3, 3, 4, 4, 5, 5, 6, 6, 7, 7, 8, 8, 9))
    values = source.sample((0, 1, 2, 3, 65536, MOST - 1, MOST), source.choice((1, 2, 2, 3, 5)))
    pieces = [piece(source, values) for _ in range(count)]
    for i in range(1, count):  # some pieces differ from one before them in few things
        if source.random() < 0.4:
            pieces[i] = list(source.choice(pieces[:i]))
            for _ in range(source.randrange(3)):
                pieces[i][source.randrange(18)] = source.choice(values)
    all_orders = math.factorial(count)
    budgets = (0, 1, 2, 3, source.randrange(2, 10), source.randrange(2, 200), source.randrange(2, all_orders + 2), all_orders - 1, all_orders, all_orders + 1,
               ORDERS - 1, ORDERS, MOST)
    return row(source.choice(budgets), pieces)


def for_model(i, line):
    budget, count = map(int, line.split(" ")[:2])
    return i % PART == 0 or count > 8 or min(budget, math.factorial(count)) <= FEW


def wrong(source):
    """Texts of lines of which one has a damage."""
    good = question(source).split(" ")
    at = source.randrange(len(good))
    word = source.choice(("", "-1", "00", "01", "4294967296", "18446744073709551616", "9" * 200, "x", "1x", "+1", "\t1", "\u00b2"))
    far = row(5, [piece(source, (1, MOST))] * 64)
    broken = [
        " ".join(good[:at] + [word] + good[at + 1:]), " ".join(good[:-1]), " ".join(good + ["0"]), " ".join(good) + " ", " " + " ".join(good), "",
        " ".join(good[:1]), " ".join(good).replace(" ", "  ", 1), " ".join(good) + "\r", "1 65" + " 0" * 65 * 18, far[:-1] + "x", far + " 1", far + " 1" * 4000,
        "1" * source.choice((16383, 16384, 16385)), "5 9" + " 1" * (9 * 18 - 1), "5 9" + " 1" * 160 + " y 1",
    ]
    return [far, source.choice(broken), question(source)]


class Comparison:
    """What two of the three print: how many lines differ, and the first that does."""
    def __init__(self):
        self.differ, self.told = 0, None

    def hold(self, where, names, expected, got):
        for i, (want, have) in enumerate(itertools.zip_longest(expected, got)):
            if want != have:
                self.differ += 1
                self.told = self.told or f"{where(i)}\n  {names[0]}: {shown(want)}\n  {names[1]}: {shown(have)}"


def shown(line):
    return "(no line)" if line is None else line[:300]


def questions(args, folder, draws, plain, comparison):
    """The lines of the seeds; answers what is counted."""
    given = [question(random.Random(seed)) for seed in range(args.first, args.end)]
    text = lambda some: "".join(line + "\n" for line in some).encode()
    got = lines_of(run([draws], text(given)))
    where = lambda i: f"seed {args.first + i}: {given[i]}" if i < len(given) else "after the last line"
    comparison.hold(where, ("Rust", "program"), lines_of(run([plain], text(given))), got)
    ties = os.path.join(folder, "ties")
    part = [i for i, line in enumerate(given) if for_model(i, line)]
    by_model = lines_of(run([*MODEL, "--ties", ties], text(given[i] for i in part)))
    comparison.hold(lambda k: where(part[k]), ("model", "program"), by_model, [got[i] if i < len(got) else None for i in part])
    found = [line.split(" ") for line in got if line.startswith("price ")]
    return {
        "lines": len(given),
        "refused 13": got.count("refused 13"),
        "refused 14": got.count("refused 14"),
        "the given order is not the cheapest": sum(words[5:] != sorted(words[5:]) for words in found),
        "the price is the floor": sum(words[1] == words[3] for words in found),
        "by the model": len(by_model),
        "of them with a tie": sum(int(n) > 1 for n in open(ties)),
    }


def wrong_lines(draws, plain, comparison):
    """Wrong lines, each in a run of its own; answers how many runs there are and how many end in a refusal."""
    source, runs, refused = random.Random(SEED), 200, 0
    for i in range(runs):
        given = "\n".join(wrong(source)).encode("latin-1") + b"\n" * (i % 2)
        expected = lines_of(run(MODEL, given))
        refused += expected[-1].startswith("error: ")
        for name, command in (("Rust", plain), ("program", draws)):
            comparison.hold(lambda k: f"wrong line {i}: {given.decode('latin-1')[:1000]}", ("model", name), expected, lines_of(run([command], given)))
    return runs, refused


def seconds(command, given):
    began = time.monotonic()
    run([command], given)
    return time.monotonic() - began


def times(args, draws, plain):
    """Seconds of a question with all orders less those of one with a single order, for the program and the Rust."""
    source = random.Random(SEED)
    made = [[piece(source, (0, 1, 2)) for _ in range(8)] for _ in range(args.questions)]
    text = lambda budget: "".join(row(budget, pieces) + "\n" for pieces in made).encode()
    full, single = text(ORDERS), text(1)
    return [min((seconds(command, full) - seconds(command, single)) / args.questions for _ in range(3)) for command in (draws, plain)]


def main():
    args = arguments()
    comparison = Comparison()
    with tempfile.TemporaryDirectory() as folder:
        draws, plain = program(args.program, args.native, folder), rust(folder)
        counts = questions(args, folder, draws, plain, comparison)
        runs, refused = wrong_lines(draws, plain, comparison)
        print(", ".join(f"{name} {n}" for name, n in counts.items()))
        print(f"runs with a damaged line {runs}, of them refused {refused}")
        print(f"differences {comparison.differ}")
        bad = [f"none: {name}" for name, n in [*counts.items(), ("refused", refused)] if not n]
        if comparison.told:
            bad.append(comparison.told)
        for fault in bad:
            print(f"cheaper: {fault}", file=sys.stderr)
        if bad:
            sys.exit(1)
        took = times(args, draws, plain)
    for name, one in zip(("cheaper_draws", "plain Rust"), took):
        print(f"{name}: {one * 1e3:.3f} ms a question of 8 pieces, {one * 1e9 / ORDERS:.1f} ns an order")
    print(f"ratio {took[0] / took[1]:.2f}")


main()
