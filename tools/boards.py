#!/usr/bin/env python3
"""boards.py ORACLE FROM TO [options]: see tools/boards.sh."""
import argparse
import collections
import itertools
import os
import random
import subprocess
import sys
import tempfile

HERE = os.path.dirname(os.path.abspath(__file__))
sys.path[:0] = [os.path.join(HERE, "lists"), os.path.join(HERE, "boards")]
import edits  # noqa: E402  (tools/boards/edits.py)
import model  # noqa: E402  (tools/lists/model.py)
import recordings  # noqa: E402  (tools/lists/recordings.py)
import times  # noqa: E402  (tools/boards/times.py)
from recordings import is_call, one_list, room_of, stop, text_of  # noqa: E402

BATCH = 250  # seeds whose pairs are held in memory at a time
EDITED = 3   # edited pairs of a seed
WANTED = ("equal", "draw 0", "draw above 0", "refused 2", "refused 3", "refused 7", "refused 9")
CHANGED = ("were equal", "were unequal at a later draw")  # pairs whose answer request 12 changed
PAIRS = {"the same calls": 5, "the same calls, other flags": 2, "the second without one call": 3, "two sessions": 1}


def arguments():
    parser = argparse.ArgumentParser(prog="boards.sh")
    parser.add_argument("oracle")
    parser.add_argument("first", metavar="FROM", type=int, nargs="?")
    parser.add_argument("end", metavar="TO", type=int, nargs="?")
    parser.add_argument("--calls", type=int, default=60)
    parser.add_argument("--program")
    parser.add_argument("--times", action="store_true")
    args = parser.parse_args()
    if args.first is None and args.times:
        return args
    if args.end is None or not 0 <= args.first < args.end:
        stop("FROM must be below TO")
    return args


def sessions(args, folder, first, end):
    """The sessions of the seeds and one more, every other one made as by `gen --even`."""
    both = [recordings.sessions(args.oracle, args.calls, folder, first, end + 1, *option) for option in ([], ["--even"])]
    return [pair[i // 2 % 2] for i, pair in enumerate(zip(*both))]


def less_one(source, calls):
    """The calls without one that sets something (pipeline, vertex buffer, blend constants), if there is one."""
    those = [i for i, line in enumerate(calls) if is_call(line, "17", "20", "24")]
    if not those:
        return calls
    i = source.choice(those)
    return calls[:i] + calls[i + 1:]


def pair(source, mine, other):
    """A kind, and the two sessions of a pair: the first board has layout, the second has not."""
    kind = source.choices(list(PAIRS), list(PAIRS.values()))[0]
    header, calls = mine
    flags = [[layout, *header[1:4]] for layout in ("1", "0")]
    if source.random() < 0.05:  # nothing tests how a list was recorded
        flags.reverse()
    calls = one_list(source, calls)
    second = calls
    if kind == "two sessions":
        second = one_list(source, other[1])
    elif kind == "the second without one call":
        second = less_one(source, calls)
    elif kind == "the same calls, other flags":
        flags = [[f[0], *source.choices("01", k=3)] for f in flags]
    return kind, text_of(flags[0], room_of(source), calls) + "and\n" + text_of(flags[1], room_of(source), second)


class Comparison:
    """The program's answers against the model's: counts, and the first that differs."""
    def __init__(self, program):
        self.program, self.differ, self.told, self.commands = program, 0, None, 0
        self.answers, self.kinds, self.changed = collections.Counter(), collections.Counter(), collections.Counter()

    def run(self, asked):
        """Pairs (seed, kind, text); answers their lists."""
        p = subprocess.run([self.program], input="".join(text for _, _, text in asked), capture_output=True, text=True)
        got = list(model.pairs(p.stdout.splitlines()))
        if p.returncode or p.stderr:
            stop(f"the program stops with status {p.returncode} after {len(got)} pairs\n{p.stderr[:1000]}")
        for one, answered in itertools.zip_longest(asked, got):
            if one is None:
                stop(f"more is printed than asked for: {answered[1]}")
            if answered is None or len(answered[0]) != 2:
                stop(f"seed {one[0]}, {one[1]}: {answered[1] if answered else '(no line)'}; {kept(*one)}")
            self.hold(one, *answered)
        return [lists for lists, _ in got]

    def hold(self, one, lists, line):
        expected, before = model.answers(*lists)
        self.commands += sum(len(given.lines) for given in lists)
        self.answers[line if line in WANTED or not line.startswith("draw ") else "draw above 0"] += 1
        self.kinds[one[1]] += 1
        if line != before:
            self.changed[CHANGED[before != "equal"]] += 1
        if line != expected or not model.remains(before, line):
            self.differ += 1
            self.told = self.told or f"seed {one[0]}, {one[1]}\n  the model:   {expected}, before request 12: {before}\n  the program: {line}\n  {kept(*one)}"


def kept(seed, kind, text):
    return f"the pair: {recordings.kept('boards', seed, text)}"


def compare(args, folder, comparison):
    for first in range(args.first, args.end, BATCH):
        end = min(first + BATCH, args.end)
        made = sessions(args, folder, first, end)
        sources = [random.Random(seed) for seed in range(first, end)]
        plain = [pair(source, *made[i:i + 2]) for i, source in enumerate(sources)]
        lists = comparison.run([(first + i, kind, text + "show\n") for i, (kind, text) in enumerate(plain)])
        comparison.run([edit(first + i, source, plain, lists) for i, source in enumerate(sources) for _ in range(EDITED)])


def edit(seed, source, plain, lists):
    """An edited pair: one of the batch, mostly with a draw and an equal number of draws."""
    good = [k for k, (a, b) in enumerate(lists) if a.draws() == b.draws() > 0]
    i = source.choice(good) if good and source.random() < 0.9 else source.randrange(len(plain))
    kind, lines = edits.random_edits(source, *lists[i])
    return seed, f"edited: {kind}", plain[i][1] + "".join(line + "\n" for line in lines) + "show\n"


def main():
    args = arguments()
    with tempfile.TemporaryDirectory() as folder:
        source = os.path.join(HERE, "boards")
        if args.times:
            times.table(args.oracle, recordings.built(args.program, source, folder, "--plain"), folder)
        if args.end is None:
            return
        program = recordings.built(args.program, source, folder)
        comparison = Comparison(program)
        compare(args, folder, comparison)
    of = lambda counter: ", ".join(f"{name} {n}" for name, n in sorted(counter.items()))
    print(f"pairs {sum(comparison.answers.values())}, commands {comparison.commands}, differences {comparison.differ}")
    print(f"answers: {of(comparison.answers)}")
    print(f"changed by request 12: {of(comparison.changed)}")
    print(f"pairs by kind: {of(comparison.kinds)}")
    bad = [f"no pair is answered with {answer}" for answer in WANTED if not comparison.answers[answer]]
    bad += [f"no pairs {change} before request 12 and are not now" for change in CHANGED if not comparison.changed[change]]
    bad += [f"no pair is {kind}" for kind in [*PAIRS, *(f"edited: {kind}" for kind in edits.KINDS)] if not comparison.kinds[kind]]
    for fault in bad + [comparison.told] * (comparison.differ > 0):
        print(f"boards: {fault}", file=sys.stderr)
    if bad or comparison.differ:
        sys.exit(1)


main()
