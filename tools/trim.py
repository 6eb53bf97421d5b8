#!/usr/bin/env python3
"""trim.py ORACLE RUST FROM TO [options]: see tools/trim.sh. RUST is the published Rust's release build, which --times runs."""
import argparse
import collections
import itertools
import os
import random
import subprocess
import sys
import tempfile

HERE = os.path.dirname(os.path.abspath(__file__))
sys.path[:0] = [os.path.join(HERE, name) for name in ("lists", "trim", "boards")]
import piles  # noqa: E402  (tools/trim/piles.py)
import recordings  # noqa: E402  (tools/lists/recordings.py)
import trim_model as model  # noqa: E402  (tools/lists/trim_model.py)
from recordings import stop  # noqa: E402

BATCH = 250  # seeds whose lists are held in memory at a time
EDITED = 2   # edited lists of a seed, beside the one with a command between settings
WANTED = ("left all", "left fewer", "refused 2", "refused 3", "refused 7")
NAMES = [text.split()[0] for text in piles.COMMANDS]


def arguments():
    parser = argparse.ArgumentParser(prog="trim.sh")
    parser.add_argument("oracle")
    parser.add_argument("rust")
    parser.add_argument("first", metavar="FROM", type=int, nargs="?")
    parser.add_argument("end", metavar="TO", type=int, nargs="?")
    parser.add_argument("--calls", type=int, default=60)
    parser.add_argument("--program")
    parser.add_argument("--times", action="store_true")
    args = parser.parse_args()
    if args.first is None and args.times:
        return args
    if args.end is None or not 0 <= args.first < args.end:
        stop("FROM must be below TO")
    return args


def waits(lines):
    """Of each setting with a later one of the same thing: whether it goes, and what decides that: the commands between the two where none ends the
    wait, or the one that does where it is the only one."""
    names = [words[0] for words in lines]
    last = {}
    for i in reversed(range(len(lines))):
        thing = model.thing(lines[i])
        if thing and thing in last:
            between = names[i + 1:last[thing]]
            ends = [name for name in between if name in model.ENDS]
            if len(ends) < 2:
                yield not ends, ends or between
        if thing:
            last[thing] = i


class Comparison:
    """The program's lines against the model's: counts, and the first that differs."""
    def __init__(self, program):
        self.program, self.differ, self.told, self.commands, self.boards = program, set(), None, 0, set()
        self.answers, self.kinds, self.gone = collections.Counter(), collections.Counter(), collections.Counter()
        self.between = {True: collections.Counter(), False: collections.Counter()}

    def program_lines(self, asked):
        p = subprocess.run([self.program], input="".join(one[2] for one in asked), capture_output=True, text=True)
        if p.returncode or p.stderr:
            stop(f"the program stops with status {p.returncode}\n{p.stderr[:1000]}")
        return p.stdout.splitlines()

    def run(self, asked):
        """Lists (seed, kind, text, what is handed in if that is known), shown; answers the lists that are handed in."""
        got, given = list(model.lists(self.program_lines(asked))), []
        for one, lines in itertools.zip_longest(asked, got):
            if one is None:
                stop(f"more is printed than asked for: {lines[0]}")
            if lines is None or not lines[0].startswith("list "):
                stop(f"seed {one[0]}, {one[1]}: {lines[-1] if lines else '(no line)'}; {kept(one)}")
            given.append(one[3] or model.handed_in(lines))
            self.hold(one, given[-1], lines)
        return given

    def hold(self, one, given, lines):
        answer, left = model.treated(given)
        refused = answer.startswith("refused ")
        self.commands += len(given.lines)
        self.kinds[one[1]] += 1
        self.answers[answer if refused else "left all" if left.commands == given.commands else "left fewer"] += 1
        if not refused:
            self.gone.update(model.gone(given.lines, left.lines))
            for goes, names in waits(given.lines):
                self.between[goes].update(names)
        self.same(one, model.shown(given), lines)
        self.play(one, lines)

    def play(self, one, lines):
        """What is printed, played: the list before a treatment and after it."""
        lists = [model.handed_in(lines[i:]) for i, line in enumerate(lines) if line.startswith("list ")]
        for after in lists[1:]:
            if not model.same_finds(lists[0].lines, after.lines):
                self.fail(one, "a draw, clear, dispatch or reset, or the end, finds something else in the treated list")

    def same(self, one, expected, lines):
        if lines != expected:
            x, y = next((x, y) for x, y in itertools.zip_longest(expected, lines, fillvalue="(no line)") if x != y)
            self.fail(one, f"the model:   {x}\n  the program: {y}")

    def fail(self, one, message):
        self.differ.add(one[2])
        self.told = self.told or f"seed {one[0]}, {one[1]}\n  {message}\n  {kept(one)}"

    def tell(self, asked, given):
        """The same lists by `trim`: what it prints, the counts too."""
        parts = []
        for line in self.program_lines(asked):
            if line.startswith(("left ", "refused ")) or not parts:
                parts.append([])
            parts[-1].append(line)
        for one, known, lines in itertools.zip_longest(asked, given, parts):
            if one is None:
                stop(f"more is printed than asked for: {lines[0]}")
            self.same(one, model.told(known), lines or [])


def kept(one):
    return f"the list: {recordings.kept('trim', one[0], one[2])}"


def edit(seed, source, texts, given, number):
    """An edited list: of the batch, one whose count is that of its records."""
    good = [k for k, one in enumerate(given) if piles.is_whole(one)]
    if not good:
        stop("no list can be edited")
    i = source.choice(good)
    kind, lines = piles.random_edits(source, given[i], number)
    return seed, f"edited: {kind}", texts[i] + "".join(line + "\n" for line in lines) + "show\n", piles.applied(given[i], lines)


def compare(args, folder, comparison):
    for first in range(args.first, args.end, BATCH):
        end = min(first + BATCH, args.end)
        sources = [random.Random(seed) for seed in range(first, end)]
        texts = []
        for source, (header, calls) in zip(sources, recordings.sessions(args.oracle, args.calls, folder, first, end)):
            comparison.boards.add(tuple(header[:4]))
            texts.append(recordings.text_of(header[:4], recordings.room_of(source), recordings.one_list(source, calls)))
        asked = lambda last: [(first + i, "a session", text + last + "\n", None) for i, text in enumerate(texts)]
        given = comparison.run(asked("show"))
        comparison.tell(asked("trim"), given)
        turns = [(first + i, source, number) for i, source in enumerate(sources) for number in (first + i, *[None] * EDITED)]
        comparison.run([edit(seed, source, texts, given, number) for seed, source, number in turns])


def missing(comparison):
    """What never occurred."""
    bad = [f"no list is answered with {answer}" for answer in WANTED if not comparison.answers[answer]]
    bad += [f"no {kind} setting is taken out" for kind in model.KINDS.values() if not comparison.gone[kind]]
    bad += ["not every one of the 16 boards occurs"] * (len(comparison.boards) < 16)
    kinds = ["a session", "edited: between", *(f"edited: {kind}" for kind in piles.KINDS)]
    bad += [f"no list is {kind}" for kind in kinds if not any(name.startswith(kind) for name in comparison.kinds)]
    bad += [f"no {name} stands alone between two settings of a thing" for name in model.ENDS if not comparison.between[False][name]]
    return bad + [f"no {name} stands between two settings of a thing" for name in NAMES if name not in model.ENDS and not comparison.between[True][name]]


def main():
    args = arguments()
    with tempfile.TemporaryDirectory() as folder:
        source = os.path.join(HERE, "trim")
        if args.times:
            import rates  # (tools/trim/rates.py)
            rates.table(args.rust, recordings.built(args.program, source, folder, "--plain"), folder)
        if args.end is None:
            return
        program = recordings.built(args.program, source, folder)
        comparison = Comparison(program)
        compare(args, folder, comparison)
    of = lambda counter, names: ", ".join(f"{name} {counter[name]}" for name in names)
    print(f"lists {sum(comparison.answers.values())}, commands {comparison.commands}, differences {len(comparison.differ)}")
    print(f"answers: {of(comparison.answers, sorted(comparison.answers))}")
    print(f"taken out {sum(comparison.gone.values())}: {of(comparison.gone, model.KINDS.values())}")
    print(f"alone between two settings of a thing: {of(comparison.between[False], model.ENDS)}")
    print(f"lists by kind: {of(comparison.kinds, sorted(comparison.kinds))}")
    bad = missing(comparison)
    for fault in bad + [comparison.told] * bool(comparison.told):
        print(f"trim: {fault}", file=sys.stderr)
    if bad or comparison.told:
        sys.exit(1)


main()
