#!/usr/bin/env python3
"""bench.py ORACLE REQUESTED [options] [ROW...]: see tools/bench.sh."""
import argparse
import os
import statistics
import subprocess
import sys
import tempfile

HERE = os.path.dirname(os.path.abspath(__file__))
RUNS = 60
# The rows of tools/bench/main.rt.txt, by number; `oracle bench` has the same names, and two more for tools/trim.sh.
NAMES = ["typical", "draw", "draw_instance", "set_vertex_buffer", "set_vertex_buffer+draw", "set_bind_group",
         "set_render_pipeline_same", "set_render_pipeline", "set_immediates", "draw_indexed", "set_viewport", "immediate_1",
         "immediate_16", "immediate_192"]
# label, row, layout, turns of a session, what a turn is
ROWS = [
    ("typical", "typical", 1, 500, "draw of a typical session"),
    ("typical_no_layout", "typical", 0, 500, "the same, without VERTEX_BUFFER_LAYOUT"),
    ("draw", "draw", 1, 200, "draw, nothing dirty"),
    ("draw_instance", "draw_instance", 1, 200, "draw, one instance slot rebound"),
    ("set_vertex_buffer", "set_vertex_buffer", 1, 200, "set_vertex_buffer"),
    ("set_vertex_buffer+draw", "set_vertex_buffer+draw", 1, 200, "set_vertex_buffer and draw"),
    ("set_bind_group", "set_bind_group", 1, 200, "set_bind_group of 5 entries"),
    ("set_render_pipeline_same", "set_render_pipeline_same", 1, 200, "set_render_pipeline, the same"),
    ("set_render_pipeline", "set_render_pipeline", 1, 200, "set_render_pipeline, another"),
    ("set_immediates", "set_immediates", 1, 200, "set_immediates of 4 words"),
    ("immediate_1", "immediate_1", 1, 200, "set_immediates of 1 word, 1 descriptor"),
    ("immediate_16", "immediate_16", 1, 200, "the same, 16 descriptors, 1 of them with the word"),
    ("immediate_192", "immediate_192", 1, 20, "the same, 192 descriptors, 1 of them with the word"),
    ("draw_indexed", "draw_indexed", 1, 200, "draw_indexed, nothing dirty"),
    ("set_viewport", "set_viewport", 1, 200, "set_viewport"),
    ("growth_500", "typical", 1, 80, "draw of a typical session"),
    ("growth_1000", "typical", 1, 161, "draw of a typical session"),
    ("growth_2000", "typical", 1, 324, "draw of a typical session"),
    ("growth_4000", "typical", 1, 648, "draw of a typical session"),
]
TURNS_OF_A_RUN = 4000  # a run is short, so that few of them are disturbed by other work


def stop(message):
    sys.exit(f"bench: {message}")


def run(words, text=None):
    p = subprocess.run(words, input=text, capture_output=True, text=True)
    if p.returncode or p.stderr:
        stop(f"{' '.join(words)}: status {p.returncode}\n{p.stderr}")
    return p.stdout


def build(folder):
    program = os.path.join(folder, "bench")
    words = [sys.executable, os.path.join(HERE, "native", "build.py"), "bench", program, "--source", os.path.join(HERE, "bench"), "--plain"]
    if subprocess.run(words).returncode:
        sys.exit(2)
    return program


def pipeline(name, program, count):
    """A pipeline with so many descriptors of a word each, at locations of their own; only the first has word 0."""
    words = [0, *(1 + k % 63 for k in range(count - 1))]
    return f"pipe {name} program={program} imm={','.join(f'{k}:2:{4 * w}:4' for k, w in enumerate(words))}\n"


class Bench:
    def __init__(self, oracle, requested, programs, folder):
        self.oracle, self.requested, self.programs = oracle, requested, programs
        pipelines = pipeline("p4", 5, 1) + pipeline("p5", 6, 16) + pipeline("p6", 7, 192)
        self.scripts, self.flat = [], []
        for layout in (0, 1):
            path = os.path.join(folder, f"objects{layout}.txt")
            with open(path, "w") as f:
                f.write(f"caps layout={layout}\n" + pipelines + open(os.path.join(HERE, "bench", "objects.txt")).read())
            self.scripts.append(path)
            self.flat.append(run([oracle, "flat", path]))

    def rust(self, row, *more, oracle=None):
        _, name, layout, count, _ = row
        return run([oracle or self.oracle, "bench", name, "--objects", self.scripts[layout], "--count", str(count), *more])

    def mine(self, program, row, runs, rounds, as_list):
        _, name, layout, count, _ = row
        return run([program], f"{NAMES.index(name)} {count} {runs} {rounds} {as_list}\n" + self.flat[layout])

    def commands(self, row):
        """The commands of a session: those of the published Rust, and of each program, if they are others. A program's list must be that of
        the published Rust or that of the Rust with the landed requests."""
        lists = [self.rust(row, "--list", oracle=oracle) for oracle in (self.oracle, self.requested)]
        counts = [length(lists[0])]
        for program in self.programs:
            got = self.mine(program, row, 1, 1, 1)
            if got not in lists:
                a, b = next((a, b) for a, b in zip(lists[1].splitlines() + [""], got.splitlines() + [""]) if a != b)
                stop(f"{row[0]}: the lists differ\n  the Rust: {a}\n  compared: {b}")
            counts.append(length(got))
        return str(counts[0]) if len(set(counts)) == 1 else "/".join(map(str, counts))

    def times(self, row, repeats):
        """Nanoseconds a turn: the runs of the Rust, of the Rust with a new list each session, and of each program."""
        count = row[3]
        rounds = max(1, TURNS_OF_A_RUN // count)
        words = ["--runs", str(RUNS), "--rounds", str(rounds)]
        sides = [lambda: self.rust(row, *words), lambda: self.rust(row, *words, "--fresh")]
        sides += [lambda program=program: self.mine(program, row, RUNS, rounds, 0) for program in self.programs]
        made = [[] for _ in sides]
        for _ in range(repeats):
            for out, side in zip(made, sides):
                out += [int(n) / rounds / count for n in side().split()]
        return made


def length(printed):
    return sum(line[:1].isdigit() for line in printed.splitlines())


def session_calls(row):
    """The calls of a whole session of the typical row."""
    count = row[3]
    return 4 + 3 * count + (count + 9) // 10 + (count + 1) // 2


def rate(row, values):
    a_call = statistics.median(values) * row[3] / session_calls(row)
    return f"{a_call:.1f} ns a call, {1e9 / a_call:,.0f} calls a second"


def shown(values):
    return f"{min(values):.1f}/{statistics.median(values):.1f}"


def main():
    parser = argparse.ArgumentParser(prog="bench.sh")
    parser.add_argument("oracle")
    parser.add_argument("requested")
    parser.add_argument("--repeats", type=int, default=7)
    parser.add_argument("--program")
    parser.add_argument("--before")
    parser.add_argument("rows", metavar="ROW", nargs="*")
    args = parser.parse_intermixed_args()
    unknown = set(args.rows) - {row[0] for row in ROWS}
    if unknown:
        stop(f"no row {', '.join(sorted(unknown))}; there are {', '.join(row[0] for row in ROWS)}")
    with tempfile.TemporaryDirectory() as folder:
        program = args.program or build(folder)
        programs = [args.before, program] if args.before else [program]
        bench = Bench(args.oracle, args.requested, programs, folder)
        heads = ["row", "a turn", "turns of a session", "its commands", "Rust", "Rust, fresh", *["before"][:len(programs) - 1], "this", "ratio of medians"]
        print("ns a turn, smallest/median; fresh: the Rust with a new list for each session, which grows")
        print("| " + " | ".join(heads) + " |\n" + "|---" * len(heads) + "|")
        rates = []
        for row in ROWS:
            if args.rows and row[0] not in args.rows:
                continue
            commands = bench.commands(row)
            made = bench.times(row, args.repeats)
            rust, mine = made[0], made[-1]
            ratio = statistics.median(mine) / statistics.median(rust)
            print(f"| {row[0]} | {row[4]} | {row[3]} | {commands} | {' | '.join(map(shown, made))} | {ratio:.1f} |", flush=True)
            if row[1] == "typical":
                rates.append(f"{row[0]}, {session_calls(row)} calls, {commands} commands: Rust {rate(row, rust)}; this {rate(row, mine)}")
        print("\n".join(rates))


main()
