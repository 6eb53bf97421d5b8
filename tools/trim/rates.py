"""The time of a treatment, and of the Rust's recording of the same list, for tools/trim.py --times."""
import os
import subprocess

HERE = os.path.dirname(os.path.abspath(__file__))
COMMANDS = (500, 1000, 2000, 4000)
STARTS = 10               # of each program, in turn
TIMES = 100               # treatments of a start
RUNS, ROUNDS = 30, 10     # of the Rust: runs of a start, sessions of a run
ROWS = (("settings_twice", 2, "half of the settings go"), ("settings_once", 1, "nothing goes"))
HEADS = ("list", "commands", "settings", "taken out", "treatment, ns", "a command", "the Rust records it, ns", "a command", "ratio")


def run(words, text=None):
    p = subprocess.run(words, input=text, capture_output=True, text=True)
    if p.returncode or p.stderr:
        raise SystemExit(f"trim: {' '.join(words)}: status {p.returncode}\n{p.stderr[:1000]}")
    return p.stdout.splitlines()


class Rates:
    """Both programs, and the pass, pipeline and bind groups of tools/bench/objects.txt, as a script for the Rust and in the flat form."""
    def __init__(self, rust, program, folder):
        self.rust, self.program, self.script = rust, program, os.path.join(folder, "objects.txt")
        text = open(os.path.join(os.path.dirname(HERE), "bench", "objects.txt")).read()
        with open(self.script, "w") as file:
            file.write("caps layout=1\n" + "".join(line + "\n" for line in text.splitlines() if line.split()[-1] not in ("p4", "p5", "p6")))
        lines = run([rust, "flat", self.script])[1:]
        by_code = lambda code: [line for line in lines if line.split()[1] == code]
        self.begin, self.pipeline, self.groups = by_code("2")[0], by_code("17")[0], by_code("15")

    def settings(self, i):
        """As `set` of the oracle's bench.rs: a bind group, viewport, scissor, blend constants, index buffer."""
        group = self.groups[i % 4].rsplit(" ", 1)[0]
        return [f"{group} {256 * (i % 8)}", "0 21 0 0 1142947840 1139802112 0 1065353216", f"0 22 {i} 0 64 48", "0 24 0 1056964608 1065353216 1065353216",
                f"0 19 {1 + i % 4} 34962 1048576 0 0"]

    def session(self, times, turns):
        """The Rust's session: a turn is the settings, so many times, and a draw."""
        calls = ["0 0", self.begin, self.pipeline, "0 20 0 1 34962 1048576 0", "0 20 1 5 34962 1048576 0", "0 25 0 3 0 1"]
        for i in range(turns):
            calls += [line for k in range(times) for line in self.settings(i + k)] + ["0 26 0 36 0 0 1"]
        calls += ["0 3", "0 1"]
        return "\n".join([f"1 0 0 0 4096 65536 1024 {len(calls)}", *calls]) + "\n"

    def recorded(self, times, turns):
        """The list that is handed in."""
        lines = run([self.program], self.session(times, turns) + "show\n")
        return lines[1:1 + int(lines[0].split()[2])]

    def turns(self, times, commands):
        """The most turns of a list of at most so many commands."""
        one, two = (len(self.recorded(times, turns)) for turns in (1, 2))
        return 1 + (commands - one) // (two - one)

    def rust_list(self, row, turns):
        return [line for line in run([self.rust, "bench", row, "--objects", self.script, "--count", str(turns), "--list"]) if line[:1].isdigit()]

    def measured(self, row, times, turns):
        """Settings before and after, and the least nanoseconds of a treatment and of a recording."""
        words = [self.rust, "bench", row, "--objects", self.script, "--count", str(turns), "--runs", str(RUNS), "--rounds", str(ROUNDS)]
        mine, rust = [], []
        for _ in range(STARTS):
            _, settings, took = run([self.program], self.session(times, turns) + f"time {TIMES}\n")
            mine.append(int(took.split()[1]))
            rust += [int(line) / ROUNDS for line in run(words)]
        before, after = (int(word) for word in settings.split() if word.isdigit())
        return before, after, min(mine), min(rust)


def table(rust, program, folder):
    rates = Rates(rust, program, folder)
    print("least times; a turn of a list is settings of five calls, once or twice, and a draw; both programs record the same list")
    print("| " + " | ".join(HEADS) + " |\n" + "|---" * len(HEADS) + "|")
    for row, times, label in ROWS:
        for commands in COMMANDS:
            turns = rates.turns(times, commands)
            lines = rates.recorded(times, turns)
            if lines != rates.rust_list(row, turns):
                raise SystemExit(f"trim: {row}, {turns} turns: the lists differ")
            before, after, mine, theirs = rates.measured(row, times, turns)
            if before - after != (times - 1) * 6 * turns:
                raise SystemExit(f"trim: {row}, {turns} turns: {before - after} settings are taken out")
            print(f"| {label} | {len(lines)} | {before} | {before - after} | {mine} | {mine / len(lines):.1f} | {theirs:.0f} | {theirs / len(lines):.1f} |"
                  f" {mine / theirs:.2f} |", flush=True)
