"""The time of a comparison, for tools/boards.py --times."""
import os
import subprocess

HERE = os.path.dirname(os.path.abspath(__file__))
COMMANDS = (500, 1000, 2000, 4000)
RUNS, TIMES = 20, 100  # starts of the program, comparisons of a start


def objects(oracle, folder):
    """The calls of tools/bench/objects.txt in the flat form: the pass, its pipelines p0 to p3 and its bind groups."""
    text = open(os.path.join(os.path.dirname(HERE), "bench", "objects.txt")).read()
    path = os.path.join(folder, "objects.txt")
    with open(path, "w") as file:
        file.write("".join(line + "\n" for line in text.splitlines() if line.split()[-1] not in ("p4", "p5", "p6")))
    lines = subprocess.run([oracle, "flat", path], capture_output=True, text=True, check=True).stdout.splitlines()[1:]
    by_code = lambda code: [line for line in lines if line.split()[1] == code]
    return by_code("2")[0], by_code("17"), by_code("15")


def session(made, layout, turns):
    """The typical session of tools/bench.sh: a turn is two vertex buffers and a draw, each second turn a bind group, each tenth a pipeline."""
    begin, pipelines, groups = made
    calls = ["0 0", begin]
    for i in range(turns):
        calls += [pipelines[i // 10 % 4]] * (i % 10 == 0) + [groups[i // 2 % 4]] * (i % 2 == 0)
        calls += [f"0 20 0 {1 + i % 4} 34962 65536 {64 * i}", f"0 20 1 {5 + i % 4} 34962 65536 0", f"0 25 0 36 {i % 3} 1"]
    calls += ["0 3", "0 1"]
    return "\n".join([f"{layout} 0 0 0 4096 65536 1024 {len(calls)}", *calls]) + "\n"


def shown(program, text):
    p = subprocess.run([program], input=text, capture_output=True, text=True)
    lines = p.stdout.splitlines()
    if p.returncode or "equal" not in lines:
        raise SystemExit(f"boards: the timed lists are not equal: {lines[-1:]}")
    return lines


def pair(program, made, commands):
    """The sessions with the most turns whose list without layout has at most so many commands, and the numbers of commands and draws."""
    turns, best = commands // 8, None
    while True:
        text = session(made, 1, turns + 1) + "and\n" + session(made, 0, turns + 1)
        lines = shown(program, text + "show\n")
        counts = [int(line.split()[2]) for line in lines if line.startswith("list ")]
        if counts[1] > commands:
            return best
        best, turns = (text, counts, turns + 1), turns + 1


def table(oracle, program, folder):
    made = objects(oracle, folder)
    print("commands of the list with layout, of the one without, draws of each, nanoseconds, nanoseconds a command of both lists")
    for commands in COMMANDS:
        text, counts, draws = pair(program, made, commands)
        took = [int(shown(program, text + f"time {TIMES}\n")[-1].split()[1]) for _ in range(RUNS)]
        print(f"{counts[0]} {counts[1]} {draws} {min(took)} {min(took) / sum(counts):.1f}")
