#!/usr/bin/env python3
"""later.py ORACLE FROM TO [options]: see tools/later.sh."""
import argparse
import os
import random
import subprocess
import sys
import tempfile

HERE = os.path.dirname(os.path.abspath(__file__))
sys.path[:0] = [os.path.join(HERE, "lists"), os.path.join(HERE, "later")]
from machine import DRAWS, INDEXED, Machine  # noqa: E402  (tools/lists/machine.py)
from passes import NEEDS, Pass  # noqa: E402  (tools/later/passes.py)

ALWAYS = ("program", "viewport", "scissor", "blend", "primitive", "bias", "alpha")
PHASES = {"begin_encoding": "open", "end_encoding": None, "begin_render_pass": "pass", "begin_compute_pass": "pass", "end_render_pass": "open", "end_compute_pass": "open"}


def stop(message):
    sys.exit(f"later: {message}")


def arguments():
    parser = argparse.ArgumentParser(prog="later.sh")
    parser.add_argument("oracle")
    parser.add_argument("first", metavar="FROM", type=int)
    parser.add_argument("end", metavar="TO", type=int)
    parser.add_argument("--program")
    parser.add_argument("--native", action="store_true")
    parser.add_argument("--break", dest="broken", action="store_true")
    args = parser.parse_args()
    if not 0 <= args.first < args.end:
        stop("FROM must be below TO")
    return args


def library(args, folder):
    """The program `script`: the one given, a native build, or the proved one."""
    made = os.path.join(folder, "script")
    if args.native and subprocess.run([sys.executable, os.path.join(HERE, "native", "build.py"), "script", made]).returncode:
        sys.exit(2)
    path = made if args.native else args.program or os.path.join(os.path.dirname(HERE), "crates", "script", "out", "script")
    if not os.access(path, os.X_OK):
        stop(f"no program {path}: rt run in crates/script makes it, or --native")
    return path


# ---- what stands before the pass
def earlier(r, oracle, alone):
    """Random calls, cut where no pass is open."""
    if alone:
        return ["begin_encoding"]
    kind = r.choice(([], ["--mixed"], ["--tame"], ["--even"], ["--slider"]))
    text = subprocess.run([oracle, "gen", str(r.randint(0, 10**6)), "--calls", str(r.randint(10, 80)), *kind], capture_output=True, text=True, check=True).stdout
    lines, phase, ends = [], None, []
    for line in text.splitlines():
        name = (line.split() or [""])[0]
        if name in ("caps", "room"):
            continue
        lines.append(line)
        phase = PHASES.get(name, phase)
        if phase == "open":
            ends.append(len(lines))
    return lines[: ends[-1] if r.random() < 0.6 else r.choice(ends)]


# ---- the two recorders
def commands(text):
    return [line.split()[1:] for line in text.split("---\n")[-1].splitlines() if line[:1].isdigit()]


def by_rust(oracle, script):
    """The last list, or none where a call was refused."""
    p = subprocess.run([oracle, "run", "-", "--answers"], input=script, capture_output=True, text=True)
    if p.returncode or any(line.startswith("answer") and line.split()[2] != "0" for line in p.stdout.splitlines()):
        return None
    return commands(p.stdout)


def by_library(oracle, program, script):
    flat = subprocess.run([oracle, "flat", "-"], input=script, capture_output=True, text=True, check=True).stdout
    return commands(subprocess.run([program], input=flat, capture_output=True, text=True, check=True).stdout)


# ---- what the draws of the pass find
def found(machine, words, draw):
    """What request 13 compares at this draw."""
    p, bound = draw["pipeline"], draw["bound"]
    view = {key: machine.one.get(key) for key in ALWAYS}
    view["command"], view["clip"] = tuple(words), machine.clip
    view["fetches"] = [machine.fetch(a[0]) if a[0] in machine.attributes else None for a in p["attrs"]]
    view["targets"] = [machine.targets.get(i, machine.every_target) for i in range(p["targets"])]
    aspects = int(machine.one.get("aspects", ("0",))[0])
    view["has"] = "aspects" in machine.one and (aspects & 2, aspects & 4)
    view["depth"] = machine.one.get("depth") if aspects & 2 else None
    view["stencil"] = sorted(machine.stencil.items()) if aspects & 4 else None
    view["index"] = machine.one.get("index") if words[0] in INDEXED else None
    view["buffers"] = {k: machine.ranges.get(k) for k in sorted(bound["buffers"])}
    view["textures"] = {k: machine.textures.get(k) for k in sorted(bound["textures"])}
    view["images"] = {k: machine.images.get(k) for k in sorted(bound["images"])}
    view["samplers"] = {u: machine.samplers.get(u, "-") for u in range(16) if p["smap"].get(u) is None or p["smap"][u] in bound["samplers"]}
    return view


def views(listed, draws):
    """By each draw behind the last framebuffer reset, the list played whole; none where the pass makes no such draw."""
    last = max(i for i, words in enumerate(listed) if words[0] == "ResetFramebuffer")
    machine, seen = Machine(), []
    for i, words in enumerate(listed):
        if words[0] in DRAWS and i > last:
            seen.append(found(machine, words, draws[len(seen)]) if len(seen) < len(draws) else None)
        machine.play(words)
    return seen


def difference(x, y, draws):
    """What is wrong with the draws of a pass in two lists, or none."""
    if not len(x) == len(y) == len(draws):
        return f"{len(x)} and {len(y)} draws, {len(draws)} are made"
    for k, (one, other, draw) in enumerate(zip(x, y, draws)):
        for key in one:
            if one[key] != other[key]:
                return f"draw {k} of the pass differs in {key}: {one[key]} and {other[key]}"
        if one["fetches"] != draw["fetches"]:
            return f"draw {k} of the pass fetches {one['fetches']}, its calls name {draw['fetches']}"
    return None


# ---- one pair
def pair(args, program, seed):
    """The two lists of a seed by each recorder, the draws of the common pass, and what was left out of it; none where a call is refused."""
    r = random.Random(seed)
    flags = [1, r.randint(0, 1), 0, r.randint(0, 1)] if seed % 2 else [r.randint(0, 1) for _ in range(4)]  # half of them with layout and emulated instancing
    left_out = r.choice(NEEDS) if args.broken else None
    common = Pass(r, flags[2], left_out)
    board = "caps layout={} barriers={} instancing={} msrtt={}".format(*flags)
    after = r.choice(([], ["end_render_pass"], ["end_render_pass", "end_encoding"]))
    scripts = ["\n".join([*earlier(r, args.oracle, seed % 3 == 0 and k == 0), board, *common.lines, *after]) + "\n" for k in range(2)]
    rust = [by_rust(args.oracle, script) for script in scripts]
    if None in rust:
        return None
    return {"the Rust": rust, "the library": [by_library(args.oracle, program, script) for script in scripts]}, common.draws, left_out


def main():
    args = arguments()
    pairs = draws = total = refused = 0
    differ = dict.fromkeys(NEEDS, 0)
    with tempfile.TemporaryDirectory() as folder:
        program = library(args, folder)
        for seed in range(args.first, args.end):
            made = pair(args, program, seed)
            if made is None:
                refused += 1
                continue
            lists, common, left_out = made
            wrong = {who: difference(*(views(x, common) for x in two), common) for who, two in lists.items()}
            pairs, draws, total = pairs + 1, draws + len(common), total + sum(map(len, lists["the Rust"]))
            if args.broken:
                differ[left_out] += wrong["the library"] is not None
            elif any(wrong.values()):
                stop(f"seed {seed}: " + "; ".join(f"{who}: {what}" for who, what in wrong.items() if what))
    print(f"{pairs} pairs, {total} commands, {draws} draws of the common pass, on the Rust and on the library; {refused} left out, since a call was refused")
    if args.broken:
        print("differ where one thing was left out: " + ", ".join(f"{k} {v}" for k, v in differ.items()))
        if not all(differ.values()):
            stop("a thing that was left out shows nowhere")
    elif pairs < (args.end - args.first) // 2:
        stop("more than half of the seeds were left out")


main()
