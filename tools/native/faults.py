"""Libraries with one fault each, built natively from a copy of the sources and held against a model: for tools/boards/wrong.py and tools/trim/wrong.py.
A fault is a file below crates/, a text that stands there once, whatever blanks and line ends are between its words, and what it becomes."""
import concurrent.futures
import os
import re
import shutil
import subprocess
import sys
import tempfile

ROOT = os.path.dirname(os.path.dirname(os.path.dirname(os.path.abspath(__file__))))


def copy_with(fault, folder):
    """The sources with the fault, below folder."""
    for name in ("crates", "tools"):
        shutil.copytree(os.path.join(ROOT, name), os.path.join(folder, name), ignore=shutil.ignore_patterns("target", "out", "proofs", "upstream"))
    shutil.copy(os.path.join(ROOT, "crates.txt"), folder)
    file, old, new = fault
    path = os.path.join(folder, "crates", file)
    made, count = re.subn(r"\s+".join(map(re.escape, old.split())), lambda _: new, open(path).read())
    if count != 1:
        sys.exit(f"wrong.py: {file} has {count} times: {old}")
    open(path, "w").write(made)


def tried(fault, tool, words):
    """How many answers tell the fault, or that the program stops, or None; and what the comparison said. tool: its program is made by tools/TOOL/build.sh, compared by tools/TOOL.py."""
    with tempfile.TemporaryDirectory() as folder:
        copy_with(fault, folder)
        program = os.path.join(folder, "program")
        built = subprocess.run([os.path.join(folder, "tools", tool, "build.sh"), program], capture_output=True, text=True)
        if built.returncode:
            return None, "does not build: " + (built.stderr or built.stdout).strip().splitlines()[-1]
        said = subprocess.run([sys.executable, os.path.join(ROOT, "tools", tool + ".py"), *words, "--program", program], capture_output=True, text=True)
    differ = re.search(r"differences (\d+)", said.stdout)
    if "the program stops" in said.stderr:
        return "a stop", said.stderr.strip()
    return (int(differ.group(1)) if differ else None), said.stderr.strip()


def shown(fault):
    """On one line."""
    old, new = (" ".join(text.split()) for text in fault[1:])
    return f"{fault[0]} | {old} -> {new}"


def run(faults, tool, words):
    """A line each: `told by` the number of answers that tell it and the first seed that does, or by a stop, or `NOT TOLD`. Exit 1 if one is not told. Two at a time."""
    missed = 0
    with concurrent.futures.ThreadPoolExecutor(2) as pool:
        for fault, (told, said) in zip(faults, pool.map(lambda fault: tried(fault, tool, words), faults)):
            missed += not told
            seed = re.search(r"seed (\d+)", said)
            first = f", first at seed {seed.group(1)}" if seed else ""
            print(f"told by {told}{first}" if told else f"NOT TOLD ({said[:200]})", "|", shown(fault), flush=True)
    print(f"{len(faults)} faults, {missed} not told")
    sys.exit(missed > 0)
