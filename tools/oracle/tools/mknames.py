#!/usr/bin/env python3
"""Writes stdin and stdout of the program list_names: whole sessions as the Rust prints them (data/sessions.out), the first that show a command or a name
that none before showed; random command lines of a fixed seed; a wrong line, written by hand as its error line is, and a line that is not reached.
The other expected lines are those of tools/lists/names_model.py, with the Rust's maps (`oracle maps`)."""
import os
import random
import subprocess
import sys

ROOT = os.path.dirname(os.path.dirname(os.path.abspath(__file__)))
TOOLS = os.path.dirname(ROOT)
sys.path.insert(0, os.path.join(TOOLS, "lists"))
import names_lines  # noqa: E402  (tools/lists/names_lines.py)
import names_model  # noqa: E402  (tools/lists/names_model.py)

ORACLE = os.path.join(os.environ.get("CARGO_TARGET_DIR", os.path.join(ROOT, "target")), "debug", "oracle")
TO = os.path.join(os.path.dirname(TOOLS), "crates", "list_names")
SEED, RANDOM = 1, 400                        # of the random lines; at least so many
LONGEST, SESSIONS, LARGEST = 300, 900, 1500    # lines of a session, of all sessions, of stdin
WRONG, EXPECTED = b"3 SetDepth 0515 1", b"a number from 0 to 4294967295 at character 12"
UNREACHED = b"4 SetDepth 515 1"


def chosen(maps):
    """The sessions, each as its lines."""
    seen, lines = set(), []
    for text in open(os.path.join(ROOT, "data", "sessions.out"), "rb").read().split(b"===\n")[:-1]:
        session = text.splitlines() + [b"==="]
        model = names_model.Model(maps)
        model.named(text)
        shows = set(model.lines) | set(model.shown) | ({"lists"} if b"---" in session else set())
        if shows <= seen or len(session) > LONGEST or len(lines) + len(session) > SESSIONS: continue
        seen |= shows
        lines += session
    return lines


def random_lines(maps):
    """As many as are wanted, and more until every name is shown."""
    model, lines = names_model.Model(maps), []
    made = names_lines.Lines(random.Random(SEED), model.words)
    while len(lines) < RANDOM or model.missing() and len(lines) < LARGEST:
        lines.append(made.line(len(lines)))
        model.line(lines[-1])
    return lines


def main():
    maps = subprocess.run([ORACLE, "maps"], capture_output=True, text=True, check=True).stdout
    model = names_model.Model(maps)
    sessions = chosen(maps)
    right = sessions + random_lines(maps)
    expected = model.named(b"\n".join(right)) + [b"error: line %d: expected %s" % (len(right) + 1, EXPECTED)]
    given = right + [WRONG, UNREACHED]
    os.makedirs(TO, exist_ok=True)
    for name, lines in (("stdin", given), ("stdout", expected)):
        with open(os.path.join(TO, name), "wb") as file: file.write(b"\n".join(lines) + b"\n")
    count(model, sessions, given, expected)


def count(model, sessions, given, expected):
    print(f"lines {len(given)}, of them of {sessions.count(b'===')} sessions {len(sessions)}, random {len(given) - len(sessions) - 2}; printed {len(expected)}")
    print("  by command: " + ", ".join(f"{name} {n}" for name, n in sorted(model.lines.items())))
    print(f"  different names {len(model.shown)}, shown {sum(model.shown.values())}; numbers left bare {sum(model.bare.values())}")
    if model.missing(): sys.exit("never shown: " + ", ".join(model.missing()))
    if not model.bare: sys.exit("no number is left bare")
    if len(model.lines) != len(names_model.FIELDS): sys.exit("a command is missing")
    if len(given) > LARGEST: sys.exit("too large")


main()
