#!/usr/bin/env python3
"""definitions.py SOURCE TARGET: the repository SOURCE without its functions, traits and worked rows, in the new folder TARGET.

What is left are the types, the definitions and the theorems about whole lists (`order`, `uniforms`), and of the crates below them types
and specs alone. It is checked in about a minute, and only a theorem can refuse it."""
import os
import re
import shutil
import sys

LAYERS = ["tables", "mask", "numbers", "names", "records", "slots", "bindings", "pipeline", "pass", "calls"]
THEOREMS = ["machine", "book", "order", "uniforms"]
ROWS = ["Worked", "Witness", "Examples", "Rows"]
CONTRACT = ("ensures", "requires", "decreases", "measure", "invariant")


def closing(text, start):
    """The place behind the brace that closes the one at `start`."""
    depth = 0
    for place in range(start, len(text)):
        depth += {"{": 1, "}": -1}.get(text[place], 0)
        if depth == 0:
            return place + 1
    sys.exit("definitions.py: a brace is not closed")


def kept_use(item, body):
    """A `use` item with the names alone that the body has; nothing where there is none."""
    found = re.match(r"(?s)((?:pub )?use )(.*?)(?:::\{(.*)\})?;$", item)
    head, path, many = found.groups()
    names = [name.strip() for name in many.split(",") if name.strip()] if many else [path.split("::")[-1]]
    there = [name for name in names if re.search(r"\b" + name.split(" as ")[-1] + r"\b", body)]
    if not there:
        return ""
    return f"{head}{path}::{{{', '.join(there)}}};" if many else item


def without_functions(text):
    text = re.sub(r"(?m)^\s*//.*\n", "", text)
    text = re.sub(r"//[^\n]*", "", text)
    text = re.sub(r"(?m)^ghost use [^;]*;\n", "", text)
    while found := re.search(r"(?m)^(?:impl|(?:pub(?:\(crate\))? )?trait)\b[^{]*\{", text):
        text = text[: found.start()] + text[closing(text, found.end() - 1) :]
    while found := re.search(r"(?m)^(?:[ \t]*#\[[^\n]*\]\n)*[ \t]*(pub(\(crate\))?\s+)?(const\s+)?fn\s+\w+", text):
        place = found.end()
        while True:
            brace = text.index("{", place)
            words = text[place:brace].split()
            place = closing(text, brace)
            # a clause, with or without a name; else the body
            if not any(word in CONTRACT for word in words[-2:]):
                break
        text = text[: found.start()] + text[place:]
    item = re.compile(r"(?m)^(?:pub )?use [^;]*;")
    body = item.sub("", text)
    return item.sub(lambda found: kept_use(found.group(0), body), text)


def without_rows(folder):
    """Takes the modules of worked rows out of a folder of antt files."""
    root = os.path.join(folder, "Lib.antt")
    if not os.path.exists(root):
        return
    gone = [name for name in ROWS if os.path.exists(os.path.join(folder, name + ".antt"))]
    for name in gone:
        os.remove(os.path.join(folder, name + ".antt"))
    left = [line for line in open(root) if line.strip() not in {"pub mod " + name for name in gone}]
    if left:
        open(root, "w").writelines(left)
    else:
        shutil.rmtree(folder)


def main():
    if len(sys.argv) != 3:
        sys.exit(__doc__)
    source, target = sys.argv[1:]
    for crate in LAYERS + THEOREMS:
        for part in ["src", "specs"] + (["proofs"] if crate in THEOREMS else []):
            folder = os.path.join(source, "crates", crate, part)
            if os.path.isdir(folder):
                shutil.copytree(folder, os.path.join(target, "crates", crate, part))
        sources = os.path.join(target, "crates", crate, "src")
        for name in os.listdir(sources):
            path = os.path.join(sources, name)
            text = without_functions(open(path).read())
            open(path, "w").write(text)
        for part in ["specs", "proofs"]:
            without_rows(os.path.join(target, "crates", crate, part))
    kept = set(LAYERS + THEOREMS)
    with open(os.path.join(target, "crates.txt"), "w") as out:
        for line in open(os.path.join(source, "crates.txt")):
            name, _, uses = line.partition(":")
            if name in kept:
                out.write(name + ": " + " ".join(use for use in uses.split() if use in kept) + "\n")


main()
