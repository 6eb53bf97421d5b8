#!/usr/bin/env python3
# Lays two trees' statements beside one another: each declaration of crates/*/specs and crates/*/proofs by crate and name, its type as written.
#   tools/port-statements.py OLD NEW    prints what OLD has and NEW has not (MISSING), and whose text differs (DIFF); the files of functions' proofs are left out
# OLD is the commit to compare with, after the kit's port.py and tools/port-names.py (docs/PORT.md, "How to compare").
import glob
import re
import sys

HEAD = re.compile(r"^(\s*)(?:(?:unfoldable|abbrev|pub) )*([^\s:(){}\[\]|,.=]+)\s*(?:(?:\{[^}]*\}|\([^)]*\))\s*)*:\s")
OF_FUNCTIONS = ("Proof.antt", "Invariants.antt", "Answers.antt")


def statements(root):
    found = {}
    files = glob.glob(root + "/crates/*/specs/**/*.antt", recursive=True) + glob.glob(root + "/crates/*/proofs/**/*.antt", recursive=True)
    for path in files:
        if "/out/" in path or path.endswith(OF_FUNCTIONS):
            continue
        where = path.split("/crates/")[1]
        lines = open(path).read().split("\n")
        for i, line in enumerate(lines):
            head = HEAD.match(line)
            if not head or line.strip().startswith(("--", "use ")) or "=" in line.split(":")[0]:
                continue
            text = [line.strip()]
            for more in lines[i + 1:]:
                deeper = len(more) - len(more.lstrip()) > len(head[1])
                if not more.strip() or not deeper or more.strip().startswith("--"):
                    break
                text.append(more.strip())
            found.setdefault((where.split("/")[0], head[2]), []).append((where, " ".join(text)))
    return found


def plain(text):
    return re.sub(r"[\s()]|\b(?:pub|abbrev|unfoldable)\b", "", text)


old, new = statements(sys.argv[1]), statements(sys.argv[2])
missing = different = 0
for (crate, name), here in sorted(old.items()):
    there = new.get((crate, name))
    if there is None:
        missing += 1
        print("MISSING", name, here[0][0])
        continue
    texts = {plain(t) for _, t in there}
    for where, text in here:
        if plain(text) not in texts:
            different += 1
            print("DIFF", name, where)
            print("   -", text)
            for _, other in there:
                print("   +", other)
print(missing, "missing,", different, "different")
