#!/usr/bin/env python3
"""Brings the repository's own definitions, lemmas, fields and constructors to snake case.

usage: port-names.py [--list] [ROOT]

Run once, after the kit's port.py, at the top of the repository. It reads each name that a file of specs/ or proofs/ declares:
a definition, a field or a constructor gets underscores alone, a lemma keeps the dashes that join two names.
It turns whole words in .antt files and in the clauses and ghost items of .rt files. --list prints old and new, and writes nothing.
A name under NEW has a spelling of its own, since another thing has the plain one where it is used.
"""
import collections
import os
import re
import sys

STEPS = (
    "beginEncoding endEncoding transitionBuffers transitionTextures clearBuffer copyBufferToBuffer copyQueryResults beginQuery endQuery"
    " writeTimestamp resetQueries setBindGroup setImmediates setRenderPipeline setComputePipeline setIndexBuffer setVertexBuffer setViewport"
    " setScissorRect setStencilReference setBlendConstants drawIndexed drawIndirect drawIndexedIndirect dispatchWorkgroups"
)
PASSES = "beginRenderPass beginComputePass endRenderPass endComputePass"
FIELDS = "cullFace frontFace polygonMode indexOffset indexType"
NEW = {
    "notMinusZero": "NotMinusZero",
    "no-run": "no_run_lem",
    "step-of": "step_taken",
    "beginRender": "begin_render_meaning",
    "endRender": "end_render_meaning",
    "beginCompute": "begin_compute_meaning",
    "endCompute": "end_compute_meaning",
    "drawCall": "draw_meaning",
    "dispatchIndirect": "dispatch_workgroups_indirect_meaning",
}
# A lemma that would have its definition's name gets _lem, in these files alone.
LEMMAS = {
    "order/proofs/Stuck.antt": ["bytes_run"],
    "later_passes/proofs/Grows.antt": ["goes_on"],
    "later_passes/proofs/InPass.antt": ["goes_on"],
    "superseding/proofs/Blanks.antt": ["nothing_seen"],
    "order/proofs/PipedVertex.antt": ["same_step"],
    "boards/proofs/Finding.antt": ["one_more"],
}
PARTS = {"getD": "get_or"}
KEEP = re.compile(r"^(Need-|In-|Else|Then|At-|After-|invariant-loop|decreases-loop|returns|loop-)|-spec$")
NAME = r"([^\s:{}()\[\],.;=]+)"
HEAD = re.compile(r"^(\s*)((?:abbrev |unfoldable |pub |axiom )*)(" + NAME[1:-1] + r"(?: " + NAME[1:-1] + r")*)(?: (?:\{[^}]*\}|\([^)]*\)))*\s*:(?: |$)")
BLOCK = re.compile(r"^(\s*)(?:pub |abbrev )*(record|data) ")
CLAUSE = re.compile(r"(?:requires|ensures)\s*\*?\s*(?:\w+\s*)?\{|ghost\s+\w+\s*:\s*\{|ghost\s+use\b")
WORD = re.compile(r"""(?<![^\s(){}\[\],;."«»`⌜⌝'])[^\s(){}\[\],;."«»`⌜⌝']+'*""")


def antt(root):
    for folder, dirs, files in os.walk(os.path.join(root, "crates")):
        dirs[:] = sorted(d for d in dirs if d != "out")
        for f in sorted(files):
            if f.endswith(".antt"):
                yield os.path.join(folder, f)


def sources(root):
    for folder, dirs, files in os.walk(os.path.join(root, "crates")):
        dirs[:] = sorted(d for d in dirs if d != "out")
        for f in sorted(files):
            if f.endswith(".rt"):
                yield os.path.join(folder, f)


def read(p):
    with open(p, encoding="utf-8") as f:
        return f.read()


def declared(root):
    """The kinds under which each name is declared: def, lemma, record or data."""
    kinds = collections.defaultdict(set)
    for p in antt(root):
        inside = None
        for line in read(p).split("\n"):
            b = BLOCK.match(line)
            if b:
                inside = (len(b.group(1)), b.group(2))
                continue
            if inside and line.strip() and len(line) - len(line.lstrip()) <= inside[0]:
                inside = None
            m = HEAD.match(line)
            if m and "--" not in line[: m.end()]:
                open_ = "abbrev" in m.group(2) or "unfoldable" in m.group(2)
                for name in m.group(3).split():
                    kinds[name].add(inside[1] if inside else "def" if open_ else "lemma")
    return kinds


def snake(part):
    if part in PARTS:
        return PARTS[part]
    return re.sub(r"(?<=[a-z0-9])([A-Z])", lambda m: "_" + m.group(1).lower(), part)


def gl_names(root):
    """OpenGL ES's numbers: with its prefix, since a constant of src/ may have the name without."""
    names = re.findall(r"(?m)^abbrev pub ([A-Z][A-Z0-9-]*) :", read(os.path.join(root, "crates/names/specs/Gl.antt")))
    return {name: "GL_" + name.replace("-", "_") for name in names}


def table(root):
    rows = gl_names(root)
    rows.update((name, snake(name) + "_meaning") for name in STEPS.split())
    rows.update((name, snake(name) + "_state") for name in PASSES.split())
    rows.update((name, snake(name) + "_of") for name in FIELDS.split())
    for name, kinds in declared(root).items():
        if name in rows:
            continue
        if KEEP.search(name):
            continue
        if name in NEW:
            rows[name] = NEW[name]
            continue
        new = name
        if not name[0].isupper():
            new = "-".join(snake(part) for part in name.split("-"))
        if kinds - {"lemma"}:
            new = new.replace("-", "_")
        if new != name:
            rows[name] = new
    for p in [*antt(root), *sources(root)]:
        for name in re.findall(r"(?m)^(?:ghost )?use [^;\n]* as [^;\n]*", read(p)):
            for word in re.findall(r" as ([a-z]\w*)", name):
                if snake(word) != word:
                    rows.setdefault(word, snake(word))
    return rows, {n for n, k in declared(root).items() if k & {"record", "data"}}


def turned(text, rows, members):
    def one(m):
        word = m.group(0)
        if word not in rows:
            return word
        before = text[m.start() - 1] if m.start() else " "
        if before == "." and "-" in word and word not in members:
            return word
        return rows[word]

    return WORD.sub(one, text)


def ghosts(text):
    """The places of a source's clauses and ghost items."""
    for m in CLAUSE.finditer(text):
        line = text.rfind("\n", 0, m.start()) + 1
        if "//" in text[line:m.start()]:
            continue
        if m.group(0).endswith("use"):
            yield m.end(), text.index(";", m.end())
            continue
        depth, at = 1, m.end()
        while depth:
            depth += {"{": 1, "}": -1}.get(text[at], 0)
            at += 1
        yield m.end(), at


def source_turned(text, rows, members):
    out, last = [], 0
    for a, b in ghosts(text):
        if a < last:
            continue
        out += [text[last:a], turned(text[a:b], rows, members)]
        last = b
    out.append(text[last:])
    return re.sub(r"(?<![\w'])(\w+) as \1(?![\w'])", r"\1", "".join(out))


def main(argv):
    root = next((a for a in argv if not a.startswith("-")), ".")
    rows, members = table(root)
    if "--list" in argv:
        for old in sorted(rows):
            print(old, rows[old], sep="\t")
        return
    for paths, turn in ((antt(root), turned), (sources(root), source_turned)):
        for p in list(paths):
            old = read(p)
            own = LEMMAS.get(p.split("crates/", 1)[1], [])
            new = turned(old, {name: name + "_lem" for name in own}, members)
            new = turn(new, rows, members)
            if new != old:
                with open(p, "w", encoding="utf-8") as f:
                    f.write(new)


if __name__ == "__main__":
    main(sys.argv[1:])
