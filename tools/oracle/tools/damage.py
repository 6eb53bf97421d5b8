#!/usr/bin/env python3
"""damage.py [FROM TO]: that requests.py notices. Random sessions by seed (0 to 1200 if not given) on both builds of the Rust, as compare.sh makes
them, with --even and with --slider, and a few cases. The outputs of each kind of session are damaged in one way after another, and requests.hold must
refuse every damaged pair. It must refuse, too, every pair that differs by request 5 if the session is taken for even, and every pair with a location
twice in a pipeline and another uniform if the location is overlooked. Exit 1 where one is let through, or a way was never tried. It needs both builds
(build.sh)."""
import os
import re
import subprocess
import sys
import tempfile

import damaged_bytes
import requests
import uniforms

HERE = os.path.dirname(os.path.abspath(__file__))
TARGET = os.environ.get("CARGO_TARGET_DIR", os.path.join(os.path.dirname(HERE), "target"))
MOST = 40      # sessions of a kind that are damaged in one way
CASES = ("S01_A0_B5_A0", "S03_second_pass_5_A5", "S09_too_far", "U01_slider", "U11_pass_between", "U13_location_twice", "U15_label_behind")      # with NAME_published, the same calls
BUFFER, OFFSET, STRIDE = ({"SetVertexBuffer": a, "SetVertexAttribute": b} for a, b in ((3, 2), (4, 6), (6, 4)))      # the words of a command
CLEAR = re.compile(r"^(\d+ ClearColor[FUI] )(\d+)( .*)$", re.M)
COUNT = re.compile(r"^(\d+ SetDrawColorBuffers )(\d+)()$", re.M)
SIZE = re.compile(r"^(state render_size )(\d+)( .*)$", re.M)
DIRTY = re.compile(r"^(state instance_mask \d+ dirty_mask )(\d+)(.*)$", re.M)
STEPPED = re.compile(r"^(state instance_mask )(\d+)(.*)$", re.M)
ONE = re.compile(r"^(state .* active_first_instance )(\d+)()$", re.M)
OWN = re.compile(r"^(state instance \d+ )(\d+)()$", re.M)


def more(pattern):
    """The number that the pattern's second group finds first, and one more."""
    return lambda text: pattern.sub(lambda m: m.group(1) + str(int(m.group(2)) + 1) + m.group(3), text, count=1)


def recoloured(text):
    return CLEAR.sub(lambda m: m.group(0) + "1", text, count=1)


def without(text):
    return CLEAR.sub("", text, count=1).replace("\n\n", "\n", 1)


def sent(lines):
    """The lines of what draws send: vertex buffers, or without layout attributes with a buffer."""
    return [i for i, l in enumerate(lines) if re.match(r"\d+ (SetVertexBuffer|SetVertexAttribute \d)", l)]


def on_one(change):
    """The change of one line that a draw sent, some line of them."""
    def damaged(text):
        lines = text.splitlines()
        at = sent(lines)
        if not at:
            return text
        i = at[len(text) % len(at)]
        return damaged_bytes.renumbered(lines[:i] + change(lines[i]) + lines[i + 1:])
    return damaged


def field(places):
    """One field of a command and one more."""
    def change(line):
        word = line.split(" ")
        at = places[word[1]]
        word[at] = str(int(word[at]) + 1)
        return [" ".join(word)]
    return on_one(change)


def needless(text):
    """What a draw sent once more, before a later draw of its pass."""
    lines = text.splitlines()
    for i in reversed(sent(lines)):
        for k in range(i + 1, len(lines)):
            if not lines[k][0].isdigit() or " ResetFramebuffer " in lines[k]:
                break
            if lines[k].split(" ")[1].startswith("Draw") and not lines[k - 1].split(" ")[1].startswith(("Draw", "SetVertex")):
                return damaged_bytes.renumbered(lines[:k] + [lines[i]] + lines[k:])
    return text


def lists(text):
    return text[:text.index("state topology")]


def rest(text):
    return text[text.index("state topology"):]


def first_draw(answer, code="25"):
    """The first accepted draw call, or call of that code, answered otherwise, in the flat form and in the answers."""
    def damaged(flat, text):
        lines = flat.splitlines()
        at = next((i for i, l in enumerate(lines) if i and l.startswith(f"0 {code} ")), None)
        if at is None:
            return flat, text
        lines[at] = answer + lines[at][1:]
        return "\n".join(lines) + "\n", text.replace(f"answer {at - 1} 0\n", f"answer {at - 1} {answer}\n")
    return damaged


def parted(answer):
    """The first call that the builds answer differently, refused with that number by the build that refuses it."""
    def damaged(p, r):
        flats = [s[0].splitlines() for s in (p, r)]
        at = next((i for i, (x, y) in enumerate(zip(*flats)) if x[0] != y[0]), None)
        if at is None or at == 0:
            return p, r
        k = 0 if flats[0][at][0] != "0" else 1
        old, flats[k][at] = flats[k][at][0], answer + flats[k][at][1:]
        pair = [p, r]
        pair[k] = "\n".join(flats[k]) + "\n", pair[k][1].replace(f"answer {at - 1} {old}\n", f"answer {at - 1} {answer}\n")
        return tuple(pair)
    return damaged


def texts(way):
    """A way that damages the outputs and leaves the flat forms."""
    def damaged(p, r):
        a, b = way(p[1], r[1])
        return (p[0], a), (r[0], b)
    return damaged


def each(name, change):
    """The same damage in the requested output, in the published one, and in both."""
    return {f"{name}, requested": texts(lambda p, r: (p, change(r))), f"{name}, published": texts(lambda p, r: (change(p), r)),
            f"{name}, both": texts(lambda p, r: (change(p), change(r)))}


# each way: the sessions of the published and of the requested build (flat form, output), damaged
SWAPS = {
    "lists swapped": texts(lambda p, r: (lists(r) + rest(p), lists(p) + rest(r))),
    "published lists twice": texts(lambda p, r: (p, lists(p) + rest(r))),
    "requested lists twice": texts(lambda p, r: (lists(r) + rest(p), r)),
}
CLEARS = {
    **each("number of a clear", more(CLEAR)),
    "another colour": texts(lambda p, r: (p, recoloured(r))),
    "a clear left out, both": texts(lambda p, r: (without(p), without(r))),
    "draw buffer count": texts(lambda p, r: (p, more(COUNT)(r))),
    "state": texts(lambda p, r: (p, more(SIZE)(r))),
}
SLOTS = {
    **each("another buffer", field(BUFFER)), **each("another offset", field(OFFSET)), **each("another stride", field(STRIDE)),
    **each("a binding left out", on_one(lambda line: [])), **each("a binding twice", on_one(lambda line: [line, line])), **each("a needless binding", needless),
    **each("instance mask", more(STEPPED)), **each("dirty mask", more(DIRTY)),
    "the one number": texts(lambda p, r: (more(ONE)(p), r)),
    "a draw refused with 7, requested": lambda p, r: (p, first_draw("7")(*r)),
    "a draw refused with 7, published": lambda p, r: (first_draw("7")(*p), r),
    "a draw refused with 6, both": lambda p, r: (first_draw("6")(*p), first_draw("6")(*r)),
}
NUMBERS = {"a slot's number": texts(lambda p, r: (p, more(OWN)(r))), "the numbers left out": texts(lambda p, r: (p, re.sub(r"(?m)^state instance \d.*\n", "", r)))}
ANSWERS = {f"answer {n} in place of the refusal": parted(n) for n in "1357"}
UNIFORMS = {way: pair for name, change in damaged_bytes.WAYS.items() for way, pair in each(name, change).items()} | {
    "the first immediate behind the next command, requested": texts(lambda p, r: (p, damaged_bytes.first_later(r))),
    "the first immediate behind the next command, published": texts(lambda p, r: (damaged_bytes.first_later(p), r)),
    "immediates refused with 7, requested": lambda p, r: (p, first_draw("7", "16")(*r)),
    "immediates refused with 7, published": lambda p, r: (first_draw("7", "16")(*p), r),
    "a pipeline refused with 3, both": lambda p, r: (first_draw("3", "18")(*p), first_draw("3", "18")(*r)),
}

# kinds of sessions: which they are (what hold says, layout, full instancing, answers equal), and the ways
KINDS = {
    "different by request 1": (lambda h, layout, full, equal: "01" in h.by, {**CLEARS, **SWAPS}),
    "even, a slot bound by its number alone": (lambda h, layout, full, equal: h.moved, {**SLOTS, **NUMBERS}),
    "without layout": (lambda h, layout, full, equal: not layout and not full, {**SLOTS, **NUMBERS}),
    "with full instancing": (lambda h, layout, full, equal: full, SLOTS),
    "not even or without a draw, and equal": (lambda h, layout, full, equal: layout and not full and not h.even and "05" not in h.by, {**SLOTS, **NUMBERS}),
    "different by request 5": (lambda h, layout, full, equal: "05" in h.by and equal, {**SLOTS, **NUMBERS, **SWAPS}),
    "answered differently": (lambda h, layout, full, equal: not equal, ANSWERS),
    "different by request 6": (lambda h, layout, full, equal: "06" in h.by and not h.saved.twice, {**UNIFORMS, **SWAPS}),
    "with immediates, and equal": (lambda h, layout, full, equal: "06" not in h.by and h.saved.bytes[1] > 0, UNIFORMS),
    "with a location twice": (lambda h, layout, full, equal: h.saved.twice and h.saved.bytes[1] > 0, UNIFORMS),
}


EVEN = ("different by request 5, taken for even", "")
TWICE = ("another uniform, a location twice overlooked", "")


def batch(build, first, end, folder, options):
    files = [os.path.join(folder, build.replace("/", ".") + name) for name in ("flat", "out", "index")]
    words = [os.path.join(TARGET, build), "batch", first, end, *options, "--flat", files[0], "--out", files[1], "--index", files[2]]
    subprocess.run(words, check=True)
    flat, out = (open(f).read() for f in files[:2])
    return list(zip(sessions(flat), out.split("===\n"))), files[0]


def sessions(flat):
    lines, at = flat.splitlines(keepends=True), 0
    while at < len(lines):
        end = at + 1 + int(lines[at].split()[7])
        yield "".join(lines[at:end])
        at = end


def cases():
    """The cases on both builds: flat form, output."""
    for name in CASES:
        pair = []
        for build, ending in (("published/debug/oracle", "_published.txt"), ("debug/oracle", ".txt")):
            file = os.path.join(os.path.dirname(HERE), "cases", name + ending)
            run = lambda *options: subprocess.run([os.path.join(TARGET, build), *options], check=True, capture_output=True, text=True).stdout
            pair.append((run("flat", file), run("run", file, "--all", "--bytes", "--queries", "--state")))
        yield pair


def let_through(pair):
    try:
        requests.hold(*pair)
        return True
    except requests.Unequal:
        return False


def without_check(module, name, instead, pair):
    """Whether the pair is let through if a function of the module is another one."""
    true = getattr(module, name)
    setattr(module, name, instead)
    try:
        return let_through(pair)
    finally:
        setattr(module, name, true)


def answers(flat):
    return [l[0] for l in flat.splitlines()[1:]]


def damage(p, r, tried):
    """All ways of the kinds that the session is of; how many were let through."""
    held, head, bad = requests.hold(p, r), p[0].split(" ", 4), 0
    for kind, fits, *check in ((EVEN, "05" in held.by, requests, "uneven", lambda session: {}), (TWICE, held.saved.differ, uniforms, "twice", lambda call: False)):
        if fits:
            tried[kind] += 1
            if without_check(*check, (p, r)):
                bad += 1
                print(f"let through: {kind[0]}")
    for kind, (fits, ways) in KINDS.items():
        if not fits(held, head[0] == "1", head[2] == "1", answers(p[0]) == answers(r[0])):
            continue
        for name, way in ways.items():
            pair = way(p, r)
            if tried[kind, name] >= MOST or pair == (p, r):
                continue
            tried[kind, name] += 1
            if let_through(pair):
                bad += 1
                print(f"let through: {kind}: {name}")
    return bad


def main():
    first, end = sys.argv[1:3] if len(sys.argv) > 2 else ("0", "1200")
    tried, bad = {(kind, name): 0 for kind, (_, ways) in KINDS.items() for name in ways} | {EVEN: 0, TWICE: 0}, 0
    for p, r in cases():
        bad += damage(p, r, tried)
    for options in ([], ["--even"], ["--slider"]):
        with tempfile.TemporaryDirectory() as folder:
            requested, like = batch("debug/oracle", first, end, folder, options)
            published, _ = batch("published/debug/oracle", first, end, folder, [*options, "--like", like])
        for p, r in zip(published, requested):
            bad += damage(p, r, tried)
    for kind in dict.fromkeys(kind for kind, _ in tried):
        counts = [n for (k, _), n in tried.items() if k == kind]
        print(f"{kind}: {len(counts)} ways, each tried {min(counts)} to {max(counts)} times")
    for (kind, name), n in tried.items():
        if not n:
            print(f"never tried: {kind}: {name}")
    print(f"{sum(tried.values())} damaged pairs, {bad} let through")
    sys.exit(bool(bad) or not all(tried.values()))


main()
