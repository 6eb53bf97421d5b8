#!/usr/bin/env python3
"""Writes the comparison data (README.md, 'The comparison data'): sessions as numbers and what the
Rust with the landed requests records for them, held against the published Rust (requests.py).
Everything comes from seeds and from the scripts at hand, so two runs are equal."""
import glob, os, re, subprocess, sys, tempfile, shutil
import requests
ROOT = os.path.dirname(os.path.dirname(os.path.abspath(__file__)))
TARGET = os.environ.get("CARGO_TARGET_DIR", os.path.join(ROOT, "target"))
O, PUBLISHED = (os.path.join(TARGET, f) for f in ("debug/oracle", "published/debug/oracle"))
DATA = os.path.join(ROOT, "data")
CALLS = 60          # calls of a random session
# large; data/scripts/full_*.txt have the same edges in less
SKIP = {"T7_draw_at_4096", "B30"}
OBJECTS = {"caps", "room", "buf", "qset", "view", "pipe", "cpipe", "group", "layout", "bg"}
CALL = """begin_encoding end_encoding begin_render_pass end_render_pass begin_compute_pass end_compute_pass transition_buffers
transition_textures clear_buffer copy_buffer_to_buffer copy_query_results begin_query end_query write_timestamp reset_queries set_bind_group
set_immediates set_render_pipeline set_compute_pipeline set_index_buffer set_vertex_buffer set_viewport set_scissor_rect set_stencil_reference
set_blend_constants draw draw_indexed draw_indirect draw_indexed_indirect dispatch_workgroups dispatch_workgroups_indirect""".split()
# which calls can be refused with which number
R7 = [c for c in CALL if c not in ("begin_encoding", "end_encoding", "reset_queries", "set_vertex_buffer")]
REFUSED = {1: CALL, 2: "begin_render_pass set_bind_group set_render_pipeline set_compute_pipeline".split(),
    3: """begin_render_pass begin_compute_pass copy_buffer_to_buffer copy_query_results begin_query end_query write_timestamp reset_queries
          set_bind_group set_immediates set_render_pipeline set_compute_pipeline set_vertex_buffer""".split(),
    4: """transition_buffers set_bind_group set_render_pipeline set_index_buffer set_vertex_buffer draw_indirect draw_indexed_indirect
          dispatch_workgroups_indirect""".split(),
    5: "begin_render_pass set_bind_group set_render_pipeline".split(),
    6: "set_bind_group draw draw_indexed draw_indirect draw_indexed_indirect".split(), 7: R7}
STATE = """topology primitive index slot attribute target stencil bias alpha_to_coverage sampler texture_slot render_size resolve invalidate
has_pass_label instance_mask instance first_instance_location descriptor word end_of_pass_timestamp clip_distance_count""".split()


def oracle(*a, text=None, build=O):
    p = subprocess.run([build, *a], input=text, capture_output=True, text=True)
    if p.returncode != 0 or p.stderr:
        sys.exit(f"oracle {' '.join(a)}: {p.returncode}\n{p.stderr}\n{text}")
    return p.stdout

def word(l):
    w = [x for x in l.split("#")[0].split() if not x.startswith("?")]
    return w[0] if w else ""
def is_call(l): return word(l) in CALL
def gen(seed, *opts): return oracle("gen", str(seed), *opts).splitlines()
def caps(lines): return "".join(re.findall(r"=(\d)", next(l for l in lines if word(l) == "caps")))
def has_room(lines): return any(word(l) == "room" for l in lines)
def with_room(lines, r):
    i = next(i for i, l in enumerate(lines) if word(l) == "caps") + 1
    return lines[:i] + ["room " + " ".join(map(str, r))] + lines[i:]
def cut(lines, n):
    """the script up to its n-th call"""
    at = [i for i, l in enumerate(lines) if is_call(l)]
    return lines[:at[n]] if n < len(at) else lines
def remark(lines, answers=None):
    """the expected number before each call: those answers, or as the model has it"""
    lines = [re.sub(r"^\?\d ", "", l) for l in lines]
    it = iter(answers or answers_of(oracle("flat", "-", text="\n".join(lines) + "\n")))
    return [(lambda a: l if a == "0" else f"?{a} {l}")(next(it)) if is_call(l) else l for l in lines]
def answers_of(flat): return [l.split(" ", 1)[0] for l in flat.splitlines()[1:]]
def refused(lines): return sum(1 for l in lines if l.startswith("?"))
def needs(lines):
    """the most commands, bytes and queries of a list"""
    m, c = [0, 0, 0], 0
    for l in oracle("run", "-", "--all", "--bytes", "--queries", text="\n".join(lines) + "\n").splitlines():
        w = l.split(" ", 2)
        if w[0] == "---": c = 0
        elif w[0] == "bytes": m[1] = max(m[1], int(w[1]))
        elif w[0] == "queries": m[2] = max(m[2], int(w[1]))
        else: c += 1; m[0] = max(m[0], c)
    return m
def closed(lines): return word(lines[-1]) == "end_encoding" and not lines[-1].startswith("?")

def seeds(pick, opts, first):
    """for each set of flags its seeds in ascending order, as they are asked for"""
    found, at = {f"{i:04b}": [] for i in range(16)}, [first]
    def next_of(c):
        while not found[c]:
            s = at[0]; at[0] += 1
            lines = gen(s, *opts)
            if pick(lines): found[caps(lines)].append((s, lines))
        return found[c].pop(0)
    return next_of

def inside(lines, seed):
    """cut within the last third, in a pass if one is open near there"""
    n = sum(map(is_call, lines))
    for k in range(n - seed % (n // 3), n // 2, -1):
        c = cut(lines, k)
        if word(c[-1]) not in ("end_render_pass", "end_compute_pass", "end_encoding", "begin_encoding"): return c, k
    return lines, n

def sessions():
    """yields name, script lines"""
    for d in ("data/scripts", "cases", "findings"):
        for f in sorted(glob.glob(os.path.join(ROOT, d, "*.txt"))):
            n = os.path.splitext(os.path.basename(f))[0]
            if n in SKIP or n.endswith("_published"): continue      # the calls of another case, with the published Rust's list
            lines = open(f).read().splitlines()
            # three findings leave unmarked what the model refuses
            yield f"{d}/{n}", remark(lines) if n in ("A10", "A19", "B28") else lines
    N, S = ["--calls", str(CALLS)], ["--calls", str(CALLS // 2)]
    plain = seeds(lambda l: True, N, 1)
    short = seeds(closed, S, 5001)
    # refused calls: room as it is, small room, and with calls on which the written rules decide and the Rust does not care
    wide = seeds(lambda l: refused(l) > 2 and not has_room(l), N + ["--refused"], 10001)
    small = seeds(lambda l: has_room(l) and any(x.startswith("?7") for x in l), N + ["--refused"], 20001)
    open_ = seeds(lambda l: refused(l) > 2, N + ["--refused", "--ambiguous"], 30001)
    shortr = seeds(lambda l: closed(l) and refused(l) and not has_room(l), S + ["--refused"], 40001)
    for i in range(16):
        c = f"{i:04b}"
        for k in range(5):                       # accepted calls only, whole and cut
            s, l = plain(c)
            if k % 2: l, n = inside(l, s); yield f"accepted/seed{s}/cut{n}", l
            else: yield f"accepted/seed{s}", l
        s, l = plain(c)                          # room for exactly what is recorded
        yield f"accepted/seed{s}/exact", with_room(l, needs(l))
        (s, l), (t, m) = short(c), short(c)      # two lists
        two = lambda l, m: l + [x for x in m if word(x) not in ("caps", "room")]
        yield f"accepted/seed{s}+{t}", two(l, m)
        for k in range(2):
            s, l = wide(c)
            if k: l, n = inside(l, s); l = remark(l); yield f"refused/seed{s}/cut{n}", l
            else: yield f"refused/seed{s}", l
        for k in range(2):
            s, l = small(c)
            yield f"refused/seed{s}/room", l
        s, l = open_(c)
        l, n = inside(l, s); yield f"refused/seed{s}/rules/cut{n}", l
        while True:                              # room for one less than what is recorded
            s, l = plain(c); r = needs(l); k = i % 3
            if r[k]: break
        r[k] -= 1
        yield f"refused/seed{s}/short", remark(with_room(l, r))
        (s, l), (t, m) = shortr(c), shortr(c)
        yield f"refused/seed{s}+{t}", two(l, m)
    yield from slot_sessions(N, "even", 50001, 5)
    yield from slot_sessions(N, "mixed", 70001, 2)
    yield from slider_sessions(N + ["--slider"], 90001)

def twice(lines):
    """a pipeline has a location twice among its descriptors"""
    found = [re.findall(r"[=,](\d+):", m[0]) for l in lines for m in [re.search(r"imm=\S+", l)] if m]
    return any(len(set(f)) < len(f) for f in found)

def slider_sessions(N, first):
    """of four boards three accepted ones, one of them cut, one with room for exactly what it records, two with refused calls, one of them cut, one with room
    for one command less and one for one byte less than it needs, all with distinct locations in a pipeline; and two without that"""
    accepted = seeds(lambda l: not twice(l), N, first)
    wide = seeds(lambda l: refused(l) > 2 and not has_room(l) and not twice(l), N + ["--refused"], first + 10000)
    again = seeds(twice, N, first + 20000)
    for c in ("0000", "0111", "1001", "1110"):
        for k in range(3):
            s, l = accepted(c)
            if k == 1: l, n = inside(l, s); yield f"accepted/slider/seed{s}/cut{n}", l
            else: yield f"accepted/slider/seed{s}", l
        s, l = accepted(c)
        yield f"accepted/slider/seed{s}/exact", with_room(l, needs(l))
        for k in range(2):
            s, l = wide(c)
            if k: l, n = inside(l, s); l = remark(l); yield f"refused/slider/seed{s}/cut{n}", l
            else: yield f"refused/slider/seed{s}", l
        for k in range(2):
            s, l = accepted(c); r = needs(l); r[k] -= 1
            yield f"refused/slider/seed{s}/short", remark(with_room(l, r))
        for k in range(2):
            s, l = again(c)
            yield f"accepted/slider/seed{s}/twice", l

def slot_sessions(N, kind, first, each):
    """of each board with layout that emulates instancing as many accepted ones, whole and cut, and as many with refused calls; the last has
    room for one command less than it needs. main checks that even ones are even"""
    accepted = seeds(lambda l: True, N + ["--" + kind], first)
    wide = seeds(lambda l: refused(l) > 2 and not has_room(l), N + ["--" + kind, "--refused"], first + 10000)
    for c in ("1000", "1001", "1100", "1101"):
        for k in range(each):
            s, l = accepted(c)
            if k % 2: l, n = inside(l, s); yield f"accepted/{kind}/seed{s}/cut{n}", l
            else: yield f"accepted/{kind}/seed{s}", l
        for k in range(each - 1):
            s, l = wide(c)
            if k % 2: l, n = inside(l, s); l = remark(l); yield f"refused/{kind}/seed{s}/cut{n}", l
            else: yield f"refused/{kind}/seed{s}", l
        s, l = accepted(c); r = needs(l); r[0] -= 1
        yield f"refused/{kind}/seed{s}/short", remark(with_room(l, r))

def both(lines):
    """the script, its flat form and what is printed, on the requested build, and on the published one with the requested one's answers of 7"""
    run, text = ["run", "-", "--all", "--bytes", "--queries", "--state"], "\n".join(lines) + "\n"
    f = oracle("flat", "-", text=text)
    with tempfile.NamedTemporaryFile("w", suffix=".flat") as like:
        like.write(f); like.flush()
        theirs = ["--like", like.name]
        g = oracle("flat", "-", *theirs, text=text, build=PUBLISHED)
        script = text if f == g else "\n".join(remark(lines, answers_of(g))) + "\n"
        return (text, f, oracle(*run, text=text)), (script, g, oracle(*run, *theirs, text=script, build=PUBLISHED))

def main():
    keep = sys.argv[sys.argv.index("--scripts") + 1] if "--scripts" in sys.argv else None
    if keep: os.makedirs(keep, exist_ok=True)
    flat, out, index = [], [], ["# number name flags(layout barriers instancing msrtt) room calls refused lists commands requests(= none)"]
    tally = requests.Tally()
    for i, (name, lines) in enumerate(sessions()):
        (text, f, o), (theirs, g, p) = both(lines)
        for build, script, numbers, printed in (("requested", text, f, o), ("published", theirs, g, p)) if keep else ():
            for ending, content in (("txt", f"# {name}\n{script}"), ("flat", numbers), ("out", printed)): open(os.path.join(keep, f"{i:03d}.{build}.{ending}"), "w").write(content)
        try: held = requests.hold((g, p), (f, o))
        except requests.Unequal as e: sys.exit(f"{name}: the two builds differ otherwise than a request allows: {e}")
        if "/even/" in name and not held.even: sys.exit(f"{name}: not even")
        tally.add(held)
        a = answers_of(f)
        r = sum(x != "0" for x in a)
        if name.startswith("accepted") and r or name.startswith("refused") and not r: sys.exit(f"{name}: {r} refused")
        said = [l.split(" ")[2] for l in oracle("run", "-", "--answers", text=text).splitlines() if l.startswith("answer ")]
        if said != a: sys.exit(f"{name}: answers of run and flat differ")
        flat.append(f)
        out.append(o + "".join(f"answer {k} {x}\n" for k, x in enumerate(a)) + "===\n")
        h = f.split("\n", 1)[0].split()
        if any(int(x) > y for x, y in zip(h[4:7], (4096, 65536, 1024))): sys.exit(f"{name}: more room than the limits")
        index.append(f"{i} {name} {''.join(h[:4])} {'/'.join(h[4:7])} {h[7]} {r} {1 + o.count('---' + chr(10))} {sum(l[0].isdigit() for l in o.splitlines())} {requests.mark(held.by)}")
    for n, t in (("sessions.flat", "".join(flat)), ("sessions.out", "".join(out)), ("sessions.index", "\n".join(index) + "\n")):
        open(os.path.join(DATA, n), "w").write(t)
    for n, at in (("sessions.flat", "stdin"), ("sessions.out", "stdout")):
        shutil.copyfile(os.path.join(DATA, n), os.path.join(ROOT, "../../crates/script", at))
    sys.exit(count(tally))

def count(tally):
    """Reads the two files again and counts."""
    enum = open(os.path.join(ROOT, "upstream/mod.rs")).read().split("\nenum Command {\n")[1].split("\n}\n")[0]
    enum = re.sub(r"    #\[cfg\(webgl\)\]\n    \w+ \{.*?\n    \},\n", "", enum, flags=re.S)
    COMMAND = [c for c in re.findall(r"^    ([A-Z]\w+)", enum, re.M) if c not in ("CopyTextureToTexture", "CopyBufferToTexture", "CopyTextureToBuffer", "InsertDebugMarker")]
    assert len(COMMAND) == 49 and len(CALL) == 31
    calls = {c: [0] * 8 for c in CALL}
    flags = {f"{i:04b}": [0, 0] for i in range(16)}
    f = open(os.path.join(DATA, "sessions.flat")).read().splitlines()
    i = sess = acc = 0
    while i < len(f):
        h = f[i].split(); n = int(h[7]); r = 0
        for l in f[i + 1:i + 1 + n]:
            w = l.split(" ", 2); calls[CALL[int(w[1])]][int(w[0])] += 1; r += w[0] != "0"
        flags["".join(h[:4])][r > 0] += 1; acc += r == 0; sess += 1; i += 1 + n
    command, state, lists = dict.fromkeys(COMMAND, 0), dict.fromkeys(STATE, 0), 0
    for l in open(os.path.join(DATA, "sessions.out")):
        w = l.split()
        if w[0].isdigit(): command[w[1]] += 1
        elif w[0] == "state": state[w[1]] += 1
        elif w[0] == "bytes": lists += 1
    bad, t = [], []
    def need(what, n, least):
        if n < least: bad.append(f"{what}: {n}, at least {least} wanted")
        return n
    t += [f"sessions {sess}, of them {acc} with accepted calls only and {sess - acc} with refused ones", f"calls {sum(map(sum, calls.values()))}, of them {sum(sum(v[1:]) for v in calls.values())} refused", f"lists {lists}", f"commands {sum(command.values())}", *tally.text().split("\n"), ""]
    need("sessions", sess, 200); need("accepted sessions", acc, 100); need("refused sessions", sess - acc, 100)
    need("even sessions", tally.even[0], 40); need("even sessions that bind a slot by its number alone", tally.even[1], 20)
    for k, v in tally.by.items(): need(f"sessions different by request {k}", v[0], 10)
    need("set_immediates compared by their uniforms", tally.immediates[1], 500); need("sessions with another uniform, a location twice", tally.twice[1], 3)
    t += ["flags (layout barriers instancing msrtt): sessions accepted, with refused calls"]
    t += [f"  {k} {v[0]} {v[1]}" for k, v in flags.items()]
    for k, v in flags.items(): need("flags " + k, v[0], 5); need("flags " + k + " refused", v[1], 5)
    t += ["", "call: all, accepted, refused with 1 2 3 4 5 6 7"]
    for c, v in calls.items():
        t.append(f"  {c} {sum(v)} {v[0]}  " + " ".join(str(x) if x or c in REFUSED[n + 1] else "-" for n, x in enumerate(v[1:])))
        need(c, v[0], 10)
        for n in range(1, 8):
            if c in REFUSED[n]: need(f"{c} refused with {n}", v[n], 3)
            elif v[n]: bad.append(f"{c} refused with {n}: not among the possible")
    t += ["", "refused with"]
    for n in range(1, 8):
        k = sum(v[n] for v in calls.values()); t.append(f"  {n} {k}"); need(f"refusal {n}", k, 10)
    t += ["", "command"] + [f"  {c} {need(c, n, 10)}" for c, n in command.items()]
    t += ["", "state line"] + [f"  {c} {need('state ' + c, n, 10)}" for c, n in state.items()]
    open(os.path.join(DATA, "counts.txt"), "w").write("\n".join(t) + "\n")
    print("\n".join(t))
    for b in bad: print("TOO FEW", b)
    for b in tally.faults(): print("TOO FEW", b)
    return bool(bad or tally.faults())

main()
