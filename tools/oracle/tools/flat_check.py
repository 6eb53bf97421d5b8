#!/usr/bin/env python3
"""flat_check.py SESSIONS.flat SESSIONS.out: reads both by the grammars of README.md ('Flat form', 'Output grammar'),
every field with its type, and holds them against each other. Shares no code with the oracle."""
import re, sys
U8, U16, U32, U64 = ((0, 2 ** n - 1) for n in (8, 16, 32, 64))
I32, FLAG = (-2 ** 31, 2 ** 31 - 1), (0, 1)

class Reader:
    def __init__(self, line, at): self.w, self.i, self.at = line.split(" "), 0, at
    def n(self, t=U32):
        s = self.w[self.i]; self.i += 1
        assert re.fullmatch(r"0|-?[1-9][0-9]*", s), (self.at, s)
        v = int(s)
        assert t[0] <= v <= t[1], (self.at, self.i, v, t)
        return v
    def ns(self, *t): return [self.n(x) for x in t]
    def opt(self, f): return f() if self.n(FLAG) else None
    def list(self, f): return [f() for _ in range(self.n())]
    def end(self): assert self.i == len(self.w), (self.at, self.w[self.i:])
    # records
    def buffer(self): return self.ns(U32, U32, U64)
    def qset(self): return self.n(), self.list(self.n)
    def view(self):
        k, num, target = self.ns((0, 3), U32, U32)
        a, m, n, l, o, kind, srgb = self.ns(U8, U32, U32, U32, U32, (0, 3), FLAG)
        assert (num == 0) == (k == 1) and (k == 2 or target == 0) and not (srgb and kind)
    def label(self): return self.opt(lambda: bytes(self.list(lambda: self.n(U8))).decode())
    def ts(self): return self.opt(lambda: (self.qset(), self.opt(self.n), self.opt(self.n)))
    def place(self): self.view(); self.opt(self.n); self.opt(self.view); self.ns(U8, U64, U64, U64, U64)
    def inner(self):
        assert self.n() > 0; self.opt(self.n); self.n()
        for _ in range(16): self.opt(lambda: self.n(U8))
        self.list(lambda: self.ns(U32, U32, U32, U32))
    def content(self):
        k = self.n((0, 3)); assert self.n() > 0
        if k == 0: self.ns(I32, I32)
        elif k == 1: assert self.n() > 0; self.ns(U8, U32, U32)
        elif k == 2: self.n(); self.opt(self.n); self.ns(U32, U32)

def call(r):
    c = r.n((0, 30))
    if c == 2: r.ns(U32, U32, U32, U32); r.label(); r.ts(); r.list(lambda: r.opt(r.place)); r.opt(lambda: (r.view(), r.ns(U8, U8, U32, U32)))
    elif c == 4: r.label(); r.ts()
    elif c == 6: r.list(lambda: (r.buffer(), r.ns(U16, U16)))
    elif c == 7: r.list(lambda: r.ns(U16, U16))
    elif c == 8: r.buffer(); r.ns(U64, U64)
    elif c == 9: r.buffer(); r.buffer(); r.list(lambda: r.ns(U64, U64, U64))
    elif c == 10: r.qset(); r.ns(U32, U32); r.buffer(); r.n(U64); assert r.n(U64) > 0
    elif c in (11, 12, 13): r.qset(); r.n()
    elif c == 14: r.qset(); r.ns(U32, U32)
    elif c == 15:
        r.list(lambda: r.opt(lambda: r.list(lambda: r.ns(U32, (0, 6), (0, 256)))))
        r.n(); r.list(r.content); r.list(r.n)
    elif c == 16: r.n(); r.list(r.n)
    elif c == 17:
        r.inner(); r.ns((0, 4), FLAG, (0, 2), FLAG, (0, 2))
        r.list(lambda: r.opt(lambda: r.ns(FLAG, U32)))
        r.list(lambda: r.ns(U32, U32, U32, I32, U32, FLAG))
        r.list(lambda: (r.n(), r.opt(lambda: r.ns(*[U32] * 6))))
        r.opt(lambda: r.ns(U32, FLAG)); r.ns(I32, U32, U32); r.opt(lambda: r.ns(*[U32] * 14)); r.n(FLAG)
    elif c == 18: r.inner()
    elif c == 19: r.buffer(); r.ns(U64, FLAG)
    elif c == 20: r.n(); r.buffer(); r.n(U64)
    elif c == 21: r.ns(*[U32] * 6)
    elif c in (22, 24, 25): r.ns(*[U32] * 4)
    elif c == 23: r.n()
    elif c == 26: r.ns(U32, U32, I32, U32, U32)
    elif c in (27, 28): r.buffer(); r.ns(U64, U32)
    elif c == 29: r.ns(U32, U32, U32)
    elif c == 30: r.buffer(); r.n(U64)
    return c

# u unsigned, i signed, x 8 hex digits and no NaN but 7fc00000, X any 8, b flag, o unsigned or -, V a view, B blend
FIELDS = {k: v for k, v in (l.split(":") for l in """Draw:uuuuuo DrawIndexed:uuuuiuuo DrawIndirect:uuuo DrawIndexedIndirect:uuuuo Dispatch:uuu
DispatchIndirect:uu ClearBuffer:ouuu CopyBufferToBuffer:ououuuu SetIndexBuffer:u BeginQuery:uu EndQuery:u TimestampQuery:u CopyQueryResults:uuouu
ResetFramebuffer:b BindAttachment:uVou ResolveAttachment:uVuuu InvalidateAttachments:u SetDrawColorBuffers:u ClearColorF:uxxxxb ClearColorU:uuuuu
ClearColorI:uiiii ClearDepth:x ClearStencil:u ClearDepthAndStencil:xu BufferBarrier:uu TextureBarrier:u SetViewport:iiiixx SetScissor:iiii
SetStencilFunc:uuuu SetStencilOps:uuuuu SetDepth:ub SetDepthBias:iXX ConfigureDepthStencil:u SetAlphaToCoverage:b SetVertexAttribute:obuuuuiub
UnsetVertexAttribute:u SetVertexBuffer:uuubu SetProgram:u SetPrimitive:uubu SetBlendConstant:xxxx SetColorTarget:ouB BindBuffer:uuuii BindSampler:uo
BindTexture:uuuuuu BindImage:uuuouu PushDebugGroup:uu PopDebugGroup: SetImmediates:uuuuu SetClipDistances:uu""".split())}
R = {"u": r" \d+", "i": r" -?\d+", "X": r" [0-9a-f]{8}", "x": r" (?:7fc00000|(?![7f]f(?:8(?!00000)|[9a-f]))[0-9a-f]{8})", "b": " [01]", "o": r" (?:-|\d+)",
     "V": r" (?:[03] \d+ -|1 - -|2 \d+ \d+)(?: \d+){5} [0-3] [01]", "B": r"(?: -|(?: \d+){6})"}
rx = lambda p: re.compile("".join(R[c] for c in p))
FIELDS = {k: rx(v) for k, v in FIELDS.items()}
def body():
    """the state lines in order: name, pattern, least and most"""
    return [(n, re.compile(p), a, b) for n, p, a, b in (
        ("topology", rx("u").pattern, 1, 1), ("primitive", rx("uubu").pattern, 1, 1), ("index", rx("bu").pattern, 1, 1),
        ("slot", r" \d+ (?:- -|[01] \d+) (?:- -|\d+ \d+)", 0, 16), ("attribute", rx("uuuiub").pattern, 0, 16), ("target", rx("uB").pattern, 0, 8),
        ("stencil", " front" + rx("uuuuuuu").pattern, 1, 1), ("stencil", " back" + rx("uuuuuuu").pattern, 1, 1), ("bias", rx("iXX").pattern, 1, 1),
        ("alpha_to_coverage", rx("b").pattern, 1, 1), ("sampler", rx("uu").pattern, 0, 16), ("texture_slot", rx("uuo").pattern, 0, 16),
        ("render_size", rx("uuu").pattern, 1, 1), ("resolve", rx("u").pattern, 0, 8), ("invalidate", rx("u").pattern, 0, 10), ("has_pass_label", rx("b").pattern, 1, 1),
        ("instance_mask", r" \d+ dirty_mask \d+", 1, 1), ("instance", r" \d+ [1-9]\d*", 0, 16), ("first_instance_location", rx("o").pattern, 1, 1),
        ("descriptor", rx("uuuu").pattern, 0, 192), ("word", rx("uu").pattern, 0, 64), ("end_of_pass_timestamp", rx("o").pattern, 1, 1), ("clip_distance_count", rx("u").pattern, 1, 1))]
STATE = body()

def main():
    flat = open(sys.argv[1]).read(); out = open(sys.argv[2]).read()
    assert flat.endswith("\n") and out.endswith("===\n")
    f = flat[:-1].split("\n")
    blocks = [b.split("\n")[:-1] for b in out.split("===\n")[:-1]]
    i = s = total = 0
    while i < len(f):
        h = Reader(f[i], i + 1); h.ns(FLAG, FLAG, FLAG, FLAG); room = h.ns((0, 4096), (0, 65536), (0, 1024)); n = h.n(); h.end()
        answers, ended = [], 0
        for k in range(i + 1, i + 1 + n):
            r = Reader(f[k], k + 1); a = r.n((0, 7)); c = call(r); r.end()
            answers.append(a); ended += c == 1 and a == 0
        total += n; i += 1 + n
        b = blocks[s]; s += 1
        at = 0; lists = 0
        while True:                                    # lists
            lists += 1; number = 0
            while b[at][0].isdigit():
                w = b[at].split(" ", 2)
                assert int(w[0]) == number and FIELDS[w[1]].fullmatch(" " + w[2] if len(w) == 3 else ""), (s, b[at])
                number += 1; at += 1
            for word, digit, room_ in (("bytes", "[0-9a-f]{2}", room[1]), ("queries", r"[1-9]\d*", room[2])):
                m = re.fullmatch(rf"{word} (\d+)((?: {digit})*)", b[at]); assert m and len(m[2].split()) == int(m[1]) <= room_, (s, b[at][:60]); at += 1
            assert number <= room[0]
            if b[at] != "---": break
            at += 1
        assert lists == max(ended, 1) or (lists == ended + 1 and number > 0), (s, lists, ended)
        for name, p, least, most in STATE:
            k = 0
            while k < most and b[at].startswith(f"state {name} ") and p.fullmatch(b[at][6 + len(name):]): k += 1; at += 1
            assert least <= k <= most, (s, name, b[at])
        assert b[at:] == [f"answer {k} {a}" for k, a in enumerate(answers)], (s, b[at:at + 3])
    assert s == len(blocks)
    print(f"{s} sessions, {total} calls: both files read as described")

main()
