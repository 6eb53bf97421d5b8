"""Holds two outputs of one session against each other: that of the published Rust and that of the Rust with the landed
requests of document 02 (requests/*.patch). They must be equal but for what a request allows, where it allows it.

A request's allowance is a function of the session and the two outputs. It checks what it puts aside, in each output by
that output's own rule, puts it aside and answers the two outputs that are left and the passes in which they differed.
What is left after the last one must be equal line by line. Shares no code with the oracle and none with the library."""
import collections
from flatform import DRAWS, Unequal, pipeline, places
from uniforms import words_sent

KINDS = ("ClearColorF", "ClearColorU", "ClearColorI")    # by a view's sample kind: float, uint, sint
CLEAR = 2                                                # the bit of a place's operations
BINDS = ("SetVertexAttribute", "SetVertexBuffer")        # what a draw sends of its slots, without and with vertex buffer layout
U32, U64 = 2 ** 32 - 1, 2 ** 64 - 1


class Session:
    """A session's calls and one build's answers, as the flat form has them. `landed`: the build has the requests."""
    def __init__(self, flat, landed):
        head, *lines = flat.splitlines()
        head = list(map(int, head.split()))
        if len(lines) != head[7]: raise Unequal("the flat form has not the calls it says")
        self.head, self.layout, self.emulated, self.landed = head, bool(head[0]), not head[2], landed
        answers, self.calls = zip(*(l.split(" ", 1) for l in lines)) if lines else ((), ())
        self.answers = list(map(int, answers))
        self.codes = [int(c.split(" ", 1)[0]) for c in self.calls]
        self.begun = [i for i in self.accepted() if self.codes[i] in (2, 4)]    # render and compute passes
        self.draws, self.slots = walk(self)

    def accepted(self):
        return [i for i, a in enumerate(self.answers) if a == 0]

    def lists_begun(self, at):
        """The calls before a call that begin a list."""
        return [i for i in self.accepted() if i < at and self.codes[i] == 0]

    def render_passes(self):
        """The number of each render pass among all passes, and its colour places."""
        return [(i, places(self.calls[at])) for i, at in enumerate(self.begun) if self.codes[at] == 2]


# ---------------------------------------------------------------- request 1

def cleared(pass_places):
    """The cleared places in order: the command that clears, the number of the place, how many filled places are before it."""
    return [(KINDS[p[0]], i, sum(q is not None for q in pass_places[:i]))
            for i, p in enumerate(pass_places) if p is not None and p[1] & CLEAR]

def clears_of(lines):
    """For each ResetFramebuffer, which each begin_render_pass records once, the lines of its colour clears, which are one run."""
    found = []
    for at, line in enumerate(lines):
        word = line.split(" ", 2)
        if not word[0].isdigit(): continue
        if word[1] == "ResetFramebuffer": found.append([])
        elif word[1] in KINDS:
            before = lines[at - 1].split(" ", 2)[1]
            if not found or before not in (("SetDrawColorBuffers", "SetViewport") if not found[-1] else KINDS):
                raise Unequal(f"a clear that no begin_render_pass records: {line}")
            found[-1].append(at)
    return found

def numbered(passes, lines, which):
    """The lines with the first field of the clears put aside in passes with an empty place. `which` is the rule of the
    number, checked at every clear of every pass: 1 the number of the place, 2 how many filled places are before it."""
    left, found = list(lines), clears_of(lines)
    if len(found) != len(passes): raise Unequal(f"{len(passes)} passes are begun, {len(found)} recorded")
    for (_, p), at in zip(passes, found):
        want = cleared(p)
        if len(at) != len(want): raise Unequal(f"{len(want)} places are cleared, {len(at)} clears recorded")
        for line, clear in zip(at, want):
            word = lines[line].split(" ", 3)
            if word[1] != clear[0] or word[2] != str(clear[which]):
                raise Unequal(f"{lines[line]}: {clear[0]} {clear[which]} by the pass record")
            if None in p: left[line] = " ".join((*word[:2], "*", word[3]))
    return left

def place_numbers(p, r, published, requested):
    """Request 1: a clear's draw buffer is the number of its place; the published Rust counts the filled places before it."""
    differ = {i for i, pl in r.render_passes() for _, place, before in cleared(pl) if place != before}
    return numbered(p.render_passes(), published, 2), numbered(r.render_passes(), requested, 1), differ


# ---------------------------------------------------------------- request 5: what the draws of a session bind

class Slots:
    """A recorder's vertex slots (document 01, 'Vertex slots at a draw'). With `own` a slot's number is the working instance that it was
    last bound with (request 5), without it that of the last draw (the published Rust, which keeps one for all)."""
    def __init__(self, layout, emulated, own):
        self.layout, self.emulated, self.own = layout, emulated, own
        self.begin()

    def begin(self):
        self.described, self.buffers = [None] * 16, [None] * 16
        self.end_pass()

    def end_pass(self):
        self.attributes, self.stepped, self.dirty, self.numbers = [], set(), set(), [0] * 16

    def pipeline(self, slots, attributes):
        if not self.layout: self.attributes, self.dirty = attributes, {a[2] for a in attributes}
        self.stepped = {i for i, s in enumerate(slots) if s and s[0]}
        for i, s in enumerate(slots):
            if s and s != self.described[i]:
                self.described[i] = s
                self.dirty.add(i)

    def buffer(self, slot, number, offset):
        self.buffers[slot] = number, offset
        self.dirty.add(slot)

    def sent(self, ready, at):
        """The commands for those slots at a working instance, the slot of each, and whether a sum leaves its field."""
        sent, over = [], False
        for slot, a in [(i, None) for i in sorted(ready)] if self.layout else [(a[2], a) for a in self.attributes if a[2] in ready]:
            (step, stride), (number, offset) = self.described[slot], self.buffers[slot]
            by = step * at * stride
            if a is None:
                over |= by > U32 or offset + by > U64
                sent.append((slot, f"SetVertexBuffer {slot} {number} {offset + by} {step} {stride}"))
            else:
                start = a[1] + offset + by
                over |= start > U32
                sent.append((slot, f"SetVertexAttribute {number} {step} {stride} {a[0]} {start} {slot} {a[3]} {a[4]} {a[5]}"))
        return sent, over

    def draw(self, first, accepted):
        """What a draw sends, whether a sum leaves its field, and whether a slot is bound by its number alone."""
        at = first if self.emulated else 0
        dirty = self.dirty | {i for i in self.stepped if self.numbers[i] != at}
        sent, over = self.sent({i for i in dirty if self.described[i] and self.buffers[i]}, at)
        bound = {slot for slot, _ in sent}
        moved = bool(bound - self.dirty)
        if accepted:
            self.dirty = dirty - bound
            self.numbers = [at if not self.own or i in bound else n for i, n in enumerate(self.numbers)]
        return [text for _, text in sent], over, moved


# a draw call: its place among the calls, in which list and pass, its answer, what it sends (or would), how many draws of which name
Drawn = collections.namedtuple("Drawn", "call list run answer sent over moved name count")

def drawn(session, slots, at, in_list, run):
    """The draw call at a place, made on the slots; its answer must fit the sums."""
    code, words = session.codes[at], session.calls[at].split()
    first, count = (0, int(words[-1])) if code in (27, 28) else (int(words[-2]), 1)
    answer = session.answers[at]
    sent, over, moved = slots.draw(first, answer == 0)
    if over and answer not in ((1, 4, 6) if session.landed else (1, 4, 6, 7)) or code == 25 and answer == 6 and not over:
        raise Unequal(f"call {at} is answered with {answer}, its sums {'leave' if over else 'stay in'} their fields")
    return Drawn(at, in_list, run, answer, sent, over, moved, DRAWS[code], count)

def walk(session):
    """All draw calls, refused ones too, and the slots after the last call."""
    slots, draws, in_list, run = Slots(session.layout, session.emulated, session.landed), [], -1, -1
    for at, (code, answer) in enumerate(zip(session.codes, session.answers)):
        if code in DRAWS: draws.append(drawn(session, slots, at, in_list, run))
        if answer: continue
        if code == 0: in_list += 1; slots.begin()
        elif code in (2, 4): run += 1
        elif code == 3: slots.end_pass()
        elif code == 17: slots.pipeline(*pipeline(session.calls[at]))
        elif code == 20:
            _, slot, number, _, _, offset = map(int, session.calls[at].split())
            slots.buffer(slot, number, offset)
    return draws, slots

def uneven(session):
    """The passes that are not even, each with the call from which on it is not: an accepted draw (an indirect call of count 0 makes none)
    before any pipeline of the pass, or a pipeline that describes other slots than one before it in the pass."""
    found, run, described = {}, -1, None
    counts = {d.call: d.count for d in session.draws}
    for at in session.accepted():
        code = session.codes[at]
        if code in (2, 4): run += 1; described = None
        elif code == 17:
            these = {i for i, s in enumerate(pipeline(session.calls[at])[0]) if s}
            if described not in (None, these): found.setdefault(run, at)
            described = these
        elif counts.get(at) and described is None: found.setdefault(run, at)
    return found


# ---------------------------------------------------------------- request 5: the outputs

def lists_of(lines):
    """For each list the numbers of its command lines; the commands must count from 0."""
    found = [[]]
    for at, line in enumerate(lines):
        if line == "---": found.append([])
        number = line.split(" ", 1)[0]
        if not number.isdigit(): continue
        if int(number) != len(found[-1]): raise Unequal(f"{line}: command {len(found[-1])} of its list")
        found[-1].append(at)
    return found

def sent_at(session, lines, lists):
    """For each accepted draw call the lines of what it sends, and the line after it. Each list must have what its draw calls send and draw, in
    their order, a call's in one run, and no more of these commands."""
    name, where = BINDS[session.layout], {}
    words = {at: lines[at].split(" ", 1)[1] for commands in lists for at in commands}
    left = [[at for at in commands if words[at].split(" ", 1)[0] in (name, *DRAWS.values())] for commands in lists]
    for d in session.draws:
        if d.answer: continue
        if d.list >= len(left): raise Unequal(f"the list of call {d.call} is missing")
        want = d.sent + [d.name] * d.count
        got, left[d.list] = left[d.list][:len(want)], left[d.list][len(want):]
        have = [words[at] if i < len(d.sent) else words[at].split(" ", 1)[0] for i, at in enumerate(got)]
        if have != want or got and got[-1] - got[0] != len(got) - 1:
            raise Unequal(f"call {d.call} records\n  {have}\n  and not in one run, or not\n  {want}")
        where[d.call] = got[:len(d.sent)], got[-1] + 1 if got else None
    if any(left): raise Unequal(f"no draw call sends {lines[next(l for l in left if l)[0]]}")
    return where

def check_state(session, lines):
    """The lines with the masks and numbers of the slots: those that the calls leave."""
    s, mask = session.slots, lambda slots: sum(1 << i for i in slots)
    want = f"state instance_mask {mask(s.stepped)} dirty_mask {mask(s.dirty)}"
    if s.own: want = [want, *(f"state instance {i} {n}" for i, n in enumerate(s.numbers) if n)]
    else: want = [f"{want} active_first_instance {s.numbers[0]}"]
    have = [(at, l) for at, l in enumerate(lines) if l.startswith(("state instance_mask ", "state instance "))]
    if [l for _, l in have] != want or have[-1][0] - have[0][0] != len(have) - 1: raise Unequal(f"{[l for _, l in have]}: by the calls {want}")

def without_numbers(session, lines, broken):
    """The lines without the slots' numbers; without the dirty mask too where it may differ: where instancing is emulated, without layout
    (slots that no attribute reads) and at the end in a pass that is not even."""
    if session.emulated and (not session.layout or open_pass(session, len(session.calls)) in broken): keep = 3
    else: keep = 5
    return [" ".join(l.split(" ")[:keep]) if l.startswith("state instance_mask ") else l for l in lines if not l.startswith("state instance ")]

def open_pass(session, at):
    """The pass that is open before a call, or None."""
    marks = [i for i in session.accepted() if i < at and session.codes[i] in (0, 2, 3, 4, 5)]
    return session.begun.index(marks[-1]) if marks and session.codes[marks[-1]] in (2, 4) else None

def parted(p, r, broken):
    """The first call that the builds answer differently, None if there is none: a draw call that one build accepts and the other refuses with 6, its
    sums alone leaving their fields. The list must have a pass that is not even by then."""
    at = next((i for i, (x, y) in enumerate(zip(p.answers, r.answers)) if x != y), None)
    if at is None: return None
    begun = r.lists_begun(at)
    since = begun[-1] if begun else at
    over = {s.answers[at] for s in (p, r) for d in s.draws if d.call == at and d.over}
    fits = r.layout and r.emulated and any(since < i <= at for i in broken.values())
    if not fits or {p.answers[at], r.answers[at]} != {0, 6} or over != {6}:
        raise Unequal(f"call {at}: the published build answers {p.answers[at]}, the requested one {r.answers[at]}")
    return at

def up_to(session, where, lists, at):
    """The line up to which a list is compared that a differently answered call is in: the end of the last draw call before it."""
    ends = [(d.list, where[d.call][1]) for d in session.draws if d.call in where and d.call < at]
    now = len(session.lists_begun(at)) - 1
    return max((end for of, end in ends if of == now and end), default=lists[now][0])

def own_numbers(p, r, published, requested):
    """Request 5: a slot remembers the working instance that it was last bound with; the published Rust has one number for all. What a draw call
    sends may differ only with layout, where instancing is emulated, in a pass that is no longer even. After a call that the builds answer
    differently nothing is compared but each build with its own rule."""
    broken, sides = uneven(r), ((p, published), (r, requested))
    lists = [lists_of(lines) for _, lines in sides]
    where = [sent_at(s, lines, l) for (s, lines), l in zip(sides, lists)]
    for s, lines in sides: check_state(s, lines)
    at = parted(p, r, broken)
    odd = [d for d, e in zip(r.draws, p.draws) if d.answer == 0 and (at is None or d.call < at) and d.sent != e.sent]
    for d in odd:
        if not (r.layout and r.emulated and broken.get(d.run, d.call + 1) <= d.call): raise Unequal(f"call {d.call} sends something else in the two builds")
    left = []
    for (s, lines), l, w in zip(sides, lists, where):
        aside = {line for d in odd for line in w[d.call][0]}
        end = len(lines) if at is None else up_to(s, w, l, at)
        kept = [line for i, line in enumerate(lines[:end]) if i not in aside]
        if odd or at is not None: kept = [line.split(" ", 1)[1] if line[0].isdigit() else line for line in kept]
        left.append(without_numbers(s, kept, broken))
    differ = {d.run for d in odd}
    if at is not None:
        now = open_pass(r, at)
        differ |= set(range(sum(i < at for i in r.begun) if now is None else now, len(r.begun)))
    return *left, differ


# ---------------------------------------------------------------- all of them

LANDED = (("06", words_sent), ("01", place_numbers), ("05", own_numbers))      # 06 first: it leaves commands that count from 0

# passes; by which request they differ, and in which passes; an even session with a draw, on a board with layout and emulated instancing;
# a slot of it is bound by its number alone; what request 6 saves
Held = collections.namedtuple("Held", "passes by even moved saved")


def hold(published, requested):
    """Each output with its own flat form: (flat, output). Unequal where they differ otherwise than a request allows."""
    p, r = Session(published[0], False), Session(requested[0], True)
    if (p.calls, p.head) != (r.calls, r.head): raise Unequal("the calls are not the same")
    if [a == 7 for a in p.answers] != [a == 7 for a in r.answers]: raise Unequal("not the same calls are refused with 7")
    outputs = [text.splitlines() for _, text in (published, requested)]
    for s, lines in zip((p, r), outputs):
        said = [l for l in lines if l.startswith("answer ")]
        if said and said != [f"answer {i} {a}" for i, a in enumerate(s.answers)]: raise Unequal("the answers are not those of the flat form")
    a, b = outputs
    by = {}
    for name, allowance in LANDED:
        a, b, differ = allowance(p, r, a, b)
        if differ: by[name] = differ
    for i in range(max(len(a), len(b))):
        x, y = (l[i] if i < len(l) else "(no line)" for l in (a, b))
        if x != y: raise Unequal(f"line {i + 1} of what is left\n  published: {x[:300]}\n  requested: {y[:300]}")
    plain = [[l for l in lines if not l.startswith("state instance")] for lines in outputs]
    if bool(by) != (plain[0] != plain[1] or p.answers != r.answers): raise Unequal(f"they differ by {mark(by)}, but not as texts, or the other way round")
    draws = [d for d in r.draws if d.answer == 0]
    even = r.layout and r.emulated and not uneven(r) and any(d.count for d in draws)
    return Held(len(r.begun), by, even, even and any(d.moved for d in draws), r.saved)

def mark(by):
    """What the index says of a session."""
    return "+".join(sorted(by)) or "="


class Tally:
    """How many sessions and passes are equal to the published Rust, and how many differ by each request; what request 6 saves."""
    def __init__(self):
        self.all, self.equal, self.but_06, self.even = [0, 0], [0, 0], [0, 0], [0, 0]
        self.by = {name: [0, 0] for name in sorted(name for name, _ in LANDED)}
        self.immediates, self.commands, self.bytes, self.twice = [0, 0], [0, 0], [0, 0], [0, 0]

    def add(self, held):
        def count(to, *more):
            for i, n in enumerate(more): to[i] += n
        passes = lambda by: len(set().union(*by.values()))
        others = {name: where for name, where in held.by.items() if name != "06"}
        count(self.all, 1, held.passes)
        count(self.equal, not held.by, held.passes - passes(held.by))
        count(self.but_06, not others, held.passes - passes(others))
        for name, where in held.by.items(): count(self.by[name], 1, len(where))
        count(self.even, held.even, held.moved)
        count(self.immediates, held.saved.calls, held.saved.compared)
        count(self.commands, *held.saved.commands)
        count(self.bytes, *held.saved.bytes)
        count(self.twice, held.saved.twice, held.saved.differ)

    def text(self):
        of = lambda n: f"{n[0]} sessions, {n[1]} passes"
        two = lambda n: f"{n[0]} published, {n[1]} requested, {n[0] - n[1]} saved"
        return "\n".join([f"of {of(self.all)}", f"  equal to the published Rust {of(self.equal)}", f"  equal but for request 06 {of(self.but_06)}",
            *(f"  different by request {k} {of(v)}" for k, v in self.by.items()),
            f"  even, with a draw, layout and emulated instancing {self.even[0]} sessions, {self.even[1]} of them bind a slot by its number alone",
            f"  set_immediates accepted {self.immediates[0]}, compared by their uniforms {self.immediates[1]}",
            f"  their commands {two(self.commands)}", f"  their bytes {two(self.bytes)}",
            f"  with a location twice in a pipeline {self.twice[0]} sessions, {self.twice[1]} of them with another uniform"])

    def faults(self, by_pass=False, even=False, slider=False):
        """Why the comparison shows too little; counted by session, or by pass. `even`: the sessions were made to be even, none has to differ by request 5;
        `slider`: they were made for request 6, nor has one to be equal."""
        k, what = (1, "pass") if by_pass else (0, "session")
        bad = [f"no {what} differs by request {name}" for name, n in self.by.items() if not n[k] and not ((even or slider) and name == "05")]
        if not self.equal[k] and not slider: bad.append(f"no {what} is equal to the published Rust")
        if 2 * self.but_06[k] < self.all[k]: bad.append(f"fewer than half are equal to the published Rust but for request 06, counted by {what}")
        if even and 2 * self.even[1] < self.all[0]: bad.append("fewer than half are even and bind a slot by its number alone")
        if 2 * self.immediates[1] < self.immediates[0]: bad.append("fewer than half of the set_immediates are compared by their uniforms")
        return bad
