"""Request 6 of document 02 between the two builds of the Rust: what a set_immediates sends, and what the uniforms then hold.

First each output by its own rule, worked out from the flat form: the programs, the immediates, the labels and the marker bytes of each list, in the
order of their calls and of the draws and dispatches. Then the machine of uniforms plays each list as it is printed, with the bytes that are printed,
and after each set_immediates all uniforms must be the same in both, as long as no pipeline of the list has a location twice. Shares no code with the
oracle and none with the library."""
import collections
from flatform import DRAWS, Unequal, dispatch, immediates, inner, label

UPLOADS = ("SetProgram", "SetImmediates", "PushDebugGroup")
NAMES = (*UPLOADS, *DRAWS.values(), "Dispatch", "DispatchIndirect")

# an accepted call that records one of these commands, or might: its place among the calls, its code, its list and pass, the commands, of a draw or
# dispatch the name only
Made = collections.namedtuple("Made", "call code list run commands")
# what request 6 saves: set_immediates calls accepted, and of these compared by their uniforms; commands and bytes of immediates, published and
# requested; whether a pipeline has a location twice, and whether a uniform differs then
Saved = collections.namedtuple("Saved", "calls compared commands bytes twice differ")


class Immediates:
    """A recorder's immediates: words, descriptors, which of them (by their places) were sent since the last pipeline call, the marker bytes of the
    list. `exact`: with request 6."""
    def __init__(self, exact):
        self.exact = exact
        self.begin()

    def begin(self):
        self.words, self.descriptors, self.sent, self.bytes = [0] * 64, [], set(), bytearray()

    def pipeline(self, program, descriptors):
        self.descriptors, self.sent = descriptors, set()
        return [f"SetProgram {program}"]

    def append(self, more):
        start = len(self.bytes)
        self.bytes += more
        return start

    def label(self, text):
        return [] if text is None else [f"PushDebugGroup {self.append(text)} {len(self.bytes)}"]

    def write(self, offset, words):
        written = range(offset // 4, offset // 4 + len(words))
        for k, word in zip(written, words): self.words[k] = word
        return [self.send(place) for place in range(len(self.descriptors)) if not self.exact or place not in self.sent or self.shared(place, written)]

    def own(self, place):
        """The words of the descriptor at a place."""
        _, _, offset, size = self.descriptors[place]
        return range(offset // 4, (offset + size) // 4)

    def shared(self, place, written):
        return bool(set(self.own(place)) & set(written))

    def send(self, place):
        self.sent.add(place)
        data = b"".join(self.words[k].to_bytes(4, "little") for k in self.own(place))
        return " ".join(map(str, ("SetImmediates", *self.descriptors[place], self.append(data))))


def made(session, exact):
    """The accepted calls that record such commands, the marker bytes of each list, and the immediates after the last call."""
    now, found, data, run = Immediates(exact), [], [], -1
    draws = {d.call: [d.name] * d.count for d in session.draws if d.answer == 0}
    for at in session.accepted():
        code, call = session.codes[at], session.calls[at]
        if code == 0: now.begin(); data.append(now.bytes)
        if code in (2, 4): run += 1; commands = now.label(label(call))
        elif code == 16: commands = now.write(*immediates(call))
        elif code in (17, 18): commands = now.pipeline(*inner(call))
        elif code in (29, 30): commands = [name for name in (dispatch(call),) if name]
        elif code in DRAWS: commands = draws[at]
        else: continue
        found.append(Made(at, code, len(data) - 1, run, commands))
    return found, data, now

def check_state(now, lines):
    """The state's descriptors and words: those that the calls leave."""
    want = [f"state descriptor {' '.join(map(str, d))}" for d in now.descriptors] + [f"state word {k} {w}" for k, w in enumerate(now.words) if w]
    have = [l for l in lines if l.startswith(("state descriptor ", "state word "))]
    if have != want: raise Unequal(f"{have}: by the calls {want}")


class List:
    """A printed list: its commands without their numbers, its marker bytes."""
    def __init__(self, lines):
        self.commands, self.bytes = [], None
        for line in lines:
            first, _, rest = line.partition(" ")
            if first.isdigit():
                if int(first) != len(self.commands): raise Unequal(f"{line}: command {len(self.commands)} of its list")
                self.commands.append(rest)
            elif first == "bytes": self.bytes = marker(rest)
        if self.bytes is None: raise Unequal("a list without its bytes")

    def find(self, commands, at):
        """Where a call's commands stand, from a place on: in one run, and no such command before them."""
        while at < len(self.commands) and self.commands[at].split(" ", 1)[0] not in NAMES: at += 1
        have = self.commands[at:at + len(commands)]
        if len(have) != len(commands) or any(want not in (c, c.split(" ", 1)[0]) for want, c in zip(commands, have)):
            raise Unequal(f"a call records\n  {have}\n  and not\n  {commands}")
        return at

def marker(text):
    count, *digits = text.split(" ")
    if int(count) != len(digits): raise Unequal(f"bytes {count}: there are {len(digits)}")
    return bytes.fromhex("".join(digits))

def lists(lines):
    """The printed lists of an output."""
    ends = [i for i, l in enumerate(lines) if l == "---"] + [next((i for i, l in enumerate(lines) if l.startswith("state ")), len(lines))]
    return [List(lines[a:b]) for a, b in zip([0, *(e + 1 for e in ends)], ends)]


def check(calls, data, printed):
    """Each printed list has exactly the commands of its calls, in their order, and these bytes. Answers where each set_immediates that sends
    something begins: the list and the command."""
    at, where = [0] * len(printed), {}
    for m in calls:
        if m.commands and m.list >= len(printed): raise Unequal(f"the list of call {m.call} is missing")
        if not m.commands: continue
        start = printed[m.list].find(m.commands, at[m.list])
        at[m.list] = start + len(m.commands)
        if m.code == 16: where[m.call] = m.list, start
    for number, (of, end) in enumerate(zip(printed, at)):
        more = next((c for c in of.commands[end:] if c.split(" ", 1)[0] in NAMES), None)
        if more: raise Unequal(f"no call records {more}")
        if of.bytes != (data[number] if number < len(data) else b""): raise Unequal(f"list {number}: the bytes are not those of its labels and words")
    return where


class Machine:
    """The uniforms (OpenGL ES 3.2, 7.6): the current program, and a type and bytes by program and location. It plays a printed list."""
    def __init__(self, commands, data):
        self.left, self.data, self.program, self.values = iter(commands), data, None, {}

    def play(self, count):
        """So many programs, immediates and labels, and the commands of other names before them."""
        while count:
            name, *fields = next(self.left).split(" ")
            if name in UPLOADS: count -= 1
            if name == "SetProgram": self.program, = fields
            if name != "SetImmediates": continue
            location, kind, _, size, start = map(int, fields)
            self.values[self.program, location] = kind, self.data[start:start + size]


def twice(call):
    """A pipeline has a location twice among its descriptors."""
    locations = [d[0] for d in inner(call)[1]]
    return len(set(locations)) < len(locations)

def held(session, calls, printed):
    """Plays both builds' lists call by call. Answers how many set_immediates were compared, and for the lists with a location twice whether a
    uniform differs."""
    compared, broken, differ, now, machines = 0, set(), False, None, None
    for p, r in zip(*calls):
        if r.list != now: now, machines = r.list, [Machine(of[r.list].commands, of[r.list].bytes) if r.list < len(of) else Machine([], b"") for of in printed]
        for machine, m in zip(machines, (p, r)): machine.play(len(m.commands))
        if r.code in (17, 18) and twice(session.calls[r.call]): broken.add(now)
        if r.code != 16: continue
        same = machines[0].values == machines[1].values
        if now in broken: differ |= not same
        elif not same: raise Unequal(f"call {r.call}: the uniforms are not the same\n  published: {machines[0].values}\n  requested: {machines[1].values}")
        else: compared += 1
    return compared, broken, differ

def left(lines, printed, marks):
    """The lines without SetImmediates and bytes, the commands numbered anew, a label by its bytes. `marks`: a line for each of these commands, where
    the commands of a call were."""
    kept, number, of = [], 0, 0
    for line in lines:
        first, _, rest = line.partition(" ")
        if line == "---": of, number = of + 1, 0
        if (of, first) in marks: kept.append(marks[of, first])
        if first == "bytes" or rest.startswith("SetImmediates "): continue
        if first.isdigit():
            name, _, fields = rest.partition(" ")
            if name == "PushDebugGroup": rest = f"{name} {printed[of].bytes[slice(*map(int, fields.split(' ')))].hex()}"
            line, number = f"{number} {rest}", number + 1
        kept.append(line)
    return kept

def words_sent(p, r, published, requested):
    """Request 6: a set_immediates sends the descriptors that share a written word, and those not sent since the last pipeline call; the published
    Rust sends every one. Put aside: the commands SetImmediates (but not where they stand, if a call sends something in both), the bytes, where a
    label's bytes lie."""
    found = [made(p, False), made(r, True)]
    printed = [lists(lines) for lines in (published, requested)]
    where = [check(calls, data, of) for (calls, data, _), of in zip(found, printed)]
    for (_, _, now), lines in zip(found, (published, requested)): check_state(now, lines)
    calls = [[m for m in c if m.code in (2, 4, 16, 17, 18)] for c, _, _ in found]
    if [m[:4] for m in calls[0]] != [m[:4] for m in calls[1]]: raise Unequal("pass beginnings, pipelines or immediates are answered differently")
    compared, broken, other = held(r, calls, printed)
    writes = [[m for m in c if m.code == 16] for c in calls]
    commands = [sum(len(m.commands) for m in w) for w in writes]
    size = [sum(int(c.split(" ")[4]) for m in w for c in m.commands) for w in writes]
    r.saved = Saved(len(writes[1]), compared, commands, size, bool(broken), other)
    marks = [{(of, str(at)): f"immediates of call {call}" for call, (of, at) in w.items() if call in where[0] and call in where[1]} for w in where]
    differ = {y.run for x, y in zip(*writes) if len(x.commands) != len(y.commands)}
    return left(published, printed[0], marks[0]), left(requested, printed[1], marks[1]), differ
