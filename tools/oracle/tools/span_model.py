#!/usr/bin/env python3
"""span_model.py IN OUT: reads spans and sessions as `oracle spans` writes them, works the expected lines out from the flat form alone, and compares.

The rule is that of document 02, requests 5 and 11, in sets of slots: a draw with layout rebinds the slots that are dirty, or by instance in the pass's
last pipeline with another number of their own, and described and bound. Every number of the span is tried. Shares no code with the oracle or the library;
a pipeline call is read by flatform.py. Exit 1 on a difference."""
import itertools
import sys
from flatform import DRAWS, pipeline

SLOTS = range(16)
WIDEST = 4096    # of a wider span only the ends, the slots' numbers and their neighbours are tried
BEGIN_ENCODING, END_RENDER_PASS, SET_RENDER_PIPELINE, SET_VERTEX_BUFFER = 0, 3, 17, 20


class Slots:
    """A recorder's vertex slots on a board. Each step is a method of its own, so that span_faults.py can put a wrong one in its place."""
    def __init__(self, layout, full):
        self.layout, self.full = layout, full
        self.begin_encoding()

    def begin_encoding(self):
        self.described, self.bound = {}, set()
        self.end_pass()

    def end_pass(self):
        self.attributes, self.by_instance, self.dirty, self.numbers = set(), set(), set(), dict.fromkeys(SLOTS, 0)

    def pipeline(self, slots, attributes):
        if not self.layout: self.attributes = self.dirty = {a[2] for a in attributes}
        self.by_instance = {i for i, s in enumerate(slots) if s and s[0]}
        changed = {i: s for i, s in enumerate(slots) if s and self.described.get(i) != s}
        self.described = self.described | changed
        self.dirty = self.dirty | set(changed)

    def buffer(self, slot):
        self.bound = self.bound | {slot}
        self.dirty = self.dirty | {slot}

    def working(self, first):
        return 0 if self.full else first

    def woken(self, at):
        return {i for i in self.by_instance if self.numbers[i] != at}

    def filled(self, dirty):
        return dirty & set(self.described) & self.bound

    def rebound(self, at, layout):
        """The slots that a draw at a working instance rebinds."""
        ready = self.filled(self.dirty | self.woken(at))
        return ready if layout else ready & self.attributes

    def remember(self, rebound, at):
        self.numbers = {i: at if i in rebound else n for i, n in self.numbers.items()}

    def draw(self, first):
        at = self.working(first)
        rebound = self.rebound(at, self.layout)
        self.dirty = (self.dirty | self.woken(at)) - rebound
        self.remember(rebound, at)

    def tried(self, lower, upper):
        """The numbers of the span that are tried."""
        if upper - lower < WIDEST: return range(lower, upper + 1)
        near = {n + d for n in (lower, upper, *self.numbers.values()) for d in (-1, 0, 1)}
        return sorted(n for n in near if lower <= n <= upper)

    def reversed(self, lower, upper):
        return lower > upper

    def span(self, lower, upper):
        """The expected line."""
        if self.reversed(lower, upper): return "refused 15"
        masks = [self.rebound(self.working(n), True) for n in self.tried(lower, upper)]
        always, sometimes = set.intersection(*masks), set.union(*masks)
        return f"always {sum(1 << i for i in always)} sometimes {sum(1 << i for i in sometimes)}"

    def call(self, code, call):
        """An accepted call."""
        if code == BEGIN_ENCODING: self.begin_encoding()
        elif code == END_RENDER_PASS: self.end_pass()
        elif code == SET_RENDER_PIPELINE: self.pipeline(*pipeline(call))
        elif code == SET_VERTEX_BUFFER: self.buffer(int(call.split()[1]))
        elif code in DRAWS: self.draw(0 if "Indirect" in DRAWS[code] else int(call.split()[-2]))

    def answered(self, answer, code, call):
        if answer == 0: self.call(code, call)


class Spanned:
    """A span and its session: flags, the calls with their answers and codes, and the text."""
    def __init__(self, span, head, calls):
        self.text = "".join([span, head, *calls])
        self.lower, self.upper = map(int, span.split())
        self.layout, _, self.full, _ = (w == "1" for w in head.split()[:4])
        split = [line.split(" ", 2) for line in calls]
        self.calls = [(int(w[0]), int(w[1]), line.rstrip("\n").split(" ", 1)[1]) for w, line in zip(split, calls)]

    def left(self, make=Slots):
        """The slots that the session leaves."""
        slots = make(self.layout, self.full)
        for call in self.calls: slots.answered(*call)
        return slots

    def line(self, make=Slots):
        return self.left(make).span(self.lower, self.upper)


def spanned(text):
    """The spans of a file, each with its session."""
    lines = iter(text.splitlines(keepends=True))
    for span in lines:
        head = next(lines)
        yield Spanned(span, head, list(itertools.islice(lines, int(head.split()[7]))))


def differences(given, expected):
    """The places, from 0, whose expected line is not the model's, with both lines."""
    pairs = itertools.zip_longest(spanned(given), expected.splitlines())
    found = ((i, s.line() if s else "(no span)", line) for i, (s, line) in enumerate(pairs))
    return [(i, mine, line) for i, mine, line in found if mine != line]


def main():
    given, expected = (open(name).read() for name in sys.argv[1:])
    differ = differences(given, expected)
    print(f"spans {len(expected.splitlines())}, differences {len(differ)}")
    for i, mine, line in differ[:1]: print(f"span {i} (from 0): by the model {mine}, expected {line}", file=sys.stderr)
    sys.exit(bool(differ))


if __name__ == "__main__":
    if len(sys.argv) != 3: sys.exit("usage: span_model.py IN OUT")
    main()
