#!/usr/bin/env python3
"""Do the spans have teeth? span_model.py's rule with one fault each, held against the Rust's lines: those of crates/span_masks (stdin, stdout) and those
of the random sessions of the seeds 0 to 500. Prints for each fault how many of both tell, and the first. Exit 1 if none tells, or if the rule without a
fault differs. It needs the release build of the oracle (tools/build.sh --requested --release)."""
import os
import subprocess
import sys
import tempfile
import span_model
from span_model import END_RENDER_PASS, SLOTS, Slots

ROOT = os.path.dirname(os.path.dirname(os.path.abspath(__file__)))
ORACLE = os.path.join(os.environ.get("CARGO_TARGET_DIR", os.path.join(ROOT, "target")), "release", "oracle")
STORED = os.path.join(os.path.dirname(os.path.dirname(ROOT)), "crates", "span_masks")
SEEDS = 500
DRAW, INDIRECT = 25, (27, 28)
TOP = 2 ** 31


def fault(name, base=Slots, **methods):
    """The rule with other methods."""
    return name, type("Fault", (base,), methods)


def keeping(*names):
    """A pass end that leaves these as they are."""
    def end_pass(self):
        kept = {n: getattr(self, n) for n in names if hasattr(self, n)}
        Slots.end_pass(self)
        for n, v in kept.items(): setattr(self, n, v)
    return end_pass


def one_number(self, rebound, at):
    self.numbers = dict.fromkeys(SLOTS, at)


def own_stepped(self, rebound, at):
    self.numbers = {i: at if i in rebound & self.by_instance else n for i, n in self.numbers.items()}


def woken_remember(self, rebound, at):
    self.numbers = {i: at if i in rebound | self.by_instance else n for i, n in self.numbers.items()}


def all_clean(self, first):
    Slots.draw(self, first)
    self.dirty = set()


def none_clean(self, first):
    before = self.dirty
    Slots.draw(self, first)
    self.dirty = self.dirty | before


def begin_keeps(self):
    if not hasattr(self, "bound"): Slots.begin_encoding(self)


def same_description(self, slots, attributes):
    before = self.dirty
    Slots.pipeline(self, slots, attributes)
    self.dirty = before if self.layout else self.attributes


def steps_join(self, slots, attributes):
    before = self.by_instance
    Slots.pipeline(self, slots, attributes)
    self.by_instance = self.by_instance | before


def clean_buffer(self, slot):
    self.bound = self.bound | {slot}


def as_if_layout(self, layout, full):
    Slots.__init__(self, True, full)


def own_board(self, at, layout):
    return Slots.rebound(self, at, self.layout)


def masks_with(combine):
    """Another way from the sets of the span's numbers to the two masks."""
    def span(self, lower, upper):
        if self.reversed(lower, upper): return "refused 15"
        always, sometimes = combine([self.rebound(self.working(n), True) for n in self.tried(lower, upper)])
        return f"always {sum(1 << i for i in always)} sometimes {sum(1 << i for i in sometimes)}"
    return span


def low_slots(self, at, layout):
    return {i for i in Slots.rebound(self, at, layout) if i < 8}


def no_indirect(self, code, call):
    if code not in INDIRECT: Slots.call(self, code, call)


def any_answer(self, answer, code, call):
    if answer == 0 or code in (END_RENDER_PASS, DRAW): self.call(code, call)


def turned(self, lower, upper):
    return Slots.span(self, min(lower, upper), max(lower, upper))


def some(self, lower, upper):
    """Of a reversed span the lower end."""
    return Slots.tried(self, lower, upper) if lower <= upper else [lower]


def signed(n):
    return n - 2 * TOP if n >= TOP else n


def inner(self, lower, upper):
    all_of = list(Slots.tried(self, lower, upper))
    return all_of[1:-1] or all_of


FAULTS = [
    fault("a slot's own number is ignored", woken=lambda self, at: set(self.by_instance)),
    fault("a slot's own number is 0", woken=lambda self, at: self.by_instance if at else set()),
    fault("only the lower end is tried", tried=lambda self, lower, upper: [lower]),
    fault("only the upper end is tried", tried=lambda self, lower, upper: [upper]),
    fault("only the two ends are tried", tried=lambda self, lower, upper: [lower, upper]),
    fault("the lower end is not of the span", tried=lambda self, lower, upper: list(Slots.tried(self, lower, upper))[lower < upper:]),
    fault("the upper end is not of the span", tried=lambda self, lower, upper: list(Slots.tried(self, lower, upper))[:-1] or [lower]),
    fault("no end is of the span", tried=inner),
    fault("the slots by instance are ignored: any slot wakes", woken=lambda self, at: {i for i in SLOTS if self.numbers[i] != at}),
    fault("no slot wakes", woken=lambda self, at: set()),
    fault("described by instance wakes, of an earlier pipeline too", woken=lambda self, at: {i for i, s in self.described.items() if s[0] and self.numbers[i] != at}),
    fault("described is ignored", filled=lambda self, dirty: dirty & self.bound),
    fault("bound is ignored", filled=lambda self, dirty: dirty & set(self.described)),
    fault("dirty is ignored", span=lambda self, lower, upper: setattr(self, "dirty", set()) or Slots.span(self, lower, upper)),
    fault("full instancing is ignored", working=lambda self, first: first),
    fault("full instancing is ignored in the span", span=lambda self, lower, upper: setattr(self, "full", False) or Slots.span(self, lower, upper)),
    fault("instancing is never emulated", working=lambda self, first: 0),
    fault("the last draw is not remembered", remember=lambda self, rebound, at: None),
    fault("every slot remembers every draw", remember=one_number),
    fault("only slots by instance remember", remember=own_stepped),
    fault("a woken slot without a buffer remembers", remember=woken_remember),
    fault("a draw leaves no slot dirty", draw=all_clean),
    fault("a draw leaves its slots dirty", draw=none_clean),
    fault("an indirect draw is no draw", call=no_indirect),
    fault("a refused draw or pass end counts", answered=any_answer),
    fault("a pass end does not forget the numbers", end_pass=keeping("numbers")),
    fault("a pass end does not forget the dirty slots", end_pass=keeping("dirty")),
    fault("a pass end does not forget the slots by instance", end_pass=keeping("by_instance")),
    fault("a new list does not start anew", begin_encoding=begin_keeps),
    fault("a changed description is not dirty", pipeline=same_description),
    fault("a slot by instance stays one", pipeline=steps_join),
    fault("a buffer that is set is not dirty", buffer=clean_buffer),
    fault("the session is played with layout", __init__=as_if_layout),
    fault("the span's draw is on the session's board", rebound=own_board),
    fault("reversed is not answered", reversed=lambda self, lower, upper: False, tried=some),
    fault("a reversed span is turned", span=turned),
    fault("a single number is reversed", reversed=lambda self, lower, upper: lower >= upper),
    fault("the ends are signed", reversed=lambda self, lower, upper: signed(lower) > signed(upper), tried=some),
    fault("numbers have 16 bits", woken=lambda self, at: {i for i in self.by_instance if (self.numbers[i] - at) % 65536}),
    fault("the masks are exchanged", span=masks_with(lambda sets: (set.union(*sets), set.intersection(*sets)))),
    fault("always is the last number's mask", span=masks_with(lambda sets: (sets[-1], set.union(*sets)))),
    fault("sometimes is always", span=masks_with(lambda sets: (set.intersection(*sets),) * 2)),
    fault("slots from 8 on are left out", rebound=low_slots),
]


def stored():
    given, lines = (open(os.path.join(STORED, name)).read() for name in ("stdin", "stdout"))
    return list(zip(span_model.spanned(given), lines.splitlines()))


def random():
    with tempfile.TemporaryDirectory() as folder:
        files = [os.path.join(folder, name) for name in ("in", "out")]
        subprocess.run([ORACLE, "spans", "0", str(SEEDS), "--in", files[0], "--out", files[1]], check=True, stdout=subprocess.DEVNULL)
        given, lines = (open(name).read() for name in files)
    return list(zip(span_model.spanned(given), lines.splitlines()))


def telling(rule, pairs):
    """The places whose line is not that of the rule."""
    return [i for i, (one, line) in enumerate(pairs) if one.line(rule) != line]


def main():
    kinds = (("stored", stored()), ("seeds", random()))
    if any(telling(Slots, pairs) for _, pairs in kinds): sys.exit("the rule without a fault differs")
    untold = 0
    for name, rule in FAULTS:
        found = [(kind, telling(rule, pairs)) for kind, pairs in kinds]
        untold += not any(told for _, told in found)
        print(f"{name}: " + ", ".join(f"{kind} {len(told)}" + (f" (first {told[0]})" if told else "") for kind, told in found))
    print(f"{len(FAULTS)} faults, {untold} untold")
    sys.exit(bool(untold))


main()
