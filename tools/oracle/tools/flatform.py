"""What the tools that hold two outputs against each other read of a call in the flat form (README.md, 'Flat form'). Shares no code with the oracle
and none with the library."""

DRAWS = {25: "Draw", 26: "DrawIndexed", 27: "DrawIndirect", 28: "DrawIndexedIndirect"}    # by a call's code


class Unequal(Exception):
    """An output has something that no landed request allows."""


class Numbers:
    """A call of the flat form, read from the left."""
    def __init__(self, call): self.left = iter(map(int, call.split()))
    def n(self): return next(self.left)
    def skip(self, count): return [self.n() for _ in range(count)]
    def opt(self, f): return f() if self.n() else None
    def list(self, f): return [f() for _ in range(self.n())]
    def view(self): return self.skip(10)
    def label(self): return self.opt(lambda: self.list(self.n))
    def place(self):
        view = self.view(); self.opt(self.n); self.opt(self.view)
        ops = self.n(); self.skip(4)
        return view[8], ops
    def inner(self):
        program = self.n(); self.opt(self.n); self.skip(1)
        for _ in range(16): self.opt(self.n)
        return program, self.list(lambda: tuple(self.skip(4)))


def places(call):
    """The colour places of a begin_render_pass, empty ones None: sample kind, operations."""
    r = Numbers(call); r.skip(1 + 4); r.label()
    r.opt(lambda: (r.n(), r.list(r.n), r.opt(r.n), r.opt(r.n)))
    return r.list(lambda: r.opt(r.place))

def pipeline(call):
    """The slots of a set_render_pipeline, absent ones None: step, stride; and its attributes: location, offset, slot, count, format, kind."""
    r = Numbers(call); r.skip(1); r.inner(); r.skip(5)
    return r.list(lambda: r.opt(lambda: tuple(r.skip(2)))), r.list(lambda: r.skip(6))

def inner(call):
    """The program of a pipeline call, and its descriptors: location, type, offset, size."""
    r = Numbers(call); r.skip(1)
    return r.inner()

def label(call):
    """The bytes of a pass beginning's label, None if it has none."""
    r = Numbers(call)
    r.skip(4 if r.n() == 2 else 0)
    found = r.label()
    return None if found is None else bytes(found)

def dispatch(call):
    """The name of the command that a dispatch call records, None if it has no groups."""
    code, *sizes = map(int, call.split())
    return "DispatchIndirect" if code == 30 else None if 0 in sizes else "Dispatch"

def immediates(call):
    """The offset of a set_immediates, and its words."""
    r = Numbers(call); r.skip(1)
    return r.n(), r.list(r.n)
