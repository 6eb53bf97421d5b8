"""The OpenGL ES machine of document 01, "The command list", in dictionaries: what a printed list of commands leaves, for the models of this folder. A command is
its words, the name first. It shares no code with the library or the oracle."""

DRAWS = ("Draw", "DrawIndexed", "DrawIndirect", "DrawIndexedIndirect")
INDEXED = ("DrawIndexed", "DrawIndexedIndirect")
FACES = {"1028": (1028,), "1029": (1029,), "1032": (1028, 1029)}
# commands that set one thing, and that thing
SETS = {"SetProgram": "program", "SetViewport": "viewport", "SetScissor": "scissor", "SetBlendConstant": "blend", "SetPrimitive": "primitive",
        "SetDepthBias": "bias", "SetAlphaToCoverage": "alpha", "ConfigureDepthStencil": "aspects", "SetDepth": "depth", "SetIndexBuffer": "index"}


class Machine:
    """A fresh machine: nothing is bound, bias and blend constants are zero, colour targets are 15 without blend, no clip distance is on."""
    def __init__(self):
        self.one = {"blend": ("00000000",) * 4, "bias": ("0", "00000000", "00000000"), "alpha": ("0",)}
        self.attributes, self.buffers, self.ranges, self.textures, self.images, self.samplers = {}, {}, {}, {}, {}, {}
        self.every_target, self.targets, self.clip, self.stencil = ("15", "-"), {}, frozenset(), {}

    def play(self, words):
        name, f = words[0], tuple(words[1:])
        if name in SETS:
            self.one[SETS[name]] = f
        elif name == "SetVertexAttribute":
            self.attributes[int(f[3])] = f
        elif name == "UnsetVertexAttribute":
            self.attributes.pop(int(f[0]), None)
        elif name == "SetVertexBuffer":
            self.buffers[int(f[0])] = f[1:]
        elif name in ("BindBuffer", "BindTexture", "BindImage", "BindSampler"):
            self.bind(name, f)
        elif name in ("SetStencilFunc", "SetStencilOps"):
            for face in FACES.get(f[0], ()):
                self.stencil[name, face] = f[1:]
        elif name == "SetColorTarget":
            self.set_target(f)
        elif name == "SetClipDistances":
            old, new = int(f[0]), int(f[1])
            self.clip = (self.clip | set(range(old, new))) - set(range(new, old))

    def bind(self, name, f):
        if name == "BindBuffer":
            self.ranges[int(f[0]), int(f[1])] = f[2:]
        elif name == "BindTexture":
            self.textures[int(f[0])] = f[1:]
        elif name == "BindImage":
            self.images[int(f[0])] = f[1:]
        else:
            self.samplers[int(f[0])] = f[1]

    def set_target(self, f):
        if f[0] == "-":
            self.every_target, self.targets = f[1:], {}
        else:
            self.targets[int(f[0])] = f[1:]

    def fetch(self, location):
        """Of a location that is set: slot, format, and buffer, first byte, stride and step, or none where the slot has no buffer."""
        buffer, step, stride, _, offset, slot, *form = self.attributes[location]
        if buffer != "-":
            return int(slot), tuple(form), (int(buffer), int(offset), int(stride), int(step))
        if int(slot) not in self.buffers:
            return int(slot), tuple(form), None
        raw, base, step, stride = self.buffers[int(slot)]
        return int(slot), tuple(form), (int(raw), int(offset) + int(base), int(stride), int(step))
