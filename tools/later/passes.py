"""A random render pass as lines of a script, with what each of its draws has to find by the calls of the pass alone (document 02, request 13)."""

KINDS = {"u": ("buffers", 35345), "s": ("buffers", 37074), "tex": ("textures", None), "img": ("images", None), "smp": ("samplers", None)}
NEEDS = ("pipeline", "buffers", "index", "blend")  # what the pass must set before each of its draws


def pipeline(r, name):
    """A pipeline: its line, the described slots with step and stride, the attributes, the number of targets, sampler numbers by unit."""
    slots = [(r.choice("viiin"), r.choice((0, 4, 8, 12))) for _ in range(r.randint(0, 5))]
    there = [i for i, (step, _) in enumerate(slots) if step != "n"]
    places = r.sample(range(16), r.randint(0, 5) if there else 0)
    attrs = [(location, r.choice((0, 4, 16)), r.choice(there), r.randint(1, 4), 5126, r.randint(0, 1)) for location in places]
    targets = [r.choice(("15", "7", "15:1:0:32774:1:1:32776", "0:1:1:32774:0:771:32774")) for _ in range(r.randint(0, 3))]
    smap = {u: r.randint(0, 5) for u in r.sample(range(16), r.randint(0, 4))}
    words = [f"pipe {name} program={r.randint(1, 9)} clip={r.randint(0, 4)} topo={r.randint(0, 4)} front={r.randint(0, 1)} cull={r.choice('-01')}",
             f"a2c={r.randint(0, 1)} inst={r.choice('-012')} unclipped={r.randint(0, 1)} poly={r.randint(0, 2)} bias={r.choice(('0:0:0', '1:1.5:0', '-7:0:2'))}"]
    lists = {"slots": ["n" if step == "n" else f"{step}:{stride}" for step, stride in slots], "attrs": [":".join(map(str, a)) for a in attrs],
             "targets": targets, "smap": [f"{u}:{n}" for u, n in sorted(smap.items())]}
    words += [f"{key}=" + ",".join(items) for key, items in lists.items() if items]
    if r.random() < 0.5:
        words.append(f"depth={r.choice((513, 515, 519))}:{r.randint(0, 1)}")
    if r.random() < 0.5:
        words.append("stencil=" + "/".join(f"{r.choice((514, 519))}:255:{r.choice((0, 255))}:{r.randint(0, 9)}:7680:7681:7680" for _ in range(2)))
    return {"name": name, "line": " ".join(words), "slots": {i: slots[i] for i in there}, "attrs": attrs, "targets": len(targets), "smap": smap}


NO_PIPELINE = {"slots": {}, "attrs": [], "targets": 0, "smap": {}}


def group(r, name):
    """A bind group: its lines, and what it sets."""
    entries, contents, sets = [], [], []
    for binding in range(r.randint(1, 4)):
        kind, slot = r.choice(list(KINDS)), r.randint(0, 5)
        entries.append(f"{binding}:{kind}:{slot}")
        contents.append({"u": f"buf:{r.randint(1, 6)}:{r.choice((0, 256))}:64", "s": f"buf:{r.randint(1, 6)}:16:{r.choice((16, 64))}",
                         "tex": f"tex:{r.randint(1, 9)}:3553:1:0:{r.randint(1, 3)}", "img": f"img:{r.randint(1, 9)}:0:-:35000:32856", "smp": f"smp:{r.randint(1, 9)}"}[kind])
        thing, target = KINDS[kind]
        sets.append((thing, slot if target is None else (target, slot)))
    return {"name": name, "lines": [f"group G{name} " + ",".join(entries), f"layout L{name} G{name}", f"bg B{name} " + ",".join(contents)], "sets": sets}


class Pass:
    """`lines` begin the pass and make its calls; `draws` has for each draw its pipeline, what the pass has set so far, and the fetches that its calls name."""
    def __init__(self, r, full_instancing, left_out):
        self.r, self.full, self.left_out, self.now, self.draws = r, full_instancing, left_out, None, []
        self.pipes, self.groups = [pipeline(r, f"Z{i}") for i in range(r.randint(1, 4))], [group(r, f"Z{i}") for i in range(2)]
        self.slots, self.set, self.bound = {}, set(), {"buffers": set(), "textures": set(), "images": set(), "samplers": set()}
        self.lines = [f"buf Y{i} {i} 34962 4096" for i in range(1, 7)] + [p["line"] for p in self.pipes] + [line for g in self.groups for line in g["lines"]]
        self.lines.append(f"begin_render_pass ext={r.randint(1, 9)}:{r.randint(1, 9)}:1 samples=1 label={r.choice(('-', 'room'))} ts=- c=-")
        for _ in range(r.randint(6, 40)):
            self.turn()

    def turn(self):
        what, r = self.r.random(), self.r
        if what < 0.35:
            self.draw()
        elif what < 0.5:
            self.say("pipeline")
        elif what < 0.7:
            self.say("buffers", r.randint(0, 5))
        elif what < 0.8:
            self.say("index" if what < 0.75 else "blend")
        elif what < 0.9:
            self.bind(r.choice(self.groups))
        else:
            self.lines.append(r.choice(("set_viewport 1 1 5 5 0 1", "set_scissor_rect 1 1 2 2", f"set_stencil_reference {r.randint(0, 9)}")))

    def say(self, what, slot=0):
        """A call that sets one of the four things, but for the one that is left out."""
        r = self.r
        if what == self.left_out:
            return
        self.set.add(what)
        if what == "pipeline":
            self.now = r.choice(self.pipes)
            self.lines.append(f"set_render_pipeline {self.now['name']}")
        elif what == "index":
            self.lines.append(f"set_index_buffer Y{r.randint(1, 6)} {r.choice((0, 2, 32))} {r.choice(('u16', 'u32'))}")
        elif what == "blend":
            self.lines.append("set_blend_constants " + " ".join(r.choice(("0", "1", "0.5", "-0.0", "nan")) for _ in range(4)))
        else:
            self.slots[slot] = (r.randint(1, 6), r.choice((0, 16, 100)))
            self.lines.append(f"set_vertex_buffer {slot} Y{self.slots[slot][0]} {self.slots[slot][1]}")

    def bind(self, group):
        self.lines.append(f"set_bind_group L{group['name']} 0 B{group['name']} -")
        for thing, key in group["sets"]:
            self.bound[thing].add(key)

    def draw(self):
        r = self.r
        for what in ("pipeline", "index", "blend"):
            if what not in self.set:
                self.say(what)
        for slot in self.now["slots"] if self.now else ():
            if slot not in self.slots:
                self.say("buffers", slot)
        kind, first, many = r.randint(0, 3), r.choice((0, 0, 1, 2, 5)), r.randint(0, 2)
        self.lines.append((f"draw 0 3 {first} 1", f"draw_indexed {r.randint(0, 6)} 3 0 {first} 1",
                           f"draw_indirect Y{r.randint(1, 6)} 0 {many}", f"draw_indexed_indirect Y{r.randint(1, 6)} 20 {many}")[kind])
        working = 0 if self.full or kind > 1 else first
        one = {"pipeline": self.now or NO_PIPELINE, "bound": {k: set(v) for k, v in self.bound.items()}, "fetches": self.fetches(working)}
        self.draws += [one] * (1 if kind < 2 else many)

    def fetches(self, working):
        """By each attribute, from the calls of the pass: slot, format, and buffer, first byte, stride and step."""
        named = []
        for _, offset, slot, count, form, kind in (self.now or NO_PIPELINE)["attrs"]:
            step, stride = self.now["slots"][slot]
            raw, base = self.slots.get(slot, (None, 0))
            by_instance = step == "i"
            source = None if raw is None else (raw, offset + base + (working * stride if by_instance else 0), stride, int(by_instance))
            named.append((slot, (str(count), str(form), str(kind)), source))
        return named
