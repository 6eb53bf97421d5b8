"""Random edits of two handed-in lists, for tools/boards.py: lines for the program of tools/boards. The lists are those of tools/lists/model.py."""
import struct

MOST32, MOST64 = 2 ** 32 - 1, 2 ** 64 - 1
DRAWS = {"Draw", "DrawIndexed", "DrawIndirect", "DrawIndexedIndirect"}
READ = DRAWS | {"SetVertexAttribute", "UnsetVertexAttribute", "SetVertexBuffer", "SetProgram", "SetBlendConstant"}  # what a comparison reads
VIEW = "2 1 3553 1 0 1 0 1 0 0"
# commands with a limit: the text, the last number within it and the first beyond; ATTACHMENT0 is 36064
LIMITS = (
    ("SetDrawColorBuffers {}", 8, 9), ("SetDrawColorBuffers {}", 8, 9), ("SetDrawColorBuffers {}", 8, 9),
    ("SetVertexAttribute 5 0 16 {} 0 0 4 5126 0", 15, 16), ("SetVertexAttribute 5 0 16 0 0 {} 4 5126 0", 15, 16),
    ("SetVertexAttribute - 0 0 {} 0 3 4 5126 0", 15, 16), ("SetVertexAttribute - 0 0 2 0 {} 4 5126 1", 15, 16),
    ("UnsetVertexAttribute {}", 15, 16), ("SetVertexBuffer {} 4 100 1 8", 15, 16),
    ("BindSampler {} -", 15, 16), ("BindSampler {} 3", 15, 16), ("BindTexture {} 7 3553 1 0 1", 15, 16),
    ("BindBuffer 35345 {} 2 0 16", 255, 256), ("BindImage {} 4 0 - 35000 32856", 255, 256), ("BindImage {} 4 0 1 35000 32856", 255, 256),
    ("SetColorTarget {} 15 -", 7, 8), ("ClearColorF {} 00000000 3f800000 7fc00000 80000000 1", 7, 8), ("ClearColorU {} 1 2 3 4", 7, 8),
    ("ClearColorI {} -1 0 2147483647 -2147483648", 7, 8), ("InvalidateAttachments {}", 1023, 1024),
    ("BindAttachment {} " + VIEW + " - 1", 36071, 36072), ("ResolveAttachment {} " + VIEW + " 4 3 1", 36071, 36072),
    ("BindAttachment {} " + VIEW + " 2 4", 36096, 36095), ("ResolveAttachment {} " + VIEW + " 4 3 1", 36128, 36095),
    ("SetImmediates 1 5126 {} 4 0", 252, 256), ("SetImmediates 1 5126 0 {} 0", 0, 260), ("SetImmediates 1 5126 {} 0 0", 256, 260),
    ("SetImmediates 1 5126 {} 4 0", 8, 10), ("SetImmediates 1 5126 8 {} 0", 0, 2),
)
FREE = (  # fields that have no limit
    "BindAttachment 4294967295 " + VIEW + " - 1", "ResolveAttachment 0 " + VIEW + " 4 3 1", "SetColorTarget - 4294967295 -", "BindBuffer 0 0 0 -1 -1",
    "CopyQueryResults 0 0 - 0 0", "SetProgram 0", "BindTexture 0 0 0 0 9 1", "Dispatch 0 1 1", "PopDebugGroup", "SetImmediates 4294967295 0 0 0 0",
)
ZERO, MINUS, ONE, NEXT, TINY, INFINITE = "00000000", "80000000", "3f800000", "3f800001", "00000001", "7f800000"
NANS = ("7fc00000", "ffc00000", "7f800001", "7fffffff", "ff800001")


def is_draw(words):
    return words[0] in DRAWS


class Side:
    """One list and its letter."""
    def __init__(self, letter, given):
        self.letter, self.given = letter, given

    def places(self, test):
        return [i for i, words in enumerate(self.given.lines) if test(words)]

    def put(self, place, text):
        return f"{self.letter} {place} {text}"

    def count(self, name, value):
        return f"{self.letter} {name} {value}"

    def somewhere(self, source):
        """A place: mostly of a command that a comparison does not read, if there is one."""
        idle = self.places(lambda words: words[0] not in READ)
        if idle and source.random() < 0.85:
            return source.choice(idle)
        return source.randrange(max(1, len(self.given.lines)))


def limit(source, side, other):
    text, last, first = source.choice(LIMITS)
    value = source.choice((last, first, first, MOST32 if "Attachment {" not in text else first))
    return [side.put(side.somewhere(source), text.format(value))]


def free(source, side, other):
    return [side.put(side.somewhere(source), source.choice(FREE))]


def two_limits(source, side, other):
    return limit(source, *source.choice(((side, other), (other, side)))) + limit(source, side, other)


def ranges(source, side, other):
    """Ranges that end at the count, one past it, or before they start."""
    byte_count = source.choice((side.given.bytes, 65536, 12))
    query_count = source.choice((side.given.queries, 1024, 3))
    end, queries = byte_count + source.choice((0, 0, 1)), query_count + source.choice((0, 0, 1))
    text = source.choice((
        f"PushDebugGroup {source.choice((0, end))} {end}", f"PushDebugGroup {end + 1} {end}", "PushDebugGroup 1 0", f"PushDebugGroup {MOST32} {MOST32}",
        f"CopyQueryResults {source.choice((0, queries))} {queries} 4 35345 0", "CopyQueryResults 1 0 4 35345 0", f"CopyQueryResults {queries + 1} {queries} - 0 0",
        f"SetImmediates 1 5126 0 4 {max(0, end - 4)}", f"SetImmediates 1 5126 0 0 {end}", f"SetImmediates 1 5126 0 8 {MOST32 - 3}",
        f"SetImmediates 1 5126 4 {MOST32 - 3} 4",
    ))
    counts = [side.count("bytes", byte_count)] * (byte_count != side.given.bytes) + [side.count("queries", query_count)] * (query_count != side.given.queries)
    return counts + [side.put(side.somewhere(source), text)]


def counts(source, side, other):
    """Counts at their limit, above it, at the run and above it."""
    used = side.given.commands
    return source.choice((
        [side.count("bytes", 65536)], [side.count("bytes", 65537)], [side.count("queries", 1024)], [side.count("queries", 1025)],
        [side.count("bytes", MOST64)], [side.count("queries", MOST64)], [side.count("commands", MOST64)],
        [side.count("commands", 4096), side.count("length", 4096)], [side.count("commands", 4097), side.count("length", 5000)],
        [side.count("length", used)], [side.count("length", used + 1)], [side.count("length", max(0, used - 1))], [side.count("length", 0)],
        [side.count("commands", source.randrange(used + 1))], [side.count("commands", max(0, used - 1))], [side.count("commands", 0)],
        [side.count("bytes", max(0, side.given.bytes - 1))], [side.count("bytes", 0)], [side.count("queries", max(0, side.given.queries - 1))],
        [side.count("commands", used + 1), side.count("length", used + 1)], [side.count("commands", used + 1), side.count("length", used)],
    ))


def past_count(source, side, other):
    """A broken record past the count is not looked at; within it, it is."""
    text, _, first = source.choice(LIMITS)
    used = min(side.given.commands, 4095)
    return [side.put(used, text.format(first))] + [side.count("commands", used + 1)] * source.randrange(2)


def before_a_draw(source, one, other):
    """For each of two lists the places of what a comparison does not read before one draw of theirs, the last first."""
    count = min(len(side.places(is_draw)) for side in (one, other))
    k = source.randrange(count) if count else None
    found = []
    for side in (one, other):
        end = side.places(is_draw)[k] if count else len(side.given.lines)
        found.append([i for i in side.places(lambda words: words[0] not in READ) if i < end][::-1])
    return found


def constants(source, side, other, one_of_each, others):
    """Blend constants of both lists before one draw: one of the four, at random, is each list's own, and the rest are some of others, the same in both."""
    at = source.randrange(4)
    rest = [source.choice(others) for _ in range(4)]
    lines = []
    for one, bits, places in zip((side, other), one_of_each, before_a_draw(source, side, other)):
        lines += [one.put(place, "SetBlendConstant " + " ".join(rest[:at] + [bits] + rest[at + 1:])) for place in places[:1]]
    return lines


def floats(source, side, other):
    """Blend constants of both lists, alike but for one of the four."""
    x, y = source.choice(((ZERO, MINUS), (MINUS, ZERO), (source.choice(NANS), source.choice(NANS)), (source.choice(NANS), ONE), (ZERO, source.choice(NANS)),
                          (ONE, NEXT), (ZERO, TINY), (INFINITE, "ff800000"), (INFINITE, INFINITE), (ONE, ONE), (INFINITE, source.choice(NANS))))
    return constants(source, side, other, (x, y), (ZERO, ONE, NANS[0]))


def zeros(source, side, other):
    """Blend constants of both lists, alike but for the sign of a zero; mostly another command is changed too, at that draw or elsewhere."""
    lines = constants(source, side, other, source.choice(((ZERO, MINUS), (MINUS, ZERO))), (ZERO, MINUS, ONE, NANS[0]))
    return lines + (fetch(source, *source.choice(((side, other), (other, side)))) if source.random() < 0.7 else [])


def fresh(source, side, other):
    """Blend constants in one list only: mostly zeros, which a fresh machine has."""
    places = before_a_draw(source, side, other)[0]
    constants = [source.choice((ZERO, MINUS)) for _ in range(4)]
    if source.random() < 0.3:
        constants[source.randrange(4)] = source.choice((ONE, TINY, NANS[0]))
    return [side.put(place, "SetBlendConstant " + " ".join(constants)) for place in places[:1]]


def both(source, side, other):
    """An attribute with its slot's buffer in the one list, with its own in the other: the same fetch, or one number of it changed."""
    location, slot, elsewhere = source.choice((0, 5, 15)), source.choice((0, 3, 15)), source.choice((0, 3, 15))
    raw, step, stride, offset, base = source.randrange(9), source.randrange(2), source.choice((0, 8)), source.choice((0, 4)), source.choice((0, 100, 2 ** 32))
    form = ["4", source.choice(("5126", "5121")), str(source.randrange(2))]
    attribute = ["SetVertexAttribute", "-", "0", "0", str(location), str(offset), str(slot), *form]
    buffer = ["SetVertexBuffer", str(slot), str(raw), str(base), str(step), str(stride)]
    own = ["SetVertexAttribute", str(raw), str(step), str(stride), str(location), str(offset + base), str(elsewhere), *form]
    if base + offset >= 2 ** 32 or source.random() < 0.3:
        own = list(attribute)  # then without a buffer, or with what its slot has there
    texts = [source.choice(([buffer, attribute], [attribute, buffer], [attribute])), [own]]
    if source.random() < 0.5:
        texts = [texts[0], texts[0][:]]
    if source.random() < 0.6:
        which = source.choice(texts)
        at = source.randrange(len(which))
        which[at] = changed(source, which[at]).split()
    lines = []
    for one, put, places in zip((side, other), texts, before_a_draw(source, side, other)):
        lines += [one.put(place, " ".join(words)) for place, words in zip(places, put)]
    return lines


def changed(source, words):
    """A command with one of its numbers changed."""
    at = source.randrange(1, len(words))
    flag = {"SetVertexAttribute": (2, 9), "SetVertexBuffer": (4,)}.get(words[0], ())
    if words[at] == "-":
        new = str(source.choice((0, 1, 5)))
    elif words[0] == "SetBlendConstant":
        new = struct.pack(">f", struct.unpack(">f", bytes.fromhex(words[at]))[0] + 1.0).hex()
    elif at in flag:
        new = str(1 - int(words[at]))
    elif words[0] == "SetVertexAttribute" and at == 1 and source.random() < 0.3:
        new = "-"
    else:
        new = str(max(0, int(words[at]) + source.choice((1, -1, 1, 4))) % 2 ** 31)
    return " ".join(words[:at] + [new] + words[at + 1:])


def fetch(source, side, other):
    """One number of a command that a comparison reads."""
    read = side.places(lambda words: words[0] in READ - DRAWS)
    if not read:
        return free(source, side, other)
    place = source.choice(read)
    return [side.put(place, changed(source, side.given.lines[place]))]


def moved(source, side, other):
    """An attribute's offset and its slot's buffer's, changed so that their sum is the same, or is so in 64 bits only."""
    lines = side.given.lines
    attributes = side.places(lambda words: words[0] == "SetVertexAttribute" and words[1] == "-")
    both = [(i, k) for i in attributes for k in side.places(lambda words: words[0] == "SetVertexBuffer" and words[1] == lines[i][6])]
    if not both:
        return fetch(source, side, other)
    i, k = source.choice(both)
    attribute, buffer = list(lines[i]), list(lines[k])
    total = int(attribute[5]) + int(buffer[3])
    offset = source.choice((0, min(total, MOST32), min(total + 1, MOST32), MOST32, source.randrange(2 ** 32)))
    attribute[5], buffer[3] = str(offset), str((total - offset + source.choice((0, 0, 0, 1))) % 2 ** 64)
    return [side.put(i, " ".join(attribute)), side.put(k, " ".join(buffer))]


def unset(source, side, other):
    """A setting taken out, or an attribute unset."""
    read = side.places(lambda words: words[0] in READ - DRAWS)
    location = source.choice([words[4] for words in side.given.lines if words[0] == "SetVertexAttribute"] or ["0"])
    if not read or source.random() < 0.5:
        return [side.put(side.somewhere(source), f"UnsetVertexAttribute {location}")]
    return [side.put(source.choice(read), "PopDebugGroup")]


def draws(source, side, other):
    """A draw more, less, or of another kind, in one list or in both."""
    kinds = ("Draw 4 0 3 0 1 -", "DrawIndexed 4 5123 6 0 -1 0 1 2", "DrawIndirect 4 7 16 -", f"DrawIndexedIndirect 4 5125 7 {MOST64} 0", "Dispatch 1 1 1")
    lines = []
    for one in (side, other) if source.random() < 0.6 else (side,):
        there = one.places(is_draw)
        if there and source.random() < 0.3:
            lines.append(one.put(source.choice(there), source.choice(kinds + ("PopDebugGroup",))))
        else:
            lines.append(one.put(one.somewhere(source), source.choice(kinds)))
    return lines


KINDS = {"limit": limit, "free": free, "two limits": two_limits, "ranges": ranges, "counts": counts, "past count": past_count, "floats": floats, "zeros": zeros,
         "fresh": fresh, "both": both, "fetch": fetch, "moved": moved, "unset": unset, "draws": draws}
WEIGHTS = (13, 2, 4, 8, 6, 3, 10, 10, 4, 12, 16, 9, 6, 6)


def random_edits(source, a, b):
    """A kind and its lines."""
    kind = source.choices(list(KINDS), WEIGHTS)[0]
    sides = [Side("a", a), Side("b", b)]
    source.shuffle(sides)
    return kind, KINDS[kind](source, *sides)
