"""Random edits of a handed-in list, for tools/trim.py: settings that are piled up, and limits that are broken. Lines for the program of tools/trim; the
lists are those of tools/lists/model.py, the edits of limits those of tools/boards/edits.py."""
import copy

import edits

RUN = 5000  # records of the program's run
VIEW = edits.VIEW
# each of the 49 commands, within the limits of any list
COMMANDS = (
    "Draw 4 0 3 0 1 -", "DrawIndexed 4 5123 6 0 -1 0 1 2", "DrawIndirect 4 7 16 -", "DrawIndexedIndirect 4 5125 7 18446744073709551615 0",
    "Dispatch 1 1 1", "DispatchIndirect 7 4", "ClearBuffer - 34963 0 64", "CopyBufferToBuffer 3 36662 - 36663 0 8 4", "SetIndexBuffer 6",
    "BeginQuery 31 36392", "EndQuery 36392", "TimestampQuery 32", "CopyQueryResults 0 0 4 35345 0", "ResetFramebuffer 1",
    "BindAttachment 36064 " + VIEW + " - 1", "ResolveAttachment 36065 " + VIEW + " 4 3 1", "InvalidateAttachments 257", "SetDrawColorBuffers 2",
    "ClearColorF 0 00000000 3f800000 7fc00000 80000000 1", "ClearColorU 1 1 2 3 4", "ClearColorI 7 -1 0 2147483647 -2147483648", "ClearDepth 3f800000",
    "ClearStencil 255", "ClearDepthAndStencil 00000000 1", "BufferBarrier 5 256", "TextureBarrier 512", "SetViewport 0 -1 640 480 00000000 3f800000",
    "SetScissor 1 2 -3 4", "SetStencilFunc 1028 519 1 255", "SetStencilOps 1029 255 7680 7681 5386", "SetDepth 513 1", "SetDepthBias 2 7fa00000 3f800000",
    "ConfigureDepthStencil 3", "SetAlphaToCoverage 1", "SetVertexAttribute 5 0 16 3 0 2 4 5126 0", "UnsetVertexAttribute 3",
    "SetVertexBuffer 2 4 100 1 8", "SetProgram 9", "SetPrimitive 2304 1029 0 6914", "SetBlendConstant 3f800000 80000000 7f800000 00000001",
    "SetColorTarget - 15 1 771 32774 770 771 32774", "BindBuffer 35345 3 2 0 16", "BindSampler 5 8", "BindTexture 5 7 3553 1 0 1",
    "BindImage 2 4 0 - 35000 32856", "PushDebugGroup 0 0", "PopDebugGroup", "SetImmediates 1 5126 0 0 0", "SetClipDistances 0 2",
)
BLENDS = ("3f800000 00000000 00000000 00000000", "80000000 7fc00000 3f000000 00000001")


def setting(source, kind, number):
    """A setting of a kind, from 0 in the request's order, of this slot or unit; its values are some of a few, so that equal ones follow each other too."""
    n = source.randrange(3)
    return (f"SetBlendConstant {BLENDS[n % 2]}", f"SetViewport {n} 0 640 480 00000000 3f800000", f"SetScissor 0 {-n} 64 48",
            f"SetVertexBuffer {number} {n + 1} {64 * n} {n % 2} 8", f"BindSampler {number} {source.choice(('-', 3, 4))}", f"SetIndexBuffer {n + 1}",
            f"SetDepthBias {n} 00000000 {'7fa00000' if n else '80000000'}")[kind]


def put_in(given, place, texts):
    """The list with these commands from a place on."""
    made = copy.copy(given)
    made.lines = given.lines[:place] + [text.split() for text in texts] + given.lines[place:]
    made.commands = len(made.lines)
    made.length = max(made.length, made.commands)
    return made


def is_whole(given):
    """The count is that of the records, and there is room."""
    return given.commands == len(given.lines) < 4000


def between(source, given, number):
    """The seven kinds, the command of this number, the seven kinds again, at slots and units that are mostly the same."""
    slots = [source.choice((0, 1, 7, 15)), source.choice((0, 8, 14, 15))]
    place = source.randrange(len(given.lines) + 1)
    runs = []
    for _ in range(2):
        kinds = source.sample(range(7), 7)
        runs.append([setting(source, kind, source.randrange(16) if source.random() < 0.15 else slots[kind == 4]) for kind in kinds])
    return put_in(given, place, [*runs[0], COMMANDS[number % len(COMMANDS)], *runs[1]])


def piled(source, given):
    """Runs of settings of a few things, some with a command between them."""
    for _ in range(source.randrange(1, 5)):
        kinds = source.sample(range(7), source.choice((1, 2, 7)))
        numbers = source.choice(((3,), (0, 15), (4, 5, 6), range(16)))
        texts = []
        for _ in range(source.randrange(2, 20)):
            texts.append(setting(source, source.choice(kinds), source.choice(numbers)))
            if source.random() < 0.25:
                texts.append(source.choice(COMMANDS))
        given = put_in(given, source.randrange(len(given.lines) + 1), texts)
    return given


def slots(source, given):
    """Every slot or unit once, some again, with settings of the other among them."""
    kind = source.choice((3, 4))
    texts = [setting(source, kind, n) for n in source.sample(range(16), 16)]
    texts += [setting(source, kind if source.random() < 0.6 else 7 - kind, source.randrange(16)) for _ in range(source.randrange(1, 12))]
    return put_in(given, source.randrange(len(given.lines) + 1), texts)


def full(source, given):
    """As many commands as a list may have, the added ones mostly settings."""
    count = 4096 - len(given.lines)
    texts = [setting(source, source.randrange(7), source.randrange(16)) if source.random() < 0.8 else source.choice(COMMANDS) for _ in range(count)]
    return put_in(given, len(given.lines), texts)


def alone(source, given):
    """Settings and nothing else, or nothing at all."""
    made = copy.copy(given)
    made.lines = []
    return put_in(made, 0, [setting(source, source.randrange(7), source.choice((0, 15))) for _ in range(source.choice((0, 1, 2, 20)))])


def edits_to(given, made):
    """The lines that make the one list of the other."""
    old = dict(enumerate(given.lines))
    lines = [f"a {i} {' '.join(words)}" for i, words in enumerate(made.lines) if old.get(i) != words]
    lines += [f"a length {made.length}"] * (made.length != given.length)
    return lines + [f"a commands {made.commands}"] * (made.commands != given.commands)


def past_count(source, given):
    """Settings behind the count: they supersede nothing and stay."""
    last, count = setting(source, source.randrange(7), 5), min(given.commands, RUN - 5)
    lines = [f"a {count - 1} {last}"] * (0 < count)
    lines += [f"a {count + i} {source.choice((last, setting(source, source.randrange(7), 5), source.choice(COMMANDS)))}" for i in range(4)]
    return lines + [f"a length {max(given.length, count + source.randrange(5))}"]


def edge(source, side, other):
    """A vertex buffer or sampler setting at its last slot or unit, or beyond it."""
    return [side.put(side.somewhere(source), setting(source, source.choice((3, 4)), source.choice((15, 16, 16, 17, 32, edits.MOST32))))]


def broken(source, given):
    """Numbers and counts at their limits and beyond."""
    side = edits.Side("a", given)
    kinds = (edge, edits.limit, edits.two_limits, edits.ranges, edits.counts, edits.past_count)
    return source.choices(kinds, (3, 4, 2, 3, 3, 1))[0](source, side, side)


def applied(given, lines):
    """What the program has to show as handed in after these edits."""
    made = copy.copy(given)
    records = given.lines + [["PopDebugGroup"]] * (RUN - len(given.lines))
    for line in lines:
        _, name, *rest = line.split()
        if name.isdigit():
            records[int(name)] = rest
        else:
            setattr(made, name, int(rest[0]))
    made.lines = records[:min(made.commands, made.length)]
    return made


KINDS = {"piled": piled, "slots": slots, "full": full, "alone": alone}
WEIGHTS = (40, 15, 1, 5)
ENDINGS = {"": 6, ", past the count": 2, ", at a limit": 5}  # what is done after it


def random_edits(source, given, number):
    """A kind and its lines; given a number, the command of this number stands between settings."""
    if number is None:
        kind = source.choices(list(KINDS), WEIGHTS)[0]
        made, ending = KINDS[kind](source, given), source.choices(list(ENDINGS), ENDINGS.values())[0]
    else:
        kind, made, ending = "between", between(source, given, number), ""
    lines = edits_to(given, made)
    if ending:
        lines += (past_count if "past" in ending else broken)(source, made)
    return kind + ending, lines
