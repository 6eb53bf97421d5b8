#!/usr/bin/env python3
"""trim_model.py: what is left of a list without the settings that a later one supersedes (document 02, request 7). Standard input: what the program of
tools/trim prints for lists that end in `show`. For each of them the same lines, worked out from the list as it is handed in alone: each setting looks
forward to the next command of its thing, or the first that ends the wait. Written from documents 01 and 02; it shares no code with the library."""
import collections
import copy
import itertools
import os
import re
import sys

sys.path.insert(0, os.path.dirname(os.path.abspath(__file__)))
import model  # noqa: E402  (tools/lists/model.py)
from machine import Machine  # noqa: E402  (tools/lists/machine.py)

# "each blend constant, viewport, scissor, vertex buffer, sampler, index buffer or depth bias setting"
KINDS = {"SetBlendConstant": "blend constant", "SetViewport": "viewport", "SetScissor": "scissor", "SetVertexBuffer": "vertex buffer", "BindSampler": "sampler",
         "SetIndexBuffer": "index buffer", "SetDepthBias": "depth bias"}
NUMBERED = ("SetVertexBuffer", "BindSampler")  # a thing for each slot or unit, the first field
# "before any draw, pass clear, dispatch or framebuffer reset"
ENDS = ("Draw", "DrawIndexed", "DrawIndirect", "DrawIndexedIndirect", "ClearColorF", "ClearColorU", "ClearColorI", "ClearDepth", "ClearStencil",
        "ClearDepthAndStencil", "Dispatch", "DispatchIndirect", "ResetFramebuffer")
# who finds what is set, for the play: told from the names, not from the two tables above
LOOKS = re.compile("Draw|Dispatch|Clear(?!Buffer)|ResetFramebuffer")


def thing(words):
    """What a setting of the seven kinds sets; None of any other command."""
    if words[0] not in KINDS:
        return None
    return KINDS[words[0]], int(words[1]) if words[0] in NUMBERED else None


def superseded(lines, i):
    mine = thing(lines[i])
    for words in itertools.islice(lines, i + 1, None):
        if words[0] in ENDS:
            return False
        if thing(words) == mine:
            return True
    return False


def trimmed(lines):
    return [words for i, words in enumerate(lines) if not (thing(words) and superseded(lines, i))]


def treated(given):
    """The answer about a list, and the list after it."""
    refused = model.refusals(given)
    if refused:
        return f"refused {min(refused)}", given
    left = copy.copy(given)
    left.lines = trimmed(given.lines)
    left.commands = len(left.lines)
    return f"left {left.commands}", left


def printed(given):
    head = f"list {given.length} {given.commands} {given.bytes} {given.queries}"
    return [head, *numbered(given.lines)]


def numbered(lines):
    return [f"{i} {' '.join(words)}" for i, words in enumerate(lines)]


def shown(given):
    """The lines of `show`: the list, and of two treatments the answer, the list and that the rest of the run is as it was."""
    lines = printed(given)
    for _ in range(2):
        answer, given = treated(given)
        lines += [answer, *printed(given), "rest same"]
    return lines


def gone(before, after):
    """The settings that went, by kind, in the order of the request."""
    counts = [collections.Counter(KINDS[words[0]] for words in lines if words[0] in KINDS) for lines in (before, after)]
    return {kind: counts[0][kind] - counts[1][kind] for kind in KINDS.values() if counts[0][kind] != counts[1][kind]}


def told(given):
    """The lines of `trim`."""
    answer, left = treated(given)
    if answer.startswith("refused "):
        return [answer]
    went = gone(given.lines, left.lines)
    kinds = ", ".join(f"{n} {kind}" for kind, n in went.items())
    settings = [sum(words[0] in KINDS for words in one.lines) for one in (given, left)]
    return [answer, *numbered(left.lines), "---", f"taken out {sum(went.values())}" + (": " + kinds if went else ""),
            f"commands: {len(given.lines)} before, {len(left.lines)} after", "settings of the seven kinds: {} before, {} after".format(*settings)]


def finds(lines):
    """Each draw, clear, dispatch and reset with the whole machine that it finds, and the machine at the end."""
    machine = Machine()
    held = lambda: {name: dict(value) if isinstance(value, dict) else value for name, value in vars(machine).items()}
    for words in lines:
        if LOOKS.match(words[0]):
            yield words, held()
        machine.play(words)
    yield None, held()


def same_finds(before, after):
    return all(x == y for x, y in itertools.zip_longest(finds(before), finds(after)))


def lists(lines):
    """The lines of each list that is shown: three lists, the last two each with an answer before and a line `rest` after it."""
    found, rests = [], 0
    for line in lines:
        found.append(line)
        rests += line.startswith("rest ")
        if rests == 2 or not re.match("list |left |refused |rest |[0-9]", line):
            yield found
            found, rests = [], 0
    if found:
        yield found


def handed_in(lines):
    """The list that stands first."""
    given = model.List(lines[0])
    given.lines = [line.split()[1:] for line in itertools.takewhile(lambda line: line[:1].isdigit(), lines[1:])]
    return given


def main():
    for lines in lists(sys.stdin.read().splitlines()):
        print("\n".join(shown(handed_in(lines)) if lines[0].startswith("list ") else lines))


if __name__ == "__main__":
    main()
