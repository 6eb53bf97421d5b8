#!/usr/bin/env python3
"""model.py: what the answer about two lists has to be (document 02, requests 3 and 12). Standard input: what the program of tools/boards prints for pairs
that end in `show`. For each pair a line `equal`, `draw K` or `refused N`, worked out from its printed lists; the program's own line ends a pair and is
not looked at. Written from documents 01 and 02; it shares no code with the library."""
import math
import os
import struct
import sys

sys.path.insert(0, os.path.dirname(os.path.abspath(__file__)))
from machine import DRAWS, Machine  # noqa: E402  (tools/lists/machine.py)

COLOR_ATTACHMENT0 = 0x8CE0  # OpenGL ES 3.2: 0 to 31 have names, one after another
PLACES, LOCATIONS = 8, 16
# commands with one number that has a limit, by 3: which field, and the first number that is out of range
RANGES = {
    "UnsetVertexAttribute": (0, 16), "SetVertexBuffer": (0, 16), "BindSampler": (0, 16), "BindTexture": (0, 16),  # "slots are 0 to 15"
    "BindBuffer": (1, 256), "BindImage": (0, 256),                                                               # "any byte"
    "ClearColorF": (0, PLACES), "ClearColorU": (0, PLACES), "ClearColorI": (0, PLACES),                          # "At most 8 colour places"
    "InvalidateAttachments": (0, 2 ** 10),                                                                       # "a set of ten bits"
}


class List:
    """A list as it is handed in: the length of its lent run, its counts, its used commands as words."""
    def __init__(self, line):
        self.length, self.commands, self.bytes, self.queries = map(int, line.split()[1:])
        self.lines = []

    def draws(self):
        return sum(words[0] in DRAWS for words in self.lines)


def attachment_breaks(number):
    """A colour place of 8 or more; other attachments have no place."""
    return COLOR_ATTACHMENT0 + PLACES <= number < COLOR_ATTACHMENT0 + 32


def immediate_breaks(given, f):
    """A descriptor: location, type, offset, size; then the place of its bytes."""
    offset, size, place = int(f[2]), int(f[3]), int(f[4])
    return ({3} if offset % 4 or size % 4 or offset + size > 256 else set()) | ({7} if place + size > given.bytes else set())


def range_breaks(start, end, count, reversed_number):
    return ({reversed_number} if end < start else set()) | ({7} if end > count else set())


def breaks(given, words):
    """The numbers of the limits that a command breaks."""
    name, f = words[0], words[1:]
    if name in RANGES:
        field, end = RANGES[name]
        return {3} if int(f[field]) >= end else set()
    if name == "SetDrawColorBuffers":
        return {2} if int(f[0]) > PLACES else set()
    if name == "SetVertexAttribute":
        return {3} if int(f[3]) >= LOCATIONS or int(f[5]) >= 16 else set()
    if name == "SetColorTarget":
        return {3} if f[0] != "-" and int(f[0]) >= PLACES else set()
    if name in ("BindAttachment", "ResolveAttachment"):
        return {3} if attachment_breaks(int(f[0])) else set()
    if name == "SetImmediates":
        return immediate_breaks(given, f)
    if name == "CopyQueryResults":
        return range_breaks(int(f[0]), int(f[1]), given.queries, 3)
    if name == "PushDebugGroup":
        return range_breaks(int(f[0]), int(f[1]), given.bytes, 7)
    return set()


def refusals(given):
    """The numbers of all limits that a list breaks."""
    over = given.commands > 4096 or given.bytes > 65536 or given.queries > 1024 or given.commands > given.length
    found = {7} if over else set()
    for words in given.lines:
        found |= breaks(given, words)
    return found


def float_of(bits):
    return struct.unpack(">f", bytes.fromhex(bits))[0]


def found(machine):
    """What a draw finds, as far as it is compared: format and source by location, program, blend constants."""
    return {location: machine.fetch(location)[1:] for location in machine.attributes}, machine.one.get("program"), machine.one["blend"]


def found_by_draws(given):
    machine, draws = Machine(), []
    for words in given.lines:
        if words[0] in DRAWS:
            draws.append(found(machine))
        machine.play(words)
    return draws


def same_bits(x, y):
    """Request 12: "alike only if their bits are". The printed bits, in which every NaN is 7fc00000."""
    return x == y


def same_number(x, y):
    """Request 3: "as numbers, NaN equal to NaN"."""
    x, y = float_of(x), float_of(y)
    return x == y or (math.isnan(x) and math.isnan(y))


def alike(same, with_layout, without):
    fetches, program, blend = with_layout
    wanted, other, constants = without
    return all(fetches.get(location) == fetch for location, fetch in wanted.items()) and program == other and all(map(same, blend, constants))


def by_draws(same, draws):
    """The answer, from what each two draws find."""
    for k, (x, y) in enumerate(draws):
        if not alike(same, x, y):
            return f"draw {k}"
    return "equal"


def answers(a, b):
    """The answer about the list with vertex buffer layout and the one without: with request 12, and before it."""
    refused = refusals(a) | refusals(b)
    if not refused and a.draws() != b.draws():
        refused = {9}
    if refused:
        return (f"refused {min(refused)}",) * 2
    draws = list(zip(found_by_draws(a), found_by_draws(b)))
    return by_draws(same_bits, draws), by_draws(same_number, draws)


def remains(before, answer):
    """Request 12: "Whatever was unequal remains unequal". A draw that differed, or an earlier one, is named; no refusal comes or goes."""
    if before == "equal":
        return not answer.startswith("refused ")
    if before.startswith("draw "):
        return answer.startswith("draw ") and int(answer[5:]) <= int(before[5:])
    return answer == before


def pairs(lines):
    """The pairs of a text, each with the line that ends it."""
    lists = []
    for line in lines:
        if line.startswith("list "):
            lists.append(List(line))
        elif line[:1].isdigit():
            lists[-1].lines.append(line.split()[1:])
        else:
            yield lists, line
            lists = []


def main():
    for lists, line in pairs(sys.stdin.read().splitlines()):
        print(answers(*lists)[0] if len(lists) == 2 else line)


if __name__ == "__main__":
    main()
