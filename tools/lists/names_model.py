#!/usr/bin/env python3
"""names_model.py MAPS < PRINTED > NAMED: what the program list_names has to write for a printed form (tools/oracle/README.md, 'Output grammar').

MAPS is a file with the output of `oracle maps`. A name is spelled as WebGPU does by a rule: a hyphen before each capital but the first, all in small
letters. Shares no code with the library."""
import collections
import re
import sys

LONGEST = 512    # bytes of a line that is printed
LARGEST = 2 ** 32 - 1
NUMBER = re.compile(rb"0|[1-9][0-9]*")
MAPS = ("compare", "topology", "front", "cull", "stencil_op", "blend_factor", "blend_op")
BLEND = ["blend_factor", "blend_factor", "blend_op"]
# a command's fields: the map of a number that is read back, None where a field stays
FIELDS = {
    b"Draw": ["topology"] + [None] * 5,
    b"DrawIndexed": ["topology"] + [None] * 7,
    b"DrawIndirect": ["topology"] + [None] * 3,
    b"DrawIndexedIndirect": ["topology"] + [None] * 4,
    b"SetPrimitive": ["front", "cull", None, None],
    b"SetDepth": ["compare", None],
    b"SetStencilFunc": [None, "compare", None, None],
    b"SetStencilOps": [None, None, "stencil_op", "stencil_op", "stencil_op"],
    b"SetColorTarget": [None, None, *BLEND, *BLEND],
}


class Wrong(Exception):
    """What was expected at a character of a line, from 1."""


def spelled(name):
    return re.sub(r"(?!^)([A-Z])", r"-\1", name).lower().encode()


def read_maps(text):
    """Of each map the words by number."""
    words = {name: {} for name in MAPS}
    for line in text.splitlines():
        name, _, word, number = line.split()
        if name in words:
            words[name].setdefault(int(number), spelled(word))
    if not all(words.values()):
        sys.exit("names_model.py: a map is missing")
    return words


class Model:
    """Names by the maps, and counts: lines by command, (map, word) shown, numbers left bare by map."""
    def __init__(self, maps):
        self.words = read_maps(maps)
        self.lines, self.shown, self.bare = collections.Counter(), collections.Counter(), collections.Counter()

    def missing(self):
        """The names that were never shown."""
        return [f"{name} {word.decode()}" for name in MAPS for word in self.words[name].values() if not self.shown[name, word]]

    def field(self, word, name, at):
        if name is None:
            if not word:
                raise Wrong(f"a word at character {at}")
            return word
        number = int(word) if NUMBER.fullmatch(word) else LARGEST + 1
        if number > LARGEST:
            raise Wrong(f"a number from 0 to {LARGEST} at character {at}")
        known = self.words[name].get(number)
        if known is None:
            self.bare[name] += 1
            return word
        self.shown[name, known] += 1
        return known

    def command(self, line):
        words = line.split(b" ")
        number = NUMBER.fullmatch(words[0])
        if not number or int(words[0]) > LARGEST:
            raise Wrong(f"a number from 0 to {LARGEST} at character 1")
        fields = FIELDS[words[1]]
        if words[1] == b"SetColorTarget" and words[4:5] == [b"-"]:
            fields = [None] * 3
        made, at = words[:2], len(words[0]) + len(words[1]) + 2
        for i, name in enumerate(fields):
            word = words[2 + i] if 2 + i < len(words) else b""
            made.append(self.field(word, name, min(at, len(line)) + 1))
            at += len(word) + 1
        if at <= len(line):
            raise Wrong(f"the end of the line at character {at}")
        self.lines[words[1].decode()] += 1
        return b" ".join(made)

    def line(self, line):
        """What is printed for a line, None for nothing."""
        words = line[:LONGEST].split(b" ", 2)
        asked = len(words) > 1 and words[1] in FIELDS
        whole = line in (b"---", b"===") or line.startswith(b"error:")
        if not (asked or whole):
            return None
        if len(line) > LONGEST:
            raise Wrong(f"the end of the line at character {LONGEST + 1}")
        return line if whole else self.command(line)

    def named(self, printed):
        """What is printed for a text."""
        made = []
        for i, line in enumerate(printed.split(b"\n")[:-1] if printed.endswith(b"\n") else printed.split(b"\n")):
            try:
                shown = self.line(line)
            except Wrong as wrong:
                return made + [f"error: line {i + 1}: expected {wrong}".encode()]
            if shown is not None:
                made.append(shown)
        return made


def main():
    if len(sys.argv) != 2:
        sys.exit(__doc__)
    with open(sys.argv[1]) as file:
        model = Model(file.read())
    for line in model.named(sys.stdin.buffer.read()):
        sys.stdout.buffer.write(line + b"\n")


if __name__ == "__main__":
    main()
