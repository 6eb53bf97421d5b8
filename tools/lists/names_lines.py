"""Seeded random command lines for list_names: numbers that the maps have, their neighbours, small ones, the largest and random ones."""
from names_model import FIELDS, LARGEST, MAPS

SIGNED = {(b"DrawIndexed", 4)}    # fields that stay and may be below 0
OPTIONAL = {b"Draw", b"DrawIndexed", b"DrawIndirect", b"DrawIndexedIndirect"}    # the last field is a number or `-`


class Lines:
    def __init__(self, rng, words):
        self.rng, self.words = rng, words
        self.entries = sorted({n for name in MAPS for n in words[name]})
        self.near = sorted({max(0, min(LARGEST, n + d)) for n in self.entries for d in (-1, 1)})

    def number(self, name):
        """A number for a field that is read back by a map; None: for one that stays."""
        kind = self.rng.randrange(10)
        if name and kind < 4:
            return self.rng.choice(sorted(self.words[name]))
        if kind < 6:
            return self.rng.choice(self.entries)
        if kind == 6:
            return self.rng.choice(self.near)
        if kind == 7:
            return self.rng.randrange(17)
        return self.rng.choice((LARGEST, LARGEST - 1)) if kind == 8 else self.rng.randrange(LARGEST + 1)

    def field(self, command, i, name):
        last = i == len(FIELDS[command]) - 1
        if command in OPTIONAL and last or (command, i) == (b"SetColorTarget", 0):
            if self.rng.randrange(2):
                return b"-"
        sign = b"-" if (command, i) in SIGNED and self.rng.randrange(2) else b""
        return sign + str(self.number(name)).encode()

    def line(self, number):
        command = self.rng.choice(list(FIELDS))
        fields = [self.field(command, i, name) for i, name in enumerate(FIELDS[command])]
        if command == b"SetColorTarget" and not self.rng.randrange(4):
            fields[2:] = [b"-"]
        return b" ".join([str(number).encode(), command, *fields])

    def wrong(self, number):
        """A line of a command with one damage; some damages leave it right."""
        line = self.line(number)
        words = line.split(b" ")
        at = self.rng.choice([0, *range(2, len(words))])
        kind = self.rng.randrange(9)
        if kind < 6:
            words[at] = (b"", b"0" + words[at], words[at] + b"x", b"+" + words[at], str(LARGEST + 1 + self.rng.randrange(2 ** 40)).encode(), b"-")[kind]
        elif kind == 6:
            del words[at]
        elif kind == 7:
            words.append(b"7")
        else:
            return line + (b" " + b"7" * self.rng.randrange(600) if self.rng.randrange(2) else b" ")
        return b" ".join(words)
