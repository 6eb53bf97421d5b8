#!/usr/bin/env python3
"""mkrows.py: writes crates/cheaper_draws/stdin, and stdout by model.py. Two runs write the same."""
import os
import random
import subprocess
import sys

HERE = os.path.dirname(os.path.abspath(__file__))
CRATE = os.path.join(os.path.dirname(os.path.dirname(HERE)), "crates", "cheaper_draws")
MOST = 4294967295
BUDGETS = (0, 1, 2, 7, 100, 5039, 40319, 40320, MOST)
BY_INDEX = [[5] * 17 + [index] for index in (1, 2, 1)]


def row(budget, pieces):
    return " ".join(map(str, [budget, len(pieces), *(thing for piece in pieces for thing in piece)]))


def drawn(source, count, values):
    return [[source.randrange(values) for _ in range(18)] for _ in range(count)]


def one_slot(source, count):
    """Pieces that are equal but for one slot."""
    pieces = [[7] * 18 for _ in range(count)]
    slot = source.randrange(1, 17)
    for piece in pieces:
        piece[slot] = source.randrange(3)
    return pieces


def by_hand(source):
    large = [[MOST - i * t % 3 for t in range(18)] for i in range(5)]
    yield from (row(budget, BY_INDEX) for budget in (1, 2, 6))
    yield from (row(budget, [[3] * 18] * 8) for budget in (1, MOST))
    yield from (row(budget, one_slot(source, 8)) for budget in (1, 40320, MOST))
    yield from (row(120, [[int(t == i) for t in range(18)] for i in range(first, first + 5)]) for first in (0, 13))
    yield row(MOST, large)
    yield row(MOST, [[MOST] * 18, [0] * 18, [MOST] * 18])
    yield row(0, drawn(source, 9, 2))
    yield row(1, drawn(source, 64, MOST + 1))
    yield row(0, [])
    yield row(1, [])


def rows(source):
    for count in range(10):
        for budget in BUDGETS:
            yield row(budget, drawn(source, count, 2))
            yield row(budget, drawn(source, count, 5))
    yield from by_hand(source)
    yield row(6, BY_INDEX) + " "
    yield row(6, BY_INDEX)


def main():
    given = "".join(line + "\n" for line in rows(random.Random(10))).encode()
    p = subprocess.run([sys.executable, os.path.join(HERE, "model.py")], input=given, capture_output=True)
    if p.returncode or p.stderr:
        sys.exit(f"mkrows.py: model.py stops with status {p.returncode}\n{p.stderr.decode()}")
    for name, text in (("stdin", given), ("stdout", p.stdout)):
        with open(os.path.join(CRATE, name), "wb") as f:
            f.write(text)


main()
