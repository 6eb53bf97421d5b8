#!/usr/bin/env python3
"""model.py [--ties FILE]: reads from standard input what cheaper_draws reads and writes what it has to write (document 02, request 10).

By brute force: every order that itertools.permutations gives (they come in dictionary order), the prices by comparing lists, the floor by sets.
--ties FILE: writes to FILE for each line that is answered with an order how many of the orders tried have its price, otherwise 0."""
import itertools
import re
import sys

MOST = 4294967295     # a number
MOST_PIECES = 64      # of a line
LINE = 16384          # characters of a line
END = "one blank and a number, or the end of the line"
DIGITS = re.compile(r"[0-9]*")
NUMBER = re.compile(r"0|[1-9][0-9]{0,9}")


class Wrong(Exception):
    """What was expected, and at which character from 0 on."""


def numbers(line):
    """The numbers of a line, one after the other; each is asked for with the most that it may be, None for the end."""
    most, at = (yield), 0
    while True:
        word = DIGITS.match(line, at).group()
        if most is None:
            if at < len(line):
                raise Wrong(END, at)
            return
        if not NUMBER.fullmatch(word) or int(word) > most:
            raise Wrong(f"a number from 0 to {most}", at)
        at += len(word)
        if at < len(line):
            if line[at] != " " or at + 1 == len(line):
                raise Wrong(END, at)
            at += 1
        most = yield int(word)


def question(line):
    """The budget and the pieces, each a list of eighteen numbers."""
    if len(line) > LINE:
        raise Wrong(END, LINE)
    take = numbers(line)
    next(take)
    budget = take.send(MOST)
    count = take.send(MOST_PIECES)
    pieces = [[take.send(MOST) for _ in range(18)] for _ in range(count)]
    try:
        take.send(None)
    except StopIteration:
        pass
    return budget, pieces


def price(pieces, order):
    drawn = [pieces[place] for place in order]
    return sum(sum(x != y for x, y in zip(a, b)) for a, b in zip(drawn, drawn[1:]))


def answer(budget, pieces):
    """The line, and how many of the orders tried have the answer's price."""
    if len(pieces) > 8:
        return "refused 13", 0
    if budget == 0:
        return "refused 14", 0
    tried = itertools.islice(itertools.permutations(range(len(pieces))), budget)
    prices = [(price(pieces, order), order) for order in tried]
    cheapest = min(p for p, _ in prices)
    same = [order for p, order in prices if p == cheapest]
    floor = sum(len(set(values)) - 1 for values in zip(*pieces))
    return " ".join(["price", str(cheapest), "floor", str(floor), "order", *map(str, same[0])]), len(same)


def main():
    if sys.argv[1:] and (len(sys.argv) != 3 or sys.argv[1] != "--ties"):
        print(__doc__, file=sys.stderr)
        sys.exit(2)
    ties = open(sys.argv[2], "w") if sys.argv[1:] else None
    given = sys.stdin.buffer.read().decode("latin-1").split("\n")
    for number, line in enumerate(given[:-1] if given[-1] == "" else given, 1):
        try:
            said, same = answer(*question(line))
        except Wrong as wrong:
            print(f"error: line {number}: expected {wrong.args[0]} at character {wrong.args[1] + 1}")
            break
        print(said)
        if ties:
            print(same, file=ties)


main()
