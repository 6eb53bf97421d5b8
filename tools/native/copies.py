#!/usr/bin/env python3
"""copies.py PROGRAM INPUT TURNS [--each N]: how many bytes PROGRAM copies a turn, by function; INPUT is its standard input, TURNS
the turns that it makes. Counted are calls of memcpy and memmove of 64 bytes and more, exactly, so other work on the machine
does not matter. With --each also the N largest places of each function. PROGRAM is one that build.py made with --plain. Needs gcc and nm."""
import argparse
import bisect
import collections
import os
import subprocess
import sys
import tempfile

HERE = os.path.dirname(os.path.abspath(__file__))


def functions(program):
    """The functions of a program, by where they begin."""
    lines = subprocess.run(["nm", "-C", "--defined-only", program], capture_output=True, text=True, check=True).stdout.splitlines()
    return sorted((int(place, 16), name) for place, _, name in (line.split(" ", 2) for line in lines))


def counts(program, path):
    """(place, size, count) of each copy."""
    with tempfile.TemporaryDirectory() as folder:
        library, out = os.path.join(folder, "copies.so"), os.path.join(folder, "counts")
        subprocess.run(["gcc", "-O1", "-fno-builtin", "-shared", "-fPIC", os.path.join(HERE, "copies.c"), "-o", library, "-ldl"], check=True)
        with open(path) as text:
            subprocess.run([os.path.abspath(program)], stdin=text, stdout=subprocess.DEVNULL, env={"LD_PRELOAD": library, "COPIES": out}, check=True)
        for line in open(out):
            place, size, count = line.split()
            yield int(place, 16), int(size), int(count)


def main():
    parser = argparse.ArgumentParser(prog="copies.py")
    parser.add_argument("program")
    parser.add_argument("input")
    parser.add_argument("turns", type=int)
    parser.add_argument("--each", type=int, default=0)
    args = parser.parse_args()
    if args.turns < 1:
        sys.exit("copies.py: TURNS is 1 or more")
    known = functions(args.program)
    starts = [place for place, _ in known]
    found = collections.defaultdict(list)
    for place, size, count in counts(args.program, args.input):
        name = known[bisect.bisect(starts, place) - 1][1]
        found[name].append((size * count / args.turns, size, count / args.turns))
    sums = {name: sum(row[0] for row in rows) for name, rows in found.items()}
    print(f"{sum(sums.values()):.0f} bytes a turn")
    for name in sorted(sums, key=sums.get, reverse=True):
        if sums[name] < 1:
            continue
        print(f"{sums[name]:8.0f}  {name}")
        for total, size, count in sorted(found[name], reverse=True)[:args.each]:
            print(f"          {total:8.0f} = {count:.2f} of {size}")


main()
