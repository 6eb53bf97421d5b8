#!/usr/bin/env python3
"""run.py [--times N] DIR...: ns per group of calls, smallest/median over the runs of each DIR/program.

A program runs each pattern of calls 11 times. It is started N times (6 if not given), in turn with
the others. Prints a line a program. Ends with status 1 if a call was refused, or if two programs
wrote different commands.
"""
import argparse
import os
import statistics
import subprocess
import sys

# mode of the program, title, turns that make one group of calls
PATTERNS = ((1, 'set', 1), (2, 'draw', 1), (3, 'set+draw', 2), (4, '2set+draw', 4), (5, 'draw, instance', 1))


def once(path):
    """One start: a list of (mode, ns a turn, refused calls, weight of the command list)."""
    lines = subprocess.run([path], stdout=subprocess.PIPE, text=True, check=True).stdout.split('\n')
    turns = int(lines[-2])
    rows = [[int(word) for word in line.split()] for line in lines[:-2]]
    return [(mode, ns / turns, refused, weight) for mode, ns, _, refused, weight in rows]


def main():
    words = argparse.ArgumentParser()
    words.add_argument('--times', type=int, default=6)
    words.add_argument('dir', nargs='+')
    words = words.parse_args()

    times = {d: {} for d in words.dir}
    lists = {}
    for _ in range(words.times):
        for d in words.dir:
            rows = once(os.path.join(os.path.abspath(d), 'program'))
            if any(refused for _, _, refused, _ in rows):
                sys.exit(f'run.py: {d}: a call was refused')
            for mode, ns, _, _ in rows:
                times[d].setdefault(mode, []).append(ns)
            lists.setdefault(tuple((mode, weight) for mode, _, _, weight in rows), d)
    if len(lists) > 1:
        sys.exit('run.py: different commands: ' + ', '.join(lists.values()))

    print(f"{'program':16}{'bytes':>6}{'empty':>7}" + ''.join(f'{title:>16}' for _, title, _ in PATTERNS))
    for d in words.dir:
        t = times[d]
        with open(os.path.join(d, 'program.size')) as file:
            size = file.read().strip()
        cells = ''.join(f'{min(t[m]) * k:.1f}/{statistics.median(t[m]) * k:.1f}'.rjust(16) for m, _, k in PATTERNS)
        print(f'{os.path.basename(d):16}{size:>6}{min(t[0]):7.1f}{cells}')


if __name__ == '__main__':
    main()
