#!/usr/bin/env python3
"""mkmaps.py < MAPS > OUTPUT: what the program `name_maps` must print, from what `oracle maps` prints (MAP PLACE NAME NUMBER a line).

Those lines as they stand, then for each map that document 02's request 2 reads back the entries inverted, a line a number:
`MAP reads NUMBER WORD`, or `MAP reads NUMBER refused 8` where the map gives the number for no name. The numbers are 0 to 16,
each entry with its neighbours, and the largest. A word is WebGPU's: the name in small letters, a hyphen before each capital but
the first. Nothing here comes from the library."""
import re
import sys

READ_BACK = ["compare", "topology", "front", "cull", "stencil_op", "blend_factor", "blend_op"]
LARGEST = 2**32 - 1


def word(name):
    return re.sub(r"(?<!^)(?=[A-Z])", "-", name).lower()


def main():
    lines = sys.stdin.read().splitlines()
    maps = {}
    for line in lines:
        name_of_map, _, name, number = line.split(" ")
        maps.setdefault(name_of_map, []).append((name, int(number)))
    out = list(lines)
    for name_of_map in READ_BACK:
        entries = maps[name_of_map]
        names = {}
        for name, number in entries:
            if number in names:
                sys.exit(f"mkmaps.py: {name_of_map} gives {number} twice")
            names[number] = name
        around = [m for _, n in entries for m in (n - 1, n, n + 1) if 0 <= m <= LARGEST]
        for n in [*range(17), *around, LARGEST]:
            out.append(f"{name_of_map} reads {n} {word(names[n]) if n in names else 'refused 8'}")
    sys.stdout.write("".join(line + "\n" for line in out))


main()
