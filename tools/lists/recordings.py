"""Random sessions of one list, for tools/boards.py and tools/trim.py: the Rust's generator makes them."""
import os
import subprocess
import sys
import tempfile

FULL = ["4096", "65536", "1024"]


def stop(message):
    sys.exit(f"{os.path.basename(sys.argv[0]).removesuffix('.py')}: {message}")


def built(given, source, folder, *options):
    """The program that source/build.sh makes with these options, or the one that is given."""
    if given:
        if not os.access(given, os.X_OK):
            stop(f"no program {given}")
        return os.path.abspath(given)
    made = os.path.join(folder, "program" + "".join(options))
    if subprocess.run([os.path.join(source, "build.sh"), made, *options]).returncode:
        sys.exit(2)
    return made


def sessions(oracle, calls, folder, first, end, *options):
    """The sessions of the seeds from first to end (without end): header and calls."""
    files = [os.path.join(folder, name) for name in ("flat", "out", "index")]
    words = [oracle, "batch", str(first), str(end), "--calls", str(calls), *options]
    if subprocess.run([*words, "--flat", files[0], "--out", files[1], "--index", files[2]], stdout=subprocess.DEVNULL).returncode:
        stop(f"the oracle failed on the seeds {first} to {end}")
    lines, made, at = open(files[0]).read().splitlines(), [], 0
    while at < len(lines):
        header = lines[at].split()
        made.append((header, lines[at + 1:at + 1 + int(header[7])]))
        at += 1 + int(header[7])
    return made


def is_call(line, *codes):
    return line.split()[1] in codes


def one_list(source, calls):
    """The calls of one list of a session: from the end of the list before it to its own end. It begins once, whatever is refused on another board."""
    ends = [i + 1 for i, line in enumerate(calls) if line.startswith("0 ") and is_call(line, "1")]
    parts = [calls[i:k] for i, k in zip([0, *ends], [*ends, len(calls)])]
    part = source.choice([part for part in parts if any(is_call(line, "0") for line in part)])
    first = next(i for i, line in enumerate(part) if is_call(line, "0"))
    return part[:first + 1] + [line for line in part[first + 1:] if not is_call(line, "0")]


def text_of(flags, room, calls):
    return "".join(line + "\n" for line in (" ".join([*flags, *room, str(len(calls))]), *calls))


def room_of(source):
    """Room for all, or little of it."""
    if source.random() < 0.85:
        return FULL
    return [str(source.choice((0, 5, 30, 100, 4096))), str(source.choice((0, 40, 65536))), str(source.choice((0, 2, 1024)))]


def kept(name, seed, text):
    """The text, left in a file."""
    path = os.path.join(tempfile.gettempdir(), f"{name}-{seed}.txt")
    with open(path, "w") as file:
        file.write(text)
    return path
