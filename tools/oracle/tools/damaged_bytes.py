"""Ways in which damage.py damages what a list has of immediates, labels and marker bytes. Each takes an output and answers it damaged, or as it is
where it has nothing of the kind."""


def renumbered(lines):
    """The commands count from 0 in each list, so that only what is missing or too much can be noticed."""
    done, n = [], 0
    for line in lines:
        n = 0 if line == "---" else n
        if line[0].isdigit():
            line, n = f"{n} {line.split(' ', 1)[1]}", n + 1
        done.append(line)
    return "\n".join(done) + "\n"


def commands(lines, name):
    """The lines of the commands of that name."""
    return [i for i, l in enumerate(lines) if l[0].isdigit() and l.split(" ", 2)[1] == name]


def with_bytes(line):
    """The command has marker bytes: where they begin and end."""
    word = line.split(" ")
    start, end = (int(word[6]), int(word[6]) + int(word[5])) if word[1] == "SetImmediates" else (int(word[2]), int(word[3]))
    return (start, end) if start < end else None


def bytes_after(lines, i):
    """The number of the line with the bytes of the list that line i is in."""
    return next(k for k in range(i, len(lines)) if lines[k].startswith("bytes "))


def on_one(name, change, fits=lambda line: True):
    """The change, at some command of that name."""
    def damaged(text):
        lines = text.splitlines()
        at = [i for i in commands(lines, name) if fits(lines[i])]
        return renumbered(change(lines, at[len(text) % len(at)])) if at else text
    return damaged


def field(name, place):
    """One field of a command and one more."""
    def change(lines, i):
        word = lines[i].split(" ")
        word[place] = str(int(word[place]) + 1)
        return lines[:i] + [" ".join(word)] + lines[i + 1:]
    return on_one(name, change)


def flipped(name):
    """A byte of a command's."""
    def change(lines, i):
        k, (start, end) = bytes_after(lines, i), with_bytes(lines[i])
        word = lines[k].split(" ")
        at = 2 + start + len(lines) % (end - start)
        word[at] = f"{int(word[at], 16) ^ 1:02x}"
        return lines[:k] + [" ".join(word)] + lines[k + 1:]
    return on_one(name, change, with_bytes)


def shifted(line, start, by):
    """A command whose bytes begin at or after a place, with them so much further on."""
    word = line.split(" ")
    for name, places in (("SetImmediates", (6,)), ("PushDebugGroup", (2, 3))):
        if word[1] == name and int(word[places[0]]) >= start:
            for place in places:
                word[place] = str(int(word[place]) + by)
    return " ".join(word)


def spliced(copies):
    """A command so many times, each with its own bytes; the bytes after them move."""
    def change(lines, i):
        k, (start, end) = bytes_after(lines, i), with_bytes(lines[i])
        digits = lines[k].split(" ")[2:]
        digits[start:end] = digits[start:end] * copies
        here = [shifted(lines[i], start, n * (end - start)) for n in range(copies)]
        after = [shifted(l, end, (copies - 1) * (end - start)) for l in lines[i + 1:k]]
        return lines[:i] + here + after + [" ".join(["bytes", str(len(digits)), *digits])] + lines[k + 1:]
    return on_one("SetImmediates", change, with_bytes)


def later(which):
    """An immediate behind the next command, some one of those that the next command is such for."""
    def damaged(text):
        lines = text.splitlines()
        at = [i for i in commands(lines, "SetImmediates") if which(lines[i + 1])]
        if not at:
            return text
        i = at[len(text) % len(at)]
        return renumbered(lines[:i] + [lines[i + 1], lines[i]] + lines[i + 2:])
    return damaged


def first_later(text):
    """The first immediate of an output, which both builds send, behind the next command."""
    lines = text.splitlines()
    i = next(iter(commands(lines, "SetImmediates")), None)
    if i is None or not lines[i + 1][0].isdigit():
        return text
    return renumbered(lines[:i] + [lines[i + 1], lines[i]] + lines[i + 2:])


def one_more(text):
    """A byte behind the others."""
    lines = text.splitlines()
    k = bytes_after(lines, 0)
    _, count, *digits = lines[k].split(" ")
    return "\n".join(lines[:k] + [" ".join(["bytes", str(int(count) + 1), *digits, "00"])] + lines[k + 1:]) + "\n"


def word_of_state(text):
    """Another word in the state."""
    lines = text.splitlines()
    at = next((i for i, l in enumerate(lines) if l.startswith("state word ")), None)
    return text if at is None else "\n".join(lines[:at] + [lines[at] + "1"] + lines[at + 1:]) + "\n"


WAYS = {
    **{f"{what} of an immediate": field("SetImmediates", place) for what, place in (("location", 2), ("type", 3), ("offset", 4), ("size", 5), ("place", 6))},
    "a byte of an immediate": flipped("SetImmediates"),
    "an immediate left out": on_one("SetImmediates", lambda lines, i: lines[:i] + lines[i + 1:]),
    "an immediate left out with its bytes": spliced(0),
    "an immediate twice": on_one("SetImmediates", lambda lines, i: lines[:i] + [lines[i]] + lines[i:]),
    "an immediate twice with its bytes": spliced(2),
    "an immediate behind a draw or dispatch": later(lambda line: line[0].isdigit() and line.split(" ")[1].startswith(("Draw", "Dispatch"))),
    "another program": field("SetProgram", 2),
    "a program left out": on_one("SetProgram", lambda lines, i: lines[:i] + lines[i + 1:]),
    "a byte of a label": flipped("PushDebugGroup"),
    "the start of a label": field("PushDebugGroup", 2),
    "the end of a label": field("PushDebugGroup", 3),
    "a byte too many": one_more,
    "a word of the state": word_of_state,
}
