"""Times the assembler, and prints its peak memory: hostile sources, a large source with many labels, and sources
of growing size.

User and system time of whole processes. Each run is followed by one of a source with a single instruction, whose
time is taken away; of the differences the median is printed. What the source is answered is looked at before it is
timed (answers.py). Needs cc, and crates/cbpf built by `make build`.
"""
import itertools
import statistics

import answers
import session

cbpf = session.cbpf

LABELS = 2000


def beyond_start(process, source, start, rounds, status):
    """The median of the seconds that a source takes beyond the program's start, and the peak memory."""
    longer, least = [], []
    for _ in range(rounds):
        longer.append(session.used(process, [cbpf, "asm", source], status=status))
        least.append(session.used(process, [cbpf, "asm", start]))
    spent = statistics.median(one.seconds() - other.seconds() for one, other in zip(longer, least))
    return spent, max(one.peak for one in longer)


def write(path, pieces):
    with open(path, "w") as file:
        file.writelines(pieces)


def with_labels():
    """4000 instructions with 2000 labels, each but the last two with two branches to the next labels."""
    lines = []
    for i in range(LABELS - 2):
        lines.append(f"l{i}: ldh [{i}]\n")
        lines.append(f"jeq #0x{i:x}, l{i + 1}, l{i + 2}\n")
    lines.append(f"l{LABELS - 2}: tax\ntxa\n")
    lines.append(f"l{LABELS - 1}: tax\nret #-1\n")
    return "".join(lines)


def without_labels():
    """4000 instructions, a line each."""
    lines = [f"ldh [{i}]\nadd #0x{i:x}\n" for i in range(1999)]
    return "".join([*lines, "tax\nret #-1\n"])


def labels(names):
    return itertools.chain((f"{name}:\n" for name in names), ["ret #0\n"])


def plain(count):
    """Names of eight letters, which spell numbers."""
    return (f"{i:08}".translate(str.maketrans("0123456789", "abcdefghij")) for i in range(count))


def colliding(count):
    """Names of eight letters that begin the probes of a hash table at one group, for a hasher without a key.

    The program that prints them hashes names as the toolchain's `FoldHasher` does from its fixed seed, until enough
    have the same 14 lowest bits: a minute or two for a million.
    """
    if session.ONLY_ANSWERS:
        yield from plain(count)
        return
    printed, _ = session.in_folder(lambda folder: answers.asked([session.compiled(folder, "colliding_names"), count]))
    names = printed.splitlines()
    are_so = len(names) == count and all(len(name) == 8 for name in names)
    answers.holds("colliding_names", are_so, f"{count} names of eight letters", f"{len(names)} names")
    yield from names


def repeated(unit, size):
    """So many bytes of a unit, in pieces of at most a megabyte."""
    while size >= len(unit):
        piece = unit * (min(size, 10**6) // len(unit))
        yield piece
        size -= len(piece)


# How the answers begin: words, or a refusal.
ONE = "1,6 0 0 0,\n"
MISPLACED = "cbpf: line 1: A4 "
HOSTILE = [
    ("`y` and newlines", repeated("y\n", 10**8), 3, "cbpf: line 2: A4 "),
    ("`ret #0`", repeated("ret #0\n", 21 * 10**6), 3, "cbpf: line 4097: A10 "),
    ("`b:`", repeated("b:", 30 * 10**6), 3, "cbpf: line 1: A5 "),
    ("2000000 labels", labels(f"l{i}" for i in range(2 * 10**6)), 3, ONE),
    ("32768 labels, plain", labels(plain(32768)), 11, ONE),
    ("32768 labels whose names collide", labels(colliding(32768)), 11, ONE),
    ("100000 labels, plain", labels(plain(100000)), 11, ONE),
    ("100000 labels whose names collide", labels(colliding(100000)), 11, ONE),
]

def instructions(size, line):
    """The answer to so many bytes of `ret #0` and a blank or a line end, with instruction 4097 in this line."""
    count = size // 7
    return f"{count},6 0 0 0," if count <= 4096 else f"cbpf: line {line}: A10 "


GROWING = [
    ("one comment", lambda size: itertools.chain(["/*"], repeated("*", size), ["*/ ret #0\n"]), lambda size: ONE),
    ("blanks", lambda size: itertools.chain(repeated(" ", size), ["ret #0\n"]), lambda size: ONE),
    ("lines of comment", lambda size: itertools.chain(repeated("; comment\n", size), ["ret #0\n"]), lambda size: ONE),
    ("one long line of misplaced numbers", lambda size: repeated("1 ", size), lambda size: MISPLACED),
    ("one long line of instructions", lambda size: repeated("ret #0 ", size), lambda size: instructions(size, 1)),
    ("one long word", lambda size: itertools.chain(repeated("a", size), [": ret #0\n"]), lambda size: ONE),
    ("labels", lambda size: labels(f"l{i:06}" for i in range(size // 9)), lambda size: ONE),
    ("labels whose names collide", lambda size: labels(colliding(size // 10)), lambda size: ONE),
    ("instructions", lambda size: repeated("ret #0\n", size), lambda size: instructions(size, 4097)),
]


def main(folder):
    process = session.compiled(folder, "process")
    path, start = folder / "source", folder / "start"
    write(start, ["ret #0\n"])

    def row(what, pieces, rounds, wanted):
        write(path, pieces)
        refused = int(wanted.startswith("cbpf:"))
        answer = answers.asked([cbpf, "asm", path], status=refused)[refused]
        answers.holds(cbpf, answer.startswith(wanted), repr(wanted), answer)
        spent, peak = beyond_start(process, path, start, rounds, refused)
        size = path.stat().st_size
        print(f"{what}, {size / 1e6:.2f} MB: {spent * 1e3:.2f} ms, {peak / 1e6:.1f} MB", flush=True)

    row("4000 instructions with 2000 labels", [with_labels()], 51, "4000,40 0 0 0,21 0 2 0,")
    steps = [(10**4, 51), (10**5, 31), (10**6, 9), (10**7, 3)]
    if session.ONLY_ANSWERS:
        steps = steps[:1]
    else:
        for what, pieces, rounds, wanted in HOSTILE:
            row(what, pieces, rounds, wanted)
    for what, pieces, wanted in GROWING:
        for size, rounds in steps:
            row(what, pieces(size), rounds, wanted(size))


if __name__ == "__main__":
    session.in_folder(main)
