"""Measures how time and memory grow over three decades, and draws it: `asm` over sources of labels, and load with
`run` over captures, beside tcpdump -r where it is on the PATH. The kernel's bpf_asm refuses such sources.

growth.py PICTURE.svg [--callgrind]: the time is user and system time of whole processes, the median of 7 turns, or with
--callgrind their machine instructions by valgrind, which don't depend on the machine's load. The memory is the peak
of the process. Each program's answer is looked at before it is measured (answers.py). Needs cc and crates/cbpf built
by `make build`. Its lines: what, size: time or instructions, peak in MB
"""
import math
import pathlib
import shutil
import statistics
import sys

import answers
import assembler
import programs
import session

COUNTING = "--callgrind" in sys.argv[1:]
STEPS = [1] if session.ONLY_ANSWERS else [1, 10, 100, 1000]
ROUNDS = 7
LABELS = 1000
PACKETS = 1000
COLORS = {"cbpf": "#1f6fb2", "tcpdump": "#c25b1e"}
WIDTH, HEIGHT, LEFT, TOP, GAP = 300, 190, 60, 36, 90


def spent(process, *commands):
    """The time and the peak memory of each command, by turns."""
    each = [[str(word) for word in command] for command in commands]
    rounds = [[session.used(process, words) for words in each] for _ in range(1 if COUNTING else ROUNDS)]
    for place, words in enumerate(each):
        mine = [turn[place] for turn in rounds]
        if COUNTING:
            cost = session.counted(words)
        else:
            cost = statistics.median(used.seconds() for used in mine) * 1e3
        yield cost, max(used.peak for used in mine)


def assembled(folder, process):
    """The size of each source, and the time and the peak memory of `asm` over it."""
    source = folder / "source"
    points = []
    for step in STEPS:
        assembler.write(source, assembler.labels(f"l{i:07}" for i in range(LABELS * step)))
        answer, _ = answers.asked([session.cbpf, "asm", source])
        answers.same(session.cbpf, "1,6 0 0 0,\n", answer)
        points += [(source.stat().st_size, *each) for each in spent(process, [session.cbpf, "asm", source])]
    return {"cbpf": points}


def run(folder, process):
    """The number of packets of each capture, and the time and the peak memory of each program over it."""
    script = folder / "script"
    points = {"cbpf": []}
    if shutil.which("tcpdump"):
        points["tcpdump"] = []
    for step in STEPS:
        packets = PACKETS * step
        file = session.capture(folder / "packets", packets)
        script.write_text(f"load bpf {programs.SIX}\nload pcap {file}\nrun\n")
        passes = answers.counts(session.cbpf, script, packets)
        commands = [[session.cbpf, "dbg", script]]
        if "tcpdump" in points:
            answers.read_by_tcpdump(file, "ip proto 17", passes, 16 + len(session.FRAME))
            commands.append(["tcpdump", "-q", "-r", file, "--count", "ip proto 17"])
        for name, each in zip(points, spent(process, *commands)):
            points[name].append((packets, *each))
    return points


def label(value):
    """A power of ten, as `10k` or `1M`."""
    for unit, size in (("G", 10**9), ("M", 10**6), ("k", 10**3)):
        if value >= size:
            return f"{value / size:g}{unit}"
    return f"{value:g}"


def decades(values):
    """The powers of ten around the values, which may pass them by a hundredth."""
    least, most = math.floor(math.log10(min(values)) + 0.005), math.ceil(math.log10(max(values)) - 0.005)
    return range(least, max(most, least + 1) + 1)


def path(steps, color, width=1):
    """A line; a step of no length is a dot."""
    return f'<path d="{steps}" fill="none" stroke="{color}" stroke-width="{width}"/>'


def labels(anchor, places):
    """The labels of an axis, each with its place."""
    inner = "".join(f'<tspan x="{x}" y="{y}">{text}</tspan>' for x, y, text in places)
    return f'<text text-anchor="{anchor}">{inner}</text>'


def panel(x, y, title, series, names):
    """The lines of one panel: both axes go by powers of ten."""
    every = [point for points in series.values() for point in points]
    across, up = decades([size for size, _ in every]), decades([value for _, value in every])

    def place(size, value):
        right = (math.log10(size) - across[0]) / (across[-1] - across[0])
        high = (math.log10(value) - up[0]) / (up[-1] - up[0])
        return x + right * WIDTH, y + (1 - high) * HEIGHT

    yield f'<text x="{x}" y="{y - 12}" font-weight="bold">{title}</text>'
    rows = [(place(10 ** across[0], 10.0**power)[1], label(10.0**power)) for power in up]
    yield path("".join(f"M{x} {row:.1f}h{WIDTH}" for row, _ in rows), "#ddd")
    yield labels("end", [(x - 6, f"{row + 4:.1f}", text) for row, text in rows])
    columns = [(place(10.0**power, 10 ** up[0])[0], label(10.0**power)) for power in across]
    yield path("".join(f"M{column:.1f} {y}v{HEIGHT}" for column, _ in columns), "#ddd")
    yield labels("middle", [(f"{column:.1f}", y + HEIGHT + 16, text) for column, text in columns])
    yield f'<text x="{x + WIDTH / 2}" y="{y + HEIGHT + 34}" text-anchor="middle">{names}</text>'
    for name, points in series.items():
        places = [place(*point) for point in points]
        yield path("M" + "L".join(f"{column:.1f} {row:.1f}" for column, row in places), COLORS[name], 2)
        yield path("".join(f"M{column:.1f} {row:.1f}h0" for column, row in places), COLORS[name], 6)
        column, row = places[0]
        yield f'<text x="{column + 4:.1f}" y="{row - 18:.1f}" fill="{COLORS[name]}">{name}</text>'


def picture(works):
    """The panels of all works: time above, peak memory below."""
    cost = "machine instructions" if COUNTING else "ms of user and system time"
    lines = []
    for column, (what, axis, points) in enumerate(works):
        x = LEFT + column * (WIDTH + GAP)
        for row, (title, part) in enumerate([(cost, 1), ("peak memory, bytes", 2)]):
            series = {name: [(point[0], point[part]) for point in each] for name, each in points.items()}
            lines += panel(x, TOP + row * (HEIGHT + GAP), f"{what}: {title}", series, axis)
    width, height = LEFT + 2 * WIDTH + GAP + 30, TOP + 2 * HEIGHT + GAP + 50
    head = f'<svg xmlns="http://www.w3.org/2000/svg" viewBox="0 0 {width} {height}"\n'
    head += ' font-family="sans-serif" font-size="12" stroke-linecap="round">'
    return "\n".join([head, f'<rect width="{width}" height="{height}" fill="white"/>', *lines, "</svg>"]) + "\n"


def main(folder):
    process = session.compiled(folder, "process")
    if not process and not session.ONLY_ANSWERS:
        sys.exit("no cc")
    works = [
        ("asm", "bytes of source, a label a line", assembled(folder, process)),
        ("load and run", "packets of 64 bytes", run(folder, process)),
    ]
    if session.ONLY_ANSWERS:
        return
    for what, _, points in works:
        for program, each in points.items():
            for size, cost, peak in each:
                shown = f"{cost:,} machine instructions" if COUNTING else f"{cost:.2f} ms"
                print(f"{what} by {program}, {size:,}: {shown}, {peak / 1e6:.1f} MB")
    pathlib.Path(sys.argv[1]).write_text(picture(works))


if __name__ == "__main__":
    session.in_folder(main)
