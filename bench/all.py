#!/usr/bin/env python3
"""Runs the measures of this folder, and writes the tables of bench/RESULTS.md and the picture bench/growth.svg.

all.py [--times]: machine instructions, page faults, peak memory, and times by turns as ratios are written at any load
of the machine, which the page names. Times alone are written only where the load is below 0.5 at first, or with
--times; else the page keeps those that it has. Peers that are missing are named and left out. Where a program answers
something else than what is measured, its script says so, and page and picture stay as they were. Needs crates/cbpf
built by `make build`; bench/README.md says what else is used.
"""
import os
import pathlib
import re
import shutil
import subprocess
import sys
import tempfile
import time

import session

BENCH = pathlib.Path(__file__).resolve().parent
PAGE = BENCH / "RESULTS.md"
QUIET = 0.5
NUMBER = r"(-?[\d.,]+)"


written = {}


def lines_of(script, *words):
    """The lines that a script of this folder prints; they are printed here too."""
    print(f"-- {script} {' '.join(words)}".rstrip(), flush=True)
    began = time.time()
    lines = []
    with subprocess.Popen([sys.executable, BENCH / script, *words], stdout=subprocess.PIPE, text=True) as running:
        for line in running.stdout:
            print(line, end="", flush=True)
            lines.append(line.rstrip("\n"))
    if running.returncode:
        sys.exit(f"{script} ended with status {running.returncode}: {PAGE.name} and the picture stay as they were.")
    print(f"-- {script}: {time.time() - began:.0f} s", flush=True)
    return lines


def table(head, rows):
    lines = ["| " + " | ".join(row) + " |" for row in [head, *rows]]
    return [lines[0], "|" + "---|" * len(head), *lines[1:]]


def matched(pattern, lines):
    """The groups of the pattern in each line that it fits as a whole."""
    return [found.groups() for found in map(re.compile(pattern).fullmatch, lines) if found]


def put(name, lines):
    """Keeps lines for the page, to stand between the markers of this name."""
    written[name] = lines


def write_page():
    text = PAGE.read_text()
    for name, lines in written.items():
        begin, end = f"<!-- {name}, by bench/all.py -->\n", f"<!-- end of {name} -->\n"
        before, rest = text.split(begin)
        _, after = rest.split(end)
        text = before + begin + "\n".join(["", *lines, "", ""]) + end + after
    PAGE.write_text(text)


def processes():
    units = ["machine instructions", "page faults", "MB", "times as long"]
    rows = []
    for line in lines_of("processes.py"):
        what, _, parts = line.partition(": ")
        found = [matched(f"{NUMBER} {unit}", parts.split(", ")) for unit in units]
        rows.append([what] + [each[0][0] if each else "" for each in found])
    head = ["process", "machine instructions", "page faults", "peak memory in MB", "time as a ratio to `cbpf`'s"]
    return table(head, rows)


def counts(lines):
    """Machine instructions, with what they stand beside where there is such."""
    pattern = rf"(.+): {NUMBER} machine instructions (.+?)(?:, {NUMBER} times (.+) \({NUMBER}\))?"
    for work, ours, unit, ratio, than, theirs in matched(pattern, lines):
        yield work, f"{ours} {unit}", f"{ratio} times {than}" if ratio else "", theirs or ""


def turns(lines):
    """Ratios of times that were measured by turns: of the medians, as others' work may spoil the least. Last is where
    the loops of both lie, if that was asked."""
    pattern = rf"(.+): .+, {NUMBER} times (.+) \([\d.]+ of the least(?:; loops at (.+))?\)"
    return [(work, than, ratio, places or "") for work, ratio, than, places in matched(pattern, lines)]


def left_out(lines):
    """What a script left out, in its own words."""
    return [f"L{line[1:]}." for line in dict.fromkeys(lines) if line.startswith("left out: ")]


def loads(lines):
    """What loads take, beside C programs."""
    pattern = rf"(.+), packets of (\d+) bytes: .+ ms, {NUMBER} page faults, {NUMBER} MB, {NUMBER} % in the kernel, {NUMBER} times load pcap"
    rows = [(size, work, *rest) for work, size, *rest in matched(pattern, lines)]
    head = ["bytes of a packet", "work", "page faults", "peak memory in MB", "% in the kernel", "time as a ratio to `load pcap`'s"]
    return table(head, rows) + [""] * bool(left_out(lines)) + left_out(lines)


def beside_tcpdump(lines):
    """Load and run as ratios to each of tcpdump's two ways, a column each."""
    rows, peers = {}, []
    for work, than, ratio, _ in turns(lines):
        if than not in peers:
            peers.append(than)
        rows.setdefault(work, {})[than] = ratio
    head = ["work", *(f"ratio to `{peer.replace('tcpdump', 'tcpdump -r', 1)}`" for peer in peers)]
    return table(head, [[work, *(each.get(peer, "") for peer in peers)] for work, each in rows.items()])


def beside_why(lines):
    """`why` and the debugger over captures of 1 GB, beside the first program of each capture."""
    pattern = rf"(.+), {NUMBER} packets of (\d+) bytes: {NUMBER} ms, {NUMBER} MB, {NUMBER} times (.+)"
    rows = [(size, packets, work, peak, ratio) for work, packets, size, _, peak, ratio, _ in matched(pattern, lines)]
    than = next((found[-1] for found in matched(pattern, lines)), "tcpdump --count").replace("tcpdump", "tcpdump -r", 1)
    head = ["bytes of a packet", "packets", "work", "peak memory in MB", f"time as a ratio to `{than}`'s"]
    return table(head, rows) + [""] * bool(left_out(lines)) + left_out(lines)


def sources():
    """A table of sources with one size, and one of those that grow."""
    rows = matched(rf"(.+), {NUMBER} MB: {NUMBER} ms, {NUMBER} MB", lines_of("assembler.py"))
    sizes = {}
    for what, size, spent, peak in rows:
        sizes.setdefault(what, []).append((size, spent, peak))
    single = [(what, *each[0]) for what, each in sizes.items() if len(each) == 1]
    growing = [(what, *(spent for _, spent, _ in each)) for what, each in sizes.items() if len(each) > 1]
    yield "sources", table(["source", "size in MB", "time in ms", "peak memory in MB"], single)
    yield "sizes", table(["time in ms of growing sources", "0.01 MB", "0.1 MB", "1 MB", "10 MB"], growing)


def growth(quiet, picture):
    words = [str(picture)] + ([] if quiet else ["--callgrind"])
    cost = "ms" if quiet else "machine instructions"
    rows = matched(rf"(.+), {NUMBER}: {NUMBER} {cost}, {NUMBER} MB", lines_of("growth.py", *words))
    return table(["work", "bytes or packets", "time in ms" if quiet else cost, "peak memory in MB"], rows)


def absent():
    """The peers and tools that are missing."""
    tools = ["tcpdump", "bpf_asm", "bpfc", "bpf_dbg", "valgrind", "cc"]
    names = [tool for tool in tools if not shutil.which(tool)]
    with tempfile.TemporaryDirectory() as folder:
        if "cc" not in names and not session.compiled(pathlib.Path(folder), "bpf_filter", "-lpcap"):
            names.append("libpcap-dev")
    return names


def measure(said, quiet, missing, picture):
    put("processes", [said, "", *processes()])
    if "valgrind" not in missing:
        scripts = ["session.py", "debugger.py", "loading.py", "why.py"]
        rows = [row for script in scripts for row in counts(lines_of(script, "--callgrind"))]
        put("instructions", table(["work", "machine instructions", "beside", "which takes"], rows))
    loading = lines_of("loading.py") if "cc" not in missing else []
    if loading:
        put("loads", [said, "", *loads(loading)])
    if "cc" not in missing:
        put("why", [said, "", *beside_why(lines_of("why.py"))])
    if "tcpdump" not in missing and loading:
        put("tcpdump", [said, "", *beside_tcpdump(loading)])
    lines = lines_of("session.py") + lines_of("debugger.py")
    head = ["work", "beside", "ratio of the medians", "addresses of both loops modulo 64"]
    put("ratios", [said, "", *table(head, turns(lines))])
    if "cc" not in missing and (quiet or "valgrind" not in missing):
        put("growth", growth(quiet, picture))
    if quiet and "cc" not in missing:
        for name, rows in sources():
            put(name, rows)


def main():
    began = time.time()
    load = os.getloadavg()[0]
    quiet = load < QUIET or "--times" in sys.argv[1:]
    missing = absent()
    said = f"A load of {load:.1f} on {os.cpu_count()} processors at first."
    said += f" Missing: {', '.join(missing)}." if missing else ""
    print(said + ("" if quiet else " Times alone are left as they are."), flush=True)
    with tempfile.TemporaryDirectory() as folder:
        picture = pathlib.Path(folder) / "growth.svg"
        measure(said, quiet, missing, picture)
        write_page()
        if picture.exists():
            shutil.copy(picture, BENCH / "growth.svg")
    print(f"{time.time() - began:.0f} s in all", flush=True)


if __name__ == "__main__":
    main()
