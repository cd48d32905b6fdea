"""Times what loading a capture costs, beside C programs that only bring the file into memory (reading.c), and load with
run beside tcpdump -r, which counts the packets that pass, or writes them to /dev/null.

User and system time of whole processes, by turns: the ratios are of medians. The captures were just written, so the
kernel has them in memory. `large pages` is GLIBC_TUNABLES=glibc.malloc.hugetlb=1, which the C programs get as well.
glibc 2.36 may take it at some starts only: so a start without them, which its page faults tell, is made again. Each
program's answer is looked at before it is timed (answers.py). What is missing is left out, and so is the capture of
1 GB where disk or memory have no room for it, which a line says. Needs cc, and crates/cbpf built by `make build`.

`loading.py --callgrind` counts the machine instructions of a load in their place, by valgrind.
"""
import dataclasses
import os
import pathlib
import re
import shutil
import statistics
import sys

import answers
import programs
import session

cbpf = session.cbpf

LARGE_PAGES = {**os.environ, "GLIBC_TUNABLES": "glibc.malloc.hugetlb=1"}
# Bytes of a packet, and packets: some 80 to 90 MB.
CAPTURES = [(64, 1_000_000), (200, 400_000), (1500, 60_000)]
# 1.08 GB, which only `make bench` loads: a lower limit of captures shows nowhere else.
GIGABYTE = (200, 5_000_000)
COUNTED_PACKETS = 1_000
ROUNDS = 7
ROUNDS_OF_GIGABYTE = 3
STARTS = 30
PAGE = os.sysconf("SC_PAGE_SIZE")
UDP = 17
UDP_FILTER = ("ip proto 17", programs.SIX)


def frames(size):
    """A frame of TCP over IPv4, and one of UDP."""
    return [session.FRAME[:23] + bytes([protocol]) + bytes(size - 24) for protocol in (6, UDP)]


def size_of(packets, size):
    return 24 + packets * (16 + size)


def memory_left():
    found = re.search(r"MemAvailable: +(\d+) kB", pathlib.Path("/proc/meminfo").read_text())
    return int(found[1]) * 1024 if found else 0


def has_room(folder, wanted):
    """Whether disk and memory have room for a capture of so many bytes: for the kernel's copy of the file and the
    debugger's own, and as much again for the others."""
    return shutil.disk_usage(folder).free >= 2 * wanted and memory_left() >= 4 * wanted


@dataclasses.dataclass
class Work:
    """A command, whether it is to get large pages, and what it took in each of its turns."""

    what: str
    command: list
    large_pages: bool = False
    reply: str = ""
    turns: list = dataclasses.field(default_factory=list)

    def median(self, part):
        return statistics.median(part(used) for used in self.turns)

    def seconds(self):
        return self.median(session.Used.seconds)


def take_turns(process, works, file, rounds):
    """Runs the works by turns; those with large pages until they got them, or that many starts were without: these are
    named, and left out."""
    small = file.stat().st_size / PAGE
    lost = set()
    for _ in range(rounds):
        for work in works:
            if work.what in lost:
                continue
            for _ in range(STARTS if work.large_pages else 1):
                used = session.used(process, work.command, env=LARGE_PAGES if work.large_pages else None)
                if not work.large_pages or used.faults < small / 2:
                    work.turns.append(used)
                    break
            else:
                lost.add(work.what)
    for what in sorted(lost):
        print(f"left out: {what}, as no start got large pages", flush=True)
    return [work for work in works if work.what not in lost]


def floors(folder, file, packets, size):
    """A load by cbpf, and the least that a C program takes for the same bytes."""
    script = session.script(folder, f"load pcap {file}\n")
    reading = session.compiled(folder, "reading")
    reply = f"pcap: {packets} packets\n"
    yield Work("load pcap", [cbpf, "dbg", script], reply=reply)
    yield Work("load pcap, large pages", [cbpf, "dbg", script], True, reply)
    counted, alone = (f"bytes:{size_of(packets, size)} records:{count}\n" for count in (packets, 0))
    for what, way in [("zeros and reads", "zeroed"), ("reads", "plain")]:
        yield Work(f"C, {what}", [reading, way, file], reply=alone)
        yield Work(f"C, {what}, the records", [reading, way, file, "records"], reply=counted)
        yield Work(f"C, {what}, the records, large pages", [reading, way, file, "records"], True, counted)
    yield Work("C, mmap, the records", [reading, "mapped", file, "records"], reply=counted)


def print_loads(folder, process, file, packets, size):
    """What a load takes, beside the least that a program needs for the same bytes."""
    works = list(floors(folder, file, packets, size))
    for work in works:
        answers.same(work.command[0], work.reply, answers.asked(work.command)[0])
    works = take_turns(process, works, file, ROUNDS)
    base = works[0].seconds()
    for work in works:
        spent = work.seconds()
        print(
            f"{work.what}, packets of {size} bytes: {spent * 1e3:.1f} ms, {work.median(lambda used: used.faults):.0f} page"
            f" faults, {max(used.peak for used in work.turns) / 1e6:.1f} MB,"
            f" {work.median(lambda used: used.system) / spent * 100:.0f} % in the kernel, {spent / base:.2f} times load pcap",
            flush=True,
        )


def print_beside_tcpdump(folder, process, what, file, packets, size, filter_, rounds):
    """Load and run beside tcpdump over the same capture: two ways of each, by turns."""
    expression, words = filter_
    script = session.script(folder, f"load bpf {words}\nload pcap {file}\nrun\n")
    passes = answers.counts(cbpf, script, packets)
    answers.read_by_tcpdump(file, expression, passes, 16 + size)
    reading = ["tcpdump", "-q", "-r", file]
    peers = [
        Work("tcpdump --count", [*reading, "--count", expression]),
        Work("tcpdump -w /dev/null", [*reading, "-w", "/dev/null", expression]),
    ]
    ours = [
        Work("load and run", [cbpf, "dbg", script]),
        Work("load and run with large pages", [cbpf, "dbg", script], True),
    ]
    done = take_turns(process, ours + peers, file, rounds)
    for work in [each for each in ours if each in done]:
        for peer in peers:
            least = min(map(session.Used.seconds, work.turns)) / min(map(session.Used.seconds, peer.turns))
            print(
                f"{work.what}, {what}, {expression}, {passes:,} of {packets:,} pass:"
                f" {work.seconds() / packets * 1e9:.0f} ns a packet, {work.seconds() / peer.seconds():.2f} times"
                f" {peer.what} ({least:.2f} of the least)",
                flush=True,
            )


def print_gigabyte(folder, process):
    size, packets = GIGABYTE
    if not has_room(folder, size_of(packets, size)):
        print("left out: the capture of 1 GB, as disk or memory have no room", flush=True)
        return
    file = session.capture(folder / "gigabyte", packets, frames(size))
    what = f"1 GB in packets of {size} bytes"
    print_beside_tcpdump(folder, process, what, file, packets, size, UDP_FILTER, ROUNDS_OF_GIGABYTE)
    file.unlink()


def print_times(folder):
    process = session.compiled(folder, "process")
    if not process:
        sys.exit("no cc")
    for size, packets in CAPTURES:
        file = session.capture(folder / "capture", packets, frames(size))
        print_loads(folder, process, file, packets, size)
        if shutil.which("tcpdump"):
            for filter_ in [UDP_FILTER] + [("port 22", programs.PORT)] * (size == 64):
                print_beside_tcpdump(folder, process, f"packets of {size} bytes", file, packets, size, filter_, ROUNDS)
    if shutil.which("tcpdump"):
        print_gigabyte(folder, process)


def print_counts(folder):
    """The machine instructions of a load, less those of a load of half as many packets: a packet, and a byte of it."""
    for size, _ in CAPTURES:
        counts = []
        for packets in (COUNTED_PACKETS, 2 * COUNTED_PACKETS):
            file = session.capture(folder / "capture", packets, frames(size))
            script = session.script(folder, f"load pcap {file}\n")
            answers.debugged(cbpf, script, (f"pcap: {packets} packets", 1))
            counts.append(session.counted([cbpf], script))
        spent = (counts[1] - counts[0]) / COUNTED_PACKETS
        print(f"load pcap, packets of {size} bytes: {spent:.1f} machine instructions a packet", flush=True)


if __name__ == "__main__":
    is_counting = session.ONLY_ANSWERS or "--callgrind" in sys.argv[1:]
    session.in_folder(print_counts if is_counting else print_times)
