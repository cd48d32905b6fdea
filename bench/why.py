"""Measures `why` beside tcpdump -r --count, and beside load pcap and run of the debugger, which holds the capture.

The captures have 1 GB, in packets of 64, 200 and 1500 bytes, of which every second is UDP. User and system time of
whole processes, by turns: the ratios are of medians. The captures were just written, so the kernel has them in memory.
Each program's answer is looked at before it is timed (answers.py). What is missing is left out, and so is a capture for
which disk or memory have no room. Needs cc, and crates/cbpf built by `make build`.

`why.py --callgrind` counts machine instructions a packet in their place, by valgrind: what filters take beyond a filter
that is one return, beside the same of `run`; what that one takes; and what reading takes, which is what is taken where
the last packet alone is asked for.
"""
import shutil
import sys

import answers
import loading
import programs
import session

cbpf = session.cbpf

SIZES = [64, 200, 1500]
CAPTURE_SIZE = 10**9
ROUNDS = 3
EXPRESSION, WORDS = loading.UDP_FILTER
# The reports that count packets.
COUNTING = [("why", []), ("why -l", ["-l"])]
RETURN = "1,6 0 0 1"
COUNTED = [
    ("ip proto 17", programs.SIX),
    ("port 22", programs.PORT),
    ("35 instructions", programs.FLAGS),
    ("arithmetic", programs.words(programs.ARITHMETIC)),
]


def written(folder, words):
    """A file that holds the words of a program."""
    path = folder / "filter"
    path.write_text(words)
    return path


def check(folder, file, words, packets):
    """Looks whether both reports count what `run` counts. How many packets pass."""
    passes = answers.counts(cbpf, session.script(folder, f"load bpf {words}\nload pcap {file}\nrun\n"), packets)
    filter_ = written(folder, words)
    answer, _ = answers.asked([cbpf, "why", filter_, file])
    answers.same(cbpf, f"bpf passes:{passes} fails:{packets - passes}\n", answer.splitlines(True)[-1])
    listing, _ = answers.asked([cbpf, "why", "-l", filter_, file])
    answers.holds(cbpf, listing.startswith(f"{packets}\tl0:\t"), f"{packets} packets at l0", listing)
    return passes


def works(folder, file, packets, size):
    """What is timed over a capture: tcpdump first, where it is there."""
    passes = check(folder, file, WORDS, packets)
    filter_ = folder / "filter"
    if shutil.which("tcpdump"):
        answers.read_by_tcpdump(file, EXPRESSION, passes, 16 + size)
        yield loading.Work("tcpdump --count", ["tcpdump", "-q", "-r", file, "--count", EXPRESSION])
    load = folder / "load"
    load.write_text(f"load pcap {file}\n")
    run = session.script(folder, f"load bpf {WORDS}\nload pcap {file}\nrun\n")
    yield loading.Work("load and run", [cbpf, "dbg", run])
    yield loading.Work("load pcap", [cbpf, "dbg", load])
    for what, options in COUNTING:
        yield loading.Work(what, [cbpf, "why", *options, filter_, file])


def print_beside(folder, process, size):
    packets = CAPTURE_SIZE // (16 + size) // 2 * 2
    if not loading.has_room(folder, loading.size_of(packets, size)):
        print(f"left out: the capture of packets of {size} bytes, as disk or memory have no room", flush=True)
        return
    file = session.capture(folder / "capture", packets, loading.frames(size))
    done = loading.take_turns(process, list(works(folder, file, packets, size)), file, ROUNDS)
    for work in done:
        spent, peak = work.seconds(), max(used.peak for used in work.turns)
        print(
            f"{work.what}, {packets:,} packets of {size} bytes: {spent * 1e3:.0f} ms, {peak / 1e6:.1f} MB,"
            f" {spent / done[0].seconds():.2f} times {done[0].what}",
            flush=True,
        )


def print_times(folder):
    process = session.compiled(folder, "process")
    if not process:
        sys.exit("no cc")
    for size in SIZES:
        print_beside(folder, process, size)


def a_packet(folder, words, options=(), frames=(session.FRAME,), last=False):
    """The machine instructions that a packet more takes; of the packets all are asked for, or the last alone."""
    filter_, counts, packets = written(folder, words), [], session.COUNTED_PACKETS
    for count in (packets, 2 * packets):
        file = session.capture(folder / "capture", count, frames)
        command = [cbpf, "why", *options, filter_, file] + [count] * last
        answers.asked(command)
        counts.append(session.counted(command))
    return (counts[1] - counts[0]) / packets


def show_instructions(measure):
    """What filters take beyond one return, beside `run`."""
    folder, packets = measure.folder, session.COUNTED_PACKETS
    file = session.capture(folder / "some", packets)

    def run(words):
        return measure.of(cbpf, f"load bpf {words}\nload pcap {file}\n", "run")() / packets

    for name, options in COUNTING:
        ours, theirs = a_packet(folder, RETURN, options), run(RETURN)
        for what, words in COUNTED:
            check(folder, file, words, packets)
            mine, other = a_packet(folder, words, options) - ours, run(words) - theirs
            work = f"{name}, {what} beyond one return"
            measure.compare(work, lambda: mine, "a packet", "run", lambda: other, 1)


def show_packets(measure):
    """What a packet takes by one return."""
    folder = measure.folder
    for size in SIZES:
        for what, last in [("reading", True), ("one return", False)]:
            spent = a_packet(folder, RETURN, [], loading.frames(size), last)
            measure.show(f"why, {what}, packets of {size} bytes", spent, "a packet")
    measure.show("why -p, one return", a_packet(folder, RETURN, ["-p"]), "a line")


def print_counts(folder):
    measure = session.Measure(folder)
    show_instructions(measure)
    show_packets(measure)


if __name__ == "__main__":
    is_counting = session.ONLY_ANSWERS or "--callgrind" in sys.argv[1:]
    session.in_folder(print_counts if is_counting else print_times)
