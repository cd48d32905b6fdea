"""Times the debugger at work: runs over a capture, with breakpoints and values too, stops with their dumps, steps
back, and short commands.

User and system time of whole processes: the least of several, or medians where two are compared by turns. Where cc and
libpcap (libpcap-dev) are there, libpcap's bpf_filter runs over the same capture. Each program's answer is looked at
before it is timed (answers.py). Wants crates/cbpf built by `make build`. Where valgrind is there, the ratios of runs
say where both loops lie, modulo 64: the same loop takes up to 1.3 times as long at another of these places.

`session.py --callgrind` counts in their place the machine instructions of the same works, by valgrind: one command
more less the same script without it. These don't depend on the machine's load. With `--answers` nothing is measured:
the answers to small works are looked at alone, as `make test` does with each of these scripts that takes the word.
"""
import collections
import dataclasses
import functools
import os
import pathlib
import re
import resource
import shutil
import statistics
import struct
import subprocess
import sys
import tempfile

import answers
import programs

top = pathlib.Path(__file__).resolve().parent.parent
cbpf = top / "crates/cbpf/out/cbpf"

ONLY_ANSWERS = "--answers" in sys.argv[1:]
STRAIGHT_PACKETS = 3_000
# How many turns two works take, and how often a command is given beyond its first time.
ROUNDS = 7
TIMES = 5
COMPARED_PACKETS = 200_000
COUNTED_PACKETS = 1_000
RESUMED_PACKETS = 100
LISTED_PACKETS = 100_000
# TCP over IPv4: a header of five words, no flags, ports of 0
FRAME = bytes(12) + b"\x08\x00\x45" + bytes(8) + b"\x06" + bytes(40)


@dataclasses.dataclass
class Comparison:
    """A command after the lines `head`, and `beside`, or the same command, after the lines `base`. Its reply has a line
    that begins with `reply` for each line of the command, and so has that of `beside`."""

    what: str
    head: str
    than: str
    base: str
    command: str
    beside: str = ""
    reply: str = "bpf passes:"
    replied_beside: str = "bpf passes:"


def timed(command, script, rounds=5, env=None):
    """The least seconds of user and system time of a command over this input."""
    words, least = [str(word) for word in command], None
    for _ in range(rounds):
        before = resource.getrusage(resource.RUSAGE_CHILDREN)
        with open(script) as lines, open(os.devnull, "w") as nowhere:
            done = subprocess.run(words, stdin=lines, stdout=nowhere, stderr=nowhere, env=env)
        after = resource.getrusage(resource.RUSAGE_CHILDREN)
        if done.returncode:
            answers.fault(words[0], f"status {done.returncode} of {' '.join(words)}")
        spent = after.ru_utime + after.ru_stime - before.ru_utime - before.ru_stime
        least = spent if least is None else min(least, spent)
    return least


def callgrind(command, script, status=0, out="/dev/null", options=()):
    """What valgrind says of a process, whose start reads all of its environment: so it has little."""
    valgrind = ["valgrind", "--tool=callgrind", f"--callgrind-out-file={out}", *options]
    env = {name: os.environ[name] for name in ("PATH", "HOME") if name in os.environ}
    _, said = answers.asked(valgrind + [str(word) for word in command], script, status, env=env)
    return said


def counted(command, script="/dev/null", status=0):
    """The machine instructions of a process."""
    if ONLY_ANSWERS:
        return 0
    said = callgrind(command, script, status)
    found = re.search(r"Collected : (\d+)", said)
    answers.holds("valgrind", found, "a count of instructions", said)
    return int(found[1])


def how_often(folder, command, script):
    """How often each machine instruction runs in a process, by its file and its address there."""
    out = folder / "callgrind"
    callgrind(command, script, 0, out, ["--dump-instr=yes", "--compress-pos=no"])
    ran, lines = collections.Counter(), iter(out.read_text().splitlines())
    for line in lines:
        if line.startswith("ob="):
            file = line.split()[0]
        elif line.startswith("calls="):
            # The next line is of all that the call did.
            next(lines)
        elif found := re.fullmatch(r"0x([0-9a-f]+) \d+ (\d+)", line):
            ran[file, int(found[1], 16)] += int(found[2])
    return ran


def place_of_loop(folder, start):
    """The address, modulo 64, of the loop of a work, for which `start` has the command and its input where it is done
    so many times: of the first of the machine instructions that run most often."""
    once, twice = (how_often(folder, *start(times)) for times in (1, 2))
    more = twice - once
    most = max(more.values())
    return min(address for (_, address), times in more.items() if times == most) % 64


@dataclasses.dataclass(frozen=True)
class Measure:
    """Measures works in a folder: by their seconds, or by their machine instructions."""

    folder: pathlib.Path
    counting: bool = ONLY_ANSWERS or "--callgrind" in sys.argv[1:]

    def cost(self, command, file="/dev/null", rounds=1):
        return counted(command, file) if self.counting else timed(command, file, rounds)

    @functools.cache
    def count(self, program, text):
        return counted([program], script(self.folder, text))

    def alone(self, taken, times=TIMES):
        """What a work takes of its own, by what is taken where it is done so many times."""
        return taken(2) - taken(1) if self.counting else (taken(times + 1) - taken(1)) / times

    def of(self, program, head, work, times=TIMES, rounds=1):
        """What measures a work of a script without the lines before it."""

        def taken(count):
            text = head + f"{work}\n" * count + "quit\n"
            return self.count(program, text) if self.counting else timed([program], script(self.folder, text), rounds)

        return lambda: self.alone(taken, times)

    @functools.cache
    def place(self, head, work):
        """Where the debugger's loop lies in a work of a script, as `place_of_loop` says."""
        return place_of_loop(self.folder, lambda times: ([cbpf], script(self.folder, head + f"{work}\n" * times)))

    def show(self, what, spent, unit, beside=""):
        cost = f"{spent:.1f} machine instructions" if self.counting else f"{spent * 1e9:.0f} ns"
        print(f"{what}: {cost} {unit}{beside}", flush=True)

    def compare(self, what, ours, unit, than, theirs, units, places=None):
        """Shows what measures a work beside what measures another one, by turns: the ratio is of the medians.
        `places` finds where the loops of both lie, which times depend on."""
        if ONLY_ANSWERS:
            return
        ours, theirs = zip(*((ours(), theirs()) for _ in range(1 if self.counting else ROUNDS)))
        mine, other = statistics.median(ours), statistics.median(theirs)
        shown = f"{other / units:.1f}" if self.counting else f"{min(ours) / min(theirs):.2f} of the least"
        if places and not self.counting and shutil.which("valgrind"):
            shown += "; loops at {} and {}".format(*places())
        self.show(what, mine / units, unit, f", {mine / other:.2f} times {than} ({shown})")


def in_folder(work):
    with tempfile.TemporaryDirectory() as name:
        return work(pathlib.Path(name))


def compiled(folder, name, *libraries):
    """The C program of this name, where it can be built."""
    if ONLY_ANSWERS or not shutil.which("cc"):
        return None
    words = ["cc", "-O2", "-o", folder / name, top / f"bench/{name}.c", *libraries]
    return folder / name if subprocess.run(words, capture_output=True).returncode == 0 else None


@dataclasses.dataclass
class Used:
    """What a process took: seconds of its own and of the kernel's for it, bytes at most, page faults."""

    user: float
    system: float
    peak: int
    faults: int

    def seconds(self):
        return self.user + self.system


def used(process, command, script="/dev/null", env=None, status=0):
    """What a command took, which ends with this status, by the program of process.c."""
    if ONLY_ANSWERS:
        return Used(0, 0, 0, 0)
    words = [str(word) for word in command]
    answer, _ = answers.asked([process, script, *words], env=env)
    answers.holds(process, re.fullmatch(r"(\d+ ){4}\d+\n", answer), "five numbers", answer)
    user, system, kilobytes, faults, ended = map(int, answer.split())
    if ended != status:
        answers.fault(words[0], f"status {ended} of {' '.join(words)}, where {status} is wanted")
    return Used(user / 1e6, system / 1e6, kilobytes * 1024, faults)


def capture(path, packets, frames=(FRAME,)):
    """A capture of so many packets, which are these frames again and again."""
    records = b"".join(struct.pack("<IIII", 1, 0, len(frame), len(frame)) + frame for frame in frames)
    piece = max(1, 10**6 // len(records))
    with open(path, "wb") as file:
        file.write(struct.pack("<IHHIIII", 0xA1B2C3D4, 2, 4, 0, 0, 65535, 1))
        left = packets // len(frames)
        while left > 0:
            file.write(records * min(piece, left))
            left -= piece
    return path


def script(folder, text):
    path = folder / "script"
    path.write_text(text)
    return path


# The programs that run beside bpf_filter, each with the number of its packets.
ALONE = [
    ("ip proto 17", programs.SIX, COMPARED_PACKETS),
    ("port 22", programs.PORT, COMPARED_PACKETS),
    ("35 instructions", programs.FLAGS, COMPARED_PACKETS),
    ("arithmetic", programs.words(programs.ARITHMETIC), COMPARED_PACKETS),
    ("straight", programs.words(programs.STRAIGHT), STRAIGHT_PACKETS),
]


def show_runs(measure):
    """Runs without their loading, beside bpf_filter with its loop."""
    folder = measure.folder
    libpcap = compiled(folder, "bpf_filter", "-lpcap")
    for what, words, packets in ALONE:
        packets //= COMPARED_PACKETS // COUNTED_PACKETS if measure.counting else 1
        file = capture(folder / "some", packets)
        head = f"load bpf {words}\nload pcap {file}\n"
        passes = answers.counts(cbpf, script(folder, head + "run\n"), packets)
        ours = measure.of(cbpf, head, "run")
        if not libpcap:
            measure.show(f"run alone, {what}", ours() / packets, "a packet")
            continue
        (folder / "words").write_text(words.replace(",", "\n") + "\n")
        filtering = [libpcap, folder / "words"]
        answers.filtered(libpcap, [*filtering, 1, file], passes, packets)

        def theirs():
            return measure.alone(lambda times: measure.cost([*filtering, times, file]))

        def places():
            beside = place_of_loop(folder, lambda times: ([*filtering, times, file], "/dev/null"))
            return measure.place(head, "run"), beside

        measure.compare(f"run alone, {what}", ours, "a packet", "bpf_filter", theirs, packets, places)


def comparisons(folder, file):
    """Runs and lists of stops that can meet something beside the same that can't, over a capture of frames."""
    # One return more, which no packet reaches: the return before it ends each of them.
    arithmetic = programs.words([*programs.ARITHMETIC, "6 0 0 0"])
    # With each program an instruction that no frame reaches. The first and the third are the returns that accept: a
    # frame's header has five words, and it has neither of the flags. The second is for IPv6.
    for what, words, unreached in [
        ("6 instructions", programs.HEADER, 5),
        ("24 instructions", programs.PORT, 2),
        ("35 instructions", programs.FLAGS, 42),
        ("arithmetic", arithmetic, len(programs.ARITHMETIC)),
    ]:
        quiet = f"load bpf {words}\nload pcap {file}\n"
        with_breakpoint = quiet + f"breakpoint {unreached}\n"
        # Each frame reaches instruction 1, where A is 2048, and 0 in the last program.
        with_condition = quiet + "breakpoint 1 a 1\n"
        never = "a breakpoint never reached"
        yield Comparison(f"run with {never}, {what}", with_breakpoint, "a run without", quiet, "run")
        yield Comparison(
            f"stops with {never}, {what}", with_breakpoint, "a run without", quiet, "stops", "run", "stops: 0"
        )
        yield Comparison(f"a step past the capture's end, {what}", quiet, "a run", quiet, "step 1000000000", "run")
        name = f"run with a condition never met, {what}"
        yield Comparison(name, with_condition, f"a run with {never}", with_breakpoint, "run")
    # Longer than `first_gap`, which is 64, so that the run keeps the trail.
    longer = programs.arithmetic_instructions(140)
    quiet = f"load bpf {programs.words([*longer, '6 0 0 0'])}\nload pcap {file}\n"
    name = "run with a breakpoint never reached, 141 instructions"
    yield Comparison(name, quiet + f"breakpoint {len(longer)}\n", "a run without", quiet, "run")
    mark, seven = (f"load bpf {words}\nload pcap {file}\n" for words in (programs.MARK, programs.SEVEN))
    yield Comparison("run, ld mark with a value", mark + "value mark 7\n", "the same with ld #7", seven, "run")
    header = f"load bpf {programs.HEADER}\nload pcap {file}\n"
    what = "run with a value not asked for, 6 instructions"
    yield Comparison(what, header + "value mark 7\n", "a run without", header, "run")


def resumes(folder):
    """A `resume` at the last step of each packet, of a program whose 4096 instructions all run, beside a run."""
    head = f"load bpf {programs.words(programs.STRAIGHT)}\nload pcap {capture(folder / 'resumed', RESUMED_PACKETS)}\n"
    commands = "\n".join(f"resume {packet} 4096" for packet in range(1, RESUMED_PACKETS + 1))
    what = "resume at step 4096 of each packet, 4096 instructions"
    return Comparison(what, head, "a run", head, commands, "run", "at ")


def check(folder, compared):
    """Looks whether each line is taken, and each command answers what its comparison says."""
    for head, command, reply in [
        (compared.head, compared.command, compared.reply),
        (compared.base, compared.beside or compared.command, compared.replied_beside),
    ]:
        lines = len(command.splitlines())
        answers.debugged(cbpf, script(folder, head + f"{command}\n"), (reply, lines), ("(breakpoint)", 0))
        answers.debugged(cbpf, script(folder, head + "run\n"), ("bpf passes:", 1))


def measurable(folder, packets):
    """The comparisons over a capture of so many frames, and that of `resume`, each with the number of its packets."""
    over_frames = [(compared, packets) for compared in comparisons(folder, capture(folder / "compared", packets))]
    for compared, count in over_frames + [(resumes(folder), RESUMED_PACKETS)]:
        check(folder, compared)
        yield compared, count


def show_compared(measure):
    count = COUNTED_PACKETS if measure.counting else COMPARED_PACKETS
    for compared, packets in measurable(measure.folder, count):
        works = [(compared.head, compared.command), (compared.base, compared.beside or compared.command)]
        ours, theirs = (measure.of(cbpf, *work) for work in works)

        def places():
            return [measure.place(*work) for work in works]

        measure.compare(compared.what, ours, "a packet", compared.than, theirs, packets, places)


def singles(folder, packets):
    """Commands that stand beside no other: what, the lines before, the command, how often it is given, how the lines
    that answer it begin and how many each time has, its unit, and how many units."""
    large = capture(folder / "large", packets)
    for what, words in [("ip proto 17", programs.SIX), ("port 22", programs.PORT)]:
        head = f"load bpf {words}\nload pcap {large}\n"
        yield f"stops, {what}, none", head, "stops", 10, "stops: 0", 1, "packet", packets
    stopped = f"load bpf {programs.SIX}\nload pcap {large}\nbreakpoint 1\n"
    yield "stops, one a packet", stopped, "stops", 1, f"stops: {packets}", 1, "line", packets
    yield "a stop with its dump", stopped, "run", 10000, "(breakpoint)", 1, "stop", 1
    far = f"load bpf {programs.LONG}\nload pcap {capture(folder / 'small', 2)}\nstep 4000\n"
    yield "step -1 and step 1 at step 4000, with their dumps", far, "step -1\nstep 1", 5000, "-- packet 1,", 2, "pair", 1
    yield "disassemble", far, "disassemble", 100, "l", 4096, "line", 4096
    yield "mark", far, "mark", 100000, "1 4000", 1, "command", 1


def show_singles(measure):
    packets = COUNTED_PACKETS if measure.counting else LISTED_PACKETS
    for what, head, command, times, beginning, lines, unit, units in singles(measure.folder, packets):
        times = 1 if measure.counting else times
        before = answers.debugged(cbpf, script(measure.folder, head)).splitlines()
        wanted = sum(line.startswith(beginning) for line in before) + lines * times
        answers.debugged(cbpf, script(measure.folder, head + f"{command}\n" * times), (beginning, wanted))
        measure.show(what, measure.of(cbpf, head, command, times, 3)() / units, f"a {unit}")


def main(folder):
    measure = Measure(folder)
    show_runs(measure)
    show_compared(measure)
    show_singles(measure)


if __name__ == "__main__":
    in_folder(main)
