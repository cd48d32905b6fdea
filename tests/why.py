#!/usr/bin/env python3
"""Compares `why` of a built program with its debugger, and feeds it by pipes.

usage: why.py PROGRAM [N]

N random programs (300 where no number is given), of which some are wrong, run over random captures with random values,
and those of tests/verdicts.txt over examples/mixed.pcap. The debugger's replies to `run`, and to `stops` with a
breakpoint at each instruction, say what each report of `why` is: how packets ended, a line for each, the traces of some,
and the counts in the listing and in the graph. Whole outputs are compared. For a capture that is cut at each byte, for
one whose file header has each byte changed, and for 300 link types, `load pcap` and `run` say it. The other tests, of
pipes, sizes, growing files and signals, are in TESTS. The last line is `N programs and M tests, F failed`.
"""

import contextlib
import html
import operator
import os
import random
import re
import select
import signal
import socket
import struct
import subprocess
import sys
import tempfile
import threading
from collections import Counter
from concurrent.futures import ProcessPoolExecutor
from functools import partial
from itertools import pairwise, zip_longest
from pathlib import Path
from typing import NamedTuple

from kernel import ABSOLUTE, EXTENSIONS, JA, JUMPS, NAMES, RET_A, RETURNS, TOP, instructions, random_program, words_of
from sessions import TAKE_NO_VALUE

SECONDS = 60
PROGRAMS = 300
PLACES = {name: EXTENSIONS + 4 * place for place, name in enumerate(NAMES) if name != "-"}
# What a conditional jump compares, by its code without the bit for X.
COMPARED = {0x15: operator.eq, 0x25: operator.gt, 0x35: operator.ge, 0x45: operator.and_}
BY_X = 0x08
DIVISIONS_BY_X = [0x3C, 0x9C]
# How many bytes a load takes, by its code, and the codes of those that add X.
LOADED = {0x20: 4, 0x28: 2, 0x30: 1, 0x40: 4, 0x48: 2, 0x50: 1, 0xB1: 1}
INDEXED = [0x40, 0x48, 0x50]
VERDICTS = {"pass": "palegreen", "fail": "lightsalmon", "unknown": "khaki"}
GRAPH_HEAD = """\
digraph filter {
graph [fontname=monospace labelloc=t]
node [shape=box fontname=monospace]
edge [fontname=monospace]
packets [shape=plaintext]""".splitlines()
MICROSECONDS, NANOSECONDS = 0xA1B2C3D4, 0xA1B23C4D
# The most memory that a capture may take, whatever its size.
FEW_BYTES = 4 << 20
MEGABYTES = 300
ARP = "4,40 0 0 12,21 0 1 2054,6 0 0 4294967295,6 0 0 0"


class Step(NamedTuple):
    """An instruction that a packet executes, A and X before it, and the extension that has no value, or nothing."""

    pc: int
    a: int
    x: int
    asks: str


class End(NamedTuple):
    """How a packet ended: `why` is the value returned, or why there is none."""

    pc: int
    verdict: str
    why: str
    returned: bool


class Debugged(NamedTuple):
    """What the debugger says of a program over a capture: the listing's lines, the reply to `load pcap`, the one to
    `run`, and the trace of each packet. The lengths are how many bytes of each were captured, of how many."""

    program: list
    listing: list
    loaded: str
    totals: str
    traces: list
    lengths: list

    def end(self, trace):
        last = trace[-1]
        code, _, _, k = self.program[last.pc]
        if last.asks:
            return End(last.pc, "unknown", f"{last.asks} has no value", False)
        if code in RETURNS:
            value = last.a if code == RET_A else k
            return End(last.pc, "pass" if value else "fail", str(value), True)
        return End(last.pc, "fail", "division by 0" if code in DIVISIONS_BY_X else "outside the packet", False)

    def ends(self):
        """How packets ended, in the order of the report: instruction, verdict, and why no value was returned."""
        found = {}
        for number, trace in enumerate(self.traces, 1):
            end = self.end(trace)
            place = (end.pc, list(VERDICTS).index(end.verdict), end.verdict, "" if end.returned else f", {end.why}")
            found.setdefault(place, []).append(number)
        for (pc, _, verdict, why), numbers in sorted(found.items()):
            yield pc, verdict, why, numbers

    def holds(self, step):
        """Whether the comparison of a conditional jump holds."""
        code, _, _, k = self.program[step.pc]
        return bool(code in JUMPS and COMPARED[code & ~BY_X](step.a, step.x if code & BY_X else k))

    def decided(self, trace):
        """The conditional jump that decided where a packet returned, and which way it went, or nothing."""
        tests = [step for step in trace if self.program[step.pc][0] in JUMPS]
        if not tests or not self.end(trace).returned:
            return None
        return tests[-1], "true" if self.holds(tests[-1]) else "false"

    def wanted(self, number):
        """What a load wanted that ended a packet outside it."""
        last, (captured, wire) = self.traces[number - 1][-1], self.lengths[number - 1]
        code, _, _, k = self.program[last.pc]
        at, size = (last.x + k) % 2**32 if code in INDEXED else k, LOADED[code]
        wanted = f"byte {at}" if size == 1 else f"bytes {at} to {at + size - 1}"
        return f": {wanted}, captured {captured} of {wire}"

    def filled(self, pc):
        """The line of an instruction, filled up to the longest one."""
        label, text = self.listing[pc].split("\t")
        longest = max(len(line) - line.index("\t") - 1 for line in self.listing)
        return f"{label}\t{text:{longest}}"

    def counts(self):
        """How often each instruction ran, and how often its comparison held."""
        steps = [step for trace in self.traces for step in trace]
        return Counter(step.pc for step in steps), Counter(step.pc for step in steps if self.holds(step))


# The reports, as lines.
def summary(found):
    groups = {}
    for number, trace in enumerate(found.traces, 1):
        end = found.end(trace)
        if decided := found.decided(trace):
            test, direction = decided
            went = f"{found.listing[test.pc]}, {direction}, then {found.listing[end.pc]}"
            place = (test.pc, direction == "false")
        else:
            went = found.listing[end.pc] + ("" if end.returned else f", {end.why}")
            place = (end.pc, False)
        groups.setdefault((place, list(VERDICTS).index(end.verdict), end.verdict, went), []).append(number)
    for (_, _, verdict, went), numbers in sorted(groups.items()):
        yield f"{verdict} {len(numbers)} at {went}, first packet {numbers[0]}"
    yield found.totals
    yield from cut_line(found)


def line_of_packet(found, number):
    trace = found.traces[number - 1]
    end, decided = found.end(trace), found.decided(trace)
    jump, direction = (f"l{decided[0].pc}", decided[1]) if decided else ("-", "-")
    yield f"{number}\t{end.verdict}\tl{end.pc}\t{end.why}\t{jump}\t{direction}"


def registers(step):
    return f"A {step.a} ({step.a:#x}) X {step.x} ({step.x:#x})"


def way_of_packet(found, number):
    trace = found.traces[number - 1]
    yield f"packet {number}"
    for step, after in zip_longest(trace, trace[1:]):
        to = f"\tto l{after.pc}" if after and found.program[step.pc][0] in [JA, *JUMPS] else ""
        yield f"{found.filled(step.pc)}\t{registers(step)}{to}"
    end = found.end(trace)
    went = found.listing[end.pc] + ("" if end.returned else f", {end.why}")
    if end.why == "outside the packet":
        went += found.wanted(number)
    if decided := found.decided(trace):
        test, direction = decided
        went = f"{found.listing[test.pc]}, {direction} with {registers(test)}, then {went}"
    yield f"{end.verdict} at {went}"


def coverage(found):
    ran, held = found.counts()
    wide = len(str(max(ran.values(), default=0)))
    for pc, (code, *_) in enumerate(found.program):
        ways = f"\ttrue {held[pc]:{wide}} false {ran[pc] - held[pc]:{wide}}" if code in JUMPS else ""
        yield f"{ran[pc]:{wide}}\t{found.filled(pc) if ways else found.listing[pc]}{ways}"


def blocks(program):
    """The first and the last instruction of each basic block."""
    begins = {0}
    for at, (code, jt, jf, k) in enumerate(program, 1):
        ways = [at] * (code in RETURNS) + [at, at + k] * (code == JA) + [at, at + jt, at + jf] * (code in JUMPS)
        begins |= {to for to in ways if to < len(program)}
    return [(first, after - 1) for first, after in pairwise([*sorted(begins), len(program)])]


def edges(found, last):
    """The ways out of a block whose last instruction is this: where, how often, and the word for it."""
    (ran, held), (code, jt, jf, k) = found.counts(), found.program[last]
    if code in JUMPS:
        yield last + 1 + jt, held[last], "true "
        yield last + 1 + jf, ran[last] - held[last], "false "
    elif code not in RETURNS:
        ended = sum(len(numbers) for pc, _, _, numbers in found.ends() if pc == last)
        yield last + 1 + (k if code == JA else 0), ran[last] - ended, ""


def grey(count):
    return "" if count else " color=grey45 fontcolor=grey45 style=dashed"


def line_of_block(line, count):
    text = html.escape(line.replace("\t", " "), quote=False)
    return (text if count else f'<font color="grey45">{text}</font>') + '<br align="left"/>'


def graph(found):
    ran, _ = found.counts()
    yield from GRAPH_HEAD
    yield f'packets -> l0 [label=" {len(found.traces)} "{grey(len(found.traces))}]'
    for first, last in blocks(found.program):
        lines = "".join(line_of_block(found.listing[at], ran[at]) for at in range(first, last + 1))
        yield f"l{first} [label=<{lines}>{grey(ran[first])}]"
        for to, count, word in edges(found, last):
            yield f'l{first} -> l{to} [label=" {word}{count} "{grey(count)}]'
    for pc, verdict, why, numbers in found.ends():
        block = next(first for first, last in blocks(found.program) if first <= pc <= last)
        yield f'{verdict}{pc} [label="{verdict}{why}" shape=oval style=filled fillcolor={VERDICTS[verdict]}]'
        yield f'l{block} -> {verdict}{pc} [label=" {len(numbers)} "]'
    yield "}"


def of_each(report, found, chosen):
    """The lines of a report of each of some packets."""
    return [line for number in chosen for line in report(found, number)]


def of_all(report, found, chosen):
    """The lines of a report of some packets together."""
    return list(report(found._replace(traces=[found.traces[number - 1] for number in chosen])))


def lacking(found, first, last):
    """What is said of the packets from one to another that aren't there."""
    first = max(first, len(found.traces) + 1)
    if first < last:
        yield f"no packets {first}-{last}"
    elif first == last:
        yield f"no packet {first}"


def cut_line(found):
    return [found.loaded] if "cut" in found.loaded else []


def of_chosen(lines_of, report, found, ranges):
    """What a report says of chosen packets, what is said of those that aren't there and of a cut, and the status."""
    chosen = {number for first, last in ranges for number in range(first, last + 1)}
    there = sorted(number for number in chosen if number <= len(found.traces))
    missing = [line for first, last in sorted(ranges) for line in lacking(found, first, last)]
    said = [*missing, *cut_line(found)] if missing else []
    return lines_of(report, found, there), said, int(bool(missing))


# Random captures and programs.
def header(order="<", magic=MICROSECONDS, link=1):
    return struct.pack(f"{order}IHHIIII", magic, 2, 4, 0, 0, 65535, link)


def link_of(capture):
    """The lower 16 bits of the last number of a header."""
    order = "<" if capture[0] in (0xD4, 0x4D) else ">"
    return struct.unpack(f"{order}I", capture[20:24])[0] % 2**16


def record(packet, wire=None, order="<"):
    return struct.pack(f"{order}IIII", 1, 0, len(packet), len(packet) if wire is None else wire) + packet


def drawn_record(draw, order):
    size = draw.choice([0, 1, 2, 5, 17, 40, 64, 64, 300])
    return record(bytes(draw.choices([0, 1, 2, 3, 6, 8, 17, 255], k=size)), size + draw.choice([0, 0, 9, 2**31]), order)


def drawn_capture(draw):
    """A capture in one of both byte orders, with microseconds or nanoseconds. Some are cut, and of some the bytes after
    the file header are changed, so that lengths are others."""
    order = draw.choice("<>")
    head = header(order, draw.choice([MICROSECONDS, NANOSECONDS]))
    data = bytearray().join(drawn_record(draw, order) for _ in range(draw.choice([0, 1, 3, 8, 20])))
    if data and not draw.randrange(4):
        for _ in range(draw.randrange(1, 6)):
            data[draw.randrange(len(data))] = draw.choice([0, 1, 16, 255])
    return head + data[: len(data) - draw.choice([0, 0, draw.randrange(90)])]


def with_extensions(draw, program):
    """The program with extensions in some of its loads."""

    def drawn(code, jt, jf, k):
        return (code, jt, jf, draw.choice(list(PLACES.values())) if not draw.randrange(6) else k)

    return [drawn(*insn) if insn[0] in ABSOLUTE else insn for insn in program]


def drawn_values(draw):
    names = [name for name in PLACES if name not in TAKE_NO_VALUE and draw.randrange(2)]
    return {name: draw.choice([0, 1, 2, 63, 2048, 2**32 - 1]) for name in names}


def drawn_numbers(draw, count):
    """Words that choose packets, and the ranges that they name, of a capture of so many."""
    pairs = [sorted(draw.choices(range(1, count + draw.choice([2, 2, 4])), k=2)) for _ in range(draw.randrange(1, 4))]
    words = [draw.choice([f"{first}-{last}"] + [str(first)] * (first == last)) for first, last in pairs]
    return words, pairs


# What the debugger and `why` say.
def ran(words, folder, **given):
    """Standard output and standard error of a command as lines, and its status."""
    done = subprocess.run(words, capture_output=True, cwd=folder, timeout=SECONDS, **given)
    return done.stdout.decode().splitlines(), done.stderr.decode().splitlines(), done.returncode


def fault_of(what, got, wanted):
    return [] if got == wanted else [f"{what}: wanted {wanted}, got {got}"]


def replies(program, folder, script):
    said, faults, status = ran([program], folder, input="".join(f"{line}\n" for line in script).encode())
    if faults or status:
        raise RuntimeError(f"the debugger: {faults}, status {status}")
    return said


STOP = re.compile(r"(\d+) \d+ l(\d+) A (\d+) X (\d+) \((?:breakpoint|extension (\w+))\)")


def trace_by_packet(lines, count):
    """The traces of so many packets by the lines of `stops`."""
    traces = [[] for _ in range(count)]
    for line in lines:
        number, pc, a, x, asks = STOP.fullmatch(line).groups("")
        traces[int(number) - 1].append(Step(int(pc), int(a), int(x), asks))
    return traces


def lengths_of(capture, count):
    """How many bytes of each of so many packets of a capture were captured, of how many."""
    order = "<" if int.from_bytes(capture[:4], "little") in (MICROSECONDS, NANOSECONDS) else ">"
    at = 24
    for _ in range(count):
        captured, wire = struct.unpack_from(f"{order}8xII", capture, at)
        yield captured, wire
        at += 16 + captured


def debugged(program, folder, insns, values, most):
    """What the debugger says of a program over the capture in the folder, which has so many packets at most, or how it
    refuses the program. A run stops at each packet that asks for an extension without a value."""
    size = len(insns)
    begin = [f"load bpf {words_of(insns)}", *(f"value {name} {n}" for name, n in values.items()), "load pcap capture"]
    breakpoints = [f"breakpoint {at}" for at in range(size)]
    script = [*begin, "disassemble", *breakpoints, "stops", "breakpoint reset", *["run"] * (most + 1)]
    said = replies(program, folder, script)
    if said[0].startswith("error: "):
        return said[0].removeprefix("error: ")
    loaded, at = said[len(begin) - 1], len(begin) + size
    last = next(at for at, line in enumerate(said) if line.startswith("stops: "))
    totals = next(line for line in said[last:] if line.startswith("bpf passes:"))
    traces = trace_by_packet(said[at + size : last], int(loaded.split()[1]))
    lengths = list(lengths_of((folder / "capture").read_bytes(), len(traces)))
    return Debugged(insns, said[len(begin) : at], loaded, totals, traces, lengths)


def filter_text(draw, insns, listing):
    """The text of a program's filter, in a form that `why` takes."""
    words = words_of(insns)
    source = "".join(f"{line}\n" for line in listing)
    return draw.choice([words, f"\n {words},\n", words.replace(",", "\n") + "\n", source, f"; a comment\n{source}"])


def asked(draw, found):
    """The options and packets of some command lines, and what each is to give: lines, what is said, and the status."""
    yield [], [], (list(summary(found)), [], 0)
    for option, report in (["-l"], coverage), (["-g"], graph):
        yield option, [], (list(report(found)), cut_line(found), 0)
    lines = of_each(line_of_packet, found, range(1, len(found.traces) + 1))
    yield ["-p"], [], (lines, cut_line(found), 0)
    for option, report in (["-p"], line_of_packet), ([], way_of_packet):
        words, ranges = drawn_numbers(draw, len(found.traces))
        yield option, words, of_chosen(of_each, report, found, ranges)
    words, ranges = drawn_numbers(draw, len(found.traces))
    option, report = draw.choice([(["-l"], coverage), (["-g"], graph)])
    yield option, words, of_chosen(of_all, report, found, ranges)


def differences(draw, program, folder, found, values):
    """Where `why` says something else than the debugger."""
    given = [word for name, n in values.items() for word in ("-v", f"{name}={n}")]
    for option, packets, (lines, said, status) in asked(draw, found):
        name = draw.choice(["capture", "-"])
        start = "cbpf: capture: " if name == "capture" else "cbpf: "
        with open(folder / "capture", "rb") as capture:
            words = [program, "why", *option, *given, "filter", name, *packets]
            got = ran(words, folder, stdin=subprocess.DEVNULL if name == "capture" else capture)
        yield from fault_of(" ".join(words[1:]), got, (lines, [start + line for line in said], status))


def refusal(program, folder, insns, said):
    """Where `why` refuses a program otherwise than the debugger, which said this."""
    (folder / "filter").write_text(words_of(insns))
    return fault_of("refused", ran([program, "why", "filter", "capture"], folder), ([], [f"cbpf: filter: {said}"], 1))


def compared(program, task):
    """The faults of a program over a capture, and what was reached: ends of packets, or the error of a program."""
    insns, capture, values, seed = task
    with tempfile.TemporaryDirectory() as name:
        folder = Path(name)
        (folder / "capture").write_bytes(capture)
        found = debugged(program, folder, insns, values, len(capture) // 16)
        if isinstance(found, str):
            faults, reached = refusal(program, folder, insns, found), {found.split()[0]}
        else:
            draw = random.Random(seed)
            (folder / "filter").write_text(filter_text(draw, insns, found.listing))
            faults = list(differences(draw, program, folder, found, values))
            ends = [end.why for end in map(found.end, found.traces) if not end.returned]
            reached = {re.sub(r"^\w+ has", "an extension has", why) for why in ends}
    return [f"{words_of(insns)} over {capture.hex()}: {fault}" for fault in faults], reached


def tasks(count):
    """The programs that are compared: instructions, capture, values, and the seed of the rest."""
    mixed = (TOP / "examples/mixed.pcap").read_bytes()
    for seed, row in enumerate((TOP / "tests/verdicts.txt").read_text().splitlines()):
        yield instructions(row.split("|")[1]), mixed, {}, seed
    draw = random.Random(0)
    for seed in range(count):
        yield with_extensions(draw, random_program(draw)), drawn_capture(draw), drawn_values(draw), seed


# Pipes, sizes, files that grow, signals.
@contextlib.contextmanager
def started(words, folder):
    """A process with pipes, which is ended where it takes too long."""
    given = {name: subprocess.PIPE for name in ("stdin", "stdout", "stderr")}
    with subprocess.Popen(words, cwd=folder, bufsize=0, **given) as process:
        watch = threading.Timer(SECONDS, process.kill)
        watch.start()
        try:
            yield process
        finally:
            watch.cancel()


def words_of_load(said, status_of_run, name):
    """What `why` prints, by the replies to `load pcap` and `run`, for a program of one return."""
    if said.startswith("error: "):
        return [], [f"cbpf: {name}: {said.removeprefix('error: ')}"], 1
    count = int(said.split()[1])
    ended = [f"pass {count} at l0:\tret #0x1, first packet 1"] if count else []
    return [*ended, status_of_run, *([said] if "cut" in said else [])], [], 0


def agrees_with_loads(program, folder, captures):
    """Of captures by their names: `why` says what `load pcap` and `run` say."""
    for name, data in captures.items():
        (folder / name).write_bytes(data)
    script = [line for name in captures for line in ("load bpf 1,6 0 0 1", f"load pcap {name}", "run")]
    said = iter(replies(program, folder, script))
    (folder / "filter").write_text("ret #1")
    for name, _, loaded, run in zip(captures, said, said, said):
        printed, errors, status = words_of_load(loaded, run, name)
        if status == 0 and (link := link_of(captures[name])) != 1:
            errors = [f"cbpf: {name}: link type {link}, not Ethernet", *errors]
        yield from fault_of(name, ran([program, "why", "filter", name], folder), (printed, errors, status))


def cut_at_each_byte(program, folder):
    records = [record(b"abc"), record(b"", 9), record(bytes(20)), record(b"z")]
    whole = header() + b"".join(records)
    claimed = header() + records[0] + struct.pack("<IIII", 1, 0, 2**32 - 1, 2**32 - 1) + b"few"
    captures = {f"cut at {size}": whole[:size] for size in range(len(whole) + 1)}
    captures |= {f"a claim, cut at {size}": claimed[:size] for size in range(24, len(claimed) + 1)}
    yield from agrees_with_loads(program, folder, captures)


def each_byte_of_the_header(program, folder):
    data = {f"{order}{magic:x}": header(order, magic) for order in "<>" for magic in (MICROSECONDS, NANOSECONDS)}
    changed = {
        f"{name}, byte {at} as {byte}": head[:at] + bytes([byte]) + head[at + 1 :]
        for name, head in data.items()
        for at in range(24)
        for byte in (0, head[at] ^ 1)
    }
    yield from agrees_with_loads(program, folder, {**data, **changed})


def each_link_type(program, folder):
    """A capture of each link type from 0 to 299 is taken."""
    yield from agrees_with_loads(program, folder, {f"link type {link}": header(link=link) for link in range(300)})


def filters_of_each_size(program, folder):
    """Programs of 1 to 299 instructions are taken, also with a breakpoint at their end, and a filter of a megabyte."""
    (folder / "capture").write_bytes(header() + record(b"a"))
    texts = {size: words_of([(7, 0, 0, 0)] * (size - 1) + [(6, 0, 0, 1)]) for size in range(1, 300)}
    script = [line for size, text in texts.items() for line in (f"load bpf {text}", f"breakpoint {size - 1}")]
    wanted = [line for n in texts for line in (f"bpf: {n} instructions", f"breakpoint at: l{n - 1}:\tret #0x1")]
    yield from fault_of("breakpoints", replies(program, folder, script), wanted)
    for size, text in [*texts.items(), (1, "; a comment\n" * 100_000 + "ret #1")]:
        (folder / "filter").write_text(text)
        wanted = [f"pass 1 at l{size - 1}:\tret #0x1, first packet 1", "bpf passes:1 fails:0"]
        got = ran([program, "why", "filter", "capture"], folder)
        yield from fault_of(f"{size} instructions in {len(text)} bytes", got, (wanted, [], 0))


def send_bytes(own, data):
    with own:
        for at in range(len(data)):
            own.send(data[at : at + 1])


def by_one_byte_a_read(program, folder):
    """Each read of such a socket gives one message."""
    (folder / "filter").write_text("ldb [0]\nret a")
    data = header(">") + b"".join(record(bytes([at]) * 40, order=">") for at in range(3))
    (folder / "capture").write_bytes(data)
    for options in [], ["-p"], ["-l"]:
        own, other = socket.socketpair(socket.AF_UNIX, socket.SOCK_SEQPACKET)
        words = [program, "why", *options, "filter"]
        with other:
            threading.Thread(target=send_bytes, args=(own, data), daemon=True).start()
            got = ran(words, folder, stdin=other)
        yield from fault_of(f"bytes one by one, {options}", got, ran([*words, "capture"], folder))


def waits(process):
    """Whether nothing comes of a process for a while."""
    return not select.select([process.stdout], [], [], 0.05)[0]


def line_by_line(program, folder):
    """Each packet's line comes before the next packet, and none before its packet is whole."""
    (folder / "filter").write_text("ldh [0]\nret a")
    with started([program, "why", "-p", "filter"], folder) as process:
        process.stdin.write(header())
        for number in range(1, 3001):
            data = record(number.to_bytes(2, "big"))
            if number % 500 == 0:
                process.stdin.write(data[:-1])
                yield from fault_of(f"before packet {number} is whole", waits(process), True)
                data = data[-1:]
            process.stdin.write(data)
            wanted = b"%d\tpass\tl1\t%d\t-\t-\n" % (number, number)
            yield from fault_of("a live pipe", process.stdout.readline(), wanted)
        process.stdin.close()
        got = process.stdout.read(), process.stderr.read(), process.wait()
        yield from fault_of("a live pipe's end", got, (b"", b"", 0))


def lines_of_passes(numbers):
    """The lines of packets that a single `ret #1` passes."""
    return b"".join(b"%d\tpass\tl0\t1\t-\t-\n" % number for number in numbers)


def the_last_packet_ends_it(program, folder):
    """After the last packet that is asked for nothing is read: it ends while the pipe is open."""
    (folder / "filter").write_text("ret #1")
    with started([program, "why", "-p", "filter", "-", "2-1000", "1"], folder) as process:
        process.stdin.write(header() + record(b"a") * 1000)
        got = process.stdout.read(), process.wait()
        yield from fault_of("the last packet", got, (lines_of_passes(range(1, 1001)), 0))
    with started([program, "why", "filter", "-", "1-2"], folder) as process:
        process.stdin.write(header() + record(b"a"))
        lines = [b"packet 1\n", b"l0:\tret #0x1\tA 0 (0x0) X 0 (0x0)\n", b"pass at l0:\tret #0x1\n"]
        yield from fault_of("a trace on a live pipe", [process.stdout.readline() for _ in range(3)], lines)
        process.stdin.close()
        yield from fault_of("no packet", (process.stderr.read(), process.wait()), (b"cbpf: no packet 2\n", 1))


def a_thousand_numbers(program, folder):
    """Each of 1,020 numbers has its line. Those of the 20 that name no packet go out by one write; the status is 1."""
    (folder / "filter").write_text("ret #1")
    (folder / "capture").write_bytes(header() + record(b"a") * 2000)
    there, lacking = range(1, 1001), range(2001, 2021)
    own, other = socket.socketpair(socket.AF_UNIX, socket.SOCK_SEQPACKET)
    with own:
        with other:
            words = [program, "why", "-p", "filter", "capture", *map(str, [*there, *lacking])]
            done = subprocess.run(words, stdout=subprocess.PIPE, stderr=other, cwd=folder, timeout=SECONDS)
        got = done.stdout, own.recv(1 << 16), done.returncode
    said = b"".join(b"cbpf: capture: no packet %d\n" % number for number in lacking)
    yield from fault_of("1,020 numbers", got, (lines_of_passes(there), said, 1))


def nothing_is_read_after_the_end(program, folder):
    """A read of the socket gives one message; one without bytes is an end, as at a terminal."""
    (folder / "filter").write_text("ret #1")
    for packets, end in ([], b""), (["-", "1-2"], b""), (["-", "2"], record(b"c")):
        own, other = socket.socketpair(socket.AF_UNIX, socket.SOCK_SEQPACKET)
        with own, other:
            for message in [header(), record(b"a"), record(b"b"), end, b"more"]:
                own.send(message)
            _, faults, status = ran([program, "why", "filter", *packets], folder, stdin=other)
            other.settimeout(1)
            left = other.recv(100) or other.recv(100)
        yield from fault_of(f"after the end, {packets}", (faults, status, left), ([], 0, end or b"more"))


def a_closed_output(program, folder):
    (folder / "filter").write_text("ret #1")
    (folder / "capture").write_bytes(header() + record(b"a") * 100_000)
    for options, first in (["-p"], b"1\tpass\tl0\t1\t-\t-\n"), ([], b"packet 1\n"):
        with started([program, "why", *options, "filter", "capture", "1-100000"], folder) as process:
            line = process.stdout.readline()
            process.stdout.close()
            got = line, process.stderr.read(), process.wait()
        yield from fault_of(f"a closed output, {options}", got, (first, b"cbpf: write fault\n", 1))


def an_interrupt(program, folder):
    """What was printed stays, and nothing comes after it. A shell may have made this script ignore the signal."""
    signal.signal(signal.SIGINT, signal.SIG_DFL)
    (folder / "filter").write_text("ret #1")
    with started([program, "why", "-p", "filter"], folder) as process:
        process.stdin.write(header() + record(b"a"))
        line = process.stdout.readline()
        process.send_signal(signal.SIGINT)
        got = line, process.stdout.read(), process.wait()
    yield from fault_of("SIGINT", got, (b"1\tpass\tl0\t1\t-\t-\n", b"", -signal.SIGINT))


def a_read_that_is_interrupted(program, folder):
    """It is made again. Where a socket has a time limit, a process that was stopped and goes on interrupts its read."""
    (folder / "filter").write_text("ret #1")
    own, other = socket.socketpair()
    other.setsockopt(socket.SOL_SOCKET, socket.SO_RCVTIMEO, struct.pack("ll", SECONDS, 0))
    words = [program, "why", "-p", "filter"]
    given = {"stdin": other, "stdout": subprocess.PIPE, "stderr": subprocess.PIPE, "bufsize": 0}
    with subprocess.Popen(words, cwd=folder, **given) as process:
        other.close()
        with own:
            own.sendall(header() + record(b"a"))
            line = process.stdout.readline()
            waits(process)
            process.send_signal(signal.SIGSTOP)
            os.waitpid(process.pid, os.WUNTRACED)
            process.send_signal(signal.SIGCONT)
            waits(process)
            own.sendall(record(b"b"))
        got = line, process.stdout.read(), process.stderr.read(), process.wait()
    yield from fault_of("a read again", got, (lines_of_passes([1]), lines_of_passes([2]), b"", 0))


def a_read_that_fails(program, folder):
    """What is due has gone out, and the totals haven't. A socket whose other end is closed before it has read all gives
    what it was sent, and then an error."""
    (folder / "filter").write_text("ret #1")
    trace = "packet 1\nl0:\tret #0x1\tA 0 (0x0) X 0 (0x0)\npass at l0:\tret #0x1\n"
    due = {"-p": "1\tpass\tl0\t1\t-\t-\n", "- 1-9": trace, "-": "", "-l": "", "-g": "", "- 7": ""}
    for options, wanted in due.items():
        own, other = socket.socketpair()
        other.send(b"never read")
        own.send(header() + record(b"a") + record(b"b")[:-1])
        own.close()
        with other:
            got = ran([program, "why", "filter", *options.split()], folder, stdin=other)
        yield from fault_of(f"a read that fails, {options}", got, (wanted.splitlines(), ["cbpf: read fault"], 1))


def a_growing_file(program, folder):
    """It is read up to the end that it has then: what comes while its output waits is read too."""
    (folder / "filter").write_text("ret #1")
    data = header() + record(bytes(50)) * 60_000
    (folder / "capture").write_bytes(data)
    with started([program, "why", "-p", "filter", "capture"], folder) as process:
        process.stdout.readline()
        with open(folder / "capture", "ab") as capture:
            capture.write(record(b"a") * 1000 + record(b"b")[:-1])
        got = process.stdout.read().count(b"\n"), process.wait()
    yield from fault_of("a growing file", got, (60_999, 0))
    says = [f"pass 61000 at l0:\tret #0x1, first packet 1", "bpf passes:61000 fails:0"]
    cut = f"pcap: 61000 packets, cut record data at {len(data) + 17_000}"
    yield from fault_of("a grown file", ran([program, "why", "filter", "capture"], folder), ([*says, cut], [], 0))


def of_process(process, file, name):
    """A number that the kernel keeps of a process."""
    return int(re.search(rf"(?m)^{name}:\s*(\d+)", Path(f"/proc/{process.pid}/{file}").read_text())[1])


def a_long_pipe(program, folder):
    """Packets of 64 bytes, in little memory, and with few reads. Long ones after them make it longer than 4 GB."""
    (folder / "filter").write_text(ARP)
    piece = (record(bytes(12) + b"\x08\x06" + bytes(50)) + record(bytes(64))) * 6_250
    long = record(bytes(62_484)) * 16
    passes = 6_250 * MEGABYTES
    fails = passes + 16 * (4_300 - MEGABYTES)
    with started([program, "why", "filter"], folder) as process:
        process.stdin.write(header())
        for _ in range(MEGABYTES):
            write_all(process.stdin, piece)
        used, reads = of_process(process, "status", "VmHWM") * 1024, of_process(process, "io", "syscr")
        for _ in range(4_300 - MEGABYTES):
            write_all(process.stdin, long)
        process.stdin.close()
        said, status = process.stdout.read().decode().splitlines(), process.wait()
    yield from fault_of("a long pipe", (said[-1:], status), ([f"bpf passes:{passes} fails:{fails}"], 0))
    yield from fault_of(f"memory of a long pipe: {used} bytes", used <= FEW_BYTES, True)
    yield from fault_of(f"reads of a long pipe: {reads}", reads < 100_000, True)


def write_all(file, data):
    view = memoryview(data)
    while view:
        view = view[file.write(view) :]


def a_claim_of_4_gigabytes(program, folder):
    """Nothing is asked for before its bytes come."""
    (folder / "filter").write_text("ret #1")
    with started([program, "why", "filter"], folder) as process:
        process.stdin.write(header() + struct.pack("<IIII", 1, 0, 2**32 - 1, 2**32 - 1) + bytes(1000))
        yield from fault_of("a claim", waits(process), True)
        used = of_process(process, "status", "VmHWM") * 1024
        process.stdin.close()
        got = process.stdout.read(), process.wait()
    yield from fault_of("a claim", got, (b"bpf passes:0 fails:0\npcap: 0 packets, cut record data at 24\n", 0))
    yield from fault_of(f"memory of a claim: {used} bytes", used <= FEW_BYTES, True)


TESTS = [
    a_long_pipe,
    cut_at_each_byte,
    each_byte_of_the_header,
    each_link_type,
    filters_of_each_size,
    by_one_byte_a_read,
    line_by_line,
    the_last_packet_ends_it,
    a_thousand_numbers,
    nothing_is_read_after_the_end,
    a_closed_output,
    an_interrupt,
    a_read_that_is_interrupted,
    a_read_that_fails,
    a_growing_file,
    a_claim_of_4_gigabytes,
]
# What the random programs reach beside returns.
REASONS = {"outside the packet", "division by 0", "an extension has no value", *(f"C{n}" for n in range(3, 11))}


def tested(program, test):
    with tempfile.TemporaryDirectory() as folder:
        try:
            return [f"{test.__name__}: {fault}" for fault in test(program, Path(folder))]
        except OSError as error:
            return [f"{test.__name__}: {error}"]


def main():
    if len(sys.argv) not in (2, 3):
        sys.exit(__doc__)
    program = str(Path(sys.argv[1]).resolve())
    count = int(sys.argv[2]) if len(sys.argv) == 3 else PROGRAMS
    programs = list(tasks(count))
    with ProcessPoolExecutor(len(os.sched_getaffinity(0))) as pool:
        of_tests = pool.map(partial(tested, program), TESTS)
        outcomes = list(pool.map(partial(compared, program), programs, chunksize=4))
        faults = [found for found in of_tests if found] + [found for found, _ in outcomes if found]
    missing = REASONS.difference(*(reached for _, reached in outcomes)) if count >= PROGRAMS else set()
    faults += [[f"never reached: {missing}"]] if missing else []
    for found in faults:
        print("failed " + "\n    ".join(fault[:2000] for fault in found))
    print(f"{len(programs)} programs and {len(TESTS)} tests, {len(faults)} failed")
    sys.exit(1 if faults else 0)


if __name__ == "__main__":
    main()
