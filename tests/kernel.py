#!/usr/bin/env python3
"""Attaches programs to a socket of the running Linux, and compares what passes with what a built program says.

usage: kernel.py PROGRAM

The socket is one of a pair of Unix datagram sockets. A filter is attached by SO_ATTACH_FILTER, which needs no privilege
there, and no network. The programs are those of tests/verdicts.txt, and random ones from a fixed seed, of which some
are wrong. The packets are those of examples/mixed.pcap, and random ones of up to 34,000 bytes. Compared are whether
Linux and PROGRAM take a program, whether a packet passes, and how many bytes of it, which is the value that the filter
returns. Of the extensions those are compared whose value is 0 for each packet of such a socket.

A difference is a failure, unless docs/KERNEL_TOOLS.md lists it below `Beside Linux`. Whether Linux refuses a program
for a reason that is listed there is worked out. A packet isn't compared where it comes to an instruction that does what
is listed. The programs of LISTED show that Linux does it.

The last line is `N programs, M failed`. Where no filter can be attached, or an attached one has no effect, the only
line is `not run: ` and the reason, with status 0.
"""

import ctypes
import errno
import random
import re
import socket
import struct
import subprocess
import sys
import tempfile
from itertools import compress, pairwise
from pathlib import Path

TOP = Path(__file__).resolve().parent.parent
RANDOM_PROGRAMS = 2000

SO_ATTACH_FILTER, SO_DETACH_FILTER = 26, 27

LD_IMM, LD_MEM, LD_LEN, LDX_IMM, LDX_MEM, LDX_LEN, LDX_MSH = 0x00, 0x60, 0x80, 0x01, 0x61, 0x81, 0xB1
ST, STX, NEG, TAX, TXA, JA, RET_K, RET_A = 0x02, 0x03, 0x84, 0x07, 0x87, 0x05, 0x06, 0x16
AND, ABSOLUTE, BY_X = 0x54, [0x20, 0x28, 0x30], [0x40, 0x48, 0x50]
DIVISIONS, SHIFTS = [0x34, 0x94], [0x64, 0x74]
WITH_K = [0x04, 0x14, 0x24, 0x44, AND, 0xA4, *DIVISIONS, *SHIFTS]
WITH_X = [code + 8 for code in WITH_K]
SHIFTS_BY_X = [code + 8 for code in SHIFTS]
JUMPS_K = [0x15, 0x25, 0x35, 0x45]
JUMPS = [*JUMPS_K, *(code + 8 for code in JUMPS_K)]
SLOTS, RETURNS = [LD_MEM, LDX_MEM, ST, STX], [RET_K, RET_A]
CODES = {*ABSOLUTE, *BY_X, *WITH_K, *WITH_X, *JUMPS, *SLOTS, *RETURNS, LD_IMM, LD_LEN, LDX_IMM, LDX_LEN, LDX_MSH}
CODES |= {NEG, TAX, TXA, JA}

# Where negative offsets from the link header begin, those from the network header, and extensions.
LINK, NETWORK, EXTENSIONS = 0xFFE00000, 0xFFF00000, 0xFFFFF000
# A packet of a Unix socket has no link header, and its network header lies at its first byte. So both fail a load from
# elsewhere above LINK, as no packet here has 65,536 bytes.
FROM_NETWORK = range(NETWORK, NETWORK + 2**16)
# By place; there is none at the offset 40.
NAMES = "proto type ifidx nla nlan mark queue hatype rxhash cpu - vlan_tci vlan_avail poff rand vlan_tpid".split()
# The others are values that a packet of a Unix socket doesn't have, or not the same at each time.
ARE_ZERO = {"proto", "type", "mark", "queue", "rxhash", "vlan_tci", "vlan_avail", "vlan_tpid"}
COMPARED = [EXTENSIONS + 4 * place for place, name in enumerate(NAMES) if name in ARE_ZERO]

# The numbers of the errors C, by their rows in the reference.
PROGRAM_ERRORS = re.findall(r"(?m)^\| (C\d+) \|", (TOP / "docs/REFERENCE.md").read_text())


def instructions(words):
    """The code, jt, jf and k of each instruction of a word text."""
    return [tuple(map(int, insn.split())) for insn in words.split(",")[1:] if insn]


def words_of(program):
    return f"{len(program)}," + ",".join("{} {} {} {}".format(*insn) for insn in program)


# A program for each row, and what Linux makes of the packet SHOWN: the value returned, or the error of a refusal.
SHOWN = bytes(range(1, 41))
LISTED = {
    "a load that follows a return": ("3,6 0 0 5,96 0 0 0,22 0 0 0", errno.EINVAL),
    "a load that a way over a return leads to": ("5,6 0 0 5,7 0 0 0,5 0 0 0,97 0 0 3,22 0 0 0", errno.EINVAL),
    "lsh x": ("4,0 0 0 3,1 0 0 33,108 0 0 0,22 0 0 0", 6),
    "rsh x": ("4,0 0 0 3,1 0 0 32,124 0 0 0,22 0 0 0", 3),
    "an absolute load from the network header": (f"2,48 0 0 {NETWORK + 8},22 0 0 0", 9),
    "a load by X from the network header": (f"3,1 0 0 {NETWORK},80 0 0 8,22 0 0 0", 9),
    "a header length from the network header": (f"3,177 0 0 {NETWORK + 8},135 0 0 0,22 0 0 0", 36),
    "a load from the link header, which isn't there": (f"2,48 0 0 {LINK + 8},6 0 0 7", 0),
    "offset 40": (f"4,0 0 0 12,1 0 0 5,32 0 0 {EXTENSIONS + 40},22 0 0 0", 9),
    "offset 41": (f"2,32 0 0 {EXTENSIONS + 41},6 0 0 7", errno.EINVAL),
    "ifidx without a device": (f"3,0 0 0 7,32 0 0 {EXTENSIONS + 8},6 0 0 9", 7),
    "hatype without a device": (f"3,0 0 0 7,32 0 0 {EXTENSIONS + 28},6 0 0 9", 7),
}

# The least and the greatest sizes of programs, the farthest jumps, and a program that is long for Linux.
GREAT = [
    [],
    [(RET_K, 0, 0, 7)] * 4096,
    [(RET_K, 0, 0, 7)] * 4097,
    [(JA, 0, 0, 4094), *[(RET_K, 0, 0, 0)] * 4094, (RET_K, 0, 0, 7)],
    [(0x15, 255, 0, 0), *[(RET_K, 0, 0, 0)] * 255, (RET_K, 0, 0, 7)],
    [(LDX_MSH, 0, 0, 0)] * 4095 + [(RET_K, 0, 0, 7)],
]
# A program of so many instructions may be larger than `net.core.optmem_max` in Linux's own form.
MAY_LACK_ROOM = 200


class Receiver:
    """A socket that has a filter, and the one that sends to it."""

    def __init__(self):
        self.sender, self.receiver = socket.socketpair(socket.AF_UNIX, socket.SOCK_DGRAM)
        self.receiver.setblocking(False)
        self.attached = False

    def attach(self, program):
        """Puts a filter into the place of the last one. The number of the error where Linux refuses, or None."""
        if self.attached:
            # With both attached at once, there had to be room for both.
            self.receiver.setsockopt(socket.SOL_SOCKET, SO_DETACH_FILTER, 0)
        self.attached = False
        insns = ctypes.create_string_buffer(b"".join(struct.pack("=HBBI", *insn) for insn in program))
        try:
            head = struct.pack("HP", len(program), ctypes.addressof(insns))
            self.receiver.setsockopt(socket.SOL_SOCKET, SO_ATTACH_FILTER, head)
        except OSError as refused:
            return refused.errno
        self.attached = True
        return None

    def passed(self, packet):
        """What comes of a packet, or None. A filter that drops it is no error of the sender."""
        self.sender.send(packet)
        try:
            return self.receiver.recv(len(packet) + 1)
        except BlockingIOError:
            return None


def obstacle():
    """Why filters can't be compared here, or None."""
    try:
        link = Receiver()
        for value, wanted in [(2**32 - 1, SHOWN), (0, None), (5, SHOWN[:5])]:
            refused = link.attach([(RET_K, 0, 0, value)])
            if refused:
                return f"a filter can't be attached to a socket: {errno.errorcode.get(refused, refused)}"
            if link.passed(SHOWN) != wanted:
                return "a filter that is attached to a socket has no effect"
    except OSError as failed:
        return f"no sockets: {failed}"
    return None


def packets(draw):
    """Those of the capture, and random ones. The last has more bytes than Linux keeps in one piece."""
    data, at, found = (TOP / "examples/mixed.pcap").read_bytes(), 24, []
    while at < len(data):
        taken = struct.unpack_from("<I", data, at + 8)[0]
        found.append(data[at + 16 : at + 16 + taken])
        at += 16 + taken
    return found + [draw.randbytes(n) for n in [0, 1, 2, 3, 4, 7, 16, 33, 64, 64, 200, 1500, 34000]]


def write_capture(path, fed):
    records = [struct.pack("<IIII", 0, 0, len(packet), len(packet)) + packet for packet in fed]
    path.write_bytes(struct.pack("<IHHIIII", 0xA1B2C3D4, 2, 4, 0, 0, 65535, 1) + b"".join(records))


# How often which codes are drawn.
DRAWN = [
    (6, ABSOLUTE),
    (3, BY_X),
    (2, [LDX_MSH]),
    (5, WITH_K),
    (4, WITH_X),
    (5, JUMPS),
    (3, SLOTS),
    (2, [LD_IMM, LDX_IMM]),
    (3, [LD_LEN, LDX_LEN, NEG, TAX, TXA]),
    (1, [JA, *RETURNS]),
]
EDGES = [0, 1, 6, 17, 31, 32, 255, 0x800, 0x806, 0x86DD, 0xFFFF, 2**31 - 1, 2**31, 2**32 - 1]


def place(draw):
    """Mostly near the beginning of a packet. The negative offsets are not those of extensions."""
    ways = [draw.randrange(64)] * 24
    ways += [draw.randrange(33990, 34002), draw.randrange(32764, 32770), draw.getrandbits(32) % LINK]
    return draw.choice([*ways, draw.choice([LINK, NETWORK]) + draw.randrange(40)])


def number_for(draw, code):
    """A k that the code can have."""
    k = draw.choice([draw.randrange(64), draw.choice(EDGES), draw.getrandbits(32)])
    if code in ABSOLUTE and not draw.randrange(24):
        return draw.choice(COMPARED)
    if code == LDX_MSH and not draw.randrange(16):
        return draw.randrange(LINK, 2**32)
    if code in ABSOLUTE or code == LDX_MSH:
        return place(draw)
    if code in BY_X:
        negative = [2**32 - draw.randrange(1, 32), NETWORK + draw.randrange(32)]
        return draw.choice([*[draw.randrange(32)] * 20, place(draw), *negative])
    if code in DIVISIONS:
        return max(k, 1)
    if code in SHIFTS:
        return k % 32
    return draw.randrange(4) if code in SLOTS else k


def drawn(draw, code):
    """An instruction. Mostly A or X is made small before it, where great ones would all do the same."""
    rest = [draw.choice([0, 0, 0, draw.randrange(256)]) for _ in range(2)]
    few, small_a = draw.randrange(4), (AND, 0, 0, 3)
    if code in BY_X or code in SHIFTS_BY_X:
        small_x = [[(LDX_IMM, 0, 0, draw.randrange(32))], [(AND, 0, 0, 31), (TAX, 0, 0, 0)], []]
        return [*draw.choice(small_x), (code, *rest, number_for(draw, code))]
    if code in JUMPS and draw.randrange(2):
        return [(LDX_IMM, 0, 0, few), small_a, (code, *rest, few)]
    return [(code, *rest, number_for(draw, code))]


def placed(draw, program):
    """The program, where jumps lead to instructions that it has, mostly near ones, and slots 0 to 3 are any four."""
    slots, found = draw.sample(range(16), 4), []
    for at, (code, jt, jf, k) in enumerate(program):
        ahead = len(program) - 1 - at
        if code in JUMPS:
            jt, jf = [draw.randrange(min(ahead, draw.choice([3, 3, 3, 255]))) for _ in range(2)]
        elif code == JA:
            k = draw.randrange(min(ahead, 4))
        elif code in SLOTS:
            k = slots[k]
        found.append((code, jt, jf, k))
    return found


def right_program(draw):
    """Slots are mostly written at the beginning, and in the end A is made of much and small enough to cut packets."""
    program = [(LD_IMM, 0, 0, draw.randrange(64)), (LDX_IMM, 0, 0, draw.randrange(64))]
    program += [(draw.choice([ST, STX]), 0, 0, slot) for slot in range(4) if draw.randrange(12)]
    weights, kinds = zip(*DRAWN, strict=True)
    for codes in draw.choices(kinds, weights, k=draw.randrange(1, 20)):
        program += drawn(draw, draw.choice(codes))
    for code in draw.sample([0x0C, 0xAC, NEG, 0x74, LDX_MEM], draw.randrange(4)):
        program += drawn(draw, code)
    program += draw.choice([[], [(0x94, 0, 0, draw.choice([2, 7, 61]))], [(AND, 0, 0, draw.choice([1, 63]))]])
    program.append(draw.choice([(RET_A, 0, 0, 0), (RET_A, 0, 0, 0), (RET_K, 0, 0, draw.randrange(1, 50))]))
    return placed(draw, program)


def wrong_instruction(draw, ahead):
    """One that has an error of its own, or may have one."""
    some = draw.getrandbits(32)
    return draw.choice(
        [
            (draw.choice([draw.randrange(256), draw.randrange(65536)]), 0, 0, draw.randrange(64)),
            (draw.choice(SLOTS), 0, 0, draw.choice([15, 16, 17, 2**31, some])),
            (draw.choice(DIVISIONS), 0, 0, 0),
            (draw.choice(SHIFTS), 0, 0, draw.choice([31, 32, 33, 2**31, some])),
            (JA, 0, 0, draw.choice([max(ahead - 1, 0), ahead, 2**31, 2**32 - 1, some])),
            (draw.choice(JUMPS), draw.randrange(256), draw.randrange(256), some),
            (draw.choice(ABSOLUTE), 0, 0, EXTENSIONS + draw.randrange(70)),
            (draw.choice(ABSOLUTE), 0, 0, draw.randrange(EXTENSIONS, 2**32)),
            (draw.choice([LD_MEM, LDX_MEM]), 0, 0, draw.randrange(16)),
            (draw.choice(RETURNS), 0, 0, some),
        ]
    )


def random_program(draw):
    program = right_program(draw)
    if not draw.randrange(4):
        last = len(program) - 1
        at = draw.choice([last, *[draw.randrange(len(program))] * 7])
        program[at] = wrong_instruction(draw, last - at)
    return program


def goes_over_a_return(program):
    """Whether a load of a slot can be reached without a store into it where returns go on to the next instruction, as
    in Linux's check. The program is one that PROGRAM takes."""
    unwritten = [0] * len(program)
    unwritten[0] = 2**16 - 1
    for at, (code, jt, jf, k) in enumerate(program):
        if code in (LD_MEM, LDX_MEM) and unwritten[at] >> k & 1:
            return True
        left = unwritten[at] & ~(1 << k) if code in (ST, STX) else unwritten[at]
        for skipped in [k] if code == JA else [jt, jf] if code in JUMPS else [0]:
            if at + 1 + skipped < len(program):
                unwritten[at + 1 + skipped] |= left
    return False


def is_offset_40(insn):
    return insn[0] in ABSOLUTE and insn[3] == EXTENSIONS + 40


def asks(program):
    """Whether the program loads an extension that isn't compared."""
    return any(code in ABSOLUTE and k >= EXTENSIONS and k not in COMPARED for code, _, _, k in program)


def acceptance(program, reply, refused):
    """What is wrong of the reply to a program and the error with which Linux refused it, if it did; or None."""
    if reply == f"bpf: {len(program)} instructions":
        if refused == errno.ENOMEM and len(program) >= MAY_LACK_ROOM:
            return None
        wanted = errno.EINVAL if goes_over_a_return(program) else None
    elif reply.startswith("error: C8 ") and is_offset_40(program[int(re.findall(r"\d+", reply)[1])]):
        # Linux may refuse it all the same, for an error after this one.
        wanted = refused
    elif reply.startswith("error: C"):
        wanted = errno.EINVAL
    else:
        return f"the reply is {reply}"
    of_linux = f"refuses it by {errno.errorcode.get(refused, refused)}" if refused else "takes it"
    return None if refused == wanted else f"{reply}, but Linux {of_linux}"


def is_watched(insn):
    """Whether a stop at the instruction is asked for: a return, and what may be a listed difference."""
    code, _, _, k = insn
    from_header = (code in ABSOLUTE or code == LDX_MSH) and k in FROM_NETWORK
    return from_header or code in RETURNS or code in SHIFTS_BY_X or code in BY_X


def differs(insn, x):
    """Whether an instruction that is watched is a listed difference, with this X."""
    code, _, _, k = insn
    return (x + k) % 2**32 in FROM_NETWORK if code in BY_X else code not in SHIFTS_BY_X or x >= 32


def questions(program, count):
    """The commands for each packet's count, and for all stops."""
    breakpoints = [f"breakpoint {at}" for at, insn in enumerate(program) if is_watched(insn)]
    return [f"load bpf {words_of(program)}", *["run 1"] * count, *breakpoints, "stops"]


def matched(pattern, lines):
    """The next line, which has to match."""
    line = next(lines, "none")
    found = re.fullmatch(pattern, line)
    if not found:
        sys.exit(f"failed: the reply is {line}, wanted {pattern}")
    return found


def answers(program, count, lines):
    """From the replies to `questions`, for each packet: whether PROGRAM counts it as a pass, what is returned, or 0
    where no return is reached, and whether it can be compared."""
    matched(f"bpf: {len(program)} instructions", lines)
    counts = [0, *(int(matched(r"bpf passes:(\d+) fails:\d+( next:\d+)?", lines)[1]) for _ in range(count))]
    for _ in filter(is_watched, program):
        matched("breakpoint at: .*", lines)
    returned, compared = [0] * count, [True] * count
    while (stop := matched(r"(\d+) \d+ l(\d+) A (\d+) X (\d+) \(breakpoint\)|stops: \d+", lines))[1]:
        packet, at, a, x = map(int, stop.groups())
        if program[at][0] in RETURNS:
            returned[packet - 1] = a if program[at][0] == RET_A else program[at][3]
        elif differs(program[at], x):
            compared[packet - 1] = False
    passes = [after - before for before, after in pairwise(counts)]
    return list(zip(passes, returned, compared, strict=True))


def replies_to(program, folder, script):
    text = "\n".join(script) + "\n"
    done = subprocess.run([program], input=text, capture_output=True, text=True, cwd=folder, timeout=600)
    if done.returncode or done.stderr:
        sys.exit(f"status {done.returncode}: {done.stderr}")
    return done.stdout.splitlines()


def verdicts(link, program, fed, answered, reached):
    """What is wrong of the verdicts on the packets, with the filter that is attached; or None."""
    for number, (packet, (passes, returned, compared)) in enumerate(zip(fed, answered, strict=True), 1):
        if passes != bool(returned):
            return f"packet {number}: {passes} passes, but the value {returned} at its return"
        got, wanted = link.passed(packet), packet[:returned] if returned else None
        if compared and got != wanted:
            lengths = [None if it is None else len(it) for it in (got, wanted)]
            return f"packet {number} of {len(packet)} bytes: Linux passes {lengths[0]}, wanted {lengths[1]}"
        kind = "fails" if wanted is None else "passes, cut" if len(wanted) < len(packet) else "passes"
        reached.add(kind if compared else "not compared")
    return None


def listed_rows(link):
    """The rows of which Linux doesn't do what is listed."""
    for name, (words, wanted) in LISTED.items():
        got = link.attach(instructions(words))
        if got is None:
            got = len(link.passed(SHOWN) or b"")
        if got != wanted:
            yield f"{name}: Linux gives {got}, listed is {wanted}"


def all_programs(draw):
    of_tcpdump = [row.split("|")[1] for row in (TOP / "tests/verdicts.txt").read_text().splitlines()]
    of_rows = [words for words, _ in LISTED.values()]
    return [*map(instructions, of_tcpdump + of_rows), *GREAT, *(random_program(draw) for _ in range(RANDOM_PROGRAMS))]


def asked(program, folder, programs, fed):
    """For each program the reply to its load, and `answers` where it is run, or None."""
    replies = replies_to(program, folder, [f"load bpf {words_of(it)}" for it in programs])
    are_run = [reply.startswith("bpf: ") and not asks(it) for it, reply in zip(programs, replies, strict=True)]
    begin = [*(f"value {name} 0" for name in sorted(ARE_ZERO)), "load pcap fed"]
    script = [line for it in compress(programs, are_run) for line in questions(it, len(fed))]
    lines = iter(replies_to(program, folder, begin + script)[len(begin) :])
    for it, reply, is_run in zip(programs, replies, are_run, strict=True):
        yield reply, answers(it, len(fed), lines) if is_run else None


def difference(link, program, fed, reply, answered, reached):
    """What is wrong of a program, or None. Notes what is reached: codes, errors and kinds of verdicts."""
    refused = link.attach(program)
    reached |= set(re.findall(r"^error: (C\d+) ", reply))
    found = acceptance(program, reply, refused)
    if found or refused or answered is None:
        return found
    reached |= {code for code, *_ in program}
    return verdicts(link, program, fed, answered, reached)


def main():
    if len(sys.argv) != 2:
        sys.exit(__doc__)
    reason = obstacle()
    if reason:
        print(f"not run: {reason}")
        return
    draw, link = random.Random(0), Receiver()
    fed, programs, reached = packets(draw), all_programs(draw), set()
    faults = list(listed_rows(link))
    with tempfile.TemporaryDirectory() as folder:
        write_capture(Path(folder) / "fed", fed)
        replies = asked(str(Path(sys.argv[1]).resolve()), folder, programs, fed)
        for it, (reply, answered) in zip(programs, replies, strict=True):
            found = difference(link, it, fed, reply, answered, reached)
            faults += [f"{words_of(it)}: {found}"] if found else []
    missing = {*CODES, *PROGRAM_ERRORS, "passes", "passes, cut", "fails", "not compared"} - reached
    faults += [f"never reached: {missing}"] if missing else []
    for fault in faults:
        print(f"failed {fault}")
    print(f"{len(programs)} programs, {len(faults)} failed")
    sys.exit(1 if faults else 0)


if __name__ == "__main__":
    main()
