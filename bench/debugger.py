"""Times the debugger over programs: reading and printing them, and hostile word texts.

User and system time of whole processes: the least of several. Where the kernel's bpf_dbg is on the PATH, dumps and
listings of a program that it takes are timed by turns with it, as medians. Each program's answer is looked at before
it is timed (answers.py). Wants crates/cbpf built by `make build`.

`debugger.py --callgrind` counts machine instructions in their place, by valgrind.
"""
import os
import shutil

import answers
import session

cbpf = session.cbpf

INSTRUCTIONS = ["40 0 0 12", "21 0 1 2054", "177 0 0 14", "6 0 0 4294967295"]
DUMPS = 200
LOADS = 200
# What bpf_dbg takes it also attaches to a socket, where the kernel makes several instructions of each that reads the
# packet, and holds them to a limit of memory (net.core.optmem_max): so there are fewer here, and none reads the packet.
TAKEN = ["0 0 0 12", "21 0 1 2054", "7 0 0 0", "6 0 0 4294967295"]
TAKEN_SIZE = 1024
HOSTILE = [
    ("digits", "1" * 10**7, "error: N2 at byte 0: number out of range\n"),
    ("commas", "," * 10**7, "error: N1 at byte 0: number expected\n"),
    ("blanks", "1" + " " * 10**7 + "x", "error: N3 at byte 10000001: unexpected byte\n"),
]


def words(count, instructions):
    return f"{count}," + ",".join(instructions * (count // 4))


def spent(measure, head, command, times, rounds=5):
    works = measure.of(cbpf, head, command, times)
    return min(works() for _ in range(1 if measure.counting else rounds))


def show_programs(measure):
    """Loads and dumps of the longest program."""
    load = f"load bpf {words(4096, INSTRUCTIONS)}"
    script = session.script(measure.folder, f"{load}\n" * LOADS)
    answers.debugged(cbpf, script, ("bpf: 4096 instructions", LOADS))
    measure.show("load bpf", spent(measure, "", load, LOADS) / 4096, "an instruction")
    script = session.script(measure.folder, f"{load}\n" + "dump\n" * DUMPS)
    answers.debugged(cbpf, script, ("{ 0", 4096 * DUMPS))
    measure.show("dump", spent(measure, f"{load}\n", "dump", DUMPS) / 4096, "a line")


def show_beside_bpf_dbg(measure):
    """The same lines by both, of a program that bpf_dbg takes."""
    head = f"load bpf {words(TAKEN_SIZE, TAKEN)}\n"
    for command, beginning in [("dump", "{ 0"), ("disassemble", "l")]:
        script = session.script(measure.folder, head + f"{command}\n" * DUMPS + "quit\n")
        lines = TAKEN_SIZE * DUMPS
        ours = answers.lines_of(cbpf, answers.asked([cbpf], script)[0], beginning, lines)
        theirs = answers.lines_of("bpf_dbg", replies(answers.asked(["bpf_dbg"], script)[0]), beginning, lines)
        if command == "dump":
            answers.same("bpf_dbg", "\n".join(ours), "\n".join(theirs))
        mine, other = (measure.of(program, head, command, DUMPS) for program in (cbpf, "bpf_dbg"))
        measure.compare(f"{command} of {TAKEN_SIZE} instructions", mine, "a line", "bpf_dbg", other, TAKEN_SIZE)


def show_hostile(measure):
    for what, text, reply in HOSTILE:
        load = f"load bpf {text}"
        answer, _ = answers.asked([cbpf], session.script(measure.folder, f"{load}\n"))
        answers.same(cbpf, reply, answer)
        measure.show(f"word text of 10 MB of {what}", spent(measure, "", load, 1, 3) / 10**7, "a byte")


def replies(said):
    """What bpf_dbg printed, less the commands, which it repeats after its prompt, and what refuses them."""
    lines = [line for line in said.splitlines() if not line.startswith(">")]
    refusals = [line for line in lines if line.endswith("!")]
    if refusals:
        answers.fault("bpf_dbg", f"{refusals[0]} (a program of {TAKEN_SIZE} instructions)")
    return "\n".join(lines)


def main(folder):
    # bpf_dbg keeps a history in the home folder.
    os.environ["HOME"] = str(folder)
    measure = session.Measure(folder)
    show_programs(measure)
    if shutil.which("bpf_dbg"):
        show_beside_bpf_dbg(measure)
    show_hostile(measure)


if __name__ == "__main__":
    session.in_folder(main)
