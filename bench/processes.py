"""Measures whole processes beside their peers: a short session, short and long sources, a load with its run, and
`why`.

Machine instructions by valgrind, page faults and peak memory don't depend on the machine's load. Times are compared
by turns, as ratios. Peers are an empty C program, the kernel's bpf_asm, netsniff-ng's bpfc, and tcpdump; what is
missing is left out, and without cc or valgrind so are the columns that need it. Each program's answer is looked at
before it is measured (answers.py). Needs crates/cbpf built by `make build`.

Its lines: what: instructions, page faults, peak memory in MB, ratio of the times to those of cbpf's line above
"""
import shutil
import statistics

import answers
import assembler
import programs
import session

cbpf = session.cbpf

PACKETS = [100_000] if session.ONLY_ANSWERS else [100_000, 1_000_000]
# Assemblers that print the same words.
ASSEMBLERS = [["bpf_asm"], ["bpfc", "-f", "xt_bpf", "-i"]]
ROUNDS = 31
TEN = "ldh [12]\njne #0x800, drop\nldb [23]\njne #6, drop\nldh [20]\njset #0x1fff, drop\nldxb 4*([14]&0xf)\n"
TEN += "ldh [x + 16]\nret #-1\ndrop: ret #0\n"


def instructions(command, script="/dev/null"):
    """The machine instructions of a process, as valgrind counts them, or None."""
    return session.counted(command, script) if shutil.which("valgrind") else None


def assembled(source, count):
    """The commands that assemble a source of so many instructions, whose words are the same by both."""
    ours, _ = answers.asked([cbpf, "asm", source])
    answers.holds(cbpf, ours.startswith(f"{count},") and ours.count(",") == count + 1, f"{count} instructions", ours)
    commands = [("`cbpf asm`", [cbpf, "asm", source])]
    for words in ASSEMBLERS:
        if shutil.which(words[0]):
            theirs, _ = answers.asked([*words, source])
            answers.same(words[0], lines(ours), lines(theirs))
            commands.append((f"`{words[0]}`", [*words, source]))
    return commands


def lines(words):
    """An instruction a line, as not every assembler ends its last one with a line end."""
    return words.rstrip("\n").replace(",", "\n")


def loaded(folder, count):
    """The commands that read so many packets and filter them."""
    packets, script = session.capture(folder / "packets", count), folder / "script"
    script.write_text(f"load bpf {programs.SIX}\nload pcap {packets}\nrun\n")
    passes = answers.counts(cbpf, script, count)
    yield f"load and `run` of {count:,} packets of 64 bytes, `ip proto 17`", [cbpf, "dbg", script]
    filter_ = folder / "filter"
    filter_.write_text(programs.SIX)
    answer, _ = answers.asked([cbpf, "why", filter_, packets])
    answers.same(cbpf, f"bpf passes:{passes} fails:{count - passes}\n", answer.splitlines(True)[-1])
    yield "`cbpf why` with that filter", [cbpf, "why", filter_, packets]
    if shutil.which("tcpdump"):
        answers.read_by_tcpdump(packets, "ip proto 17", passes, 16 + len(session.FRAME))
        for what, words in [("--count", ["--count"]), ("-w /dev/null", ["-w", "/dev/null"])]:
            yield f"`tcpdump -r {what}` with that filter", ["tcpdump", "-q", "-r", packets, *words, "ip proto 17"]


def works(folder):
    """Each work with the commands that do it: cbpf first."""
    sources = [
        ("of 10 instructions", TEN, 10),
        ("of 4000 instructions without labels", assembler.without_labels(), 4000),
        ("of 4000 instructions with 2000 labels", assembler.with_labels(), 4000),
    ]
    source = folder / "source"
    empty = session.compiled(folder, "empty")
    start = [("`cbpf`, an empty script", [cbpf]), ("`cbpf dbg`, an empty script", [cbpf, "dbg"])]
    start += [("an empty C program", [empty])] if empty else []
    for _, command in start:
        answers.same(command[0], "", answers.asked(command)[0])
    yield start
    for what, text, count in sources:
        source.write_text(text)
        yield [(f"{who} {what}", command) for who, command in assembled(source, count)]
    for count in PACKETS:
        yield list(loaded(folder, count))


def print_work(process, commands):
    """A line for each command, with its times as a ratio to the first one's, by turns."""
    words = [[str(word) for word in command] for _, command in commands]
    rounds = [[session.used(process, command) for command in words] for _ in range(ROUNDS)] if process else []
    for place, (what, _) in enumerate(commands):
        parts = []
        if count := instructions(words[place]):
            parts.append(f"{count:,} machine instructions")
        if rounds:
            mine = [each[place] for each in rounds]
            parts.append(f"{statistics.median(each.faults for each in mine):.0f} page faults")
            parts.append(f"{max(each.peak for each in mine) / 1e6:.1f} MB")
            if place:
                ratio = statistics.median(each[place].seconds() / each[0].seconds() for each in rounds)
                parts.append(f"{ratio:.2f} times as long")
        print(f"{what}: " + ", ".join(parts), flush=True)


def main(folder):
    process = session.compiled(folder, "process")
    for commands in works(folder):
        print_work(process, commands)


if __name__ == "__main__":
    session.in_folder(main)
