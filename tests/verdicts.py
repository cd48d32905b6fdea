#!/usr/bin/env python3
"""Runs programs that `tcpdump -ddd` made over a capture, and compares each packet's verdict with tcpdump's own.

usage: verdicts.py PROGRAM

Each line of tests/verdicts.txt has, before a |, the packets of examples/mixed.pcap that a program passes, by tcpdump,
or how it is refused; and then the program in the form of `tcpdump -ddd`, with commas for newlines, of one of 79
expressions, with tcpdump's optimizer or without. The debugger runs each packet by itself, and its whole output is
compared; of `why -p`, which reads what `tcpdump -ddd` prints, the numbers of the packets that pass, and the others.
The last line is `N programs, M failed`.
"""

import subprocess
import sys
import tempfile
from pathlib import Path

DATA = Path(__file__).resolve().parent / "verdicts.txt"
CAPTURE = DATA.parent.parent / "examples" / "mixed.pcap"
PACKETS = 35


def wanted_of(words, verdict):
    """The replies to the script of `replies_to`, where each packet has its verdict."""
    if verdict.startswith("error: "):
        return [verdict, f"pcap: {PACKETS} packets", *["error: S1 no program"] * (2 * PACKETS)]
    passes = {int(n) for n in verdict.split()[1:]}
    found = [f"bpf: {words.split(',')[0]} instructions", f"pcap: {PACKETS} packets"]
    for n in range(1, PACKETS + 1):
        end = f" next:{n + 1}" if n < PACKETS else ""
        found += [f"at {n} 0", f"bpf passes:{int(n in passes)} fails:{int(n not in passes)}{end}"]
    return found


def replies_to(program, words):
    """What the program prints where each packet is selected and run by itself."""
    packets = "".join(f"select {n}\nrun 1\n" for n in range(1, PACKETS + 1))
    script = f"load bpf {words}\nload pcap {CAPTURE.name}\n{packets}"
    done = subprocess.run([program], input=script, capture_output=True, text=True, cwd=CAPTURE.parent, timeout=60)
    return [*done.stdout.splitlines(), *done.stderr.splitlines(), *([done.returncode] if done.returncode else [])]


def said_by_why(program, words, file):
    """The numbers of the packets that pass by `why -p`, of the others where each fails, and what it says beside."""
    file.write_text(words.replace(",", "\n") + "\n")
    command = [program, "why", "-p", file.name, CAPTURE]
    done = subprocess.run(command, capture_output=True, text=True, cwd=file.parent, timeout=60)
    rows = [line.split("\t") for line in done.stdout.splitlines()]
    passes, fails = ([row[0] for row in rows if row[1] == end] for end in ("pass", "fail"))
    return passes, fails, done.stderr, done.returncode


def wanted_of_why(verdict, file):
    """What `said_by_why` is to find."""
    if verdict.startswith("error: "):
        return [], [], f"cbpf: {file.name}: {verdict.removeprefix('error: ')}\n", 1
    passes = verdict.split()[1:]
    return passes, [str(n) for n in range(1, PACKETS + 1) if str(n) not in passes], "", 0


def main():
    if len(sys.argv) != 2:
        sys.exit(__doc__)
    program = str(Path(sys.argv[1]).resolve())
    programs = DATA.read_text().splitlines()
    failed = 0
    with tempfile.TemporaryDirectory() as folder:
        file = Path(folder) / "filter"
        for line, row in enumerate(programs, 1):
            verdict, words = row.split("|")
            got = replies_to(program, words), said_by_why(program, words, file)
            if got != (wanted_of(words, verdict), wanted_of_why(verdict, file)):
                failed += 1
                print(f"failed line {line}: wanted {verdict}, got {got}")
    print(f"{len(programs)} programs, {failed} failed")
    sys.exit(1 if failed or not programs else 0)


if __name__ == "__main__":
    main()
