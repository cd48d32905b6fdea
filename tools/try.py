#!/usr/bin/env python3
"""Runs the demonstration's scripts on a program that `rt try` builds, with no proof, and shows the replies."""

import os
import shutil
import subprocess
import sys
import tempfile
from pathlib import Path

ROOT = Path(__file__).resolve().parent.parent
EXAMPLES = ROOT / "examples"
SCRIPT = "port22.dbg"
ASSEMBLER = "cbpf asm < arp.asm"
DEBUGGER = f"cbpf-transcript {SCRIPT}"


def run_cases(folder):
    """What `rt try` prints for the two cases: their outputs by name."""
    shutil.copy(EXAMPLES / "arp.asm", folder / ASSEMBLER)
    (folder / f"{ASSEMBLER}.args").write_text("asm\n")
    # The marks of cbpf-transcript, as the program runs before it does.
    lines = (EXAMPLES / SCRIPT).read_text().splitlines()
    (folder / DEBUGGER).write_text("".join(f"{line}\n.\nload\n" for line in lines))
    (folder / f"{DEBUGGER}.args").write_text("dbg\n")
    return subprocess.run(
        ["rt", "try", "--data", f"mixed.pcap={EXAMPLES / 'mixed.pcap'}", "--cases", folder],
        cwd=ROOT / "crates" / "cbpf",
        stdout=subprocess.PIPE,
        text=True,
    )


def show_transcript(folder, replies):
    (folder / "replies").write_text(replies)
    program = folder / "cbpf"
    program.write_text(f"#!/bin/sh\ncat '{folder / 'replies'}'\n")
    program.chmod(0o755)
    transcript = [ROOT / "tools" / "cbpf-transcript", SCRIPT]
    subprocess.run(transcript, cwd=EXAMPLES, env={**os.environ, "CBPF": str(program)})


def main():
    if not shutil.which("rt"):
        sys.exit("The command rt of the Rattle toolchain is not on the PATH.")
    print("This builds the program without a proof and runs examples: about a minute.", flush=True)
    with tempfile.TemporaryDirectory() as cases, tempfile.TemporaryDirectory() as folder:
        done = run_cases(Path(cases))
        assembled, _, replies = done.stdout.partition(f"== {DEBUGGER}\n")
        print(assembled + f"== {DEBUGGER}", flush=True)
        show_transcript(Path(folder), replies)
    print("Nothing of this was proved, and no program is kept: `make demo` proves it.")
    sys.exit(done.returncode)


if __name__ == "__main__":
    main()
