#!/usr/bin/env python3
"""Shows what a built program does with the examples, each command with its reply.

usage: demo PROGRAM
"""

import os
import subprocess
import sys
from pathlib import Path

TOOLS = Path(__file__).resolve().parent
EXAMPLES = TOOLS.parent / "examples"
SCRIPT = "port22.dbg"


def main():
    program = str(Path(sys.argv[1]).resolve())
    for words in (["asm", "arp.asm"], ["asm", "-c", "arp.asm"]):
        print("$", "cbpf", *words, flush=True)
        subprocess.run([program, *words], cwd=EXAMPLES, check=True)
    print("$ cbpf-transcript", SCRIPT, flush=True)
    transcript = [TOOLS / "cbpf-transcript", SCRIPT]
    subprocess.run(transcript, cwd=EXAMPLES, env={**os.environ, "CBPF": program}, check=True)
    print("Done. Next: `make install`, and then `cbpf-shell mixed.pcap arp.asm` in examples/, where `help` lists commands.")


if __name__ == "__main__":
    main()
