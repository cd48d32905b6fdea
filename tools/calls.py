#!/usr/bin/env python3
"""Prints what a library exports: its types, and its calls with their comments and clauses.

usage: calls.py CRATE [WORD..]

With words it prints what has one of them in its name, as `calls.py cbpf_dbg Session::run` or `calls.py pcap_classic next`.
A call of a type stands as TYPE::CALL, and a clause's short name for a file of definitions is in the lines `ghost use`.
"""

import re
import signal
import sys
from itertools import groupby
from pathlib import Path
from textwrap import dedent

sys.path.insert(0, str(Path(__file__).resolve().parent.parent / "tests"))

from items import CRATES, TOP, items  # noqa: E402


def main():
    signal.signal(signal.SIGPIPE, signal.SIG_DFL)
    if len(sys.argv) < 2 or not (CRATES / sys.argv[1] / "src/lib.rt").exists():
        sys.exit(__doc__)
    words = sys.argv[2:] or [""]
    # One line is an impl that adds nothing to its trait.
    wanted = [item for item in items(CRATES / sys.argv[1]) if len(item.text) > 1 and any(word in item.name for word in words)]
    if not wanted:
        sys.exit(f"{sys.argv[1]} defines nothing of this name. What it passes on is printed under the crate that defines it.")
    for path, found in groupby(wanted, lambda item: item.path):
        print("\n".join([f"== {path.relative_to(TOP)}", *re.findall(r"^ghost use .* as \w+;", path.read_text(), re.M)]))
        for item in found:
            print(f"\n-- {item.name}", dedent("\n".join([*item.comment, *item.text])), sep="\n")
        print()


if __name__ == "__main__":
    main()
