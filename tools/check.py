#!/usr/bin/env python3
"""Runs the gate of the toolchain, `rt ci`, and says before each of its steps how long it has run.

What `rt ci` prints goes through as it is, but a line of a step has the time in front: a crate that is proved, its
tests, and a crate whose must-fail edits are at work. It ends as `rt ci` ends, and fails too where an edit can't be
applied or compiled, which `rt ci` only counts.

Each check of a crate or an edit gets one processor, and one runs on each: two processors make one check hardly
faster, and two checks at once are. RT_JOBS says another number of checks at a time.
"""

import os
import re
import shutil
import subprocess
import sys
import time

from build import LANES, ROOT, checks_at_a_time, record, sources

STEP = re.compile(r"rt: (\w+)(: its tests are)? (proved|NOT PROVED|ran)|rt: (\w+): trying its must-fail edits")


def main():
    if not shutil.which("rt"):
        sys.exit("The command rt of the Rattle toolchain is not on the PATH.")
    lines = (ROOT / "crates.txt").read_text().splitlines()
    crates = sum(1 for line in lines if re.match(r"\w", line))
    edits = sum(1 for _ in ROOT.glob("crates/*/must-fail/*.edit"))
    print(f"{crates} crates to prove, then their tests, and {edits} must-fail edits to refuse.", flush=True)
    # What a build that was killed left: rt ci refuses copies of sources.
    shutil.rmtree(LANES, ignore_errors=True)
    built_from = sources()
    began = time.time()
    bad = 0
    with subprocess.Popen(
        ["rt", "ci"],
        cwd=ROOT,
        stdin=subprocess.DEVNULL,
        stdout=subprocess.PIPE,
        stderr=subprocess.STDOUT,
        text=True,
        errors="replace",
        env={"RT_JOBS": str(checks_at_a_time()), **os.environ, "PYTHONUNBUFFERED": "1"},
    ) as rt:
        for line in rt.stdout:
            minutes, seconds = divmod(int(time.time() - began), 60)
            passed = f"[{minutes}:{seconds:02}] " if STEP.match(line) else ""
            print(passed + line, end="", flush=True)
            bad += "BAD EDIT" in line
    if bad:
        sys.exit(f"{bad} must-fail edits can't be applied or compiled.")
    if not rt.returncode:
        record(built_from)
    sys.exit(rt.returncode)


if __name__ == "__main__":
    main()
