#!/usr/bin/env python3
"""Proves the crates below the program side by side, as crates.txt has them, builds the program, and says how far it is.

Two runs of rt in a checkout wait for each other where a crate is below both. So each crate is proved in a folder of its
own below out/, which has it and the crates below it, and what was made of it goes back to the checkout. A check with one
job takes the least processor time, as each job loads the whole crate. So a crate gets more where processors are without
work, and those get most for which most others wait.
"""

import fcntl
import hashlib
import math
import os
import re
import shutil
import signal
import subprocess
import sys
import time
from pathlib import Path

ROOT = Path(__file__).resolve().parent.parent
LANES = ROOT / "out" / "build"
PROGRAM = "cbpf"
# The most memory that a check takes, with some room to spare.
CHECK_NEEDS = 7 << 29
BEFOREHAND = """This proves what isn't proved yet, and builds the program. From nothing, and after `make check`, which keeps
no proofs, that takes 15 to 23 minutes on four processors and some 20 to 30 on two; after a change a few."""


def checks_at_a_time():
    """How many checks this machine makes side by side: RT_JOBS, or one for each processor, as far as there is memory."""
    memory = os.sysconf("SC_PHYS_PAGES") * os.sysconf("SC_PAGE_SIZE")
    asked = re.fullmatch(r"[1-9]\d*", os.environ.get("RT_JOBS", ""))
    return int(asked[0]) if asked else max(1, min(len(os.sched_getaffinity(0)), memory // CHECK_NEEDS))


def sources():
    """A checksum of what the program is built from."""
    return subprocess.run([ROOT / "tools" / "sources"], stdout=subprocess.PIPE, check=True, text=True).stdout


def record(built_from):
    """Notes what the program was built from, as `make install` wants to know."""
    program = ROOT / "crates" / PROGRAM / "out" / PROGRAM
    own = hashlib.sha256(program.read_bytes()).hexdigest()
    (program.parent / f"{PROGRAM}.sources").write_text(f"{built_from}{own}  -\n")


def crates_below(name, rows):
    """A crate and all that it stands on, lowest first."""
    found = []
    for library in rows[name].split():
        if library in rows:
            found += [each for each in crates_below(library, rows) if each not in found]
    return [*found, name]


class Lane:
    """A folder in which a crate is proved, and the run of rt that proves it."""

    def __init__(self, crate, jobs, rows):
        self.jobs, self.folder = jobs, LANES / crate
        self.lay_out(crates_below(crate, rows), rows)
        words = ["rt", "run" if crate == PROGRAM else "lib", "--jobs", str(jobs)]
        with (self.folder / "log").open("w") as log:
            given = {"stdin": subprocess.DEVNULL, "stdout": log, "stderr": log, "start_new_session": True}
            self.rt = subprocess.Popen(words, cwd=self.folder / "crates" / crate, **given)

    def lay_out(self, crates, rows):
        """Lays out the crate, the last one, with what is kept of it, and those below it as they were built."""
        for crate in crates:
            source, to = ROOT / "crates" / crate, self.folder / "crates" / crate
            for part in ("src", "specs", "proofs"):
                if (source / part).is_dir():
                    shutil.copytree(source / part, to / part)
            if crate == crates[-1]:
                if (source / "out").is_dir():
                    (source / "out").rename(to / "out")
            else:
                # rt makes such files anew, and never writes into them.
                shutil.copytree(source / "out" / "rlib", to / "out" / "rlib", copy_function=os.link)
        (self.folder / "crates.txt").write_text("".join(f"{crate}:{rows[crate]}\n" for crate in crates))
        shutil.copy(ROOT / "HANDLES", self.folder)

    def stop(self):
        """Ends the run of rt, which keeps what it has proved."""
        os.killpg(self.rt.pid, signal.SIGTERM)
        self.rt.wait()


def take_back(lanes):
    """Moves what was made in lanes, whose runs of rt have ended, to the checkout."""
    for lane in lanes:
        made, place = lane / "crates" / lane.name / "out", ROOT / "crates" / lane.name / "out"
        if made.is_dir():
            shutil.rmtree(place, ignore_errors=True)
            made.rename(place)
        shutil.rmtree(lane)


def build(rows, said):
    """Proves all crates and builds the program, and says which crates are at work."""
    crates = crates_below(PROGRAM, rows)
    # How many crates wait for each, with itself.
    waiting = {crate: sum(crate in crates_below(other, rows) for other in crates) for crate in crates}
    left, done, at_work = sorted(crates, key=lambda crate: -waiting[crate]), [], {}
    try:
        while left or at_work:
            ready = [crate for crate in left if set(crates_below(crate, rows)[:-1]) <= set(done)]
            idle = checks_at_a_time() - sum(lane.jobs for lane in at_work.values())
            for place, crate in enumerate(ready):
                if idle > 0:
                    # The more crates wait for one, the more of the processors without work it gets.
                    jobs = math.ceil(idle * waiting[crate] / sum(waiting[each] for each in ready[place:]))
                    left.remove(crate)
                    at_work[crate] = Lane(crate, jobs, rows)
                    idle -= jobs
            said(len(done), at_work)
            while not (ended := [crate for crate, lane in at_work.items() if lane.rt.poll() is not None]):
                time.sleep(0.2)
            for crate in ended:
                lane = at_work.pop(crate)
                if lane.rt.returncode:
                    sys.exit(f"{crate} is not proved:\n{(lane.folder / 'log').read_text(errors='replace')}")
                take_back([lane.folder])
                done.append(crate)
    finally:
        for lane in at_work.values():
            lane.stop()
        take_back(LANES.iterdir())


def main():
    if not shutil.which("rt"):
        sys.exit("The command rt of the Rattle toolchain is not on the PATH.")
    lines = (ROOT / "crates.txt").read_text().splitlines()
    rows = dict(line.split(":") for line in lines if re.match(r"\w", line))
    print(BEFOREHAND, flush=True)
    LANES.mkdir(parents=True, exist_ok=True)
    lock = os.open(LANES, os.O_RDONLY)
    fcntl.flock(lock, fcntl.LOCK_EX)
    # What a build that was killed left.
    take_back(LANES.iterdir())
    built_from = sources()
    began = time.time()

    def said(done, at_work):
        minutes, seconds = divmod(int(time.time() - began), 60)
        names = ", ".join(at_work) or "none"
        print(f"[{minutes}:{seconds:02}] crates proved: {done}; at work: {names}", flush=True)

    signal.signal(signal.SIGTERM, lambda *_: sys.exit(1))
    try:
        build(rows, said)
    except KeyboardInterrupt:
        sys.exit("The build was interrupted. The next one goes on where it was.")
    record(built_from)
    print(f"The program is crates/{PROGRAM}/out/{PROGRAM}.")


if __name__ == "__main__":
    main()
