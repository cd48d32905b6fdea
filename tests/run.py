#!/usr/bin/env python3
r"""Runs the end-to-end cases over a built program.

usage: run.py PROGRAM [NAME..]

Each file NAME.case below tests/cases is a case. Its first line says what it shows, or the comment at the head of its
command does. It has texts, each below a line `==> NAME <==`; after one without a newline at its end comes the line
`\ No newline at end of file`. What is no such text lies in a folder beside it, by the same name. The program runs in a new
folder, with
  stdin    what it reads (none: nothing)
  args     its arguments, one a line
  command  a shell command to run in its place, where the program is $PROGRAM and examples/ is $EXAMPLES
  files/NAME  a file that lies where it runs
  captures one line for each capture of tests/captures that lies there too: its name (../../examples/NAME for one of
           examples/), a space, its name there; where a case has neither these nor files/k, the two packets of examples/ are `k`
  setup    one shell command a line, run there first
  texts/NAME  lines for which a line `<<NAME>>` stands in any text of the case, and `<<NAME | ONE | OTHER>>` with ONE in
           place of `$1` and OTHER of `$2`; tests/texts has those of all cases
<VERSION> stands in all of these for the version that the sources have.
and must give
  stdout   exactly this
  stderr   exactly this (none: nothing)
  status   this exit status (none: 0)
The locale is C. A command that can't do a part of its case writes what it lacks into a file `not_run` there, one a line, and
gives what the part is to give; each such line is printed.
The last line is `N passed, M failed`, and how many have a part that wasn't run where there are such.
"""

import os
import re
import shutil
import subprocess
import sys
import tempfile
from concurrent.futures import ThreadPoolExecutor
from functools import partial
from itertools import zip_longest
from pathlib import Path

CASES = Path(__file__).resolve().parent / "cases"
CAPTURES = CASES.parent / "captures"
EXAMPLES = CASES.parent.parent / "examples"
SECONDS = 60


MARK = re.compile(rb"(?m)^==> (.+) <==\n")
CUT = b"\n\\ No newline at end of file\n"
STANDS_FOR = re.compile(rb"(?m)^<<(.+)>>\n")
K = b"../../examples/two-packets.pcap k\n"
PARSE = CASES.parent.parent / "crates/cbpf_command_line/src/parse.rt"
VERSION = re.search(rb'^const VERSION: &str = "(.*)";$', PARSE.read_bytes(), re.M)[1]


def texts(path):
    """The texts below the marks of a file, by their names."""
    _, *cut = MARK.split(path.read_bytes())
    return {name.decode(): text.removesuffix(CUT) for name, text in zip(cut[::2], cut[1::2])}


def expanded(text, found):
    """A text with those that its lines stand for."""

    def meant(line):
        name, *words = line[1].split(b" | ")
        inner = found["texts/" + name.decode()]
        for number, word in enumerate(words, 1):
            inner = inner.replace(b"$%d" % number, word)
        return expanded(inner, found)

    return STANDS_FOR.sub(meant, text)


def parts(case):
    """The texts of a case by their names."""
    found = texts(CASES.parent / "texts") | texts(case)
    found = {name: expanded(text, found) for name, text in found.items() if not name.startswith("texts/")}
    found = {name: text.replace(b"<VERSION>", VERSION) for name, text in found.items()}
    folder = case.with_suffix("")
    found |= {str(path.relative_to(folder)): path.read_bytes() for path in folder.rglob("*") if path.is_file()}
    return {"captures": b"" if "files/k" in found else K} | found


def first_difference(wanted, got):
    """The first line that differs; None stands for one that isn't there."""
    pairs = enumerate(zip_longest(wanted.split(b"\n"), got.split(b"\n")), 1)
    return next(f"line {n}: wanted {want!r}, got {line!r}" for n, (want, line) in pairs if want != line)


def lay_out(case, folder, environment):
    """Makes the files of a case."""
    for name, text in case.items():
        if name.startswith("files/"):
            path = folder / name.removeprefix("files/")
            path.parent.mkdir(parents=True, exist_ok=True)
            path.write_bytes(text)
    for line in case["captures"].decode().splitlines():
        capture, name = line.split(" ", 1)
        shutil.copy(CAPTURES / capture, folder / name)
    for command in case.get("setup", b"").decode().splitlines():
        subprocess.run(command, shell=True, cwd=folder, env=environment, check=True)


def tried(program, case):
    """What differs, and what is lacking for a part of the case."""
    environment = {**os.environ, "LC_ALL": "C", "PROGRAM": program, "EXAMPLES": str(EXAMPLES)}
    case = parts(case)
    words = [program, *case.get("args", b"").decode().splitlines()]
    if "command" in case:
        words = ["sh", "-c", case["command"].decode()]
    with tempfile.TemporaryDirectory() as name:
        folder = Path(name)
        lay_out(case, folder, environment)
        given = {"input": case.get("stdin", b""), "capture_output": True}
        try:
            done = subprocess.run(words, **given, cwd=folder, env=environment, timeout=SECONDS)
        except subprocess.TimeoutExpired:
            return [f"no end within {SECONDS} seconds"], []
        not_run = folder / "not_run"
        lacking = not_run.read_text().splitlines() if not_run.exists() else []
    wanted = {
        "stdout": (case["stdout"], done.stdout),
        "stderr": (case.get("stderr", b""), done.stderr),
        "status": (case.get("status", b"0").strip(), b"%d" % done.returncode),
    }
    found = [f"{what}, {first_difference(want, got)}" for what, (want, got) in wanted.items() if want != got]
    return found, lacking


def main():
    if len(sys.argv) < 2:
        sys.exit(__doc__)
    program = str(Path(sys.argv[1]).resolve())
    words = sys.argv[2:]
    cases = {str(path.with_suffix("").relative_to(CASES)): path for path in sorted(CASES.rglob("*.case"))}
    chosen = {name: case for name, case in cases.items() if not words or any(word in name for word in words)}
    # As many cases at once as there are processors.
    with ThreadPoolExecutor(len(os.sched_getaffinity(0))) as pool:
        outcomes = list(pool.map(partial(tried, program), chosen.values()))
    for name, (found, lacking) in zip(chosen, outcomes):
        for what in lacking:
            print(f"not run {name}: no {what}")
        if found:
            print("\n    ".join([f"failed {name}", *(line[:2000] for line in found)]))
    failed = sum(bool(found) for found, _ in outcomes)
    in_part = sum(bool(lacking) for _, lacking in outcomes)
    passed = len(outcomes) - failed
    print(f"{passed} passed, {failed} failed" + (f", {in_part} with a part not run" if in_part else ""))
    sys.exit(1 if failed or not passed else 0)


if __name__ == "__main__":
    main()
