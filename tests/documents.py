#!/usr/bin/env python3
"""Runs the examples of the documents over a built program, and checks the documents' links and their length.

usage: documents.py PROGRAM [DOCUMENT..]

The documents are README.md, CONTRIBUTING.md, docs/*.md, bench/*.md, crates/*/CALLING.md and man/*.1; README.md,
docs/RECIPES.md, docs/REFERENCE.md and the pages have examples. In Markdown an example stands between ```console and ```,
in the page between .Bd -literal and .Ed. A line that begins with `$ ` is a command, which `sh` runs in a copy of
examples/, with completion/ and tools/ beside it, one for each document, in the locale C. PROGRAM is `cbpf` on the PATH,
with cbpf-shell and cbpf-transcript beside it. The lines after the command are what it prints, on standard output and
standard error. Where it takes the keyboard (`cbpf`, `cbpf dbg` or `.. cat) | cbpf`), they are a session: each line that is
no reply is typed, and a block without a command goes on with it. Of cbpf-shell each line after the prompt `cbpf> ` is typed.
A line `..` stands for any lines. A command whose tool is missing, or may not do what it has to, isn't run; neither are its
session, the commands after it in its block, and those that name a file which it makes by `> `.
Each relative link of the Markdown documents names a file that is there, and what stands after `#` is the anchor of one of
its headings. The lines of the picture of docs/ARCHITECTURE.md, in its block ```crates, lead down from each crate to those
below it by crates.txt, directly or not.
Where no DOCUMENT is named, it prints how many words each document has, as `wc -w` counts them, beside its budget. One
that is a tenth above its budget fails: a new sentence takes another's place. So does one of docs/ that has no budget.
The last line is `N passed, M failed`, and how many weren't run where there are such.
"""

import os
import re
import shutil
import subprocess
import sys
import tempfile
from functools import cache
from pathlib import Path

TOP = Path(__file__).resolve().parent.parent
TOOLS = "tcpdump gzip grep head tail tr sed awk xargs diff timeout cpp cc ss unshare editcap tshark"
# What some need beside being there: headers, or rights that a user may not have.
TRIALS = {
    "cpp": "echo | cpp -imacros linux/if_ether.h",
    "cc": "echo '#include <linux/filter.h>' | cc -x c -c -o /dev/null -",
    # A filter that is listed: ss says nothing of one where the kernel doesn't tell.
    "ss": "unshare -n sh -c 'ip link set lo up; tcpdump -i lo -w /dev/null arp & for n in 1 2 3 4 5; do sleep 1; "
    "ss -0b | grep -q \"bpf filter\" && found=yes && break; done; kill $!; test $found'",
    "unshare": "unshare -n true",
}
REQUIRED = [TOP / "README.md", TOP / "docs/RECIPES.md", TOP / "docs/REFERENCE.md", *sorted((TOP / "man").glob("*.1"))]
OTHERS = ("CONTRIBUTING.md", "docs/*.md", "bench/*.md", "crates/*/CALLING.md")
# How many words documents may have. Those of one line share its budget.
BUDGETS = {
    "README.md": 1500,
    "docs/REFERENCE.md": 7000,
    "docs/RECIPES.md": 3300,
    "docs/KERNEL_TOOLS.md": 1900,
    "docs/PACKAGING.md": 850,
    "man/*.1": 3900,
    "CHANGES.md": 1300,
    "docs/ARCHITECTURE.md": 3200,
    "CONTRIBUTING.md": 3900,
    "docs/PROOF.md": 4000,
    "docs/DECISIONS.md": 2300,
    "docs/LIBRARIES.md crates/*/CALLING.md": 7000,
    "bench/README.md": 750,
}
SECONDS = 60
PROMPT = "cbpf> "
SESSION = re.compile(r"(rlwrap .*)?cbpf( dbg)?|.*\bcat\) \| (rlwrap .*)?cbpf( dbg)?")
PAGE_ESCAPES = ((r"\-", "-"), (r"\(aq", "'"), (r"\(dq", '"'), (r"\(ti", "~"), (r"\(ha", "^"), (r"\&", ""), (r"\e", "\\"))


def blocks(path):
    """The blocks of a document that have examples, each as its first line's number and its lines."""
    page = path.suffix != ".md"
    begin, end = (r"\.Bd -literal.*", ".Ed") if page else ("```console", "```")
    found, block = [], None
    for number, line in enumerate(path.read_text().splitlines(), 1):
        if block is None:
            block = (number + 1, []) if re.fullmatch(begin, line) else None
        elif line == end:
            if not page or any(text.startswith("$ ") for text in block[1]):
                found.append(block)
            block = None
        else:
            for escape, text in PAGE_ESCAPES if page else ():
                line = line.replace(escape, text)
            block[1].append(line)
    return found


def examples(path):
    """The examples of a document: the line numbers of the block and the command, the command, and the lines after it."""
    found = []
    for start, lines in blocks(path):
        for number, line in enumerate(lines, start):
            if line.startswith("$ "):
                found.append((start, number, line[2:], []))
            elif found:
                found[-1][3].append(line)
    return found


def fits(got, wanted):
    """Whether lines are the wanted ones, of which `..` stands for any."""
    if not wanted:
        return not got
    if wanted[0] == "..":
        return any(fits(got[n:], wanted[1:]) for n in range(len(got), -1, -1))
    return bool(got) and got[0] == wanted[0] and fits(got[1:], wanted[1:])


def output(command, typed, folder, program):
    done = subprocess.run(
        ["sh", "-c", command],
        input="".join(line + "\n" for line in typed).encode(),
        stdout=subprocess.PIPE,
        stderr=subprocess.STDOUT,
        cwd=folder,
        env={**os.environ, "LC_ALL": "C", "PATH": f"{program}:{os.environ['PATH']}"},
        timeout=SECONDS,
    )
    return done.stdout.decode(errors="replace").splitlines()


def session_difference(command, lines, folder, program):
    """What differs in a session: after each typed line, the longest piece that its reply fits is its reply."""
    typed, before, place = [], 0, 0
    while True:
        reply = output(command, typed, folder, program)[before:]
        before += len(reply)
        ends = [end for end in range(len(lines), place - 1, -1) if fits(reply, lines[place:end])]
        if not ends or (typed and not reply and typed[-1] != "quit"):
            return f"after {typed[-1:]} wanted {lines[place:place + len(reply)]}, got {reply}"
        if ends[0] == len(lines):
            return None
        typed.append(lines[ends[0]])
        place = ends[0] + 1


def difference(command, lines, folder, program):
    if SESSION.fullmatch(command):
        return session_difference(command, lines, folder, program)
    typed = [line.removeprefix(PROMPT) for line in lines if line.startswith(PROMPT)]
    lines = [line for line in lines if not line.startswith(PROMPT)]
    got = output(command, typed, folder, program)
    return None if fits(got, lines) else f"wanted {lines}, got {got}"


@cache
def is_there(tool):
    if not shutil.which(tool):
        return False
    trial = TRIALS.get(tool, "true")
    return subprocess.run(trial, shell=True, capture_output=True, stdin=subprocess.DEVNULL).returncode == 0


def missing_tool(command):
    """The tool of a command that isn't there."""
    words = re.findall(r"\w+", command)
    return next((tool for tool in TOOLS.split() if tool in words and not is_there(tool)), None)


@cache
def anchors(path):
    """The anchors of a document's headings: lower case, with dashes for blanks and without other marks."""
    text = re.sub(r"^```.*?^```", "", path.read_text(), flags=re.M | re.S)
    headings = re.findall(r"^#+ (.*)", text, re.M)
    return {re.sub(r"[^\w -]", "", heading.lower()).replace(" ", "-") for heading in headings}


def broken_links(path):
    broken = []
    for target in re.findall(r"\]\(([^)\s]+)\)", path.read_text()):
        name, _, anchor = target.partition("#")
        file = path.parent / name if name else path
        if "://" not in target and (not file.exists() or (anchor and anchor not in anchors(file))):
            broken.append(target)
    return broken


def below(arrows):
    """All pairs of a crate and one below it."""
    found = set(arrows)
    while more := {(a, d) for a, b in found for c, d in arrows if b == c} - found:
        found |= more
    return found


def drawn_in(path):
    """The pairs of a crate and one to which lines lead down from it. Of `|`, `-` and `+` none leads up."""
    picture = re.search(r"^```crates\n(.*?)^```", path.read_text(), re.M | re.S)
    rows = picture[1].splitlines() if picture else []
    found = set()
    for y, row in enumerate(rows):
        for name in re.finditer(r"\w+", row):
            # Each cell with the step that led there.
            left, seen = [(x, y + 1, 0) for x in range(*name.span())], set()
            while left:
                x, y_of, step = left.pop()
                cell = rows[y_of][x : x + 1] if y_of < len(rows) else ""
                if (x, y_of, step) in seen:
                    continue
                seen.add((x, y_of, step))
                if cell == "-" and step or cell == "+":
                    left += [(x + way, y_of, way) for way in (-1, 1) if step in (0, way)]
                if cell == "+" or (cell == "|" and step == 0):
                    left.append((x, y_of + 1, 0))
                if cell.isidentifier() and step == 0:
                    lower = next(other for other in re.finditer(r"\w+", rows[y_of]) if x in range(*other.span()))
                    found.add((name[0], lower[0]))
    return found


def crates_differ(path):
    """The pairs that the picture and the list of crates don't share."""
    rows = (TOP / "crates.txt").read_text().split("# Tests")[0].splitlines()
    uses = [row.split(":") for row in rows if ":" in row]
    own = [crate for crate, _ in uses]
    listed = {(crate, used) for crate, words in uses for used in words.split() if used in own}
    return sorted(below(listed) ^ below(drawn_in(path)))


def length_faults():
    """What is too long, or has no budget. Prints the words of all documents."""
    without = set((TOP / "docs").glob("*.md"))
    for names, budget in BUDGETS.items():
        files = [file for name in names.split() for file in TOP.glob(name)]
        words = sum(len(file.read_text().split()) for file in files)
        print(f"{names}: {words} of {budget} words")
        if words > budget * 1.1:
            yield f"{names}: {words} words, a tenth above {budget}"
        without -= set(files)
    yield from (f"{file.name}: no budget" for file in sorted(without))


def main():
    if len(sys.argv) < 2:
        sys.exit(__doc__)
    others = {file for name in OTHERS for file in TOP.glob(name)} - set(REQUIRED)
    passed = failed = not_run = 0
    for fault in () if sys.argv[2:] else length_faults():
        failed += 1
        print(f"failed {fault}")
    for path in [Path(name).resolve() for name in sys.argv[2:]] or [*REQUIRED, *sorted(others)]:
        faults = [f"no file or heading {target}" for target in broken_links(path)] if path.suffix == ".md" else []
        if path.name == "ARCHITECTURE.md":
            faults += [f"{a} over {b}: not the same in crates.txt" for a, b in crates_differ(path)]
        with tempfile.TemporaryDirectory() as folder:
            for name in ("examples", "completion", "tools"):
                shutil.copytree(TOP / name, Path(folder) / name)
            program = Path(folder) / "bin"
            program.mkdir()
            # Another user may run it, too.
            os.chmod(folder, 0o755)
            shutil.copy(sys.argv[1], program / "cbpf").chmod(0o755)
            for name in ("cbpf-shell", "cbpf-transcript"):
                shutil.copy(TOP / "tools" / name, program)
            found = examples(path)
            if path in REQUIRED and not found:
                faults.append("no example")
            # Files that were not made, and the last block that was not run to its end.
            unmade, left = set(), None
            for block, number, command, lines in found:
                missing = missing_tool(command) or next(iter(unmade & set(re.findall(r"[\w.-]+", command))), None)
                if missing or block == left:
                    unmade |= set(re.findall(r"> ([\w.-]+)", command))
                    left = block
                    not_run += 1
                    print(f"not run {path.name}:{number}: no {missing or 'command before it'}")
                    continue
                try:
                    fault = difference(command, lines, Path(folder) / "examples", program)
                except subprocess.TimeoutExpired:
                    fault = f"no end within {SECONDS} seconds"
                if fault:
                    faults.append(f"line {number}: {command}\n    {fault}")
                else:
                    passed += 1
        failed += len(faults)
        for fault in faults:
            print(f"failed {path.name}: {fault}")
    print(f"{passed} passed, {failed} failed" + (f", {not_run} not run" if not_run else ""))
    sys.exit(1 if failed or not passed else 0)


if __name__ == "__main__":
    main()
