#!/usr/bin/env python3
"""Checks that another crate can't make or change a state, a meter or values but by the calls of cbpf_machine.

usage: compile.py

Each row is a function of a crate over cbpf_machine: its head, a body that compiles, and lines in that body's place,
each with the error that the compiler is to give. The crate is made below a copy of cbpf_machine, with no proof. With
the first bodies it compiles and runs; with the others the compiler gives exactly these errors, each at its line.
The last line is `N lines refused, M failed`.
"""

import re
import shutil
import subprocess
import sys
import tempfile
from pathlib import Path

TOP = Path(__file__).resolve().parent.parent
BELOW = "cbpf_machine"
ERROR = re.compile(r"src/main\.rt:(\d+):\d+: error\[([\w-]+)\]")
SECONDS = 600

# The errors are of private fields, where no other is named.
ROWS = {
    ("fn make_state(s: State) -> State", "s"): ["State { core: s.core, slots: [0; 16] }", "State { slots: [1; 16], ..s }"],
    ("fn write_state(s: &mut State)", "*s = State::zero();"): ["s.core.pc = 1;", "s.core.a = 1;", "s.core.x = 1;", "s.slots[0] = 1;"],
    ("fn make_meter() -> Meter", "Meter::new()"): ["Meter { turns: 1 }"],
    ("fn write_meter(m: &mut Meter)", "*m = Meter::new();"): ["m.turns = 1;", "m.tick();", "m.add(1);"],
    ("fn copy_meter(m: &Meter) -> Meter", "Meter::new()"): ["*m", "m.clone()"],
    ("fn write_values(v: &mut Values)", "*v = Values::new();"): ["v.values[0] = None;"],
}
OTHER_ERRORS = {"*m": "move-out-of-place", "m.clone()": "unsupported-method"}
OTHER_ERRORS |= dict.fromkeys(["m.tick();", "m.add(1);"], "private-item")
HEAD = """#![tactic(auto)]
#![allow(dead_code)]

use cbpf_machine::{Meter, State, Values};

fn main(_rt: HostRuntime) {}
"""


def source(bodies):
    """The crate's text with these heads and bodies, and the line at which each body stands."""
    text, lines = HEAD, []
    for number, (head, body) in enumerate(bodies):
        head = re.sub(r"fn (\w+)", rf"fn \1_{number}", head)
        text += f"\n{head} {{\n"
        lines.append(text.count("\n") + 1)
        text += f"    {body}\n}}\n"
    return text, lines


def dependencies(crate):
    """The crates of this repository below one, and itself."""
    listed = dict(
        line.split(":", 1) for line in (TOP / "crates.txt").read_text().splitlines() if re.match(r"\w", line)
    )
    found = {crate}
    for name in listed[crate].split():
        if name in listed:
            found.update(dependencies(name))
    return {name: listed[name] for name in found}


def compiled(folder, text):
    """Whether the crate compiles and runs, what the compiler said, and its errors by line."""
    crate = Path(folder) / "crates" / "outside"
    (crate / "src").mkdir(parents=True, exist_ok=True)
    (crate / "src" / "main.rt").write_text(text)
    done = subprocess.run(
        ["rt", "try"], cwd=crate, stdin=subprocess.DEVNULL, capture_output=True, text=True, timeout=SECONDS
    )
    said = done.stdout + done.stderr
    return done.returncode == 0, said, {(int(line), name) for line, name in ERROR.findall(said)}


def main():
    if not shutil.which("rt"):
        sys.exit("The command rt of the Rattle toolchain is not on the PATH.")
    faults = []
    with tempfile.TemporaryDirectory() as folder:
        needed = dependencies(BELOW)
        for name in needed:
            without = shutil.ignore_patterns("out")
            shutil.copytree(TOP / "crates" / name, Path(folder) / "crates" / name, ignore=without)
        shutil.copy(TOP / "HANDLES", folder)
        lines = [f"{name}:{below}" for name, below in needed.items()] + [f"outside: {BELOW}"]
        (Path(folder) / "crates.txt").write_text("\n".join(lines) + "\n")

        holds, said, _ = compiled(folder, source(ROWS)[0])
        if not holds:
            faults.append(f"what is allowed doesn't compile:\n{said}")

        refused = [(head, line) for (head, _), lines in ROWS.items() for line in lines]
        text, places = source(refused)
        holds, said, found = compiled(folder, text)
        wanted = {(place, OTHER_ERRORS.get(line, "private-field")): line for place, (_, line) in zip(places, refused)}
        for place, error in wanted:
            if holds or (place, error) not in found:
                faults.append(f"no error[{error}]: {wanted[place, error]}")
        if others := sorted(found - set(wanted)):
            faults.append(f"other errors at lines {others}:\n{said}")
    for fault in faults:
        print(fault)
    print(f"{len(refused)} lines refused, {len(faults)} failed")
    sys.exit(1 if faults else 0)


if __name__ == "__main__":
    main()
