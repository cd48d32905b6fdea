#!/usr/bin/env python3
"""Prints what each file of lemmas of a crate is about, and which proofs use it.

usage: lemmas.py CRATE [FILE..]

What a file is about is its first line. Below it stand the functions of the crate whose proofs name it, as
`MODULE::FUNCTION`, the files of lemmas that do, and those of other crates with their crate before them.
"""

import re
import sys
from pathlib import Path

CRATES = Path(__file__).resolve().parent.parent / "crates"


def of_proofs(crate):
    """The texts of a crate's proofs, each with the function or the file of lemmas to which it belongs."""
    proofs = crate / "proofs"
    for path in sorted(proofs.glob("**/*.antt")):
        folders = path.relative_to(proofs).parts[:-1]
        yield "::".join(folders) or path.stem, path.read_text()


def of_attributes(crate):
    """The attributes of a crate's functions that name lemmas, each with its function."""
    for path in sorted(crate.glob("src/**/*.rt")):
        for attribute, function in re.findall(r"#\[tactic\(([^]]*proofs::[^]]*)\)\][^{;]*?\bfn (\w+)", path.read_text()):
            yield f"{path.stem}::{function}", attribute


def users(name, module):
    """What names a file of lemmas."""
    found = set()
    for crate in CRATES.iterdir():
        own = crate.name == name
        named = re.compile(rf"\b(?:Rattle\.{name}|{'crate' if own else name})(?:\.|::)proofs(?:\.|::){module}\b")
        for user, text in [*of_proofs(crate), *of_attributes(crate)]:
            if named.search(text):
                found.add(user if own else f"{crate.name} {user}")
    return sorted(found)


def main():
    index = CRATES / (sys.argv[1:] or [""])[0] / "proofs" / "Lib.antt"
    if not index.exists():
        sys.exit(__doc__)
    for module in sys.argv[2:] or re.findall(r"^pub mod (\w+)", index.read_text(), re.M):
        head = index.with_name(f"{module}.antt").read_text().partition("\n")[0]
        print(f"{module}: {head.removeprefix('-- ')}")
        for user in users(sys.argv[1], module):
            print(f"    {user}")


if __name__ == "__main__":
    main()
