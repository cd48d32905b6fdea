#!/usr/bin/env python3
"""Checks that CHANGES.md names what a release changes in the libraries, and that the version fits it.

usage: changes.py

The commit of the last release is the one whose message is `Release VERSION`. Where this history lacks it, as in an
archive of the sources, nothing is looked up but the version.
  an item      whose signature or clauses differ from the last release, or that is new or gone, stands by its name,
               between backquotes, in a part of CHANGES.md above the last release that names its crate; `Type::name` also
               as `name` beside `Type`. For a type that is new or gone its own name is enough. For such a crate a part
               begins with its name
  the version  is that of the newest release of CHANGES.md, and nothing stands below `## Next`; or it is X.Y.Z-dev, where
               X.Y.Z wasn't released yet
  its first number  was raised where an item is gone
Items are what src/lib.rt exports: functions, types with their public fields and derives, constants, traits, the public
functions of types, and which traits a type implements, with their ghost members and the functions that have clauses. A
constant counts as its value. What only the definitions of specs/ say is no part of an item.
The last line is `N items, M failed`.
"""

import re
import subprocess
import sys
from functools import cache
from pathlib import Path
from tempfile import TemporaryDirectory

from items import CRATES, TOP, exported, items, libraries

PARSE = CRATES / "cbpf_command_line" / "src" / "parse.rt"
CODE_SPAN = re.compile(r"`([^`]+)`")


@cache
def constants(crates):
    """The values of constants. A clause says the same by either."""
    sources = "".join(path.read_text() for path in crates.glob("*/src/*.rt"))
    found = re.findall(r"\bconst ([A-Z]\w+): \w+ = (0x[\da-f]+|\d+);", sources)
    return {name: str(int(value, 0)) for name, value in found}


def compared(lines, crates):
    """A text by which items are compared: blanks and commas at an end don't count, and a constant is its value."""
    text = re.sub(r",(?= ?[)}\]>])", "", " ".join(" ".join(lines).split()))
    return re.sub(r"\b(?<!const )[A-Z]\w+", lambda name: constants(crates).get(name[0], name[0]), text)


def all_items(crates):
    """The texts of all public items, by crate and name, without the short names of files of definitions."""
    found = {}
    for crate in libraries(crates):
        for item in items(crate):
            shorts = re.findall(r"^ *ghost use .* as (\w+);", item.path.read_text(), re.M)
            lines = [re.sub(rf"\b(?:{'|'.join(shorts)})\.", "", line) if shorts else line for line in item.text]
            found.setdefault((item.crate, item.name), []).extend(lines)
        # What another crate defines is exported by its path alone.
        for name, path in exported((crate / "src/lib.rt").read_text()).items():
            if not (crate / "src" / f"{path.split('::')[0]}.rt").exists():
                found[crate.name, name] = [path]
    return {one: compared(lines, crates) for one, lines in found.items()}


def git(*words):
    try:
        return subprocess.run(["git", "-C", TOP, *words], capture_output=True).stdout
    except FileNotFoundError:
        return b""


def released(version):
    """The items of a release, or None where the history lacks its commit."""
    commit = git("log", "-1", "--format=%H", f"--grep=^Release {re.escape(version)}$").decode().strip()
    if not commit:
        return None
    with TemporaryDirectory() as folder:
        subprocess.run(["tar", "-x", "-C", folder], input=git("archive", commit, "crates"), check=True)
        return all_items(Path(folder) / "crates")


def next_items(changes):
    """The items of CHANGES.md above the last release, each with the names between backquotes."""
    text = re.split(r"(?m)^## [0-9]", changes)[0].partition("\n## Next")[2]
    return [CODE_SPAN.findall(item) for item in re.split(r"(?m)^- ", text)[1:]]


def differences(then, now):
    """What differs, with how: a crate that came or went, a type that did, with all its parts, or an item."""
    came_or_went = now.keys() ^ then.keys()
    crates = {crate for crate, _ in now} ^ {crate for crate, _ in then}
    found = {}
    for crate, name in sorted(now.keys() | then.keys()):
        if now.get((crate, name)) != then.get((crate, name)):
            how = "is new" if (crate, name) not in then else "is gone" if (crate, name) not in now else "differs"
            owner = re.match(r"\w+", name)[0]
            found[crate, "" if crate in crates else owner if (crate, owner) in came_or_went else name] = how
    return found


def is_named(crate, name, told):
    """Whether an item of CHANGES.md names something of a crate, or begins with the crate where all of it is meant."""
    if not name:
        return any(spans[:1] == [crate] for spans in told)
    owner, _, member = re.sub(r": .*", "", name).partition("::")
    for spans in told:
        words = {word for span in spans for word in re.findall(r"[\w:]+", span)}
        if crate in words and (f"{owner}::{member}" in words or {owner, member} - {""} <= words):
            return True
    return False


def version_faults(version, versions, told):
    """What is wrong with the version, by the releases of CHANGES.md, the newest first."""
    number = version.removesuffix("-dev")
    if version == number and told:
        yield f"CHANGES.md has items below `## Next`, so the version is that of the next release, and -dev: not {version}"
    if version == number and version != versions[0]:
        yield f"the version is {version}, and the last release {versions[0]}"
    if version != number and number in versions:
        yield f"the version is {version}, and {number} was released"


def faults(then, now, version, versions):
    told = next_items((TOP / "CHANGES.md").read_text())
    yield from version_faults(version, versions, told)
    for (crate, name), how in differences(then, now).items():
        if how == "is gone" and version.split(".")[0] == versions[0].split(".")[0]:
            yield f"{crate}: {name} is gone, so the first number of {version} is to be raised"
        if not is_named(crate, name, told):
            yield f"{crate}: {name or 'all of it'} {how}, and CHANGES.md doesn't name it"


def main():
    if sys.argv[1:]:
        sys.exit(__doc__)
    version = re.search(r'^const VERSION: &str = "(.*)";$', PARSE.read_text(), re.M)[1]
    versions = re.findall(r"^## ([0-9.]+), ", (TOP / "CHANGES.md").read_text(), re.M)
    now = all_items(CRATES)
    then = released(versions[0])
    if then is None:
        print(f"not compared: this history has no commit `Release {versions[0]}`")
    found = [*faults(now if then is None else then, now, version, versions)]
    print("\n".join([*found, f"{len(now)} items, {len(found)} failed"]))
    sys.exit(1 if found else 0)


if __name__ == "__main__":
    main()
