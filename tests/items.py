"""What the libraries export: each item with its comment and its text, which is its signature and its clauses."""

import re
from itertools import takewhile
from pathlib import Path
from typing import NamedTuple

TOP = Path(__file__).resolve().parent.parent
CRATES = TOP / "crates"
EXPORT = re.compile(r"^pub use ([^;]+);", re.M)
DEFINED = re.compile(r" *pub (?:const |unsafe )*(fn|struct|enum|trait|const|type) (\w+)")
BLOCK = re.compile(r"(?:unsafe )?impl\b(?:<[^{]*?>)? (?:(.+) for )?(?:&(?:'\w+ )?)?(\w+)")
MEMBER = re.compile(r"    (pub )?(?:const |unsafe )*fn (\w+)")


class Item(NamedTuple):
    """An item: `NAME`, `TYPE::CALL`, `TRAIT::CALL`, or `TYPE: TRAIT` of what a type says as one of a trait."""

    crate: str
    path: Path
    name: str
    comment: list
    text: list


def libraries(crates=CRATES):
    """The crates that other programs may call."""
    return [path.parent.parent for path in sorted(crates.glob("*/src/lib.rt")) if not path.parts[-3].endswith("_tests")]


def exported(text):
    """The names that a crate exports, each with the path after `pub use`."""
    found = {}
    for path in EXPORT.findall(text):
        head, _, inner = path.partition("{")
        for name in inner.rstrip("}").split(",") if inner else [head]:
            whole = (head if inner else "") + name.strip()
            if name.strip():
                found[re.split(r" as |::", whole)[-1]] = whole
    return found


def without_comments(lines):
    return [line for line in (re.sub(r" *//.*", "", line) for line in lines) if line.strip()]


def comment(lines, i):
    """The comment above a line, which may have attributes between."""
    above = [*takewhile(lambda line: line.lstrip().startswith(("//", "#[")), reversed(lines[:i]))]
    return [line for line in reversed(above) if line.lstrip().startswith("///")]


def signature(lines):
    """A function with its clauses, from its first line to its body or its end."""
    indent = re.match(" *", lines[0])[0]
    taken = []
    for line in lines:
        if line.startswith(indent + "{"):
            break
        taken.append(line)
        clauses = any(re.match(r" *(requires|ensures|ghost)\b", one) for one in taken)
        if line.endswith(";") and line.startswith(indent) or line.endswith("{") and not clauses:
            break
    return taken


def block(lines):
    """From a first line to the end of its braces."""
    indent = re.match(" *", lines[0])[0]
    if lines[0].endswith((";", "}")):
        return lines[:1]
    return [*takewhile(lambda line: not re.match(indent + r"[})]", line), lines)]


def ghosts(lines, others):
    """The ghost members and types of a block, but for some others."""
    taken, inside = [], False
    for line in without_comments(lines):
        inside = inside or re.match(rf"    (?:ghost (?!{others})|type )", line) is not None
        taken += [line] if inside else []
        inside = inside and not line.endswith(";")
    return taken


def type_text(kind, lines):
    """A type without its private fields."""
    whole = block(lines)
    if kind != "struct":
        return whole
    return [line for line in whole if not line.startswith(" ") or line.lstrip().startswith("pub ")]


def texts_of(lines, public, others):
    """The items of a file: the index of the line where each begins, its name and its text."""
    for i, line in enumerate(lines):
        if match := BLOCK.match(line):
            whole = block(lines[i:])
            members = [(i + k, one, signature(whole[k:])) for k, text in enumerate(whole) if (one := MEMBER.match(text))]
            if match[2] in public and match[1]:
                said = [text for _, _, text in members if re.search(r"(?m)^ *(requires|ensures)\b", "\n".join(text))]
                yield i, f"{match[2]}: {re.sub('<.*', '', match[1])}", [line, *ghosts(whole, others), *sum(said, [])]
            elif match[2] in public:
                yield from ((k, f"{match[2]}::{one[2]}", text) for k, one, text in members if one[1])
        elif (match := DEFINED.match(line)) and match[2] in public:
            kind, name = match[1], match[2]
            if kind == "fn":
                yield i, name, signature(lines[i:])
            elif kind == "trait":
                whole = block(lines[i:])
                yield i, name, [line, *ghosts(whole, others)]
                for k, text in enumerate(whole):
                    if one := MEMBER.match(text):
                        yield i + k, f"{name}::{one[2]}", signature(whole[k:])
            else:
                above = takewhile(lambda one: one.startswith("#["), reversed(lines[:i]))
                yield i, name, [*(one for one in above if "derive" in one), *type_text(kind, lines[i:])]


def items(crate, others="use|view|invariant"):
    """The items of a library, by file; without the ghost members that begin with one of the others."""
    library = crate / "src/lib.rt"
    public = exported(library.read_text())
    for path in sorted(library.parent.rglob("*.rt")):
        lines = path.read_text().splitlines()
        for i, name, text in texts_of(lines, public.keys(), others):
            yield Item(crate.name, path, name, comment(lines, i), without_comments(text))
