"""What the code and the definitions have: crates, functions with their clauses, and which definitions cite which."""

import os
import re
from functools import cache
from pathlib import Path

from items import CRATES, TOP, items, libraries

FUNCTION = re.compile(r"\bfn (\w+)")


@cache
def text_of(path):
    return path.read_text(errors="replace")


@cache
def all_paths():
    """All files and folders but those of builds, cases and captures."""
    found = []
    for folder, folders, files in os.walk(TOP):
        folders[:] = [name for name in folders if name not in ("out", ".git", "cases", "captures")]
        found += [Path(folder) / name for name in folders + files]
    return sorted(found)


@cache
def crates():
    return {path.name for path in CRATES.iterdir() if path.is_dir()}


@cache
def joined_sources(crate):
    return [text_of(path) for path in sorted((CRATES / crate / "src").rglob("*.rt"))]


# A word of the definitions, and the head of one.
SPEC_WORD = re.compile(r"[^\s(){}\[\],;]+")
SPEC_HEAD = re.compile(r"(?:abbrev |unfoldable )*(?:pub )?(?:(?:data|record) (\S+)|([^\s:(){}]+) :)")
IMPORT = re.compile(
    r"^ *(?:ghost )?(?:pub )?use Rattle\.(\w+)\.specs\.(\w+)((?:\.\w+)*)(?:\.\{([^}]*)\}| as (\w+));?$", re.M
)
FOR_PRIVATE = re.compile(r"[Nn]o public clause (?:cites|names) (?:it|them)|cited only by (?:a )?private function")


@cache
def spec_items(path):
    """The definitions of a file: for each its text, and for each name (a constructor's too) whose it is."""
    texts, owner, item = {}, {}, None
    for line in re.sub(r"^\s*--.*$", "", text_of(path), flags=re.M).splitlines():
        if match := SPEC_HEAD.match(line):
            item = match[1] or match[2]
            # An operator is written without the marks of its places.
            owner[item] = owner[item.strip("◌")] = item
        elif item and (match := re.match(r"  (?:pub )?([^\s:(){}]+) :", line)):
            owner.setdefault(match[1], item)
        if item and not line.startswith(("use ", "infix")):
            texts[item] = texts.get(item, "") + line + "\n"
    return texts, owner


@cache
def spec_files():
    return {(path.parent.parent.name, path.stem): path for path in sorted(CRATES.glob("*/specs/*.antt"))}


@cache
def imported(path):
    """What the names of a file stand for: a definition of a file of definitions, or such a file by another name."""
    single, files = {}, {}
    for crate, module, inner, several, alias in IMPORT.findall(text_of(path)):
        if (crate, module) not in spec_files():
            continue
        owner = spec_items(spec_files()[crate, module])[1]
        inside = inner.lstrip(".").split(".")[0]
        for name in filter(None, (name.strip() for name in several.split(","))):
            name, _, new = name.partition(" as ")
            item = owner.get(inside or name)
            if item:
                single[(new or name).strip("◌")] = (crate, module, item)
        if alias and inside:
            single[alias] = (crate, module, owner.get(inside))
        elif alias:
            files[alias] = (crate, module)
    return single, files


def cited_in(text, path):
    """The definitions that some text of a file names."""
    single, files = imported(path)
    here = (path.parent.parent.name, path.stem)
    own = spec_items(path)[1] if here in spec_files() else {}
    found = set()
    for word in SPEC_WORD.findall(text):
        head, _, rest = word.lstrip("¬λ").partition(".")
        if head in files and rest:
            crate, module = files[head]
            item = spec_items(spec_files()[crate, module])[1].get(rest.split(".")[0])
            found |= {(crate, module, item)} if item else set()
        elif head in own:
            found.add((*here, own[head]))
        elif head in single:
            found.add(single[head])
    return found


def all_reached(start):
    reached, left = set(), set(start)
    while left:
        crate, module, item = one = left.pop()
        if one not in reached and item:
            reached.add(one)
            path = spec_files()[crate, module]
            left |= cited_in(spec_items(path)[0][item], path)
    return reached


@cache
def reached():
    """All definitions that the clauses of public functions, traits and models name, or that those rest on."""
    found = set()
    for crate in libraries():
        for item in items(crate, "use|invariant"):
            found |= cited_in("\n".join(item.text), item.path)
    return all_reached(found)


@cache
def cited_anywhere():
    """All definitions that some code, proof or other definition names."""
    found = set()
    for path in all_paths():
        if path.suffix == ".rt" or (path.suffix == ".antt" and path not in spec_files().values()):
            found |= cited_in(re.sub(r"(?m)(?://|--).*|^ *(?:ghost )?use .*", "", text_of(path)), path)
    for (crate, module), path in spec_files().items():
        for item, text in spec_items(path)[0].items():
            found |= cited_in(text, path) - {(crate, module, item)}
    return found


@cache
def own_files():
    """The files of definitions that say at their head that no public clause names them."""
    heads = {one: re.match(r"(?:--.*\n)*", text_of(path))[0] for one, path in spec_files().items()}
    return {one for one, head in heads.items() if FOR_PRIVATE.search(head.replace("\n-- ", " "))}


def command_words():
    """The names of the debugger's commands, and the words that stand for no value after them."""
    files = ("cbpf_command_line/src/commands.rt", "cbpf_tool/src/command.rt")
    return [word for file in files for word in re.findall(r'^\s*b?"([^"]+)" =>', text_of(CRATES / file), re.M)]


def short_forms():
    """The short forms of commands that cbpf-shell takes."""
    lines = re.findall(r"^ *([\w |'?]+)\) word=\w+ ;;", text_of(TOP / "tools/cbpf-shell"), re.M)
    return re.findall(r"\w+", " ".join(lines))


def line_words():
    """The subcommands and options of the program's command line, of which clap adds five."""
    code = "".join(joined_sources("cbpf_command_line"))
    options = re.findall(r"""(?:\.short\(|"\w",\s*)'(\w)'""", code)
    added = ["help", "-h", "--help", "-V", "--version"]
    return [*re.findall(r'bare\(alloc, "(\w+)"', code), *(f"-{letter}" for letter in options), *added]


def error_texts():
    """How the errors begin that the program prints, up to the first value: a number and words, or words."""
    printing = ("cbpf", "cbpf_code", "cbpf_reply", "cbpf_text", "cbpf_tool", "cbpf_why", "pcap_classic")
    code = "".join(text for crate in printing for text in joined_sources(crate))
    others = re.findall(r'(?:#\[error\("|"cbpf: )([a-z]+ [^"{\\]*[a-zA-Z0-9])', code)
    return sorted({*re.findall(r'"([A-Z]\d+ [^"]*\w)', code), *others})
