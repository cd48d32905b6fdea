#!/usr/bin/env python3
"""Checks that what the documents name is there, and that they name what is there.

usage: names.py

The documents are README.md, CONTRIBUTING.md, docs/*.md, bench/*.md, tests/*.md, crates/*/README* and
crates/*/CALLING.md. Each is read outside its blocks of code, and names what stands between backquotes:
  a path           with a slash or a suffix of this repository's files: it is there, from the top, from crates/, from
                   the document's folder, from a crate of the heading or of the row, or in examples/. Below a heading
                   that is a crate's name, a file of code or definitions by its name alone stands in that crate, or in
                   one that the line names
  another name     it stands in the code, the definitions, the proofs or the scripts, or it is a file's or a folder's
  cbpf_..          also without backquotes: a crate, or a name of the code
  a definition     at the head of an item of docs/PROOF.md: it stands in a file that the item names
  a theorem        in a row of docs/PROOF.md: its call is there with its clauses, and its definitions in its files
  a call           in a block ```calls of docs/ARCHITECTURE.md: the function stands in the line's file
  a definition     in a `ghost use` line of a CALLING.md: it is there
  a line           in a block ```crates.txt of docs/LIBRARIES.md: it stands in crates.txt. The page has the lines of each
                   library with a CALLING.md and of those below it, and its table has these as what to copy
What is there is explained where it stands, or in the documents:
  a public item    of a library, and a definition that the clauses of one reach: a comment stands right above it
  a definition     of a file specs/: something cites it
  a command, an option, an error
                   of the program: a case has it, and so have docs/REFERENCE.md and man/cbpf.1
  a short form     of cbpf-shell: tests/shell.py, docs/REFERENCE.md and man/cbpf-shell.1 have it
  an extension     of the table: the lists in helps, completion, docs/REFERENCE.md and man/cbpf.1 have it, all of them,
                   or those of the ones that take a value
  a type           that is public and has `==`: it has a clause in src/equality.rt of its crate
  a file           of src/ or specs/: it opens with a comment that says what it is about
A must-fail edit says in its first line what is wrong, and each of its `old:` texts stands once where it says.
The last line is `N names, M failed`.
"""

import re
import sys
from functools import cache
from pathlib import Path

from items import CRATES, TOP, items, libraries
from run import CASES, parts
from sources import (
    FUNCTION,
    IMPORT,
    SPEC_HEAD,
    all_paths,
    cited_anywhere,
    command_words,
    crates,
    error_texts,
    joined_sources,
    line_words,
    own_files,
    reached,
    short_forms,
    spec_files,
    spec_items,
    text_of,
)

SUFFIXES = "rt antt edit md py sh txt asm dbg pcap pcapng words bash 1 c".split()
SOURCES = "rt antt edit py sh bash fish words asm dbg 1 c".split()
# Sources whose names say nothing of their language.
BARE_SOURCES = {"Makefile", "crates.txt", "cbpf-shell", "cbpf-transcript"}
# Names of other people's files, what a build makes, and a placeholder.
OUTSIDE = re.compile(r"[/~$]|linux/|Documentation/|PREFIX/|(crates/cbpf/)?out/|.*\bwhat_is_wrong\.edit$")
# Calls and traits of the standard library that no source of ours writes.
STANDARD = set("grow shrink cmp partial_cmp madvise Display".split())
# Documents of what users type, in which a name needn't be one of the sources.
OF_USERS = {"REFERENCE.md", "RECIPES.md", "KERNEL_TOOLS.md", "PACKAGING.md"}
CODE_SPAN = re.compile(r"(?<!`)`([^`]+)`(?!`)")
NAME = re.compile(r"[A-Za-z_][\w]*(?:(?:::|\.)[A-Za-z_]\w*)*(?:\(.*\))?")

faults = []
names = 0


def check(holds, path, line, what):
    global names
    names += 1
    if not holds:
        faults.append(f"{path.relative_to(TOP)}:{line}: {what}")


@cache
def words():
    """All names of the code, the definitions, the proofs and the scripts, and of their files."""
    found = set()
    for path in all_paths():
        found |= {path.name, path.stem}
        if path.suffix[1:] in SOURCES or path.name in BARE_SOURCES:
            text = text_of(path)
            if path.suffix in (".rt", ".antt"):
                text = re.sub(r"^\s*(//|--).*$", "", text, flags=re.M)
            found |= set(re.findall(r"[A-Za-z_]\w*(?:-\w+)*", text)) | set(re.findall(r"\w+", text))
    for path in (TOP / "tests").rglob("*"):
        if path.is_dir() or path.suffix in (".pcap", ".case"):
            found |= {path.stem, path.name}
    return found


def is_path(name):
    if re.fullmatch(r"[\w.*<>/{},-]+", name) is None:
        return False
    head, _, suffix = name.rpartition(".")
    return "/" in name or (head != "" and suffix in SUFFIXES)


def is_there(name, document, here, in_table, of_crate=False):
    if OUTSIDE.match(name) or name[0].isdigit():
        return True
    cases = TOP / "tests/cases"
    if "/" not in name.rstrip("/") and "*" not in name:
        if of_crate and name.endswith((".rt", ".antt")):
            return any(next((CRATES / crate).rglob(name), None) for crate in here)
        known = {path.name for path in all_paths()}
        return name.rstrip("/") in known or any((cases / f"{name}{end}").exists() for end in ("", ".case"))
    near = [CRATES / crate for crate in here]
    folders = [TOP, CRATES, document.parent, TOP / "examples", cases, *near]
    if not (in_table and near):
        folders += [CRATES / crate for crate in crates()]
    pattern = re.sub(r"\bNAME\b|<\w+>", "*", name).rstrip("/")
    there = any(next(folder.glob(pattern), None) for folder in folders if folder.is_dir())
    return there or any(cases.glob(f"{pattern}.case"))


def is_known(name):
    """Whether each part of a name, as of `Session::run` or `x.old`, stands somewhere in the sources."""
    return all(part in words() or part in STANDARD for part in re.findall(r"[A-Za-z_]\w*", name))


def lines_of(path):
    """The lines outside blocks of code, with their numbers."""
    block = False
    for number, line in enumerate(text_of(path).splitlines(), 1):
        if line.startswith("```"):
            block = not block
        elif not block:
            yield number, line


def crates_in(text):
    return [word for word in re.findall(r"\w+", text) if word in crates()]


def check_spans(path):
    here = []
    of_crate = False
    for number, line in lines_of(path):
        if line.startswith("#"):
            above = crates_in(line)
            of_crate = re.match(r"#+ (\w+)(:|$)", line) is not None and above != []
            if line.startswith("## ") or above:
                here = above
        near = here + crates_in(line)
        for span in CODE_SPAN.findall(line):
            if is_path(span):
                there = is_there(span, path, near, line.startswith("|"), of_crate)
                check(there, path, number, f"no file or folder {span}")
            elif NAME.fullmatch(span) and not re.fullmatch("[A-Z0-9]+", span) and path.name not in OF_USERS:
                name = re.sub(r"\(.*\)$", "", span)
                check(is_known(name), path, number, f"no name {span}")
        for name in re.findall(r"(?<![\w/.])cbpf_\w+", CODE_SPAN.sub("", line)):
            check(name in crates() or name in words(), path, number, f"no crate {name}")


def explained(path):
    """The items of docs/PROOF.md, ``- `a`, `b` (file): ..``: line, names and files."""
    own = []
    for number, line in lines_of(path):
        if line.startswith("#"):
            own = crates_in(line)
        elif own and (match := re.match(r"- (.+?) \(([^)]*)\)", line)):
            folders = [TOP, *(CRATES / crate for crate in own)]
            listed = re.findall(r"[\w/]*specs/\w+\.antt", match[2])
            files = [folder / name for name in listed for folder in folders if (folder / name).exists()]
            yield number, CODE_SPAN.findall(match[1]), files


def check_definitions(path):
    for number, named, files in explained(path):
        check(bool(files), path, number, f"no file for {', '.join(named)}")
        for name in named:
            holds = any(name in spec_items(file)[1] for file in files)
            check(holds, path, number, f"no definition {name} in {', '.join(file.name for file in files)}")


def check_theorems(path):
    """Whether rows ``| n | `call`: `clause`, .. | `definition`, .. | `crate/specs/file`, .. |`` name what is there."""
    for number, line in lines_of(path):
        if row := re.match(r"\| \d+ \| `([\w:]+)`: (.*?) \| (.*?) \| (`(\w+)/specs/.*?) \|", line):
            crate = CRATES / row[5]
            found = [text for item in items(crate) if item.name == row[1] for text in item.text]
            clauses = re.findall(r"^ *ensures\*?(?: (\w+))? \{", "\n".join(found), re.M)
            check(found != [], path, number, f"no call {row[1]} in {crate.name}")
            for clause in CODE_SPAN.findall(row[2]):
                check(clause in clauses, path, number, f"no clause {clause} of {row[1]}")
            check("`" in row[2] or clauses == [""], path, number, f"{len(clauses)} clauses of {row[1]}")
            files = [crate / "specs" / Path(name).name for name in CODE_SPAN.findall(row[4])]
            for name in CODE_SPAN.findall(row[3]):
                holds = any(file.exists() and name in spec_items(file)[1] for file in files)
                check(holds, path, number, f"no definition {name} in {', '.join(file.name for file in files)}")


def check_edit(path):
    """Whether an edit says what is wrong, and each of its texts stands once in its file, as those before left that."""
    check(text_of(path).startswith("# "), path, 1, "no line that says what is wrong")
    texts, target, old = {}, None, None
    for number, line in enumerate(text_of(path).splitlines(), 1):
        if line.startswith("file: "):
            target = path.parent.parent / line.removeprefix("file: ")
            check(target.is_file(), path, number, f"no {target.relative_to(TOP)}")
            texts.setdefault(target, text_of(target) if target.is_file() else "")
        elif line.startswith("old: ") and target:
            old = line.removeprefix("old: ")
            times = texts[target].count(old)
            check(times == 1, path, number, f"stands {times} times: {old}")
        elif line.startswith("new:") and old:
            texts[target] = texts[target].replace(old, line.removeprefix("new:").removeprefix(" "))
            old = None
    check(bool(texts), path, 1, "no file")


def check_calls(path):
    block = False
    for number, line in enumerate(text_of(path).splitlines(), 1):
        if line.startswith("```"):
            block = line == "```calls"
        elif block and line.strip():
            file, *called = re.split(r"\s+|→", line.strip())
            target = CRATES / file
            check(target.is_file(), path, number, f"no file {file}")
            known = set(FUNCTION.findall(text_of(target))) if target.is_file() else set()
            for name in filter(None, called):
                check(name in known, path, number, f"no function {name} in {file}")


def blocks(path):
    """The blocks of code of a document: line, kind, text."""
    for block in re.finditer(r"^```(\S+)\n(.*?)^```", text_of(path), re.M | re.S):
        yield text_of(path)[: block.start()].count("\n") + 1, block[1], block[2]


def below(crate, lines):
    """The crates of this repository on which one stands."""
    direct = [name for name in lines.get(crate, "").split() if name in crates()]
    return {*direct, *(low for name in direct for low in below(name, lines))}


def check_listed(path):
    """Whether the page on libraries quotes crates.txt as it is, and says for each crate which others it stands on."""
    lines = dict(line.split(":", 1) for line in text_of(TOP / "crates.txt").splitlines() if not line.startswith("#"))
    quoted = {}
    for number, kind, text in blocks(path):
        for name, _, rest in (line.partition(":") for line in text.splitlines() if kind == "crates.txt"):
            check(lines.get(name) == rest, path, number, f"not in crates.txt: {name}:{rest}")
            quoted[name] = rest
    rows = [re.match(r"\| `(\w+)` \| ([^|]*) \|$", line) for _, line in lines_of(path)]
    copied = {row[1]: set(CODE_SPAN.findall(row[2])) for row in rows if row}
    for page in sorted(CRATES.glob("*/CALLING.md")):
        crate = page.parent.name
        check(copied.get(crate) == below(crate, lines), path, 1, f"{crate} stands on {sorted(below(crate, lines))}")
        check({crate, *below(crate, lines)} <= quoted.keys(), path, 1, f"no line of {crate} or of one below it")


@cache
def passed_on(crate):
    """The modules of other crates that a crate's specs/ pass on, by the name that they have there."""
    lines = re.findall(r"^pub use Rattle\.(\w+)\.specs\.(\w+)((?:\.\w+)*)$", text_of(CRATES / crate / "specs/Lib.antt"), re.M)
    return {(inner or module).split(".")[-1]: (low, module) for low, module, inner in lines}


def check_imports(path):
    """Whether the definitions of the `ghost use` lines of a page for callers are there."""
    for number, _, text in blocks(path):
        for crate, module, inner, several, _ in IMPORT.findall(text):
            crate, module = passed_on(crate).get(module, (crate, module)) if crate in crates() else (crate, module)
            file = spec_files().get((crate, module))
            known = spec_items(file)[1] if file else words() if module == "declared" else set()
            for name in re.findall(r"\w+", re.sub(r" as \w+", "", f"{inner} {several}")):
                if crate in crates():
                    check(name in known, path, number, f"no definition {name} in {crate}/{module}")


def check_comments():
    """Whether a comment stands right above each public item, and above each definition that its clauses reach."""
    for item in (item for crate in libraries() for item in items(crate)):
        # What a type says as one of a trait is explained by the trait.
        check(item.comment or ": " in item.name, item.path, 1, f"no comment above {item.name}")
    for (crate, module), path in spec_files().items():
        lines = text_of(path).splitlines()
        for number, line in enumerate(lines):
            if (match := SPEC_HEAD.match(line)) and (crate, module, match[1] or match[2]) in reached():
                check(lines[number - 1].startswith("--"), path, number + 1, f"no comment above {match[1] or match[2]}")


def check_cited():
    """Whether something cites each definition."""
    for (crate, module), path in spec_files().items():
        for item in spec_items(path)[0]:
            check((crate, module, item) in cited_anywhere(), path, 1, f"nothing cites {item}")


def check_own_files():
    for crate, module in own_files():
        named = sorted(item for c, m, item in reached() if (c, m) == (crate, module))
        check(not named, spec_files()[crate, module], 1, f"a public clause reaches {', '.join(named)}")


def check_heads():
    """Whether each file of code or definitions opens with a comment."""
    for path in sorted([*CRATES.glob("*/src/*.rt"), *CRATES.glob("*/specs/*.antt")]):
        check(path.stem == "Lib" or text_of(path).startswith(("//", "--")), path, 1, "no comment says what it is about")


def check_equality(library):
    """Whether each type with `==` that a library has and exports has a clause in its src/equality.rt."""
    laws, exported = library.with_name("equality.rt"), re.findall(r"^pub use ([^;]+);", text_of(library), re.M)
    clauses = set(re.findall(r"⟦<(\w+)(?:<[^>]*>)? as PartialEq>⟧", text_of(laws))) if laws.exists() else set()
    code = "".join(joined_sources(library.parent.parent.name))
    compared = re.findall(r"#\[derive[^\]]*\bPartialEq\b[^\]]*\]\s*(?:#\[[^\]]*\]\s*)*pub (?:struct|enum) (\w+)", code)
    compared += re.findall(r"\bPartialEq for (\w+)", code)
    for name in set(compared) & set(re.findall(r"\w+", " ".join(exported))):
        check(name in clauses, laws, 1, f"no clause of {name}")


def words_in(texts):
    return set(re.findall(r"-*\w+", " ".join(texts)))


def items_of(page):
    """The heads of a manual page's lists, with options as they are typed."""
    return [re.sub(r"\bFl ", "-", item.replace("\\-", "-")) for item in re.findall(r"^\.It .*", text_of(page), re.M)]


def check_covered():
    """Whether cases, reference and manual page have each command, option and error of the program."""
    cases = [parts(path) for path in sorted(CASES.rglob("*.case"))]
    typed = b"\n".join(case.get("stdin", b"") for case in cases).split()
    given = b"\n".join(case.get(name, b"") for case in cases for name in ("args", "command")).split()
    in_cases = b"\n".join(text for case in cases for text in case.values())
    reference, page = TOP / "docs/REFERENCE.md", TOP / "man/cbpf.1"
    documented = CODE_SPAN.findall(text_of(reference)) + re.findall(r"^    cbpf .*", text_of(reference), re.M)
    wanted = [(word, typed) for word in command_words()] + [(word, given) for word in line_words()]
    for word, tried in wanted:
        check(word.encode() in tried, CASES, 1, f"no case with {word}")
        check(word in words_in(documented), reference, 1, f"no {word}")
        check(word in words_in(items_of(page)), page, 1, f"no {word}")
    for text in error_texts():
        number, words = text.split(" ", 1) if text[0].isupper() else (None, text)
        # Documents leave out where an error is. A letter or the next line has the first value.
        words = re.escape(re.sub(r"^at( byte)?$", "", words))
        ends = r"(?= \||;|:|\n| [A-Z]\b)" if words else ""
        in_row = rf"^\| {number} \| {words}{ends}" if number else rf"`cbpf: (c\.pcap: )?{words}\b"
        check(text.encode() in in_cases, CASES, 1, f"no case with {text}")
        check(re.search(in_row, text_of(reference), re.M), reference, 1, f"no {text}")
        in_page = rf"^\.It {number}\n{words}{ends}" if number else rf"^\.It {words}\b"
        check(re.search(in_page, text_of(page).replace("\\-", "-"), re.M), page, 1, f"no {text}")


def check_short_forms():
    """Whether the reference, the page and the tests of cbpf-shell have each of its short forms."""
    reference, page, tests = TOP / "docs/REFERENCE.md", TOP / "man/cbpf-shell.1", TOP / "tests/shell.py"
    for word in short_forms():
        check(word in words_in(CODE_SPAN.findall(text_of(reference))), reference, 1, f"no short form {word}")
        check(word in words_in(items_of(page)), page, 1, f"no short form {word}")
        check(re.search(rf'"{word}[" \\]', text_of(tests)), tests, 1, f"no short form {word}")


# Where the extensions are listed, and how many lists there are: those that take a value, or all of them.
EXTENSION_LISTS = {
    "completion/_cbpf": 1,
    "completion/cbpf.bash": 1,
    "completion/cbpf.fish": 1,
    "crates/cbpf_command_line/src/parse.rt": 1,
    "crates/cbpf_command_line/src/why.rt": 1,
    "docs/REFERENCE.md": 2,
    "man/cbpf.1": 2,
}


def check_extensions():
    """Whether each list of extensions, in helps, completion, reference and manual page, has the names of the table."""
    rows = re.findall(r'=> Ext::(\w+), "(\w+)";', text_of(CRATES / "cbpf_code/src/extension.rt"))
    take_none = re.findall(r"^takes_value (\w+) = false$", text_of(CRATES / "cbpf_machine/specs/Values.antt"), re.M)
    every = {name for _, name in rows}
    with_value = {name for variant, name in rows if variant not in take_none}
    first, last = rows[0][1], rows[-1][1]
    for place, wanted in EXTENSION_LISTS.items():
        text = text_of(TOP / place)
        # A list ends with the last name of the table, or with one more soon after it.
        lists = re.findall(rf"\b{first}\b(?:(?!\b{first}\b).)*?\b{last}\b.{{0,20}}", text, re.S)
        check(len(lists) >= wanted, TOP / place, 1, f"{len(lists)} lists of extensions")
        for found in lists:
            named = every & set(re.findall(r"\w+", found))
            line = text[: text.index(found)].count("\n") + 1
            check(named in (every, with_value), TOP / place, line, "a list of extensions that isn't that of the table")


# The checks of a document by its name.
OF_ONE = {
    "PROOF.md": [check_definitions, check_theorems],
    "LIBRARIES.md": [check_listed],
    "CALLING.md": [check_imports],
}


def main():
    check_covered()
    check_short_forms()
    check_extensions()
    documents = [TOP / "README.md", TOP / "CONTRIBUTING.md"]
    folders = "docs/*.md bench/*.md tests/*.md crates/*/README* crates/*/CALLING.md"
    for pattern in folders.split():
        documents += sorted(TOP.glob(pattern))
    for path in documents:
        for look_up in [check_spans, check_calls, *OF_ONE.get(path.name, [])]:
            look_up(path)
    for edit in sorted(CRATES.glob("*/must-fail/*.edit")):
        check_edit(edit)
    for library in sorted(CRATES.glob("*/src/lib.rt")):
        check_equality(library)
    check_heads()
    check_comments()
    check_cited()
    check_own_files()
    for fault in faults:
        print(fault)
    print(f"{names} names, {len(faults)} failed")
    sys.exit(1 if faults else 0)


if __name__ == "__main__":
    main()
