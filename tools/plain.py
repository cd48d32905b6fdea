#!/usr/bin/env python3
"""Shows where documents are hard to read. It is a help for the writer, and no part of the gate.

usage: plain.py FILE..

It prints the ten worst places, each by its file and line, with what is wrong there and how the text begins:
  names      a paragraph or an item of a list with more than 12 names of code per 100 words
  sentence   one of more than 30 words
  cell       one of a table with more than 200 characters
  brackets   a condition in brackets, as (if there is one)
The last line has how many places there are of each kind. Blocks of code and headings aren't read.
"""

import re
import sys
from pathlib import Path

NAMES = 12
WORDS = 30
CHARACTERS = 200
SHOWN = 10
# A shorter paragraph says too little of how often names come.
LEAST_WORDS = 25
SPAN = re.compile(r"`[^`]*`")
LINK = re.compile(r"\[([^\]]*)\]\([^)]*\)")
CONDITION = re.compile(r"\b(if|unless|where|when|while|until|only|else|except|but|alone)\b")
BRACKETS = re.compile(r"\([^()]*\)")
# The end of a sentence: a stop, perhaps with marks that close something, before a capital, a name or the end.
STOP = re.compile(r"(?<=[.!?:])[*_\"')]*\s+(?=[\"'(*_`A-Z0-9])")
# These end in a stop that ends no sentence.
SHORT = re.compile(r"\b(e\.g|i\.e|etc|vs)\.")


def words_in(text):
    return [word for word in text.split() if re.search(r"\w", word)]


def paragraphs(path):
    """The paragraphs, items of lists and rows of tables outside blocks of code, each with the line where it begins."""
    block, start, lines = False, 0, []
    for number, line in enumerate([*path.read_text().splitlines(), ""], 1):
        fence = line.lstrip().startswith("```")
        begins = re.match(r"\s*([-*+]|\d+\.)\s", line)
        alone = block or fence or not line.strip() or line.startswith(("#", "|"))
        if lines and (alone or begins):
            yield start, " ".join(lines)
            lines = []
        if fence:
            block = not block
        elif not block and line.startswith("|"):
            yield number, line
        elif not alone:
            start = start if lines else number
            lines.append(re.sub(r"^\s*([-*+]|\d+\.)\s+(\[[ x]\]\s+)?", "", line).strip())


def faults_of_row(text):
    for cell in re.split(r"(?<!\\)\|", text.strip().strip("|")):
        cell = LINK.sub(r"\1", cell).strip()
        if len(cell) > CHARACTERS:
            yield len(cell) / CHARACTERS, "cell", f"{len(cell)} characters", cell


def faults_of_text(text):
    text = LINK.sub(r"\1", text)
    # Each name of code is one word.
    plain = SPAN.sub("`", text).replace("`", " NAME ")
    count = len(words_in(plain))
    names = plain.count(" NAME ")
    if count >= LEAST_WORDS and 100 * names > NAMES * count:
        share = 100 * names / count
        yield share / NAMES, "names", f"{share:.0f} per 100 words", text
    for sentence in STOP.split(SHORT.sub(r"\1", text)):
        length = len(words_in(SPAN.sub(" NAME ", sentence)))
        if length > WORDS:
            yield length / WORDS, "sentence", f"{length} words", sentence
    for brackets in BRACKETS.findall(SPAN.sub("NAME", text)):
        if CONDITION.search(brackets):
            yield 1 + len(words_in(brackets)) / 10, "brackets", "a condition", brackets


def main():
    if len(sys.argv) < 2:
        sys.exit(__doc__)
    found = []
    for name in sys.argv[1:]:
        for line, text in paragraphs(Path(name)):
            faults = faults_of_row(text) if text.startswith("|") else faults_of_text(text)
            found += [(worth, f"{name}:{line}", *fault) for worth, *fault in faults]
    found.sort(key=lambda fault: -fault[0])
    for _, place, kind, measure, text in found[:SHOWN]:
        print(f"{place}: {kind}, {measure}: {text[:70]}{'..' if len(text) > 70 else ''}")
    kinds = [fault[2] for fault in found]
    print(", ".join(f"{kind} {kinds.count(kind)}" for kind in ("names", "sentence", "cell", "brackets")))


if __name__ == "__main__":
    main()
