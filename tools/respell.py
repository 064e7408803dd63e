#!/usr/bin/env python3
"""Brings the repository's own definitions, lemmas, record fields and constructors to snake case, where port.py left them in camel case.

usage: python3 tools/respell.py        at the top of the repository, once, right after /opt/rattle/port/port.py

A name is own if a file of specs/ or proofs/ declares it. Each part of it, as a dash joins them, that begins in lower case is turned, as
`length-octetsOf` to `length-octets_of`; `getD` is `get_or`. Types, facts and modules keep their capitals. Names turn as whole words in .antt
files, in .rt files and in must-fail edits; functions of src/ are in snake case already. A lemma that port.py gave the spelling which a
definition now gets has `_lem` behind it. Where two names fall together in one file all the same, nothing is written.
"""
import os
import re
import sys

WORD = re.compile(r"[^\s(){}.;,@\"«»`]+")
DECLARED = re.compile(r"\s*(?:(?:unfoldable|abbrev|pub|record|data|pattern) )*([^\s(){}.;,@\"«»:]+)(?: [({].*)? : ")
# lemmas that would have their definition's name
LEMMAS = {n: n + "_lem" for n in ("after_one", "extended_row", "header_read", "header_row", "left_over")}
CAMEL = re.compile(r"(?<=[a-z0-9])(?=[A-Z])")


def part(word):
    if word == "getD":
        return "get_or"
    if not word[:1].islower() or not CAMEL.search(word):
        return word
    return CAMEL.sub("_", word).lower()


def turned(name):
    return "-".join(part(w) for w in name.split("-"))


def files(*endings):
    for folder, dirs, names in os.walk("crates"):
        dirs[:] = sorted(d for d in dirs if d != "out")
        for n in sorted(names):
            if n.endswith(endings):
                yield os.path.join(folder, n)


def read(path):
    with open(path, encoding="utf-8") as f:
        return f.read()


def bare(text):
    """The words that stand in a file with no path before or behind them."""
    text = re.sub(r"--[^\n]*", "", text)
    return {m.group(0) for m in WORD.finditer(text) if text[m.start() - 1 : m.start()] != "." and text[m.end() : m.end() + 1] != "."}


def main():
    texts = {path: read(path) for path in files(".antt", ".rt", ".edit")}
    own = {m.group(1) for path, text in texts.items() if path.endswith(".antt") for m in map(DECLARED.match, text.splitlines()) if m}
    table = {n: turned(n) for n in own if turned(n) != n} | LEMMAS
    clash = []
    for path, text in texts.items():
        if path.endswith(".antt"):
            words = bare(text)
            clash += [f"{path}: {old} and {new}" for old, new in table.items() if old in words and new in words and new not in LEMMAS]
    if clash:
        print("these would fall together:\n" + "\n".join(clash))
        return 1
    for path, text in texts.items():
        after = WORD.sub(lambda m: table.get(m.group(0), m.group(0)), text)
        if after != text:
            with open(path, "w", encoding="utf-8") as f:
                f.write(after)
    print(f"{len(table)} names turned")
    return 0


if __name__ == "__main__":
    sys.exit(main())
