#!/usr/bin/env python3
"""Turns the repository's own names in specs and proofs to snake case.

usage: tools/spelling.py [FOLDER]      once, on a tree that the kit's port.py has turned

A name with a dash becomes the same with an underscore, in definitions, lemmas, fields, constructors and variables, and wherever it is cited: in contracts,
must-fail edits, comments and documents. What a library declares keeps its spelling, and so does what the toolchain makes for the proof of a function.
"""
import glob
import os
import re
import sys

NAME = re.compile(r"(?<![\w'\u25cc≤≡<+*∷.\-])[^\W\d][\w'≤≡<+*∷]*(?:-[\w'≤≡<+*∷]+)+(?![\w'\u25cc\-])|(?<=\.)[^\W\d][\w'≤≡<+*∷]*(?:-[\w'≤≡<+*∷]+)+(?![\w'\u25cc\-])")
DECLARED = re.compile(r"^\s*(?:(?:abbrev|unfoldable|pub|record|data|module)\s+)*([^\s:(){},;.]+(?:\s+[^\s:(){},;.=]+)*)\s+:", re.M)
USE = re.compile(r"^\s*(?:pub )?(?:ghost )?use ([^{;\n]*)(?:\{([^}]*)\})?.*$", re.M)
MADE = re.compile(r"\.proofs\.\+?\w+\.(?:Statement|Tie|Goals|Given|Kinds|Reads|Lts)")


def crates(top):
    return {os.path.basename(c) for c in glob.glob(os.path.join(top, "crates/*"))}


def paths(top):
    specs = glob.glob(os.path.join(top, "crates/*/specs/**/*.antt"), recursive=True)
    lemmas = glob.glob(os.path.join(top, "crates/*/proofs/*.antt"))
    walks = glob.glob(os.path.join(top, "crates/*/proofs/*/**/*.antt"), recursive=True)
    return sorted(specs + lemmas), sorted(walks)


def ours(path, names):
    m = re.match(r"Rattle[.·](\w+)", path.strip())
    return bool(m) and m.group(1) in names


def imported(text, names):
    """What the file's imports bring in: the names of libraries, and those of this repository's own files."""
    foreign, own = set(), set()
    for m in USE.finditer(text):
        into = own if ours(m.group(1), names) and not MADE.search(m.group(1)) else foreign
        for item in (m.group(2) or "").split(","):
            words = item.split()
            if words:
                into.add(words[0])
            if len(words) == 3 and words[1] == "as":
                own.add(words[2])
    return foreign, own


def snake(name):
    return name.replace("-", "_")


def parts(line):
    """Code and comment of a line of antt."""
    m = re.search(r"(?:^|\s)--(?:\s|$)", line)
    return (line, "") if not m else (line[: m.start()], line[m.start() :])


def turned(line, keep, only=None):
    return NAME.sub(lambda m: m.group(0) if m.group(0) in keep or (only is not None and m.group(0) not in only) else snake(m.group(0)), line)


def quoted(text, own):
    """Names between backticks."""
    return re.sub(r"`[^`\n]+`", lambda m: turned(m.group(0), set(), own), text)


def write(path, text, before):
    if text != before:
        with open(path, "w", encoding="utf-8") as f:
            f.write(text)


def read(path):
    with open(path, encoding="utf-8") as f:
        return f.read()


def main(top):
    names = crates(top)
    specs, walks = paths(top)
    own = set()
    for p in specs:
        text = read(p)
        foreign, mine = imported(text, names)
        for line in text.split("\n"):
            own |= {m.group(0) for m in NAME.finditer(parts(line)[0]) if m.group(0) not in foreign}
    for p in specs:
        text = read(p)
        foreign, mine = imported(text, names)
        lines = []
        for line in text.split("\n"):
            code, said = parts(line)
            lines.append(turned(code, foreign) + quoted(said, own))
        write(p, "\n".join(lines), text)
    for p in walks:
        text = read(p)
        foreign, mine = imported(text, names)
        mine = {n for n in mine if n in own}
        lines = []
        for line in text.split("\n"):
            code, said = parts(line)
            lines.append(re.sub(NAME, lambda m: snake(m.group(0)) if m.group(0) in mine and line[m.start() - 1 : m.start()] != "." else m.group(0), code) + said)
        write(p, "\n".join(lines), text)
    for p in glob.glob(os.path.join(top, "crates/*/src/**/*.rt"), recursive=True):
        text = read(p)
        out = []
        for line in text.split("\n"):
            m = re.search(r"//", line)
            code, said = (line, "") if not m else (line[: m.start()], line[m.start() :])
            out.append(turned(code, set(), own) + quoted(said, own))
        write(p, "\n".join(out), text)
    for p in glob.glob(os.path.join(top, "*.md")) + glob.glob(os.path.join(top, "docs/*.md")) + glob.glob(os.path.join(top, "model/*.md")):
        text = read(p)
        write(p, quoted(text, own), text)


if __name__ == "__main__":
    main(sys.argv[1] if len(sys.argv) > 1 else os.path.join(os.path.dirname(os.path.abspath(__file__)), ".."))
