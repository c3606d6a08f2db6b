#!/usr/bin/env python3
"""Spells the names of definitions and lemmas by a table: words of definitions in snake case, facts in upper camel case.

usage: python3 tools/spelling.py [FOLDER]     over crates/, docs/ and README.md of the repository at FOLDER (default: this one)

tools/spelling.tsv has a row for each name: the old spelling, a tab, the new one. Whole words turn. In specs/, proofs/ and the
clauses of src/ each of them; in comments and pages the words in camel case and those of a code span; in strings none. In a
must-fail edit the words turn too, and a path with middle dots gets dots. A second run writes nothing.
"""

import os
import re
import sys

HERE = os.path.dirname(os.path.realpath(__file__))
WORD = re.compile(r'[^\s(){}.;,@"«»`\[\]]+')
CAMEL = re.compile(r"[a-z][a-z0-9]*[A-Z][A-Za-z0-9]*'*")
STRING = re.compile(r'"(?:[^"\\\n]|\\.)*"')
SPAN = re.compile(r"`[^`\n]*`")
DOTS = re.compile(r"\bRattle·[\w·.]*")


def table():
    with open(os.path.join(HERE, "spelling.tsv"), encoding="utf-8") as f:
        return dict(row.rstrip("\n").split("\t") for row in f if row.strip())


def words(text, rows, only=lambda w: True):
    return WORD.sub(lambda m: rows.get(m[0], m[0]) if only(m[0]) else m[0], text)


def prose(text, rows):
    """A comment or a page: code spans whole, elsewhere words in camel case and facts whose parts a dash joins."""
    out, at = [], 0
    for m in SPAN.finditer(text):
        out += [words(text[at : m.start()], rows, plain), words(m[0], rows)]
        at = m.end()
    return "".join(out) + words(text[at:], rows, plain)


def plain(word):
    return bool(CAMEL.fullmatch(word)) or word[0].isupper() and "-" in word and not word[-1].isdigit()


def code(text, rows, mark):
    """A text whose comments begin with mark."""
    lines = []
    for line in text.split("\n"):
        out, at = [], 0
        cut = comment(line, mark)
        for m in STRING.finditer(line, 0, cut):
            out += [words(line[at : m.start()], rows), m[0]]
            at = m.end()
        out.append(words(line[at:cut], rows))
        lines.append("".join(out) + prose(line[cut:], rows))
    return "\n".join(lines)


def comment(line, mark):
    """Where the comment of a line begins, or its end."""
    quoted = [m.span() for m in STRING.finditer(line)]
    at = line.find(mark)
    while at >= 0 and any(a < at < b for a, b in quoted):
        at = line.find(mark, at + 1)
    return len(line) if at < 0 else at


def edit(text, rows):
    return "\n".join(words(DOTS.sub(lambda m: m[0].replace("·", "."), l), rows) for l in text.split("\n"))


def turned(path, text, rows):
    if path.endswith(".antt"):
        return code(text, rows, "--")
    if path.endswith(".rt"):
        return code(text, rows, "//")
    if path.endswith(".edit"):
        return edit(text, rows)
    return prose(text, rows)


def files(root):
    for top in ("crates", "docs"):
        for folder, dirs, names in os.walk(os.path.join(root, top)):
            dirs[:] = sorted(d for d in dirs if d != "out")
            for name in sorted(names):
                if name.endswith((".antt", ".rt", ".edit", ".md")):
                    yield os.path.join(folder, name)
    yield os.path.join(root, "README.md")


def main(argv):
    root = argv[0] if argv else os.path.dirname(HERE)
    rows, count = table(), 0
    for path in files(root):
        with open(path, encoding="utf-8") as f:
            old = f.read()
        new = turned(path, old, rows)
        if new != old:
            with open(path, "w", encoding="utf-8") as f:
                f.write(new)
            count += 1
    print(f"{count} files spelled anew")


if __name__ == "__main__":
    main(sys.argv[1:])
