#!/usr/bin/env python3
"""Lists places of crates/*/src that are alike but for names, strings and numbers: twins that one function could be.

Usage: twins.py [LINES]. Each line of output has two places and how many lines they have in common, six or more if LINES is left out.
Crates of tests, whose cases are tables, are left out.
Import lines, comments, attributes, clauses, blank lines, lone punctuation, and variants, fields, parameters and arms that only
name a value are passed over.
"""
import glob
import re
import sys

KEPT = set("if else match for in while let mut fn pub self Some None Ok Err return true false as ref move".split())


def plain(line):
    """The line with every name, string and number made equal; None if it is passed over."""
    line = line.strip()
    if not line or re.match(r"(ghost |use |//|#|ensures|requires|pub use )", line) or re.fullmatch(r"[\W_]+", line):
        return None
    line = re.sub(r'b?"[^"]*"', "s", line)
    line = re.sub(r"\b\d\w*", "0", line)
    line = re.sub(r"\b[A-Za-z_]\w*", lambda m: m.group() if m.group() in KEPT else "x", line)
    # Variants, fields, parameters and arms that only name a value.
    if re.fullmatch(r"(pub )?[x0]+(\([x0, ]*\))?( => [^{;]*)?(: [^{;]*)?,", re.sub(r"x(::x)+", "x", line)):
        return None
    return line


def main():
    least = int(sys.argv[1]) if len(sys.argv) > 1 else 6
    lines = []
    for path in sorted(glob.glob("crates/*/src/*.rt")):
        if "_test/" in path:
            continue
        for number, line in enumerate(open(path), 1):
            text = plain(line)
            if text is not None:
                lines.append((text, path, number))
        lines.append((object(), path, 0))
    at = {}
    for i in range(len(lines) - least + 1):
        window = lines[i:i + least]
        if all(isinstance(t, str) for t, _, _ in window):
            at.setdefault(tuple(t for t, _, _ in window), []).append(i)
    done = set()
    pairs = 0
    for places in at.values():
        for n, i in enumerate(places):
            for j in places[n + 1:]:
                if (i - 1, j - 1) in done or j - i < least:
                    done.add((i, j))
                    continue
                done.add((i, j))
                size = 0
                while isinstance(lines[i + size][0], str) and lines[i + size][0] == lines[j + size][0] and i + size < j:
                    size += 1
                pairs += 1
                print(f"{lines[i][1]}:{lines[i][2]} {lines[j][1]}:{lines[j][2]} {size}")
    print(pairs, "pairs")


main()
