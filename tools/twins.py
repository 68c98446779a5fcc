#!/usr/bin/env python3
"""Lists functions whose bodies are alike but for names and numbers: python3 tools/twins.py [least tokens]"""
import collections
import pathlib
import re
import sys

LEAST = int(sys.argv[1]) if len(sys.argv) > 1 else 9
KEPT = {"if", "else", "for", "in", "while", "loop", "match", "let", "mut", "return", "as", "break"}


def bodies(text):
    """The name and the body of each function; the clauses between them are left out."""
    lines = text.split("\n")
    at = 0
    while at < len(lines):
        found = re.match(r"( *)(?:pub(?:\(crate\))? )?(?:final )?fn (\w+)", lines[at])
        at += 1
        if not found:
            continue
        indent, name = found.groups()
        while at < len(lines) and lines[at] != indent + "{" and not lines[at].endswith(("-> {", ") {")) \
                and not re.search(r"\) -> [^;{]* \{$", lines[at - 1]):
            if lines[at].endswith(";"):
                break
            at += 1
        body = []
        while at < len(lines) and lines[at] != indent + "}":
            body.append(lines[at])
            at += 1
        yield name, "\n".join(body)


def shape(body):
    body = re.sub(r"//.*", "", body)
    tokens = re.findall(r"\w+|[^\w\s]", body)
    return tuple(t if t in KEPT or not re.match(r"\w", t) else "_" for t in tokens)


groups = collections.defaultdict(list)
for path in sorted(pathlib.Path("crates").glob("*/src/**/*.rt")):
    for name, body in bodies(path.read_text()):
        form = shape(body)
        if len(form) >= LEAST:
            groups[form].append(f"{path}: {name}")
for form, names in groups.items():
    if len(names) > 1:
        print(f"{len(names)} of {len(form)} tokens")
        for name in names:
            print("   ", name)
