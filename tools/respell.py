#!/usr/bin/env python3
"""Brings the names of definitions and lemmas to one spelling: words in snake case, types and modules in camel case.

usage: python3 tools/respell.py [--dry]      at the top, after port.py

It renames what specs/ and proofs/ declare: definitions, lemmas, records, their fields, and constructors. It changes whole tokens in .antt files
and in the ghost parts of .rt files, never in a text between quotes or a comment. Functions of src/ and the names that the check makes stay.
Where two old names would fall together in one file, it says so and stops.
"""

import collections
import os
import re
import sys

TOKEN = re.compile(r"[A-Za-z_][\w'-]*")
GENERATED = ("Answers.antt", "Invariants.antt", "Proof.antt")
# What a folder of proofs/ is named where no module of src/ has that name.
MODULES = {"coherence": ["line", "runs", "turns", "bridge"]}
# Lemmas that would fall together with the definition that they are about, and a state's name.
OTHERWISE = {
    "board-at": "board_at_lem",
    "gave-at": "gave_at_lem",
    "row-at": "row_at_lem",
    "set-record": "set_record_lem",
    "all-numbers": "all_numbers_lem",
    "digits-on": "digits_on_lem",
    "with-list": "with_list_lem",
    "put-board": "put_board_lem",
    "line-print": "line_print_lem",
    "GetM-leaves-only-MIwb": "get_m_leaves_only_miwb",
    "takes-M": "takes_modified",
    "M-left": "modified_left",
    "M-left-right": "modified_left_right",
    "M-left-only-when-taken": "modified_left_only_when_taken",
    "M-left-to-write-back": "modified_left_to_write_back",
    "M-is-holder-at-rest": "modified_is_holder_at_rest",
}
KEEP = {"from-residual"}


def words(name):
    name = re.sub(r"([a-z0-9])([A-Z])", r"\1-\2", name)
    name = re.sub(r"([A-Z]+)([A-Z][a-z])", r"\1-\2", name)
    return [w for w in re.split(r"[-_]", name) if w]


def snake(name):
    return "_".join(w.lower() for w in words(name))


def camel(name):
    return "".join(w[0].upper() + w[1:] for w in words(name))


def texts(ext):
    for folder, dirs, files in os.walk("crates"):
        dirs[:] = sorted(d for d in dirs if d != "out")
        for f in sorted(files):
            if f.endswith(ext):
                yield os.path.join(folder, f)


def read(p):
    with open(p, encoding="utf-8") as f:
        return f.read()


def is_type(text, name):
    """Whether a top-level name is a type or a fact: declared by record or data, or with a signature that ends in Type."""
    if re.search(rf"^(?:pub )?(?:record|data) {re.escape(name)}(?![\w'-])", text, re.M):
        return True
    m = re.search(rf"^(?:abbrev |unfoldable )?(?:pub )?{re.escape(name)} : ((?:.*)(?:\n[ ]{{4}}[→×].*)*)", text, re.M)
    return bool(m and re.search(r"Type \d\s*$", m.group(1)))


def declared():
    """old name -> new name, for what is to change."""
    new = {}
    for p in texts(".antt"):
        t = read(p)
        made = os.path.basename(p) in GENERATED
        tops = set()
        for m in re.finditer(r"^(?:abbrev |unfoldable |ruleset )*(?:pub )?(?:data |record )?([A-Za-z_][\w'-]*)(?= [:({{]| : |$)", t, re.M):
            n = m.group(1)
            if n in ("use", "where", "open", "pub", "mod", "elim", "let", "in"):
                continue
            tops.add(n)
        for n in tops:
            if made and ("-" in n):
                continue
            new[n] = camel(n) if is_type(t, n) else snake(n)
        # What stands below a section or a where.
        for m in [] if made else re.finditer(r"^[ ]+(?:pub )?([a-z][\w']*-[\w'-]*) : ", t, re.M):
            new.setdefault(m.group(1), snake(m.group(1)))
        for blk in re.finditer(r"^(?:pub )?(?:record|data) ([^\n]*)where\n((?:  [^\n]*\n|\n)*)", t, re.M):
            for l in blk.group(2).split("\n"):
                m = re.match(r"  (?:pub )?([A-Za-z_][\w'-]*(?: [A-Za-z_][\w'-]*)*) :", l)
                for n in m.group(1).split() if m else []:
                    new.setdefault(n, snake(n))
    new.update(OTHERWISE)
    return {o: n for o, n in new.items() if o != n and o not in KEEP and ("-" in o or re.search(r"[a-z0-9][A-Z]|^[a-z].*[A-Z]", o)) and not (o[0].isupper() and "-" not in o)}


def parts(text, comment):
    """The text cut into what is code and what is a comment or a text between quotes."""
    pattern = re.compile(rf'({comment}[^\n]*|"(?:[^"\\\n]|\\.)*")')
    at = 0
    for m in pattern.finditer(text):
        yield True, text[at : m.start()]
        yield False, m.group(0)
        at = m.end()
    yield True, text[at:]


def respelt(text, comment, new):
    def one(m):
        return new.get(m.group(0), m.group(0))

    return "".join(TOKEN.sub(one, piece) if code else re.sub(r"`([^`\n]+)`", lambda q: "`" + TOKEN.sub(one, q.group(1)) + "`", piece) if piece.startswith(("//", "-- ")) else piece for code, piece in parts(text, comment))


def main(dry):
    new = declared()
    by_new = collections.defaultdict(list)
    for o, n in new.items():
        by_new[n].append(o)
    bad = 0
    for ext, comment in ((".antt", r"(?<![^\s])--(?=\s|$)"), (".rt", "//")):
        for p in texts(ext):
            tokens = set()
            for code, piece in parts(read(p), comment):
                if code:
                    tokens |= set(TOKEN.findall(piece))
            for o in sorted(tokens & set(new)):
                n = new[o]
                both = [x for x in by_new[n] if x in tokens and x != o]
                if ext == ".antt" and (n in tokens and not re.search(rf"proofs[\w./+]*\.{re.escape(n)}\.", read(p)) or both):
                    print(f"together: {p}: {o} -> {n}", "and " + " ".join(both) if both else "stands there already")
                    bad += 1
    if dry:
        for o in sorted(new):
            print(o, "->", new[o])
        return bad
    if bad:
        return 1
    for ext, comment in ((".antt", r"(?<![^\s])--(?=\s|$)"), (".rt", "//")):
        for p in list(texts(ext)):
            old = read(p)
            text = respelt(old, comment, new)
            if text != old:
                with open(p, "w", encoding="utf-8") as f:
                    f.write(text)
    for crate, names in MODULES.items():
        base = os.path.join("crates", crate, "proofs")
        for n in names:
            up = n[0].upper() + n[1:]
            for tail in ("", ".antt"):
                if os.path.exists(os.path.join(base, n + tail)):
                    os.rename(os.path.join(base, n + tail), os.path.join(base, up + tail))
        for p in list(texts(".antt")):
            old = read(p)
            text = old
            for n in names:
                up = n[0].upper() + n[1:]
                text = re.sub(rf"\b(Rattle\.{crate}\.proofs\.){n}\b", rf"\g<1>{up}", text)
                if p == os.path.join(base, "Lib.antt"):
                    text = re.sub(rf"(?m)^((?:pub )?mod ){n}$", rf"\g<1>{up}", text)
            if text != old:
                with open(p, "w", encoding="utf-8") as f:
                    f.write(text)
    print(f"respelt: {len(new)} names")
    return 0


if __name__ == "__main__":
    raise SystemExit(main("--dry" in sys.argv[1:]))
