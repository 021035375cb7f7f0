#!/usr/bin/env python3
"""Brings the repository's own names to the spelling of today's Rattle: snake case for definitions, fields, constructors and variables, camel case for modules.

usage: tools/respell.py TOP          rewrites the .antt and .rt files and the must-fail edits of every crate below TOP, once, right after the port's own script
       tools/respell.py TOP FILE..   rewrites the names in these pages by the same rule, as far as the crates have them

Names of Rattle's source, strings, and names that begin with a capital stay. Two names of one file that fall together are printed as 'together:'.
"""

import os
import re
import sys

TOKEN = re.compile(r"[^\W\d][\w'\-]*[\w']|[^\W\d]['\w]*")
CAMEL = re.compile(r"(?<=[a-z0-9])(?=[A-Z])|(?<=[A-Z])(?=[A-Z][a-z])")
FIELD = re.compile(r"^\s+(?:pub )?([a-z][\w']*(?:-[\w']+)+) : ")
STRING = re.compile(r'b?"(?:[^"\\]|\\.)*"|b?\'(?:[^\'\\]|\\.)\'')
# Lemmas that would now have their function's name, with the files that speak of them.
LEMMAS = {
    "all_right": ["rcl2000/proofs/Examples"],
    "rank_step": ["rcl2000/proofs/StepDemands", "tables/proofs/rank_step/Proof", "tables/proofs/StopLaws"],
    "same_kind": ["rules/proofs/KindLaws"],
    "same_bool": ["rules/proofs/TableLaws"],
    "read_count": ["syntax/proofs/RuleLaws"],
    "word_row": ["tables/proofs/rows/word_row/Proof", "tables/proofs/ReadLaws", "tables/proofs/PageLaws"],
    "marked_row": ["tables/proofs/rows/marked_row/Proof", "tables/proofs/ReadLaws", "tables/proofs/PageLaws"],
    "closed_at": ["tables/proofs/RankLaws"],
}


def is_camel(segment):
    return bool(re.match(r"[a-z][a-z0-9']*[A-Z]", segment))


def snake(token):
    parts = re.split(r"([-_])", token)
    out = []
    for i, part in enumerate(parts):
        if is_camel(part):
            part = "_".join(w.lower() if w.isascii() else w for w in CAMEL.split(part))
        out.append(part)
    return "".join(out)


def files(top, ends):
    for folder, dirs, names in os.walk(os.path.join(top, "crates")):
        dirs[:] = sorted(d for d in dirs if d not in ("out", ".git"))
        for name in sorted(names):
            if name.endswith(ends):
                yield os.path.join(folder, name)


def read(path):
    with open(path, encoding="utf-8") as f:
        return f.read()


def fields(top):
    """Fields and constructors with a dash, of the records and data of specs/ and proofs/."""
    found = set()
    for path in files(top, (".antt",)):
        inside = False
        for line in read(path).splitlines():
            if line and not line[0].isspace():
                inside = bool(re.match(r"(pub )?(record|data) ", line))
            if inside:
                m = FIELD.match(line)
                if m:
                    found.add(m.group(1))
    return found


def turned(text, dashed, code, known=None):
    """The text with each name respelt; of source code the strings stay, and names that no .antt file has."""
    pairs = {}

    def one(m):
        token = m.group(0)
        if known is not None and token not in known:
            return token
        new = token.replace("-", "_") if token in dashed else token
        new = snake(new)
        pairs[token] = new
        return new

    if not code:
        return TOKEN.sub(one, text), pairs
    out, at = [], 0
    for m in STRING.finditer(text):
        out.append(TOKEN.sub(one, text[at:m.start()]))
        out.append(m.group(0))
        at = m.end()
    out.append(TOKEN.sub(one, text[at:]))
    return "".join(out), pairs


def lemmas(top):
    for name, places in LEMMAS.items():
        for place in places:
            path = os.path.join(top, "crates", place + ".antt")
            text = read(path)
            with open(path, "w", encoding="utf-8") as f:
                f.write(re.sub(rf"(?<![\w.`'-]){name}(?![\w.`'-])", name + "_lem", text))


def crates(top):
    lemmas(top)
    dashed = fields(top)
    known = {t for path in files(top, (".antt",)) for t in TOKEN.findall(read(path))}
    known |= {t for path in files(top, (".rt",)) for line in read(path).splitlines() if line.startswith("ghost use ") for t in TOKEN.findall(line)}
    for path in files(top, (".antt", ".rt", ".edit")):
        text = read(path)
        new, pairs = turned(text, dashed, not path.endswith(".antt"), known if path.endswith(".rt") else None)
        by = {}
        for old, now in pairs.items():
            by.setdefault(now, set()).add(old)
        for now, olds in by.items():
            if len(olds) > 1:
                print(f"together: {os.path.relpath(path, top)}: {' '.join(sorted(olds))}")
        new = re.sub(r"(Rattle\.\w+\.specs\.)code(?=[.;\s])", r"\1Code", new)
        if path.endswith("/specs/Lib.antt"):
            new = re.sub(r"(?m)^(pub mod )code$", r"\1Code", new)
        if path.endswith(".edit"):
            new = new.replace("file: specs/code/", "file: specs/Code/")
        if new != text:
            with open(path, "w", encoding="utf-8") as f:
                f.write(new)
    for c in sorted(os.listdir(os.path.join(top, "crates"))):
        specs = os.path.join(top, "crates", c, "specs")
        for name in ("code", "code.antt"):
            old = os.path.join(specs, name)
            if os.path.exists(old):
                os.rename(old, os.path.join(specs, "C" + name[1:]))


def pages(paths):
    for path in paths:
        text = read(path)
        new = re.sub(r"`[^`\n]+`", lambda m: turned(m.group(0), set(), True)[0].replace("specs/code", "specs/Code"), text)
        if new != text:
            with open(path, "w", encoding="utf-8") as f:
                f.write(new)


if __name__ == "__main__":
    if len(sys.argv) == 2:
        crates(sys.argv[1])
    elif len(sys.argv) > 2:
        pages(sys.argv[2:])
    else:
        print(__doc__)
        raise SystemExit(2)
