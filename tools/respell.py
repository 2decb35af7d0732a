#!/usr/bin/env python3
"""Brings this repository's own names in specs/, proofs/ and clauses to the spelling of today's Rattle.

usage: python3 tools/respell.py        at the top of the repository, once, after the kit's port.py

tools/respell.txt has a line 'OLD NEW' for each name. Only whole names are replaced; Rust code, strings and plain
comments stay as they are (a name in backquotes is replaced in a comment too). Names that Rattle itself makes for
goals are not in the table.
"""

import glob
import os
import re

HERE = os.path.dirname(os.path.realpath(__file__))
NAME = re.compile(r"(?<![\w'′-])(\.?)([A-Za-z][\w'′-]*)")
# the field of a test on a variable called `long`, which has the name of a definition
GENERATED = {"if-long"}


def table():
    with open(os.path.join(HERE, "respell.txt"), encoding="utf-8") as f:
        return dict(line.split() for line in f)


def turned(text, names, answers):
    def new(m):
        if answers and m[1] and m[2] in GENERATED:
            return m[0]
        return m[1] + names.get(m[2], m[2])

    return NAME.sub(new, text)


def line_of_antt(line, names, answers):
    m = re.match(r"^(.*?)((?:^|\s)--(?:\s.*|$))", line)
    code, comment = (m[1], m[2]) if m else (line, "")
    return turned(code, names, answers) + quoted(comment, names)


def quoted(comment, names):
    return re.sub(r"`[^`]*`", lambda m: turned(m[0], names, False), comment)


def line_of_code(line, names):
    m = re.match(r'^((?:[^"/]|"(?:[^"\\]|\\.)*"|/(?!/))*)(//.*)?$', line)
    if not m:
        return line
    parts = re.split(r'("(?:[^"\\]|\\.)*")', m[1])
    code = "".join(p if p.startswith('"') else turned(p, names, False) for p in parts)
    return code + quoted(m[2] or "", names)


def main():
    names = table()
    for path in glob.glob("crates/*/**/*", recursive=True):
        if "/out/" in path or not path.endswith((".rt", ".antt")):
            continue
        with open(path, encoding="utf-8") as f:
            old = f.read()
        answers = os.path.basename(path) in ("Answers.antt", "Invariants.antt")
        if path.endswith(".antt"):
            lines = [line_of_antt(l, names, answers) for l in old.split("\n")]
        else:
            lines = [line_of_code(l, names) for l in old.split("\n")]
        if "\n".join(lines) != old:
            with open(path, "w", encoding="utf-8") as f:
                f.write("\n".join(lines))


if __name__ == "__main__":
    main()
