#!/usr/bin/env python3
"""Brings the names of this repository's definitions and lemmas to the spelling of today's Rattle.

usage: python3 tools/respell.py [FOLDER]     FOLDER has crates/ (default: the current folder)

Run once, after port.py. respelled-names.txt, beside this script, has each old name and its new one: words
in snake case, facts and types in camel case. A name is replaced only as a whole token of antt: in .antt
files, in .rt files outside strings and comments, and in the texts of .edit files outside strings. Goals,
which Rattle names itself, are left alone.
"""
import pathlib
import re
import sys

HERE = pathlib.Path(__file__).resolve().parent
TOKEN = re.compile(r"[^\s(){}\[\],;:.\"]+")
STRING = r"b?\"(?:\\.|[^\"\\])*\""
PARTS = {
    ".antt": re.compile(r"(--(?:\s.*)?$)|(\"[^\"]*\")", re.M),
    ".rt": re.compile(r"(//.*$)|(" + STRING + r")|('(?:\\.[^']*|[^\\'])')", re.M),
    ".edit": re.compile(r"(^file:.*$|//.*$)|(" + STRING + r")", re.M),
}


def table():
    rows = (line.split() for line in (HERE / "respelled-names.txt").read_text().splitlines() if not line.startswith("#"))
    return dict(rows)


def respelled(text, names, parts):
    out, at = [], 0
    replace = lambda piece: TOKEN.sub(lambda m: names.get(m[0], m[0]), piece)
    for m in parts.finditer(text):
        out += [replace(text[at:m.start()]), m[0]]
        at = m.end()
    return "".join(out) + replace(text[at:])


def main(root):
    names = table()
    for path in sorted(pathlib.Path(root, "crates").rglob("*")):
        if path.suffix not in PARTS or "out" in path.relative_to(root).parts:
            continue
        old = path.read_text(encoding="utf-8")
        new = respelled(old, names, PARTS[path.suffix])
        if new != old:
            path.write_text(new, encoding="utf-8")


if __name__ == "__main__":
    main(sys.argv[1] if len(sys.argv) > 1 else ".")
