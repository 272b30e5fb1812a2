#!/usr/bin/env python3
"""Spells the repository's own definitions and lemmas in snake case, by the table respelled.tsv beside this script.

usage: tools/respell.py [FOLDER]      (the top of the repository, if none is given)

It turns whole words of the .antt files and of the .rt files' clauses and ghost items, the names in their comments and in the code spans of the .md files.
Texts in quotes, the functions and types of src/, inputs and outputs keep their spelling. It is run once, after the toolchain's own porting script.
"""

import os
import re
import sys

HERE = os.path.dirname(os.path.realpath(__file__))
WORD = re.compile(r"[^\s(){}.;,@\"«»]+")
QUIET = {
    ".antt": re.compile(r'"(?:[^"\\\n]|\\.)*"|(?<![^\s(){}.;,@"«»])--[^\n]*'),
    ".rt": re.compile(r'b?"(?:[^"\\\n]|\\.)*"|//[^\n]*'),
}
SPAN = re.compile(r"`[^`\n]+`")


def table():
    with open(os.path.join(HERE, "respelled.tsv"), encoding="utf-8") as f:
        return dict(line.rstrip("\n").split("\t") for line in f)


def turned(text, names):
    return WORD.sub(lambda m: names.get(m[0], m[0]), text)


def of_code(text, kind, names):
    """Code turns by all names; a comment only by those that no English text has, with capitals inside."""
    plain = {old: new for old, new in names.items() if re.search(r"[A-Z]", old)}
    parts, at = [], 0
    for m in QUIET[kind].finditer(text):
        parts.append(turned(text[at : m.start()], names))
        parts.append(turned(m[0], plain) if m[0][:2] in ("--", "//") else m[0])
        at = m.end()
    return "".join(parts) + turned(text[at:], names)


def main(top):
    names = table()
    for folder, dirs, files in os.walk(top):
        dirs[:] = sorted(d for d in dirs if d not in ("out", "target", ".git"))
        for name in sorted(files):
            path, kind = os.path.join(folder, name), os.path.splitext(name)[1]
            if kind not in (".antt", ".rt", ".md"):
                continue
            with open(path, encoding="utf-8") as f:
                old = f.read()
            if kind == ".md":
                new = SPAN.sub(lambda m: turned(m[0].replace("`", " ` "), names).replace(" ` ", "`"), old)
            else:
                new = of_code(old, kind, names)
            if new != old:
                with open(path, "w", encoding="utf-8") as f:
                    f.write(new)


main(sys.argv[1] if len(sys.argv) > 1 else os.path.dirname(HERE))
