#!/usr/bin/env python3
"""Respells the repository's own definitions and lemmas as tools/respelled.tsv says: old name, tab, new name.

usage: python3 tools/respell_names.py [FOLDER]     at the top of the repository, or of the copy FOLDER

Words are joined by _; in a lemma's name a dash joins two names. Code outside clauses, strings and the names of
functions are left alone: none of the old names can stand there.
"""

import os
import re
import sys

HERE = os.path.dirname(os.path.realpath(__file__))
NAME = re.compile(r"[\w'ᴰ]+(?:-[\w'ᴰ]+)+")
STRING = re.compile(r'"(?:[^"\\\n]|\\.)*"')
TICKS = re.compile(r"`[^`\n]*`")


def table():
    with open(os.path.join(HERE, "respelled.tsv"), encoding="utf-8") as f:
        return dict(line.rstrip("\n").split("\t") for line in f if line.strip())


def respelled(text, names):
    return NAME.sub(lambda m: names.get(m.group(0), m.group(0)), text)


def code(text, names):
    """A source file: comments change in backticks alone, and strings never."""
    lines = []
    for line in text.split("\n"):
        if line.lstrip().startswith("//"):
            lines.append(TICKS.sub(lambda m: respelled(m.group(0), names), line))
            continue
        done, at = "", 0
        for s in STRING.finditer(line):
            done += respelled(line[at : s.start()], names) + s.group(0)
            at = s.end()
        lines.append(done + respelled(line[at:], names))
    return "\n".join(lines)


def main(root):
    names = table()
    for folder, dirs, files in os.walk(root):
        dirs[:] = [d for d in dirs if d not in (".git", "out", "target", "tools")]
        for f in files:
            turn = {".antt": respelled, ".rt": code, ".md": None}.get(os.path.splitext(f)[1], False)
            if turn is False:
                continue
            path = os.path.join(folder, f)
            with open(path, encoding="utf-8") as it:
                old = it.read()
            new = TICKS.sub(lambda m: respelled(m.group(0), names), old) if turn is None else turn(old, names)
            if new != old:
                with open(path, "w", encoding="utf-8") as it:
                    it.write(new)


main(sys.argv[1] if len(sys.argv) > 1 else ".")
