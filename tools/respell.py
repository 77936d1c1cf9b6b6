#!/usr/bin/env python3
"""Brings the names of this repository's own definitions and lemmas to snake case, by the rows of respell.tsv (old name, tab, new name).

usage: tools/respell.py    at the top of the repository, once, after the kit's own script has turned the spelling of the library's names

Whole words turn, in .antt files and in .rt files and planted bugs. Comments and texts in quotes stay.
"""

import os
import re
import sys

HERE = os.path.dirname(os.path.realpath(__file__))
WORD = re.compile(r'[^\s(){}.;,@"«»]+')
QUIET = {".antt": re.compile(r'"(?:[^"\\\n]|\\.)*"|(?<![^\s(){}.;,@"«»])--[^\n]*'), ".rt": re.compile(r'"(?:[^"\\\n]|\\.)*"|//[^\n]*'), ".edit": re.compile(r'"(?:[^"\\\n]|\\.)*"')}


def rows():
    with open(os.path.join(HERE, "respell.tsv"), encoding="utf-8") as f:
        return dict(line.rstrip("\n").split("\t") for line in f)


def turned(text, quiet, names):
    parts, at = [], 0
    for it in list(quiet.finditer(text)) + [None]:
        end = it.start() if it else len(text)
        parts.append(WORD.sub(lambda w: names.get(w.group(), w.group()), text[at:end]))
        if it:
            parts.append(it.group())
            at = it.end()
    return "".join(parts)


def main(root):
    names, files = rows(), 0
    for folder, dirs, found in os.walk(os.path.join(root, "crates")):
        dirs[:] = sorted(d for d in dirs if d != "out")
        for name in sorted(found):
            kind = os.path.splitext(name)[1]
            if kind not in QUIET:
                continue
            path = os.path.join(folder, name)
            with open(path, encoding="utf-8") as f:
                old = f.read()
            new = turned(old, QUIET[kind], names)
            if new != old:
                files += 1
                with open(path, "w", encoding="utf-8") as f:
                    f.write(new)
    print(f"respell: {len(names)} names, {files} files changed")


main(sys.argv[1] if len(sys.argv) > 1 else ".")
