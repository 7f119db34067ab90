#!/usr/bin/env python3
"""Spells the repository's own definitions and lemmas as today's Rattle does: snake case for all but types and modules.

usage: python3 tools/spell.py        at the top of the repository, once, after the kit's port.py

tools/spelling.tsv has a row for each name: old, a tab, new. Whole names turn, in .antt and .rt files, in the texts of
must-fail edits, and in code spans of the documents. In comments a name with a hyphen turns only within back quotes.
Functions of src/ have no such names, so that none of them turns. Labels that Rattle makes are left alone.
"""
import os
import re

NAME = re.compile(r"[^\s(){}.;,@\"«»\[\]`:=<>&|]+")
COMMENT = {".antt": "--", ".rt": "//"}
LABELS = ("Need-", "After-", "At-", "In-", "Then", "Else")


def rows():
    here = os.path.dirname(os.path.realpath(__file__))
    with open(os.path.join(here, "spelling.tsv"), encoding="utf-8") as f:
        return dict(line.rstrip("\n").split("\t") for line in f)


def turned(text, table, prose=False):
    """The text with its names turned; of prose only names that no sentence has."""
    def one(m):
        word = m[0]
        if word.startswith(LABELS) or prose and "-" in word:
            return word
        return table.get(word, word)
    return NAME.sub(one, text)


def line_turned(line, mark, table):
    code, found, comment = line.partition(mark) if mark else (line, "", "")
    spans = re.split(r"(`[^`]*`)", comment)
    spans = [turned(s, table, prose=not s.startswith("`")) for s in spans]
    return turned(code, table) + found + "".join(spans)


def edit_turned(line, table):
    return turned(line, table) if line.startswith(("old:", "new:")) else turned(line, table, prose=True)


def page_turned(text, table):
    parts = re.split(r"(`[^`\n]*`)", text)
    return "".join(turned(p, table) if p.startswith("`") else p for p in parts)


def main():
    table = rows()
    for folder, dirs, files in os.walk("."):
        dirs[:] = [d for d in dirs if d not in ("out", ".git", "target", "tools")]
        for name in files:
            path, kind = os.path.join(folder, name), os.path.splitext(name)[1]
            if kind not in (".antt", ".rt", ".edit", ".md") or name == "PORT.md":
                continue
            with open(path, encoding="utf-8") as f:
                text = f.read()
            if kind == ".md":
                new = page_turned(text, table)
            elif kind == ".edit":
                new = "".join(edit_turned(l, table) for l in text.splitlines(keepends=True))
            else:
                new = "".join(line_turned(l, COMMENT[kind], table) for l in text.splitlines(keepends=True))
            if new != text:
                with open(path, "w", encoding="utf-8") as f:
                    f.write(new)


if __name__ == "__main__":
    main()
