#!/usr/bin/env python3
"""Spells the keeper's own definitions and lemmas as Rattle does: words in snake case, a dash only between two names.

usage: python3 tools/respell.py [FOLDER]

To be run once, at the top of a checkout (or on FOLDER), right after the toolchain's port.py. tools/respelled.tsv has the names, old and new; no
two old ones become one. In specs/, proofs/, clauses and must-fail edits each name is turned where it stands as a whole word; in documents a name
with a dash only between backquotes, since there it may be plain English.
"""

import os
import re
import sys

HERE = os.path.dirname(os.path.abspath(__file__))
WORD = re.compile(r"(?<![\w'₀-₉·◌-])[A-Za-z_⊎][\w'₀-₉]*(?:-[\w'₀-₉*+/<>=≤≡⊎◌]+)*")
QUOTED = re.compile(r"`[^`\n]*`")
# text and bytes of the code, and its comments
OUTSIDE = re.compile(r'"(?:[^"\\\n]|\\.)*"|//[^\n]*')


def table():
    with open(os.path.join(HERE, "respelled.tsv"), encoding="utf-8") as f:
        pairs = [line.rstrip("\n").split("\t") for line in f]
    new = [n for _, n in pairs]
    assert len(set(new)) == len(new), "two names fall together"
    return dict(pairs)


def words(text, names, dashes=True):
    def turn(m):
        w = m.group(0)
        return names.get(w, w) if dashes or "-" not in w else w

    return WORD.sub(turn, text)


def prose(text, names):
    """A name with a dash between backquotes only."""
    text = QUOTED.sub(lambda m: words(m.group(0), names), text)
    return words(text, names, dashes=False)


def proof_text(text, names):
    out = []
    for line in text.split("\n"):
        m = re.search(r"(^|\s)--(\s|$)", line)
        code, rest = (line[: m.start()], line[m.start() :]) if m else (line, "")
        out.append(words(code, names) + prose(rest, names))
    return "\n".join(out)


def code_text(text, names):
    out, at = [], 0
    for m in OUTSIDE.finditer(text):
        out.append(words(text[at : m.start()], names))
        out.append(prose(m.group(0), names) if m.group(0).startswith("//") else m.group(0))
        at = m.end()
    out.append(words(text[at:], names))
    return "".join(out)


def edit_text(text, names):
    out, kind = [], code_text
    for line in text.split("\n"):
        if line.startswith("file: "):
            kind = proof_text if line.endswith(".antt") else code_text
            out.append(line)
        else:
            m = re.match(r"(old: |new: )?(.*)", line, re.S)
            out.append((m.group(1) or "") + kind(m.group(2), names))
    return "\n".join(out)


def main(root):
    names = table()
    for folder, dirs, files in os.walk(root):
        dirs[:] = [d for d in dirs if d not in ("out", "target", ".git", "changes")]
        for f in files:
            kind = {".antt": proof_text, ".rt": code_text, ".edit": edit_text, ".md": prose}.get(os.path.splitext(f)[1])
            if kind is None:
                continue
            path = os.path.join(folder, f)
            with open(path, encoding="utf-8") as h:
                old = h.read()
            new = kind(old, names)
            if new != old:
                with open(path, "w", encoding="utf-8") as h:
                    h.write(new)


if __name__ == "__main__":
    main(sys.argv[1] if len(sys.argv) > 1 else ".")
