#!/usr/bin/env python3
"""Respells the repository's definitions and lemmas in snake case, as today's Rattle writes them; run once, after the toolchain's port.py.

usage: python3 tools/port_names.py [ROOT]

tools/port_names.tsv has a row for each name: old, a tab, new. A dash stays where it joins two functions' names, and a lemma that would have its definition's name
ends in _lem. In specs/, in the lemma files of proofs/ and in clauses every whole word turns; in the folder of a function's proof only what the file imports from
another module and the fields of records. Names of functions, strings, inputs and outputs stay. In comments a word in camel case turns, and another in back quotes.
"""

import os
import re
import sys

HERE = os.path.dirname(os.path.realpath(__file__))
WORD = re.compile(r'[^\s(){}.;,@"«»`]+')
STRING = re.compile(r'"(?:[^"\\\n]|\\.)*"')
USE = re.compile(r"^(?:pub )?use (Rattle\.(?!std\b)[^\s{]+)\.\{([^}]*)\}", re.M)
CAMEL = re.compile(r"[a-z0-9][A-Z]")
# a name that stands for something else in one file
ALONE = {("cast_spec/proofs/Classes.antt", "in-range"): "in_range_outcome"}


def table():
    with open(os.path.join(HERE, "port_names.tsv"), encoding="utf-8") as f:
        return dict(line.rstrip("\n").split("\t") for line in f)


def comment(text, names):
    """The text of a comment, with camel words turned, and others where they stand in back quotes."""
    text = re.sub(r"`[^`\n]*`", lambda m: WORD.sub(lambda w: names.get(w[0], w[0]), m[0]), text)
    return WORD.sub(lambda w: names.get(w[0], w[0]) if CAMEL.search(w[0]) else w[0], text)


def code(text, turn):
    """The text of a line without its comment: each word outside strings by turn(word, whether a dot stands before it)."""
    out, at = [], 0
    for s in list(STRING.finditer(text)) + [None]:
        part = text[at : s.start() if s else len(text)]
        out.append(WORD.sub(lambda w: turn(w[0], w.start() > 0 and part[w.start() - 1] == "."), part))
        if s:
            out.append(s[0])
            at = s.end()
    return "".join(out)


def lines(text, mark, names, turn):
    out = []
    for line in text.split("\n"):
        at = re.search(rf'(?<![^\s(){{}}.;,@]){re.escape(mark)}', line)
        cut = at.start() if at else len(line)
        out.append(code(line[:cut], turn) + comment(line[cut:], names))
    return "\n".join(out)


def main(root):
    names = table()
    fields = set()
    files = []
    for folder, dirs, found in os.walk(os.path.join(root, "crates")):
        dirs[:] = sorted(d for d in dirs if d not in ("out", "target"))
        files += [os.path.join(folder, f) for f in sorted(found) if f.endswith((".antt", ".rt"))]
    texts = {}
    for path in files:
        with open(path, encoding="utf-8") as f:
            texts[path] = f.read()
        if path.endswith(".antt"):
            record = False
            for line in texts[path].split("\n"):
                if line[:1].strip():
                    record = bool(re.match(r"(pub )?record ", line))
                elif record:
                    m = re.match(r"\s+pub (\S+) :", line)
                    fields |= {m[1]} if m else set()
    for path, text in texts.items():
        own = dict(names)
        for (end, old), new in ALONE.items():
            if path.endswith(end):
                own[old] = new
        if path.endswith(".rt"):
            out = lines(text, "//", names, lambda w, dot: own.get(w, w) if CAMEL.search(w) or "-" in w else w)
        elif re.search(r"/proofs/[a-z0-9_+]+/", path):
            taken = {n.strip().split(" ")[0] for m in USE.finditer(text) for n in m[2].split(",")}
            out = lines(text, "--", names, lambda w, dot: own[w] if w in own and (w in fields if dot else w in taken) else w)
        else:
            out = lines(text, "--", names, lambda w, dot: own.get(w, w))
        if out != text:
            with open(path, "w", encoding="utf-8") as f:
                f.write(out)


main(sys.argv[1] if len(sys.argv) > 1 else ".")
