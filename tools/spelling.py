#!/usr/bin/env python3
"""Brings the repository's own words to today's spelling: words in snake case, types in camel case.

usage: python3 tools/spelling.py        at the top, once, after the kit's port.py

A word is the project's own if a file of specs/ or a lemma file of proofs/ declares it. Each of its uses in .antt files and in the clauses of .rt files is turned.
Comments are left but for words in backticks; so are strings, the code of .rt files, and names that Rattle makes in the proofs of functions.
It stops, with nothing written, where two words would fall together.
"""

import os
import re
import sys

WORD = r"[A-Za-z][\w'₀-₉?]*(?:-[\w'₀-₉?]+)+"
TOKEN = re.compile(r"(?<![\w'₀-₉?-])" + WORD)
HEAD = re.compile(r"^(\s*)((?:abbrev |unfoldable |pub )*)(record |data )?([^\s:(){}]+(?: [^\s:(){}]+)*?)(?= :| [({:])")
# Names that stand only where they are bound: parameters, lets and what an import is called.
LIBRARY = {"drop-cons", "length-append", "get_or-take"}  # the kit's, though a line of a proof begins with them
LOCAL = "pair-at is-named idle-b Targets-of y-is Shown-graph var-is if-param to-r to-q new-first alias-of own-sources supposed-but".split()


def files():
    for folder, dirs, names in os.walk("crates"):
        dirs[:] = sorted(d for d in dirs if d not in ("out", "must-fail"))
        for name in sorted(names):
            if name.endswith((".antt", ".rt")):
                yield os.path.join(folder, name)


def read(path):
    with open(path, encoding="utf-8") as f:
        return f.read()


def is_walk(path):
    return path.endswith("Proof.antt")


def declared():
    """The words that specs/ and the lemma files declare, and those of them that are fields or constructors."""
    words, fields = set(LOCAL), set()
    for path in files():
        if not path.endswith(".antt") or is_walk(path):
            continue
        inside = None
        for line in read(path).split("\n"):
            if line.strip().startswith("--") or not line.strip():
                continue
            m = HEAD.match(line)
            depth = len(line) - len(line.lstrip())
            if inside is not None and depth <= inside:
                inside = None
            if not m:
                continue
            names = m.group(4).split()
            if m.group(3):
                words.add(names[0])
                inside = depth
            elif inside is not None:
                words.update(names)
                fields.update(names)
            elif len(names) == 1:
                words.add(names[0])
    return {w for w in words if "-" in w} - LIBRARY, fields


def turned(word):
    parts = word.split("-")
    if word[0].isupper():
        return "".join(p[:1].upper() + p[1:] for p in parts)
    return "_".join(parts)


def turn(text, words, fields, walk):
    def one(m):
        w = m.group(0)
        if w not in words:
            return w
        if walk and m.start() and text[m.start() - 1] == "." and w not in fields:
            return w
        return turned(w)

    return TOKEN.sub(one, text)


def in_backticks(text, words, fields):
    return re.sub(r"`[^`]*`", lambda m: turn(m.group(0), words, fields, False), text)


def antt(text, words, fields, walk):
    out = []
    for line in text.split("\n"):
        code, mark, comment = line.partition("--") if not re.search(r"\w--|--\w", line) else (line, "", "")
        out.append(turn(code, words, fields, walk) + mark + in_backticks(comment, words, fields))
    return "\n".join(out)


def clause(line, inside):
    return inside or re.match(r"\s*(pub )?ghost\b|\s*(requires|ensures|also_\w+)\b", line)


def rt(text, words, fields):
    out, depth, inside = [], 0, False
    for line in text.split("\n"):
        code, mark, comment = line.partition("//")
        if clause(code, inside):
            depth += code.count("{") - code.count("}")
            inside = depth > 0
            code = turn(code, words, fields, False)
        out.append(code + mark + in_backticks(comment, words, fields))
    return "\n".join(out)


def main():
    words, fields = declared()
    made = {}
    for w in sorted(words):
        if turned(w) in made:
            sys.exit(f"spelling: {w} and {made[turned(w)]} fall together")
        made[turned(w)] = w
    for path in files():
        if not path.endswith(".antt") or is_walk(path):
            continue
        for m in re.finditer(r"(?<![\w'₀-₉?.-])[A-Za-z_][\w'₀-₉?]*(?![\w'₀-₉?-])", re.sub(r"--[^\n]*", "", read(path))):
            if m.group(0) in made:
                sys.exit(f"spelling: {path} has {m.group(0)}, as {made[m.group(0)]} is to be called")
    n = 0
    for path in files():
        text = read(path)
        new = rt(text, words, fields) if path.endswith(".rt") else antt(text, words, fields, is_walk(path))
        if new != text:
            n += 1
            with open(path, "w", encoding="utf-8") as f:
                f.write(new)
    print(f"spelling: {len(words)} words turned, in {n} files")


if __name__ == "__main__":
    main()
