#!/usr/bin/env python3
"""Names in the pages: brings words of crates/ to today's spelling, and looks whether what docs/CLAIMS.md names is there.

usage: python3 tools/pages.py          at the top: turns words in backticks, as tools/spelling.py turned them where they are declared
       python3 tools/pages.py check    tells each theorem, definition, file and edit that docs/CLAIMS.md names and that is not there; status 1 if there is one

A word of a page is turned if some .rt or .antt file has it as tools/spelling.py spells it and none has it as the page does.
"""

import os
import re
import subprocess
import sys

sys.path.insert(0, os.path.dirname(os.path.abspath(__file__)))
from spelling import WORD, files, read, turned

NAME = r"[A-Za-z_][\w'₀-₉?]*"
# Parts of the small lists of compare/, and no words of crates/.
LISTS = {"two-uses", "two-definitions"}


def names():
    """The names that the sources, definitions and lemmas have."""
    found = set()
    for path in files():
        found.update(re.findall(NAME, read(path)))
    return found


def pages():
    listed = subprocess.run(["git", "ls-files"], capture_output=True, text=True, check=True).stdout.split("\n")
    ends = (".md", ".rs", ".c", ".h")
    return [it for it in listed if it.endswith(ends) or it.startswith(("examples/", ".ci/")) and not it.endswith(".edit")]


def turn(text, known):
    def one(m):
        word = m.group(0)
        return turned(word) if word not in LISTS and turned(word) in known else word

    # (a word with a dash is no name in Rattle, so none of crates/ has one)
    return re.sub(r"`[^`\n]*`", lambda m: re.sub(r"(?<![\w'₀-₉?./-])" + WORD, one, m.group(0)), text)


def turn_pages():
    known, count = names(), 0
    for path in pages():
        text = read(path)
        new = turn(text, known)
        if new != text:
            count += 1
            with open(path, "w", encoding="utf-8") as f:
                f.write(new)
    print(f"pages: {count} turned")


def lost_claims(claims):
    """Of each claim, an item with '→', the files that are not there, and the words in backticks that none of its files has.
    Files stand behind 'In', as 'definition/Session, Late' or 'reader/src/lib.rt'; Theorems is crates/meaning/proofs/Theorems.antt."""
    lost = set()
    for claim in re.split(r"(?m)^(?:- |#)", claims):
        words, arrow, places = claim.partition("→")
        if not arrow:
            continue
        found = re.search(r"(?s)\b[Ii]n\s+((?:Theorems|docs/|[a-z]+/|[a-z]+, [a-z]+[,:])[^()→]*)\Z", places)
        texts, folders = [], []
        for part in re.split(r"[;,:]\s+", re.sub(r"from `\w+`(?:, `\w+`)* in ", "", found[1].strip()) if found else ""):
            part = "meaning/proofs/Theorems" if part.strip() == "Theorems" else part.strip().removeprefix("crates/")
            top, _, rest = part.partition("/")
            if os.path.isfile(part):
                texts.append(read(part))
                continue
            if not rest and os.path.isdir(f"crates/{top}"):
                folders.append(top)
                continue
            if top == "src" or not rest:
                rest = part
            else:
                folders = [top]
            for folder in folders:
                inside = f"crates/{folder}"
                there = [it for it in (rest, f"{rest}.antt", f"specs/{rest}.antt", f"proofs/{rest}.antt") if os.path.isfile(f"{inside}/{it}")]
                texts += [read(f"{inside}/{it}") for it in there]
                lost.update([] if there else [f"{folder}/{rest}"])
        known = {it for text in texts for it in re.findall(NAME, text)}
        for word in re.findall(r"`([^`\n]+)`", claim):
            if re.fullmatch(NAME + r"(\.\w+)?(::(\w+|\*))?", word):
                where = " ".join(found[1].split()) if found else "a file"
                lost.update(f"{it} in {where}" for it in re.findall(NAME, word) if it not in known | {"requires"})
    return lost


def lost_edits(text):
    """The edits that are named, as 'crate/one, another; crate/third', and that neither the crate nor .ci/slips.d has."""
    lost = set()
    for line in re.split(r"(?m)^- ", text)[1:]:
        named = re.sub(r"\s+", " ", line.partition(": ")[2] if not line.startswith("slips that") else "")
        folder = None
        for part in re.split(r"[;,:] | and ", named):
            found = re.fullmatch(r"(?:(?:.* )?([a-z]+)/)?([a-z_0-9]+)\.?", part.strip())
            if not found:
                continue
            folder = found[1] or folder
            at = [f"crates/{folder}/must-fail", f"crates/{folder}/must-fail-more", ".ci/slips.d"]
            if ("_" in found[2] or found[1]) and not any(os.path.exists(f"{it}/{found[2]}.edit") for it in at):
                lost.add(f"{folder}/{found[2]}.edit")
    return lost


def check():
    claims, _, edits = read("docs/CLAIMS.md").partition("## Wrong answers")
    lost = lost_claims(claims) | lost_edits(edits.partition("By name")[2])
    for it in sorted(lost):
        print(f"docs/CLAIMS.md names {it}, which is not there")
    return 1 if lost else 0


if __name__ == "__main__":
    sys.exit(check() if sys.argv[1:] == ["check"] else turn_pages())
