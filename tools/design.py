#!/usr/bin/env python3
"""Counts in crates/*/src the places that docs/DESIGN-PASS.md speaks of: `tools/design.py [COMMIT]`, without a commit those of the working tree.

A row is a point and a kind of place; under `-v` its places follow. What a pattern finds is a place to look at, not yet a fault: the page says what was kept.
"""
import collections
import re
import subprocess
import sys

NUMBERS = re.compile(r"\b(\d[\d_]*|0x[0-9A-Fa-f_]+)\b")
NAMES = re.compile(r"\b[A-Za-z_][A-Za-z_0-9]*\b")
KEPT = set("fn pub mut let if else while for in match return struct enum impl self usize u32 u64 u8 bool true false".split())


def git(*words):
    return subprocess.run(["git", *words], capture_output=True, text=True, check=True).stdout


def sources(commit):
    names = git("ls-tree", "-r", "--name-only", commit, "crates") if commit else git("ls-files", "crates")
    for name in names.split():
        if re.fullmatch(r"crates/\w+/src/\w+\.rt", name):
            yield name, git("show", f"{commit}:{name}") if commit else open(name).read()


def lines(files, pattern):
    for name, text in files:
        for number, line in enumerate(text.split("\n"), 1):
            if re.search(pattern, line):
                yield f"{name}:{number}: {line.strip()[:90]}"


def functions(files):
    """Each function: its file, name, parameters, clauses and body."""
    for name, text in files:
        for m in re.finditer(r"^( *)(?:pub )?(?:extern \"C\" )?fn (\w+)(?:<[^(]*>)?\(([^)]*)\)([^{]*(?:\{[^\n]*\}\s*|requires[^\n]*\n|ensures[^\n]*\n|\s+[(×→λ][^\n]*\n)*)", text, re.M):
            start = text.find("\n" + m.group(1) + "{\n", m.start())
            inline = text.find("{\n", m.start())
            start = inline if start < 0 or (inline >= 0 and inline < start) else start
            end = text.find("\n" + m.group(1) + "}", start)
            yield name, m.group(2), m.group(3), text[m.start():start], text[start:end]


def shape(body):
    """The body with names and numbers taken out, so that twins have one shape."""
    body = re.sub(r"//.*", "", body)
    body = NUMBERS.sub("0", body)
    return re.sub(r"\s+", " ", NAMES.sub(lambda m: m.group(0) if m.group(0) in KEPT else "x", body)).strip()


def twins(files):
    groups = collections.defaultdict(list)
    for name, f, parameters, _, body in functions(files):
        groups[(parameters.count(":"), shape(body))].append(f"{name}: {f}")
    for (_, text), found in groups.items():
        if len(found) > 1 and len(text) > 12:
            yield from found


def together(files, names):
    for name, f, parameters, _, _ in functions(files):
        have = {p.split(":")[0].replace("mut ", "").strip() for p in parameters.split(",")}
        if set(names) <= have:
            yield f"{name}: {f}"


def facts(files):
    found = collections.defaultdict(list)
    for name, text in files:
        for number, line in enumerate(text.split("\n"), 1):
            m = re.match(r" +requires (?:\w+ )?\{ (.*?) \}?$", line)
            if m:
                found[(name.split("/")[1], m.group(1))].append(f"{name}:{number}: {m.group(1)[:80]}")
    for places in found.values():
        if len(places) >= 3:
            yield from places


def counts(files):
    limits = r"(BLOCKS|VARIABLES|DESTS|OWN_PARAMS|CALLS|VERSION|KINDS|SORTS|ABOVE|MOST|BLOCK_COUNT|VALUE_COUNT|CALL_VALUES|ROOM|OUTPUT|NO_TEXT|TOO_LONG|MADE: u32 = 4096)\b"
    yield 1, "enums of the shape of Option or Result", lines(files, r"^(pub )?enum (OptionValue|OptionBlock|Found|Check)\b")
    yield 1, "a code beside a value", lines(files, r"^    (pub )?(code|fault|trouble|shown): u32,$")
    yield 1, "a flag in a struct", lines(files, r"^    (pub )?\w+: bool,$")
    yield 1, "a number for a kind, a refusal, a text", lines(files, rf"^(pub )?const (?!{limits})\w+: (u32|usize) = \d+;")
    yield 1, "a refusal or fault handed on by hand", lines(files, r"return (reply::refuse|stop|spoilt)\(")
    yield 2, "functions whose bodies differ in names and numbers alone", twins(files)
    yield 3, "a loop that counts by hand", lines(files, r"^ +(while|loop)\b(?!.*(b != from|b\.0 != from\.0|d\.calls))")
    yield 4, "kinds of number compared or converted by hand", lines(files, r"\w\.0 (==|!=) \w+\.0|(Block|Branch)\((p|block|branch)\.0\)")
    for names in [("graph", "form", "work", "c"), ("rt", "out"), ("rt", "who", "name"), ("kinds", "xs", "ys", "zs"), ("codes", "numbers"), ("out", "at")]:
        yield 5, "parameters together: " + ", ".join(names), together(files, names)
    yield 5, "a fact that three or more functions of a crate require", facts(files)
    yield 6, "a buffer with its length or filled part beside it", lines(files, r"out: &mut \[u8\], (n|at): usize|list: &mut \[u32\]\) -> u32|^    count: usize,")
    yield 7, "a switch on a number that says which", lines(files, r"^ +match (kind|b|sort|code|which) |which: usize|which == ")


def main():
    words = [w for w in sys.argv[1:] if w != "-v"]
    files = list(sources(words[0] if words else None))
    for point, kind, places in counts(files):
        places = list(places)
        print(f"{point}  {len(places):3}  {kind}")
        if "-v" in sys.argv:
            print("".join(f"        {p}\n" for p in places), end="")


main()
