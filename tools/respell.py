#!/usr/bin/env python3
"""Brings this repository's own names in clauses, definitions and lemmas to snake case.

usage: python3 tools/respell.py        at the top of the repository, once, right after the kit's port script; files are rewritten in place

A part of a name that begins with a small letter and has a capital inside, as in firstOf or atMost-items, goes to snake case.
A field at the top of a record, or a definition of specs/, that is joined by dashes, as key-is, is joined by underscores. Lemmas of proofs/ keep their dashes.
Names that begin with a capital, strings, comments, and the words in LIBRARY stay.
"""

import glob
import re
import sys

# Words of the toolchain's library that are spelled so.
LIBRARY = set("toZ ofZ toZ-ofZ ofZ-toZ proj₁ proj₂".split())
# Lemmas that would get the name of the definition that they speak of.
LEMMAS = {w: w + "_lem" for w in "node_at is_free too_few told_at read_at".split()}
WORD = re.compile(r"[^\s(){}\[\];,.:λ→≡≢≤<∷×⊎◌`\"'«»]+")


def snake(part):
    if re.match(r"[a-z]", part) and re.search(r"[a-z0-9][A-Z]", part):
        return re.sub(r"(?<=[a-z0-9])([A-Z])", lambda m: "_" + m.group(1), part).lower()
    return part


def respelled(word, dashed):
    if word in LIBRARY:
        return word
    if word in LEMMAS:
        return LEMMAS[word]
    if word in dashed:
        word = word.replace("-", "_")
    return "-".join(snake(p) for p in word.split("-"))


def dashed_names():
    """Fields, constructors and definitions of specs/ whose names have dashes."""
    found = set()
    for f in glob.glob("crates/*/specs/**/*.antt", recursive=True):
        for line in open(f, encoding="utf-8"):
            m = re.match(r"(?:  (?:pub )?|(?:abbrev |unfoldable )(?:pub )?|(?:pub )?(?:record |data ))([a-z][^\s(){}:]*-[^\s(){}:]*) (?:.* )?: ", line)
            if m and not line.lstrip().startswith(("let", "--", "use")):
                found.add(m.group(1))
    return found


def code_parts(text):
    """Splits code of a .rt file into (text, is to be respelled): comments and strings stay."""
    at = 0
    for m in re.finditer(r"//[^\n]*|b?\"(?:\\.|[^\"\\])*\"|b?'(?:\\.|[^'\\])'", text):
        yield text[at : m.start()], True
        yield m.group(0), False
        at = m.end()
    yield text[at:], True


def antt_parts(text):
    for line in text.splitlines(keepends=True):
        at = line.find("--") if re.match(r"\s*-- ", line) else -1
        if at >= 0:
            # a comment is prose, and stays
            yield line, False
        else:
            yield line, True


def main():
    dashed = dashed_names()
    changed, names = 0, {}
    files = sorted(glob.glob("crates/*/specs/**/*.antt", recursive=True) + glob.glob("crates/*/proofs/**/*.antt", recursive=True) + glob.glob("crates/*/src/**/*.rt", recursive=True))

    def turn(m):
        w = m.group(0)
        r = respelled(w, dashed)
        if r != w:
            names[w] = r
        return r

    for f in files:
        with open(f, encoding="utf-8") as h:
            old = h.read()
        parts = antt_parts(old) if f.endswith(".antt") else code_parts(old)
        new = "".join(WORD.sub(turn, t) if go else t for t, go in parts)
        if new != old:
            changed += 1
            with open(f, "w", encoding="utf-8") as h:
                h.write(new)
    turned = {}
    for w, r in sorted(names.items()):
        print(f"{w} -> {r}")
        turned.setdefault(r, []).append(w)
    for r, ws in sorted(turned.items()):
        if len(ws) > 1:
            print(f"look: {', '.join(ws)} fall together as {r}")
    print(f"{changed} files, {len(names)} names")


if __name__ == "__main__":
    sys.exit(main())
