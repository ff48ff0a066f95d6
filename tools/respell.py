#!/usr/bin/env python3
"""Respells the repository's own definitions and lemmas from kebab case to snake case, in place.

usage: python3 tools/respell.py     at the top of the repository

It takes every name with a hyphen that a file of specs/ or proofs/ defines, and respells it in the .antt files and in the clauses
of the .rt files. Names that Rattle makes for goals and steps keep their hyphens, as do strings and comments of the .rt files.
"""

import os
import re

WORD = r"[^\W\d][\w']*(?:-[\w']+)+"
DEFINED = re.compile(r"\s*(?:(?:unfoldable|abbrev|pub|record|data)\s+)*(" + WORD + r")\s*(?:\{[^}]*\}|\([^)]*\)|\s)*:(?!:)")
LOCAL = re.compile(r"\b(?:let|where)\s+(" + WORD + r")\b")
BOUND = {"in-xs", "new-xs", "new-ys", "head-of", "trees-is", "self-is", "next-is", "octets-of", "around-is"}
GOAL = re.compile(r"(?:returns|loop|invariant|decreases|overflow|then|else|in|if)-|.*-requires$")
TOKEN = re.compile(r"(?<![\w'.-])" + WORD + r"(?![\w'-])|(?<=\.)" + WORD + r"(?![\w'-])")


def files(endings):
    for folder, folders, names in os.walk("crates"):
        folders[:] = sorted(f for f in folders if f != "out")
        for name in sorted(names):
            if name.endswith(endings):
                yield os.path.join(folder, name)


def read(path):
    with open(path, encoding="utf-8") as f:
        return f.read()


def own_names():
    names = set(BOUND)
    for path in files((".antt",)):
        for line in read(path).splitlines():
            line = line.split("--")[0]
            found = DEFINED.match(line)
            if found:
                names.add(found.group(1))
            names.update(LOCAL.findall(line))
    return {n for n in names if n in BOUND or not GOAL.match(n)}


def respelled(text, names):
    return TOKEN.sub(lambda m: m.group(0).replace("-", "_") if m.group(0) in names else m.group(0), text)


def main():
    names = own_names()
    turned = {n: n.replace("-", "_") for n in names}
    assert len(set(turned.values())) == len(turned), "two names fall together"
    for path in files((".antt", ".rt")):
        text = read(path)
        if path.endswith(".antt"):
            parts = re.split(r'("(?:[^"\\]|\\.)*")', text)
        else:
            parts = re.split(r'("(?:[^"\\]|\\.)*"|//[^\n]*)', text)
        new = "".join(p if i % 2 else respelled(p, names) for i, p in enumerate(parts))
        if new != text:
            with open(path, "w", encoding="utf-8") as f:
                f.write(new)
    print(f"{len(names)} names")


if __name__ == "__main__":
    main()
