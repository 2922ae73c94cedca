#!/usr/bin/env python3
"""Brings the definitions and lemmas to the spelling of today's Rattle: words in snake case, where they were in camel case.

usage: python3 tools/respell.py        at the top of the repository, once, right after the toolchain's port.py

It goes over the sources, definitions, proofs and edits of all crates, and over the names in the pages. Names that would fall together are printed, and nothing is written.
"""

import re
import sys
from pathlib import Path

# A word that begins small and goes on with a capital. Characters as 'N', and the formulas of the requirement, as βC, are no such words; getD is of the library.
WORD = re.compile(r"(?<![\w'\"·.\\])(\.?)([a-z][a-z0-9]*(?:[A-Z][a-z0-9]*)+)(?![\w'])|(?<=\.)([a-z][a-z0-9]*(?:[A-Z][a-z0-9]*)+)(?![\w'])")
SPARED = {"getD", "toB"}

# Lemmas that the old spelling told from their function by a dash, which port.py made one word with `_`: a lemma that would have its function's name gets `_lem`.
LEMMAS = {
    "crates/gemm/proofs/Values.antt": ["by_side"],
    "crates/definitions/proofs/Same.antt": ["same_float", "same_sign"],
    "crates/definitions/proofs/Strips.antt": ["in_place"],
    "crates/lines/proofs/StripLaws.antt": ["in_place"],
    "crates/strips/proofs/Lent.antt": ["in_place"],
    "crates/sheet/proofs/Strips.antt": ["part_length"],
}


def snake(word):
    parts = re.findall(r"[A-Z]+(?![a-z])|[A-Z][a-z0-9]*|[a-z][a-z0-9]*", word)
    return "_".join(p.lower() for p in parts)


def respelled(text, names):
    def new(match):
        word = match.group(2) or match.group(3)
        return (match.group(1) or "") + (snake(word) if word in names else word)
    return WORD.sub(new, text)


def main():
    root = Path(".")
    sources = [p for kind in ("rt", "antt", "edit") for p in sorted(root.glob(f"crates/**/*.{kind}")) if "out" not in p.parts]
    pages = [root / "README.md"] + sorted(root.glob("docs/**/*.md"))
    texts = {p: p.read_text(encoding="utf-8") for p in sources + pages}
    for p, lemmas in LEMMAS.items():
        texts[Path(p)] = re.sub(r"(?<![\w'.-])(" + "|".join(lemmas) + r")(?![\w'-])", r"\1_lem", texts[Path(p)])
    names = {m.group(2) or m.group(3) for p in sources for m in WORD.finditer(texts[p])} - SPARED
    # A definition may have the name of the function of src/ that it stands for, as in the library. port.py turned zeroOf and callOf, but not in edits.
    functions = {f for p in sources if p.suffix == ".rt" for f in re.findall(r"\bfn (\w+)", texts[p])} | {"zero_of"}
    taken = {w for p in sources for w in re.findall(r"[A-Za-z_][\w']*", texts[p])} - functions - {"bad_width", "by_side_lem"}
    together = [n for n in sorted(names) if snake(n) in taken] + [n for n in sorted(names) if [snake(m) for m in names].count(snake(n)) > 1]
    if together:
        sys.exit("these would fall together with names that are there: " + ", ".join(f"{n} ({snake(n)})" for n in together))
    for p, text in texts.items():
        new = respelled(text, names)
        if new != p.read_text(encoding="utf-8"):
            p.write_text(new, encoding="utf-8")
    print(f"{len(names)} names respelled: " + ", ".join(sorted(names)))


if __name__ == "__main__":
    main()
