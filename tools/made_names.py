#!/usr/bin/env python3
"""Spells the names that Rattle makes (goals, steps) as today's Rattle makes them, in proofs/F/Answers.antt and Invariants.antt.

usage: made_names.py        at the top of the repository, after snake_names.py

A name of the source keeps its underscores (`is_identity-requires`), and a word of Rattle's has them too (`in_ok-at`, `overflow_add-bits`).
"""
import glob
import os
import re

WORDS = ["in-ok", "in-err", "in-default", "overflow-add", "overflow-sub", "overflow-mul", "overflow-cast", "overflow-shl", "overflow-shr", "overflow-step", "invariant-of", "from-residual", "type-inv", "slice-bounds", "nonzero-div", "nonzero-rem"]
TOKEN = re.compile(r"(?<![^\s(){}\[\];,.@\"«»λ])[A-Za-z][^\s(){}\[\];,.@\"«»]*-[^\s(){}\[\];,.@\"«»]+")
USE = re.compile(r"\buse (Rattle\.(?:std|core)\S*?|native\S*?|borrow\S*?)\.\{([^}]*)\}")


def main():
    source = set()
    for p in glob.glob("crates/*/src/**/*.rt", recursive=True):
        source |= {n for n in re.findall(r"\b[A-Za-z]\w*\b", open(p, encoding="utf-8").read()) if "_" in n.strip("_")}
    turns = [(w, w.replace("-", "_")) for w in WORDS] + [(n.replace("_", "-"), n) for n in sorted(source, key=len, reverse=True) if "-" in n.replace("_", "-")]
    turns = [(re.compile(r"(?<![A-Za-z0-9_])" + re.escape(a) + r"(?![A-Za-z0-9_])"), b) for a, b in turns]
    for p in sorted(glob.glob("crates/*/proofs/**/*.antt", recursive=True)):
        if os.path.basename(os.path.dirname(p)) == "proofs":
            continue
        text = open(p, encoding="utf-8").read()
        std = {n.split(" as ")[0].strip() for m in USE.finditer(text) for n in m[2].split(",")}

        def turn(m):
            name = m[0]
            if name in std:
                return name
            for pattern, new in turns:
                name = pattern.sub(new, name)
            return name

        new = "\n".join(line if line.startswith(("use Rattle.std", "use Rattle.core", "--")) else TOKEN.sub(turn, line) for line in text.split("\n"))
        if new != text:
            open(p, "w", encoding="utf-8").write(new)


main()
