#!/usr/bin/env python3
"""Spells the repository's own names in .antt files and ghost clauses in snake case, after port.py has run.

usage: snake_names.py [--list]        at the top of the repository

A name with a dash, or with a capital after its first small letters, becomes words joined by underscores. What stays:
the goals and steps that Rattle makes (behind `goal.`, `c.`, `l.`, `w.`, and what is imported from a Goals module),
the names of std and of the kit (imported from Rattle.std, or written there), and comments.
With --list it prints what it would rename, and the names that would fall together.
"""
import glob
import os
import re
import sys

KIT = "/opt/rattle/rattle"
NAME = re.compile(r"[^\s(){}\[\];,.@\"«»λ]+")
DECLARED = re.compile(r"(?m)^ *(?:(?:pub|abbrev|unfoldable|record|data|ruleset) )*([^\s(){}.;,@\"«»:]+)((?: [({][^(){}]*[)}])*) :(?!:)")
BOUND = re.compile(r"[({] *((?:[^\s(){}.;,:]+ +)+):(?= )")
LET = re.compile(r"\blet ([^\s(){}.;,:]+) (?::|=)")
LAMBDA = re.compile(r"λ ((?:[^\s(){}.;,:λ]+ ?)+)\.")
# names that are bound in patterns and parameters
LOCALS = {"S-word", "T-word", "encoded-stripe", "is-n", "is-p", "is-q", "no-fit", "same-p", "same-q", "to-p", "to-q", "yes-fits"}
USE = re.compile(r"\buse ([^\s;{]+)\.\{([^}]*)\}")


def files():
    for p in sorted(glob.glob("crates/*/**/*", recursive=True)):
        if "/out/" not in p and p.endswith((".antt", ".rt")):
            yield p


def code(text):
    """The text with comments blanked out, character by character."""
    out = []
    for line in text.split("\n"):
        m = re.search(r"(?:^|(?<=\s))--(?=\s|$)", line)
        out.append(line if not m else line[: m.start()] + " " * (len(line) - m.start()))
    return "\n".join(out)


def snake(name):
    core = re.sub(r"(?<=[a-z0-9])[A-Z](?=[a-z]|$)", lambda m: "_" + m[0].lower(), name)
    return core.replace("-", "_")


def is_plain(name):
    return len(name) > 2 and re.fullmatch(r"[\w'→≢≡Δ-]+", name) and name[0].islower() and ("-" in name or re.search(r"[a-z][A-Z]", name))


def main():
    texts = {p: open(p, encoding="utf-8").read() for p in files()}
    own, std, made = set(), set(), set()
    for p, text in texts.items():
        if not p.endswith(".antt"):
            continue
        t = code(text)
        made |= {m for m in re.findall(r"\b(?:goal)\.([^\s(){};,.]+)", t)}
        if is_walk(p):
            made |= {m for m in re.findall(r"(?<![\w'-])(?:c|l|w)\.([^\s(){};,.]+)", t)}
        for m in USE.finditer(t):
            names = {n.split(" as ")[0].strip() for n in m[2].split(",")}
            if m[1].startswith(("Rattle.std", "Rattle.core", "native", "mathlib", "borrow", "lib", "Prim", "denote")):
                std |= names
            elif m[1].endswith((".Goals", ".Given")):
                made |= names
        for m in DECLARED.finditer(t):
            own.add(m[1])
        for m in BOUND.finditer(t):
            own |= set(m[1].split())
        for m in LAMBDA.finditer(t):
            own |= set(m[1].split())
        own |= set(LET.findall(t))
    both = {n for n in own & made if is_plain(n)}
    # a declared name that is also one of a made step is renamed but behind the step's head
    answers = set()
    for p, text in texts.items():
        if p.endswith(("/Answers.antt", "/Invariants.antt")) or "/proofs/" in p:
            for m in re.finditer(r"(?m)^(?:abbrev |pub )*([^\s(){}.;,:]+) : goal\.", code(text)):
                answers.add(m[1])
    names = {n for n in own - std - answers if is_plain(n)} | LOCALS
    everything = own | std | made
    for text in texts.values():
        everything |= set(NAME.findall(text))
    table = {n: snake(n) for n in names}
    met = {n: s for n, s in table.items() if s in everything}
    if "--list" in sys.argv:
        for n in sorted(table):
            print(n, table[n], "MADE TOO" if n in made else "", "MEETS" if n in met else "")
        return
    one = re.compile(r"(?<![^\s(){}\[\];,.@\"«»λ←])(" + "|".join(sorted(map(re.escape, table), key=len, reverse=True)) + r")(?![^\s(){}\[\];,.@\"«»:])")
    for p, text in texts.items():
        lines, marks = text.split("\n"), code(text).split("\n")
        out = []
        for line, mark in zip(lines, marks):
            done = len(mark.rstrip())

            def turn(m):
                if m.start() >= done and mark[m.start() : m.end()].strip() == "":
                    return m[0]
                if is_walk(p) and re.search(r"(?<![\w'-])(?:goal|c|l|w)\.$", line[: m.start()]):
                    return m[0]
                return table[m[1]]

            if p.endswith(".rt"):
                at = line.find("//")
                front, back = (line, "") if at < 0 else (line[:at], line[at:])
                front = front.replace("powerOf", "power_of").replace("parityOf", "parity_of")
                out.append(one.sub(turn, front) + back)
            else:
                out.append(one.sub(turn, line))
        new = "\n".join(out)
        if new != text:
            with open(p, "w", encoding="utf-8") as f:
                f.write(new)


def is_walk(path):
    """Whether the file is a part of one function's proof, where `c` is what Rattle made."""
    return path.endswith(("/Answers.antt", "/Invariants.antt", "/Proof.antt")) or "/proofs/" in path and os.path.basename(os.path.dirname(path)) != "proofs"


main()
