#!/usr/bin/env python3
"""Turns this repository's own definitions, lemmas and fields to snake case, by the table beside this file.

usage: python3 tools/port_names.py [TOP]

Run once, after port.py. It changes whole names only: in crates' .antt and .rt files outside comments and strings, in comments and pages only
between backticks. A name that a file imports from a library stays in that file. Functions, strings, inputs and outputs keep their names.
"""
import os
import re
import sys

top = os.path.abspath(sys.argv[1] if len(sys.argv) > 1 else os.path.join(os.path.dirname(__file__), ".."))
here = os.path.dirname(os.path.abspath(__file__))
table = dict(l.rstrip("\n").split("\t") for l in open(os.path.join(here, "port-names.tsv"), encoding="utf-8"))
NAME = r"[^\s(){}.;:,@\"«»\[\]\\λ`|]+"
IMPORT = re.compile(r"\buse ([^\s{;]+)\.\{([^}]*)\}")
own = set(os.listdir(os.path.join(top, "crates")))


# A name that an older Rattle made of a function, as a step of a proof.
STEPS = {"record-size", "to-sign", "lost-to"}


def turn(text, keep, rust=False):
    def one(m):
        w = m.group(0)
        below = m.start() and text[m.start() - 1] == "."
        if w not in table or w in keep or below and w in STEPS:
            return w
        # A lemma that was spelled as a function is: the function, and what is below it, keeps that name.
        if re.fullmatch(r"[a-z0-9_]+", w) and (rust or below):
            return w
        return table[w]

    return re.sub(NAME, one, text)


def ticks(text, keep):
    return re.sub(r"`[^`\n]+`", lambda m: turn(m.group(0), keep, rust=True), text)


def library(text):
    keep = set()
    for m in IMPORT.finditer(text):
        parts = m.group(1).split(".")
        if not (parts[0] == "Rattle" and len(parts) > 1 and parts[1] in own):
            keep |= set(re.findall(NAME, m.group(2)))
    return keep


def logic(text):
    keep = library(text)
    out = []
    for part in re.split(r"(--[^\n]*|\"(?:[^\"\\\n]|\\.)*\")", text):
        out.append(ticks(part, keep) if part.startswith("--") else part if part.startswith('"') else turn(part, keep))
    return "".join(out)


def code(text):
    keep = library(text)
    out = []
    for part in re.split(r"(//[^\n]*|b?\"(?:[^\"\\\n]|\\.)*\")", text):
        out.append(ticks(part, keep) if part.startswith("//") else part if part.startswith(('"', 'b"')) else turn(part, keep, rust=True))
    return "".join(out)


def rewrite(path, how):
    with open(path, encoding="utf-8", newline="") as f:
        text = f.read()
    new = how(text)
    if new != text:
        with open(path, "w", encoding="utf-8", newline="") as f:
            f.write(new)


for folder, dirs, files in os.walk(os.path.join(top, "crates")):
    dirs[:] = [d for d in dirs if d not in ("out", "must-fail")]
    for f in files:
        if f.endswith(".antt"):
            rewrite(os.path.join(folder, f), logic)
        elif f.endswith(".rt"):
            rewrite(os.path.join(folder, f), code)
pages = [os.path.join(top, "README.md")]
for folder, _, files in os.walk(os.path.join(top, "docs")):
    pages += [os.path.join(folder, f) for f in files if f.endswith(".md")]
for page in pages:
    rewrite(page, lambda text: ticks(text, set()))
