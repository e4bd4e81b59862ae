#!/usr/bin/env python3
"""Brings the repository's own names to the spelling of today's Rattle: words in snake case, types and modules in camel case.

usage: python3 tools/respell.py        at the top of the repository, once, after port.py

A word of definitions, lemmas, fields, parameters and labels that has a capital inside, as takenOut or same-firstMessage, gets an
underscore there: taken_out, same-first_message. Texts between quotes in Rattle stay, and so do names of types, modules and variants.
The crate that had the name of a library of the kit, bytes, is octets.
"""

import os
import re
import subprocess
import sys

WORD = re.compile(r"[A-Za-z_][\w'₀-₉\-]*")
HUMP = re.compile(r"(?<=[a-z0-9])([A-Z])")
QUOTED = re.compile(r"b?\"(?:\\.|[^\"\\])*\"|b?'(?:\\.|[^'\\])'")


def snake(part):
    return HUMP.sub(lambda m: "_" + m.group(1).lower(), part) if part[:1].islower() else part


def respelled(word):
    return "-".join(snake(p) for p in word.split("-"))


def words(text):
    return WORD.sub(lambda m: respelled(m.group()), text)


def source(text):
    out, at = [], 0
    for m in QUOTED.finditer(text):
        out += [words(text[at : m.start()]), m.group()]
        at = m.end()
    return "".join(out) + words(text[at:])


def octets(text):
    text = re.sub(r"(?<![\w:])bytes::", "octets::", text)
    return re.sub(r"(?<![\w.])Rattle\.bytes\.", "Rattle.octets.", text)


def files():
    for folder, dirs, names in os.walk("crates"):
        dirs[:] = sorted(d for d in dirs if d not in ("out", "data"))
        for f in sorted(names):
            if f.endswith((".rt", ".antt")):
                yield os.path.join(folder, f)


def main():
    if os.path.isdir("crates/bytes"):
        subprocess.run(["git", "mv", "crates/bytes", "crates/octets"], check=True)
        with open("crates.txt", encoding="utf-8") as f:
            lines = f.read()
        with open("crates.txt", "w", encoding="utf-8") as f:
            f.write(re.sub(r"(?m)(?<=[ \n])bytes(?=[ :\n])", "octets", lines))
    was = {}
    for p in files():
        with open(p, encoding="utf-8") as f:
            old = f.read()
        for m in WORD.finditer(old):
            was[m.group()] = respelled(m.group())
        new = octets(source(old) if p.endswith(".rt") else words(old))
        if new != old:
            with open(p, "w", encoding="utf-8") as f:
                f.write(new)
    turned = sorted((a, b) for a, b in was.items() if a != b)
    # names that fall together: a word that was there already
    for a, b in turned:
        if b in was:
            print(f"look: {a} is {b}, and so was another word")
    print(f"{len(turned)} words respelled")
    return 0


if __name__ == "__main__":
    sys.exit(main())
