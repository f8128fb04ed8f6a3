#!/usr/bin/env python3
"""Spells the repository's own definitions and lemmas in snake case, as the library's are.

usage: python3 tools/respell.py      at the top of the repository, once, right after port.py

Every name of specs/ and proofs/ that begins with a small letter and has a capital in it is turned: stringAt to string_at,
length-stringAt to length-string_at, powerOfX to power_of_x. `getD` is the library's `get_or`. `roundKey` is `key_of_round`, since
parameters are called round_key. Constructors whose parts were joined by a dash are turned too: node-break to node_break.
Functions of src/ have no such names. Stops, and changes nothing, where two names of one file would fall together.
"""

import os
import re
import sys

NAME = re.compile(r"(?<![A-Za-z0-9_])[a-z][a-z0-9]*[A-Z][A-Za-z0-9]*(?![A-Za-z0-9_])")
WORD = re.compile(r"(?<![A-Za-z0-9_.-])[a-z][A-Za-z0-9_'-]*")
WHOLE = re.compile(r"(?<![A-Za-z0-9_-])[a-z][A-Za-z0-9_'-]*")
CONSTRUCTOR = re.compile(r"(?<![\w'-])(node-break|chain-break|pair-break|step-break|in-service|out-of-service|not-now)(?![\w'-])")
OWN = {"getD": "get_or", "roundKey": "key_of_round"}


def snake(name):
    return OWN.get(name) or re.sub(r"(?<=[a-z0-9])(?=[A-Z])|(?<=[A-Z])(?=[A-Z][a-z])", "_", name).lower()


def texts(root):
    for folder, dirs, files in os.walk(os.path.join(root, "crates")):
        dirs[:] = sorted(d for d in dirs if d != "out")
        for f in sorted(files):
            if f.endswith((".rt", ".antt")):
                yield os.path.join(folder, f)


def main():
    root = os.getcwd()
    found, turned, clash = {}, {}, []
    for p in texts(root):
        with open(p, encoding="utf-8") as f:
            t = f.read()
        found[p] = t
        lines = t.split("\n")
        ghost = [l for l in lines if p.endswith(".antt") or re.match(r"\s*(ghost |ensures|requires)", l)]
        before = {w for l in ghost for w in WORD.findall(l)}
        for n in {m.group() for l in lines for m in NAME.finditer(l)}:
            turned[n] = snake(n)
        for n in {m.group() for l in lines for m in WHOLE.finditer(l)}:
            new = NAME.sub(lambda m: snake(m.group()), n)
            if new != n and new in before:
                clash.append((p, n, new))
    by = {}
    for n, s in turned.items():
        by.setdefault(s, set()).add(n)
    for s, ns in by.items():
        if len(ns) > 1:
            clash.append(("everywhere", sorted(ns), s))
    for c in clash:
        print("fall together:", *c)
    if any(c[0] == "everywhere" for c in clash) or (clash and "--anyway" not in sys.argv):
        raise SystemExit("nothing was changed")
    n = 0
    for p, t in found.items():
        new = NAME.sub(lambda m: snake(m.group()), t)
        if p.endswith(".antt"):
            new = CONSTRUCTOR.sub(lambda m: m.group().replace("-", "_"), new)
        if new != t:
            n += 1
            with open(p, "w", encoding="utf-8") as f:
                f.write(new)
    print(f"{len(turned)} names, {n} files")


main()
