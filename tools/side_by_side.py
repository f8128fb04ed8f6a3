#!/usr/bin/env python3
"""Prints the functions whose signature or contract changed since a commit, old and new side by side, crate by crate.
usage: tools/side_by_side.py COMMIT. It reads sources as the toolchain's /opt/rattle/port/contracts.py does; a line that both
have is left out, and constants are written by today's names on both sides."""
import collections
import os
import re
import subprocess
import sys
import tempfile

sys.path.insert(0, "/opt/rattle/port")
import contracts  # noqa: E402

TODAY = [
    (r"\bC\.Code\.count\b", "C.Code.COUNT"),
    (r"\bC\.Code\.top\b", "C.Code.TOP"),
    (r"\bC\.Code\.levels\b", "C.Code.LEVELS"),
    (r"\bC\.Code\.number\b", "C.Code.NUMBER"),
    (r"\bH\.ChainHash\.numbered\b", "H.ChainHash.NUMBER"),
]


# A crate's name today.
MOVED = {"key_life": "lifecycle"}


def read(root):
    out = collections.defaultdict(list)
    for (crate, path, place, name), found in contracts.read(root)[1].items():
        crate = MOVED.get(crate, crate)
        for f in found:
            if not f["test"] and not f["in tests"]:
                out[crate, name].append((place, path, f))
    return out


def today(text):
    for a, b in TODAY:
        text = re.sub(a, b, text)
    return text


def lines(place, name, f):
    head = (place + "::" if place and " for " not in place else "") + name + f["sign"]
    if " for " in place:
        head = f"{place}: {head}"
    rows = [head]
    for word in ("requires", "ensures"):
        for c in f[word]:
            rows.append("    " + word + (" " + c[1] if c[1] else "") + " { " + c[2] + " }")
    return [today(r) for r in rows]


def kind(place):
    return re.sub(r"<[^>]*>", "", place).replace("crate::", "")


def pairs(old, new):
    """Each old function beside the new one of its name: in a type of its name first, else in order."""
    left, out = list(new), []
    for a in old:
        b = next((b for b in left if kind(b[0]) == kind(a[0])), None) or next(iter(left), None)
        if b:
            left.remove(b)
        elif new:
            b = new[-1]
        out.append((a, b))
    return out, left


def main(commit):
    with tempfile.TemporaryDirectory() as old_root:
        tar = subprocess.run(["git", "archive", commit], stdout=subprocess.PIPE, check=True).stdout
        subprocess.run(["tar", "-x", "-C", old_root], input=tar, check=True)
        old = read(old_root)
    new = read(".")
    order = [l.split(":")[0].split()[0] for l in open("crates.txt") if l.strip() and not l.startswith("#")]
    fresh = []
    for crate in order:
        blocks = []
        for (c, name), found in old.items():
            if c != crate:
                continue
            for a, b in pairs(found, new.get((c, name), []))[0]:
                if b is None:
                    continue
                was, now = lines(a[0], name, a[2]), lines(b[0], name, b[2])
                if was == now or not (a[2]["requires"] + a[2]["ensures"] + b[2]["requires"] + b[2]["ensures"]):
                    continue
                minus = [was[0]] + [r for r in was[1:] if r not in now]
                plus = [now[0]] + [r for r in now[1:] if r not in was]
                if was[0] == now[0]:
                    block = ["  " + was[0]] + ["- " + r for r in minus[1:]] + ["+ " + r for r in plus[1:]]
                else:
                    block = ["- " + r for r in minus] + ["+ " + r for r in plus]
                if block not in blocks:
                    blocks.append(block)
        for (c, name), found in new.items():
            if c == crate and (c, name) not in old:
                fresh += [f"{crate}: `{(kind(p) + '::' if p and ' for ' not in p else '') + name}`" for p, _, f in found if f["pub"]]
        if blocks:
            print(f"### {crate}\n\n```text")
            print("\n\n".join("\n".join(b) for b in blocks))
            print("```\n")
    print("Functions with a new name that are public, or public in their crate; those of libraries have contracts of their own: " + "; ".join(sorted(set(fresh))) + ".")


if __name__ == "__main__":
    main(sys.argv[1] if len(sys.argv) > 1 else sys.exit(__doc__))
