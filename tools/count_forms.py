#!/usr/bin/env python3
"""Counts, in crates/*/src, the places that a pass over the forms of the code looks at.

    python3 tools/count_forms.py [POINT]

With a point's number it lists the places too. Each point is a text search: what it lists is read by hand.
"""
import collections
import pathlib
import re
import sys

ROOT = pathlib.Path(__file__).resolve().parent.parent
FILES = sorted(ROOT.glob("crates/*/src/**/*.rt"))


def lines():
    for path in FILES:
        for number, line in enumerate(path.read_text().split("\n"), 1):
            if not line.strip().startswith("//"):
                yield f"{path.relative_to(ROOT)}:{number}", line


def search(pattern):
    found = re.compile(pattern)
    return [f"{at}: {line.strip()}" for at, line in lines() if found.search(line)]


def functions():
    """Each function: where, name, what stands between its name and its body, and its body."""
    head = re.compile(r"\bfn (\w+)")
    for path in FILES:
        text = re.sub(r"//[^\n]*", "", path.read_text())
        for found in head.finditer(text):
            # Contracts hold braces on their own lines; the body's brace ends or makes a line.
            body = re.compile(r"(?:^\s*|\)\s|-> [^\n{;]*? )\{\s*$", re.M).search(text, found.end())
            stop = text.find(";\n", found.end())
            if body is None or (0 <= stop < body.start() and "{" not in text[found.end():stop]):
                continue
            depth, at = 1, body.end()
            while depth and at < len(text):
                depth += {"{": 1, "}": -1}.get(text[at], 0)
                at += 1
            where = f"{path.relative_to(ROOT)}:{text.count(chr(10), 0, found.start()) + 1}"
            yield where, found.group(1), text[found.end():body.start()], text[body.end():at - 1]


def shape(body):
    """A body with its names and numbers left out."""
    return re.sub(r"\s+", "", re.sub(r"\b\w+\b", "x", body))


def twins():
    """Functions whose bodies are the same but for names and numbers."""
    groups = collections.defaultdict(list)
    for where, name, _, body in functions():
        if len(shape(body)) > 24:
            groups[shape(body)].append(f"{where}: {name}")
    return ["  |  ".join(group) for group in groups.values() if len(group) > 1]


def shared_facts():
    """Facts that are asked by three functions or more."""
    facts = collections.defaultdict(set)
    for where, name, head, _ in functions():
        for fact in re.findall(r"requires (?:\w+ )?\{(.*?)\}\n", head):
            facts[fact.strip()].add(f"{where} {name}")
    return [f"{fact}: {len(users)}" for fact, users in facts.items() if len(users) >= 3]


def travelling():
    """Pairs of parameters, by name and type, that three functions or more take."""
    pairs = collections.defaultdict(set)
    for where, name, head, _ in functions():
        parameters = re.findall(r"(?<=[(,\s])(\w+): (&?(?:mut )?[\w\[\]; <>'_]+?)(?=,\s|\)|,\n)", head.split("\n    ensures")[0])
        names = [f"{p}: {t}" for p, t in parameters]
        for i, first in enumerate(names):
            for second in names[i + 1:]:
                pairs[(first, second)].add(f"{where} {name}")
    return [f"{a}, {b}: {len(users)}" for (a, b), users in pairs.items() if len(users) >= 3]


POINTS = {
    "1": ("numbers for kinds and refusals", lambda: search(r"kind: u\d|const (KEY|RELEASE): |NUMBER =>|\b(hash|code|which): u8|fn (numbered|number|numbers)\b|mut \w+ = None")),
    "2": ("functions of one shape", twins),
    "3": ("loops that count an index, and while", lambda: search(r"\bfor \w+ in [^{]*\.\.|\bwhile\b")),
    "4": ("comparing, converting and printing by hand", lambda: search(r"fn (same|is|number|numbered|state_bytes|write_hex|digit|byte_at|verdict)\b|\.number\(\)|let number =|fn \w*numbers?\(")),
    "5a": ("facts asked by three functions or more", shared_facts),
    "5b": ("pairs of parameters of three functions or more", travelling),
    "6": ("rows of strings in a byte buffer, read or written by index", lambda: search(r"\b(string_at|put_string|put)\(|\[u8; (144|512|4096)\]")),
    "7": ("choices by a number or by a chain of tests", lambda: search(r"match (hash|code|which|byte_at\(\w+, \d\)|kind)\b|else if")),
}

for point, (what, places) in POINTS.items():
    found = places()
    if len(sys.argv) == 1 or sys.argv[1] == point:
        print(f"{point}. {what}: {len(found)}")
        if len(sys.argv) > 1:
            print("\n".join("   " + place for place in found))
