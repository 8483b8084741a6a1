#!/usr/bin/env python3
"""Brings this repository's own names in specs/ and proofs/ to today's spelling.

usage: python3 tools/respell.py [--list]      at the top of a checkout that port.py has turned; --list changes nothing

A name that is defined in specs/ or proofs/ and has a dash is spelled in snake case, and in upper camel case where it
is a type or a fact. Names that Rattle makes (goals, invariants, modules of src/) are left alone, and so is src/ but for
its clauses and ghost imports. Two names that would fall together are an error.
"""
import os
import re
import sys

TOKEN = r"A-Za-z0-9_'\-≤<*+ℕℤ"
DEFINED = re.compile(r"^\s*(?:abbrev\s+|unfoldable\s+)*(?:pub\s+)?(?:record\s+|data\s+)?([^\s:(){}]+)\s*(?:[({].*[)}])?\s*:\s*(.*)")


# variables and clause labels, which no definition names
BOUND = """of-n of-b of-count of-state of-faces blank-x blank-y long-x long-y small-x small-y true-one law-is plant-is
noise-is c-is one-fault reads-back writes-back""".split()


def files(root, *endings):
    for folder, dirs, names in os.walk(root):
        dirs[:] = sorted(d for d in dirs if d not in ("out", ".git", "target"))
        for name in sorted(names):
            if name.endswith(endings):
                yield os.path.join(folder, name)


def read(path):
    with open(path, encoding="utf-8") as f:
        return f.read()


def own_names(root):
    """The names with a dash that specs/ and proofs/ define, and those without, to see what falls together."""
    dashed, plain = {}, set()
    for path in files(root, ".antt"):
        for line in read(path).split("\n"):
            m = DEFINED.match(line)
            if not m or line.lstrip().startswith("--"):
                continue
            name, kind = m.groups()
            if kind.startswith("goal."):
                continue
            if "-" in name.lstrip("-") and re.match(r"[A-Za-z]", name):
                dashed.setdefault(name, path)
            else:
                plain.add(name)
    return dashed, plain


def spelled(name):
    if name[0].isupper():
        return "".join(w[:1].upper() + w[1:] for w in name.split("-"))
    return name.replace("-", "_")


def turned(text, table):
    pattern = re.compile(f"(?<![{TOKEN}])(" + "|".join(sorted(map(re.escape, table), key=len, reverse=True)) + f")(?![{TOKEN}])")
    return pattern.sub(lambda m: table[m.group(1)], text)


ALIAS = re.compile(r"([A-Za-z0-9_']+) as ([a-z][A-Za-z0-9]*[A-Z][A-Za-z0-9]*)")


def aliases_turned(text):
    """A source file's ghost imports once had no names with an underscore: 'noise_of as noiseOf' is 'noise_of' now."""
    lines = [l for l in text.split("\n") if l.lstrip().startswith("ghost use ")]
    for name, alias in {m.groups() for l in lines for m in ALIAS.finditer(l)}:
        new = re.sub(r"[A-Z]", lambda m: "_" + m.group(0).lower(), alias)
        text = text.replace(f"{name} as {alias}", name if new == name else f"{name} as {new}")
        text = turned(text, {alias: new})
    return re.sub(r"\b(\w+) as \1\b", r"\1", text)


def main():
    root = "crates"
    dashed, plain = own_names(root)
    table = {n: spelled(n) for n in list(dashed) + BOUND}
    seen = {}
    for old, new in sorted(table.items()):
        if new in plain or seen.setdefault(new, old) != old:
            print(f"falls together: {old} and {seen.get(new, new)} as {new}", file=sys.stderr)
            if "--list" not in sys.argv:
                raise SystemExit(1)
    if "--list" in sys.argv:
        for old, new in sorted(table.items()):
            print(old, new)
        return
    pages = [p for p in ("README.md",) if os.path.exists(p)] + list(files("docs", ".md"))
    for path in list(files(root, ".antt", ".rt", ".edit")) + pages:
        text = read(path)
        new = turned(text, table)
        if path.endswith(".rt"):
            new = aliases_turned(new)
        if new != text:
            with open(path, "w", encoding="utf-8") as f:
                f.write(new)


main()
