#!/usr/bin/env python3
"""Lists the places in crates/*/src where a newer form of the language might be plainer, point by point.

    tools/places.py [POINT..]      the places, each as file:line: text
    tools/places.py --count        a line for each point, with how many there are

A row is a place to look at; docs/DESIGN-PASS.md says of each what became of it.
"""
import collections
import glob
import re
import sys

LINES = {
    # own enums, a None or an index that stands for a failure, flags, numbers for kinds
    "1": [r"\benum \w+", r"Ok\(None\)", r"Option<\(u\d", r"fn (number|place)\(self\)", r"let \(\w+, \w+\) = match",
          r"let mut \w+ = false", r"^ +count$", r"\b\w+: bool,", r"assert!\(rt; false\)"],
    "3": [r"\bfor \w+ in [^{]*\.\.", r"\bwhile ", r"\(0\.\..*\)\.(any|all|find|fold|map|position)\("],
    # casts, types without == and printing, values made and taken apart by hand
    "4": [r" as [iu](8|16|32|64|size)\b", r"^fn from_to", r"derive\(Clone, Copy\)", r"^fn .*-> (Range|Stretch|Watch) ?\{?$",
          r" fn new\(\) -> \w+$", r"let (sensor|number|place) = ", r"write!\(f", r"^impl (Default|From|TryFrom)\b"],
    "6": [r"&mut \[", r"\b(count|beats): usize,", r"Vec<u8>,", r"\[[a-z]+\[\d\]", r"\[\w+\]\[\w+\]", r"bytes\[p"],
    "7": [r"\bfn\(", r"\bdyn ", r"\bFn(Mut|Once)?\(", r"match document"],
}


def sources():
    for path in sorted(glob.glob("crates/*/src/**/*.rt", recursive=True)):
        for number, line in enumerate(open(path, encoding="utf-8"), 1):
            if not line.strip().startswith("//"):
                yield path, number, line.rstrip("\n")


def by_line(point):
    for path, number, line in sources():
        if any(re.search(p, line) for p in LINES[point]):
            yield f"{path}:{number}: {line.strip()}"


def twins():
    """Functions of a crate whose names begin or end with one word, two or more of them."""
    for end in (0, -1):
        stems = collections.defaultdict(list)
        for path, number, line in sources():
            m = re.match(r"\s*(?:pub(?:\(crate\))? )?fn (\w+_\w+)", line)
            if m and "_tests" not in path:
                stems[path.split("/")[1], m.group(1).split("_")[end]].append(f"{path}:{number}: {m.group(1)}")
        for key in sorted(stems):
            if len(stems[key]) > 1:
                yield from stems[key]


def facts():
    """What three contracts or more require or ensure alike, and parameters that three signatures or more have in a row."""
    where = collections.defaultdict(set)
    for path, number, line in sources():
        m = re.match(r"\s*(requires|ensures) (?:\w+ )?\{ (.*) \}$", line)
        for part in re.split(r" × ", m.group(2)) if m else []:
            where[m.group(1), part.strip("() ")].add(f"{path}:{number}: {m.group(1)} {part.strip('() ')}")
    text = collections.defaultdict(str)
    for path, number, line in sources():
        text[path] += line + "\n"
    for path in text:
        for m in re.finditer(r"\bfn (\w+)[^(]*\(([^)]*)\)", text[path]):
            names = [p.split(":")[0].strip() for p in m.group(2).split(",") if ":" in p]
            for a, b in zip(names, names[1:]):
                where["together", a, b].add(f"{path}: {m.group(1)}: {a}, {b}")
    for key in sorted(where):
        if len(where[key]) > 2:
            yield from sorted(where[key])


def proofs():
    """Answers that three files or more give alike."""
    where = collections.defaultdict(set)
    for path in sorted(glob.glob("crates/*/proofs/**/*.antt", recursive=True)):
        for line in open(path, encoding="utf-8"):
            m = re.match(r"[\w-]+ (?:g )?c = (.{12,})$", line.rstrip("\n"))
            if m:
                where[m.group(1)].add(path)
    for key in sorted(where):
        if len(where[key]) > 2:
            yield from (f"{path}: {key}" for path in sorted(where[key]))


POINTS = {p: (lambda p=p: by_line(p)) for p in LINES} | {"2": twins, "5": facts, "8": proofs}

if __name__ == "__main__":
    for point in [a for a in sys.argv[1:] if a in POINTS] or sorted(POINTS):
        places = list(POINTS[point]())
        print(f"point {point}: {len(places)}")
        if "--count" not in sys.argv:
            print("".join(f"  {place}\n" for place in places), end="")
