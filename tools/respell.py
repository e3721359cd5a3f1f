#!/usr/bin/env python3
"""Brings the names of definitions, lemmas and record fields to snake case. Run once, at the top, after the kit's port.py.

A definition's name is respelled from lower camel case, and a field's name also from dashes. Lemmas keep their dashes, which
join the parts of what they say. Functions of src/, exported names, strings, inputs and outputs are left alone.
"""

import glob
import re
import sys

TOKEN = re.compile(r"[A-Za-z_][\w'₀-₉-]*")
DECLARED = re.compile(r"^(\s*)(?:(?:abbrev|unfoldable|pub)\s+)*([A-Za-z_][\w'₀-₉-]*)\s*(?=[:({])")
# A ghost member or an import under a name of the file's own, in a source.
GHOST = re.compile(r"^\s*ghost ([a-z][a-z0-9]*[A-Z]\w*)|\bas ([a-z][a-z0-9]*[A-Z]\w*)")
FIELD = re.compile(r"^\s+(?:pub\s+)?([a-z][\w'-]*)\s*:\s")
# Goals, invariants and measures are named by Rattle.
MADE = re.compile(r"^(returns|loop|invariant|decreases|overflow|bounds|nonzero)-|-requires$")
# These would fall together with words of the library.
OTHER = {"isDigit": "is_decimal_digit", "digitValue": "hex_digit_value"}
# Lemmas that the kit's script took from dashes, and that would fall together with definitions.
DASHED = {"frame_past": "frame-past", "head_in": "head-in", "run_more": "run-more"}


def snake(name):
    return re.sub(r"([a-z0-9])([A-Z])", lambda m: m.group(1) + "_" + m.group(2).lower(), name)


def sources(*ends):
    return sorted(path for end in ends for path in glob.glob("crates/*/" + end, recursive=True))


def declared():
    """The new name of each name that changes."""
    names = {}
    for path in sources("specs/**/*.antt", "proofs/**/*.antt"):
        inside = False
        with open(path, encoding="utf-8") as file:
            for line in file:
                if re.match(r"^\s*(--|use |mod |pub mod )", line):
                    continue
                if not line[:1].isspace():
                    inside = bool(re.match(r"^(pub )?(record|data) ", line))
                name = DECLARED.match(line)
                if name and not MADE.search(name.group(2)) and re.match(r"^[a-z][a-z0-9]*[A-Z]", name.group(2)):
                    names[name.group(2)] = OTHER.get(name.group(2), snake(name.group(2)))
                field = FIELD.match(line)
                if inside and "/specs/" in path and field and "-" in field.group(1):
                    names[field.group(1)] = field.group(1).replace("-", "_")
    for path in sources("src/**/*.rt"):
        with open(path, encoding="utf-8") as file:
            for line in file:
                for ghost in GHOST.findall(line) if "ghost" in line else []:
                    name = ghost[0] or ghost[1]
                    names[name] = snake(name)
    return names


def respell(text, names):
    return TOKEN.sub(lambda m: names.get(m.group(0), m.group(0)), text)


def outside_strings(text, names):
    """The same, but for string literals."""
    parts = re.split(r'("(?:[^"\\]|\\.)*")', text)
    return "".join(part if i % 2 else respell(part, names) for i, part in enumerate(parts))


def main():
    names = {**declared(), **DASHED}
    paths = sources("specs/**/*.antt", "proofs/**/*.antt", "src/**/*.rt", "must-fail/*.edit")
    if sys.argv[1:] == ["list"]:
        for old, new in sorted(names.items()):
            print(old, new)
        return
    for path in paths:
        with open(path, encoding="utf-8") as file:
            old = file.read()
        new = outside_strings(old, names)
        if new != old:
            with open(path, "w", encoding="utf-8") as file:
                file.write(new)


main()
