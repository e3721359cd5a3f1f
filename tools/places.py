#!/usr/bin/env python3
"""Lists places in crates/*/src, tests apart, where a plainer form may do: python3 tools/places.py [FOLDER]

Each is a place to look at; docs/DESIGN-PASS.md says what became of those that were found, by the same numbers.
"""
import collections
import pathlib
import re
import sys

ROOT = pathlib.Path(sys.argv[1] if len(sys.argv) > 1 else ".")

# point, what is looked for, the pattern of a line
LINES = [
    ("1", "enums", r"^(pub(\(crate\))? )?enum "),
    ("1", "an Option or Result taken apart and put together again",
     r"\b(Ok|Some)\(\w*\) => (return )?(Ok|Some)\(|\bErr\(\w+\) => (return )?Err\(|None => (return )?(Ok\(None\)|None|Err)\b|Err\(_\) => "),
    ("1", "flags in structs and parameters", r"\w: (&(mut )?)?(Vec<|\[)?bool\b"),
    ("1", "numbers that stand for kinds", r"\bNUMBER\b|\bnumber (==|!=) "),
    ("3", "loops", r"^ *(for|while|loop)\b"),
    ("4", "the lesser or greater by hand", r"if (\w+) [<>] (\w+) \{ (\1|\2|\w+) \} else \{"),
    ("4", "characters by their codes", r"\b(48|57|97|102|65|70|87|55|45)\b|part_len\(\w+, \d+\)"),
    ("4", "texts made piece by piece", r"^ *(\) -> )?.*-> Result<String, AllocError>"),
    ("4", "conversions by a function of one value", r"fn \w+\(\w+: [A-Z]\w+\) -> [A-Z]\w+$"),
    ("6", "buffers of fixed size, and lengths beside them", r"; (64|65536)\]|\blen: usize"),
    ("6", "lists of flags beside other lists", r"Vec<bool>|&\[bool\]"),
    ("7", "switches over words", r"\bif is_word\("),
    ("7", "closures, function pointers and dyn", r"\bFn(Once|Mut)?\(|\bdyn |: fn\("),
]


def sources():
    for path in sorted(ROOT.glob("crates/*/src/**/*.rt")):
        if path.name != "tests.rt":
            yield path.relative_to(ROOT), path.read_text()


def closing(text, start):
    """Where the bracket at a place is closed."""
    pairs, depth = {"(": ")", "{": "}"}, 0
    for i in range(start, len(text)):
        depth += (text[i] == text[start]) - (text[i] == pairs[text[start]])
        if depth == 0:
            return i
    return len(text)


def functions(text):
    """Name, parameters and body of each function that has a body."""
    for m in re.finditer(r"\bfn (\w+)[^\n(]*\(", text):
        end = closing(text, m.end() - 1)
        parameters = text[m.end(): end]
        head = re.match(r"[^{;]*", text[end:]).group()
        at = end + len(head)
        while at < len(text) and text[at] == "{" and re.search(r"(requires|ensures)( \w+)? $", text[:at]):
            at = closing(text, at) + 1
            at += len(re.match(r"[^{;]*", text[at:]).group())
        if at < len(text) and text[at] == "{":
            yield m.group(1), parameters, text[at: closing(text, at)]


def shape(body):
    """A body with its names and literals left out."""
    words = re.findall(r'"[^"]*"|\w+|[^\s\w]', body)
    kept = ("if", "else", "for", "in", "match", "let", "return", "while", "mut")
    return tuple(w if not re.match(r'\w|"', w) or w in kept else "_" for w in words)


def show(point, what, places):
    print(f"{point}  {what}: {len(places)}")
    for place in places:
        print(f"     {place}")


def main():
    for point, what, pattern in LINES:
        found = [f"{path}:{n}: {line.strip()}" for path, text in sources() for n, line in enumerate(text.split("\n"), 1)
                 if re.search(pattern, line) and not line.startswith(("ghost use", "//")) and "ensures" not in line]
        show(point, what, found)
    bodies, many, facts = collections.defaultdict(list), [], collections.Counter()
    for path, text in sources():
        for name, parameters, body in functions(text):
            bodies[shape(body)].append(f"{path} {name}")
            count = len([p for p in parameters.split(", ") if ":" in p or "self" in p]) if "\n" not in parameters else parameters.count("\n") - 1
            if count >= 5:
                many.append(f"{path} {name}: {count} parameters")
        facts.update(re.sub(r"\s+", " ", f) for f in re.findall(r"requires(?: \w+)? (\{ .* \})", text))
    show("2", "functions of one shape", [", ".join(places) for shape_of, places in bodies.items() if len(places) > 1 and len(shape_of) > 12])
    show("5", "functions of five parameters or more", many)
    show("5", "premises that stand three times or more", [f"{n} times {fact}" for fact, n in sorted(facts.items()) if n >= 3])
    proofs = [p for p in sorted(ROOT.glob("crates/*/proofs/**/*.antt"))]
    lines = sum(len(p.read_text().split("\n")) - 1 for p in proofs)
    answers = len([p for p in proofs if p.name == "Answers.antt"])
    print(f"8  proof files: {len(proofs)}, with {lines} lines; {answers} of them answers")


main()
