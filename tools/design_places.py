#!/usr/bin/env python3
"""Lists the places in src/ that the points of docs/DESIGN-PASS.md speak of, with the count of each point.

usage: tools/design_places.py [POINT..] [--list]

Each point is found by a pattern over the text of crates/*/src (tests and comments left out); what a pattern cannot tell apart is told
apart by a reader, on the page. --list prints each place as FILE:LINE with its line.
"""
import collections
import pathlib
import re
import sys

TOP = pathlib.Path(__file__).resolve().parent.parent
NAMES = {
    "1a": "enums of the shape of Option or Result (declarations)",
    "1b": "lines that make or match such an enum's variants",
    "1c": "numbers for kinds: functions from or to a number or flag of an enum",
    "2": "functions whose bodies differ in names, types and numbers alone (groups of two or more)",
    "3": "while loops",
    "4": "conversions written by hand: fn of, of_x, number, named",
    "5a": "functions that take the four rows of a book",
    "5b": "functions that take a side's two rows and their count",
    "5c": "functions that take the three rows of a ledger",
    "5d": "clauses that say a row's length",
    "6": "arrays of bytes or numbers that a program fills, with a length beside them",
    "7": "matches whose arms call one function, each with its own variant",
}


def sources():
    for path in sorted(TOP.glob("crates/*/src/**/*.rt")):
        yield path, path.read_text(encoding="utf-8")


def plain(text):
    """The text without its comments, each line where it was."""
    return "\n".join(re.sub(r"(?<!:)//.*$", "", line) for line in text.split("\n"))


def line_of(text, at):
    return text.count("\n", 0, at) + 1


def enums(text):
    for m in re.finditer(r"\benum (\w+)(?:<[^>]*>)? \{(.*?)\n\}", text, re.S):
        variants = [v.strip() for v in re.findall(r"^    (\w+(?:\([^)]*\)| \{[^}]*\})?),", m.group(2), re.M)]
        yield m.start(), m.group(1), variants


def shaped(variants):
    """Whether the variants are a value and its absence, or a value and a refusal."""
    if len(variants) != 2 and not any("Refus" in v for v in variants):
        return False
    bare = [v for v in variants if "(" not in v and "{" not in v]
    return len(bare) == 1 or any("(Refusal)" in v for v in variants)


def functions(text):
    for m in re.finditer(r"\bfn (\w+)(?:<[^>]*>)?\((.*?)\)(?: -> ([^\n{]*))?\n?[^{;]*?(?=\{|requires|ensures)", text, re.S):
        yield m.start(), m.group(1), m.group(2)


def bodies(text):
    """Each function's name, place and body."""
    for m in re.finditer(r"^( *)(?:pub(?:\([^)]*\))? )?(?:extern \"C\" )?fn (\w+).*?\n\1\{\n(.*?)\n\1\}", text, re.S | re.M):
        yield m.start(), m.group(2), m.group(3)


def shape(body):
    tokens = re.findall(r"\w+|[^\s\w]", body)
    known = {"let", "mut", "if", "else", "while", "for", "in", "return", "match", "as", "self"}
    return " ".join(t if t in known or not t[0].isalnum() and t[0] != "_" else ("0" if t[0].isdigit() else "x") for t in tokens)


def found():
    places = collections.defaultdict(list)
    own = set()
    for path, text in sources():
        for at, name, variants in enums(plain(text)):
            if shaped(variants):
                own.add(name)
                places["1a"].append((path, line_of(plain(text), at), f"enum {name}: {', '.join(variants)}"))
    use = re.compile(r"\b(?:%s)::[A-Z]\w*" % "|".join(sorted(own))) if own else None
    alike = collections.defaultdict(list)
    for path, whole in sources():
        text = plain(whole)
        lines = text.split("\n")
        for n, line in enumerate(lines, 1):
            if use and use.search(line) and not line.startswith("ghost use"):
                places["1b"].append((path, n, line.strip()))
            if re.match(r"\s*while\b", line):
                places["3"].append((path, n, line.strip()))
            if re.search(r"\bfn (of|of_\w+|number|named|\w+_named)\b", line):
                places["4"].append((path, n, line.strip()))
            if re.search(r"length \w+\.(now|old) ≡ \d+", line):
                places["5d"].append((path, n, line.strip()))
            if re.search(r"= \[0\w*; *\w+\]", line):
                places["6"].append((path, n, line.strip()))
        for at, name, params in functions(text):
            have = set(re.findall(r"(\w+):", params))
            n = line_of(text, at)
            if {"bp", "bq", "ap", "aq"} <= have:
                places["5a"].append((path, n, name))
            if {"prices", "quantities"} <= have and have & {"n", "count", "to"}:
                places["5b"].append((path, n, name))
            if {"quantities", "averages", "realized"} <= have:
                places["5c"].append((path, n, name))
            if re.search(r"\b(side|action|question|listing|kind|number|ask|remove): (u64|bool)", params):
                places["1c"].append((path, n, name))
        for at, name, body in bodies(text):
            if body.count("\n") >= 2:
                alike[shape(body)].append((path, line_of(text, at), name))
            for m in re.finditer(r"match \w+ \{\s*(\w+)::(\w+) => (\w[\w:]*)\(\1::\2,[^\n]*\n\s*\1::(\w+) => \3\(\1::\4", body):
                places["7"].append((path, line_of(text, at), name))
    for group in alike.values():
        if len(group) > 1:
            for path, n, name in group:
                places["2"].append((path, n, f"{name} (one of {len(group)})"))
    return places


def main():
    words = [a for a in sys.argv[1:] if not a.startswith("-")]
    places = found()
    for key, what in NAMES.items():
        if words and key not in words:
            continue
        print(f"{key:3} {len(places[key]):4}  {what}")
        if "--list" in sys.argv:
            for path, n, line in places[key]:
                print(f"      {path.relative_to(TOP)}:{n}: {line}")


if __name__ == "__main__":
    main()
