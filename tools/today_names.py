#!/usr/bin/env python3
"""Brings the repository's own definitions, lemmas and record fields to the spelling of the Rattle that it is proved with.

A name in lower camel case becomes snake case (`bestOf`: `best_of`). In a lemma's or a field's name a dash stays where it joins two names of
definitions (`levels-length`); a plain word is joined by `_` (`rows_first`). A name that would fall together with another that stands keeps apart by
`_lem`. Functions of src/, exported names, strings, inputs and outputs are not touched: they are in snake case already, and only names that .antt
files declare are turned.

usage: python3 tools/today_names.py      at the top, once, right after the kit's own script; prints each name turned, old and new
"""
import os
import re
import sys

KIT = "/opt/rattle/rattle"
DECLARED = re.compile(r"^\s*((?:(?:unfoldable|abbrev|pub|ruleset)\s+)*)([A-Za-z_][^\s:(){}.,;◌]*)\s+:\s")
TOKEN = re.compile(r"(?<![\w'◌])[A-Za-z_][\w']*(?:-[\w']+)*")
MADE = re.compile(r"-requires|-spec$|^returns|^loop-|^invariant|^decreases|^overflow|^After-|^Then|^Else|-preserved$|-init$|-smaller$|-\d+$")


def texts(*endings):
    for top in ("crates", "docs", "bindings", "tests", "bench", "oracle"):
        for folder, dirs, files in os.walk(top):
            dirs[:] = [d for d in dirs if d not in ("out", "target", ".git")]
            for f in sorted(files):
                if f.endswith(endings):
                    yield os.path.join(folder, f)


def read(path):
    with open(path, encoding="utf-8") as f:
        return f.read()


def snake(name):
    return re.sub(r"([a-z0-9])([A-Z])", lambda m: m.group(1) + "_" + m.group(2).lower(), name)


def declared():
    """Own names: those of definitions (unfoldable, abbrev, or of specs/), and all that are declared outside a function's folder."""
    definitions, shared, anywhere = set(), set(), set()
    for path in texts(".antt"):
        inner = os.path.basename(path) in ("Proof.antt", "Invariants.antt", "Answers.antt")
        for line in read(path).split("\n"):
            m = DECLARED.match(line)
            if not m or line.lstrip().startswith("--"):
                continue
            marks, name = m.groups()
            anywhere.add(name)
            if not inner:
                shared.add(name)
            if "unfoldable" in marks or "abbrev" in marks:
                definitions.add(name)
    return definitions, shared, anywhere


def library():
    words = set()
    for path in ("std/specs/Prelude.antt", "core/specs/Prelude.antt"):
        for group in re.findall(r"\{([^}]*)\}", read(os.path.join(KIT, path))):
            words |= {w.strip() for w in group.split(",")}
    return words


def functions():
    """The names of the functions of src/: a theorem on one has its name."""
    found = set()
    for path in texts(".rt"):
        found |= set(re.findall(r"\bfn (\w+)", read(path)))
    return found


def dashes(name, known):
    parts = name.split("-")
    joins = all(left in known and right in known for left, right in zip(parts, parts[1:]))
    return name if joins else name.replace("-", "_")


def table():
    definitions, shared, anywhere = declared()
    known = {snake(d) for d in definitions} | library()
    of_source = functions()
    turned = {}
    for name in sorted(anywhere):
        if not name[0].islower() and "-" not in name:
            continue
        new = snake(name) if name[0].islower() else name
        if "-" in name and (name not in shared or MADE.search(name)):
            pass
        elif "-" in new:
            plain = new.replace("-", "_")
            new = plain if plain in of_source else dashes(new, known)
        if new != name:
            turned[name] = new
    # a lemma under the name that a definition takes now gives way
    for name in sorted(anywhere - definitions - set(turned)):
        if any(new == name for old, new in turned.items() if "-" not in old):
            turned[name] = name + "_lem"
    taken = {n for n in anywhere if n not in turned}
    back = {}
    for name, new in sorted(turned.items(), key=lambda it: ("-" in it[0], it[0])):
        if new in taken or new in back:
            if "-" in name:
                new = new + "_lem"
            if new in taken or new in back:
                print("left: " + name, file=sys.stderr)
                continue
        back[new] = name
    return {old: new for new, old in back.items()}


def turn(text, names):
    return TOKEN.sub(lambda m: names.get(m.group(0), m.group(0)), text)


def main():
    names = table()
    camel = {o: n for o, n in names.items() if re.search("[A-Z]", o)}
    in_code = {o: n for o, n in names.items() if "-" in o or o in camel}
    for path in texts(".antt", ".rt", ".edit"):
        old = read(path)
        new = turn(old, names if path.endswith(".antt") else in_code)
        if new != old:
            with open(path, "w", encoding="utf-8") as f:
                f.write(new)
    pages = [p for p in list(texts(".md", ".py")) if "CHANGELOG" not in p] + ["README.md"]
    for path in pages:
        old = read(path)
        new = re.sub(r"`[^`\n]*`", lambda m: turn(m.group(0), names), old) if path.endswith(".md") else old
        if new != old:
            with open(path, "w", encoding="utf-8") as f:
                f.write(new)
    for o, n in sorted(names.items()):
        print(f"{o}\t{n}")
    print(f"{len(names)} names, {len(camel)} of them in camel case", file=sys.stderr)


main()
