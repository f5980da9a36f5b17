#!/usr/bin/env python3
"""Says of each must-fail edit whether it stands: each old text exactly once in its file, after the pairs before it, and another text as the new one.

usage: python3 tools/edits_stand.py [NAME..]      at the top; the crates named, or all. Ends with 1 where an edit doesn't stand.
"""
import glob
import os
import sys


def read(path):
    with open(path, encoding="utf-8") as f:
        return f.read()


def pairs(text):
    """File, old text and new text of each pair, in order; what is not so marked is the edit's comment."""
    path = old = None
    for line in text.split("\n"):
        mark, _, rest = line.partition(":")
        rest = rest[1:] if rest.startswith(" ") else rest
        if mark == "file":
            path = rest
        elif mark == "old":
            if old is not None:
                raise ValueError("two old texts in a row")
            old = rest
        elif mark == "new":
            if path is None or old is None:
                raise ValueError("a new text without a file or an old text")
            yield path, old, rest
            old = None
    if old is not None:
        raise ValueError("an old text without a new one")


def faults(edit):
    crate = os.path.dirname(os.path.dirname(edit))
    files = {}
    found = []
    count = 0
    try:
        for path, old, new in pairs(read(edit)):
            count += 1
            if path not in files:
                files[path] = read(os.path.join(crate, path))
            times = files[path].count(old) if old else 0
            if times != 1:
                found.append(f"stands {times} times in {path}: {old}")
            elif new == old:
                found.append(f"changes nothing: {old}")
            else:
                files[path] = files[path].replace(old, new)
    except (OSError, ValueError) as why:
        found.append(str(why))
    return found if count or found else ["has no pair"]


def main():
    names = sys.argv[1:]
    edits = sorted(glob.glob("crates/*/must-fail/*.edit"))
    if names:
        edits = [e for e in edits if e.split(os.sep)[1] in names]
    bad = 0
    for edit in edits:
        found = faults(edit)
        bad += bool(found)
        for fault in found:
            print(f"{edit}: {fault}")
    print(f"{len(edits)} edits, {bad} of them don't stand")
    sys.exit(1 if bad or not edits else 0)


main()
