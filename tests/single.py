#!/usr/bin/env python3
"""Says which public calls have no theorem in crate single: each `pub fn` of a library that is no inner crate, and each function of a trait for one
of its types, by its path in `.. .Reads.Learnt`.
Of a call that is lent memory to write in, the theorem must be OneWith or OnePart.

No crate can stand on a static library, so crate single has no theorem on one. A static library NAME_c of crates.txt is held to the library NAME instead: each
file of both exports the same functions, in the same words up to their bodies (signature and clauses), and what those words import is the same there.

The text alone is read; `rt check single` proves what stands there. An exception is a call of one crate, with why it is one; an exception that
names no such call, or one that has its theorem, is a fault too.
"""
import re
import sys
from pathlib import Path

ROOT = Path(__file__).resolve().parent.parent
EXCEPTIONS = {
    ("lent", "apply_delta"): "specs/Lent writes its promise out",
    ("day", "apply_fills"): "specs/Days writes its promise out",
    ("listings", "front"): "inner: asks that an answer's places are in the buffer",
    ("orderbook", "rows.apply_to_book"): "inner: asks that the rows are known to make a book, and that the delta is admitted",
    ("position", "rows.apply_to_ledger"): "inner: asks that the rows are known to make a ledger",
}


def statics():
    """The static libraries of crates.txt."""
    return re.findall(r"^(\w+) (?:[^:#\n]* )?staticlib\b[^:\n]*:", (ROOT / "crates.txt").read_text(), re.M)


def crates():
    inner = re.search(r"Inner crates:(.*)", (ROOT / "docs/PROMISES.md").read_text()).group(1)
    for lib in sorted(ROOT.glob("crates/*/src/lib.rt")):
        crate = lib.parent.parent.name
        if f"`{crate}`" not in inner and crate not in statics():
            yield crate, lib.parent


def declared(source):
    """Where each type of a crate is declared: the module and the type, as the theorems name it."""
    return {name: name if path.stem == "lib" else f"{path.stem}.{name}"
            for path in sorted(source.glob("*.rt"))
            for name in re.findall(r"^pub (?:struct|enum|trait) (\w+)", path.read_text(), re.M)}


def called(kind):
    """The name of a type in the name of an impl: `u64` is U64, `()` is Unit."""
    return "Unit" if kind == "()" else kind[:1].upper() + kind[1:]


def of_trait(text):
    """How the theorems name an impl of a trait: `impl From<Side> for u64` is U64FromSide."""
    found = re.match(r"impl(?:<[^>]*>)? (\w+)(?:<(\S+)>)? for (\S+) {", text)
    return found and called(found.group(3)) + found.group(1) + called(found.group(2) or "")


def calls(source):
    """The public functions of a crate, those of traits too: the module or type in front, the name, and whether memory is lent to be written."""
    types = declared(source)
    for path in sorted(source.glob("*.rt")):
        trait, module = None, "" if path.stem == "lib" else path.stem
        lines = path.read_text().split("\n")
        for at, text in enumerate(lines):
            if re.match(r"impl\b", text):
                trait = of_trait(text)
                name = re.match(r"impl(?:<[^>]*>)? (\w+)", text).group(1)
                module = trait if trait and path.stem == "lib" else f"{path.stem}.{trait}" if trait else types.get(name, name)
            elif re.match(r"}", text):
                trait, module = None, "" if path.stem == "lib" else path.stem
            found = re.match(r"\s*pub (?:extern \"C\" )?fn (\w+)", text) or (trait and re.match(r"    fn (\w+)", text))
            if found:
                head = "\n".join(lines[at:at + 20]).split("ensures")[0]
                yield module, found.group(1), "&mut" in head or "&'a mut" in head


def theorems():
    """Of each call that crate single speaks of, the kind of its theorem."""
    said = {}
    for path in (ROOT / "crates/single/specs").glob("*.antt"):
        text = path.read_text()
        names = {name: where for where, name in re.findall(r"^use Rattle\.(\S+?) as (\w+)$", text, re.M)}
        for kind, name, call in re.findall(r"^  pub \S+ : (One\w*) \(?(\w+)\.((?:\w+\.)*)Reads\.Learnt", text, re.M):
            crate, _, rest = names[name].partition(".proofs")
            said[crate, f"{rest}.{call}".strip(".")] = kind
    return said


def exported(path):
    """The exported functions of a file: the name, and the words from `fn` up to the body."""
    text = re.sub(r"//.*", "", path.read_text()) if path.exists() else ""
    found = re.findall(r'^#\[unsafe\(no_mangle\)\]\s*^pub extern "C" (fn (\w+).*?)^\{$', text, re.M | re.S)
    return {name: head.split() for head, name in found}


def imports(path, crate):
    """What the names of a file stand for: each imported name with its path, and the types that the file has itself."""
    text = path.read_text() if path.exists() else ""
    module = crate if path.stem == "lib" else f"{crate}::{path.stem}"
    found = {f"{module}::{name}" for name in re.findall(r"^pub (?:struct|enum) (\w+)", text, re.M)}
    for ghost, front, dot, many, one in re.findall(r"^(?:pub )?(ghost )?use ([\w.:]+?)(\.|::)(?:\{([^}]*)\}|([^{};\n]+));", text, re.M):
        front = re.sub(r"^crate\b", crate, front)
        found |= {ghost + front + dot + name.strip() for name in (many or one).split(",") if name.strip()}
    return found


def static_faults(static):
    """How many functions a static library exports, and where it is not as the library that it hands to C."""
    library = static.removesuffix("_c")
    ours, theirs = ROOT / "crates" / static / "src", ROOT / "crates" / library / "src"
    if library == static or not theirs.is_dir():
        return 0, [f"{static}: no library is known that it hands to C"]
    faults, count = [], 0
    for name in sorted({path.name for source in (ours, theirs) for path in source.glob("*.rt")}):
        here, there = exported(ours / name), exported(theirs / name)
        count += len(here)
        faults += [f"{static}: {it} of {library} is missing in {name}" for it in there if it not in here]
        faults += [f"{static}: {it} is not exported by {library} in {name}" for it in here if it not in there]
        faults += [f"{static}: {it} has other words than in {library}" for it in here if it in there and here[it] != there[it]]
        other = imports(ours / name, static) - imports(theirs / name, library)
        faults += [f"{static}: {name} imports {it}, and {library} does not there" for it in sorted(other)]
    return count, faults


def main():
    said, seen = theorems(), set()
    faults, count = [], 0
    for crate, source in crates():
        for module, call, lent in calls(source):
            count += 1
            whole = f"{module}.{call}".strip(".")
            seen.add((crate, whole))
            kind = said.get((crate, whole))
            if (crate, whole) in EXCEPTIONS:
                if kind is not None:
                    faults.append(f"{crate}: {whole} is an exception, and has a theorem in crate single")
            elif kind is None:
                faults.append(f"{crate}: {whole} has no theorem in crate single")
            elif lent and kind == "One":
                faults.append(f"{crate}: {whole} is lent memory, and its theorem does not speak of it")
    faults += [f"{crate}: {whole} is an exception, and no public call" for crate, whole in EXCEPTIONS if (crate, whole) not in seen]
    handed = 0
    for static in statics():
        functions, found = static_faults(static)
        handed += functions
        faults += found
    print(f"{count} public calls, {handed} functions handed to C, {len(faults)} faults, the {len(EXCEPTIONS)} exceptions aside")
    sys.exit("\n".join(faults) if faults else 0)


main()
