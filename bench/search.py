#!/usr/bin/env python3
"""Times ways of searching a side's prices: each by itself, and inside the library, where it stands in the place of the proved one.

    python3 bench/search.py                  nanoseconds, on this machine
    python3 bench/search.py instructions     instructions on x86-64, counted under an emulator (qemu-user), on any machine

The ways are plain C (bench/search/shapes.c). For the second kind of figure the module that Rattle makes is taken as text, the function
levels::ordered::Ordered::count_ahead is taken out of it and the C one put in, and the toolchain's clang compiles all of it as it does the library. The first
row is the module as it is, and the rows "blocks and a run, a loop a side" have its way of searching. Needs the Rattle toolchain and gcc; for instructions also qemu-x86_64 and an x86-64 gcc.
"""
import os
import platform
import re
import shutil
import subprocess
import sys
import tempfile

ROOT = os.path.dirname(os.path.dirname(os.path.abspath(__file__)))
WORK = os.path.join(ROOT, "target", "bench", "search")
PROVED = '"levels::ordered::Ordered::count_ahead"'
SHAPES = [
    "every place, a loop a side",
    "every place, asks turned",
    "blocks and a run, a loop a side",
    "blocks and a run, asks turned",
    "three steps and a run, a loop a side",
    "three steps and a run, asks turned",
    "seven steps, asks turned",
]
LEVELS = [1, 10, 100, 128]
PRICES = [2, 10, 100, 128]


def run(*words, **more):
    return subprocess.run(words, check=True, text=True, stdout=subprocess.PIPE, **more).stdout


def toolchain():
    """The folder of the Rattle toolchain."""
    rt = shutil.which("rt") or sys.exit("bench/search.py: rt, the command of the Rattle toolchain, is not on the path")
    return os.path.dirname(os.path.dirname(os.path.realpath(rt)))


def link_all(source, to, but=()):
    os.makedirs(to)
    for name in os.listdir(source):
        if name not in but:
            os.symlink(os.path.join(source, name), os.path.join(to, name))


def watching(kit, to, kept):
    """Lays out a toolchain like kit in the folder to, but that its clang puts the module that it is handed aside, as kept. rt finds the rest from where it stands."""
    link_all(kit, to, ("bin", "toolchain"))
    link_all(f"{kit}/bin", f"{to}/bin", ("rt", "rtlib.py"))
    for name in ("rt", "rtlib.py"):
        shutil.copy(f"{kit}/bin/{name}", f"{to}/bin/{name}")
    link_all(f"{kit}/toolchain", f"{to}/toolchain", ("bin",))
    link_all(f"{kit}/toolchain/bin", f"{to}/toolchain/bin", ("clang",))
    with open(f"{to}/toolchain/bin/clang", "w") as file:
        file.write(f"""#!/bin/sh
for word in "$@"; do
  case $word in *.bc) cp "$word" "{kept}" ;; esac
done
exec "{kit}/toolchain/bin/clang" "$@"
""")
    os.chmod(f"{to}/toolchain/bin/clang", 0o755)


def module(kit, clang, processor):
    """The library's module as text, for that processor."""
    run("bash", os.path.join(ROOT, "bindings", "archive"), processor)
    kept = os.path.join(WORK, "module.bc")
    with tempfile.TemporaryDirectory() as folder:
        watching(kit, f"{folder}/kit", kept)
        run(f"{folder}/kit/bin/rt", "lib", "--target", f"{processor}-unknown-linux-gnu", cwd=f"{ROOT}/crates/exports_c")
    return run(clang, f"--target={processor}-unknown-linux-gnu", "-x", "ir", kept, "-S", "-emit-llvm", "-O0", "-o", "-")


def in_place(text, clang, target, shape):
    """The module with the C function in the place of the proved one."""
    made = run(clang, f"--target={target}", "-O1", "-Xclang", "-disable-llvm-passes", f"-DSHAPE={shape}", "-S", "-emit-llvm", "-o", "-", f"{ROOT}/bench/search/shapes.c")
    made = re.sub(r"^(source_filename|target|attributes|!|; |declare ).*\n", "", made, flags=re.M)
    made = re.sub(r"^ *call void @llvm\.lifetime.*\n", "", made, flags=re.M)
    made = re.sub(r", !(tbaa|llvm\.loop)( !\d+)?| #\d+|dso_local |zeroext ", "", made).replace("@count_ahead_of(", f"@{PROVED}(")
    made = re.sub(r"^define (?!internal)", "define internal ", made, flags=re.M)
    rest, taken = re.subn(r"^define [^\n]*@" + re.escape(PROVED) + r"\(.*?^}\n", "", text, flags=re.M | re.S)
    if taken != 1:
        sys.exit(f"bench/search.py: the module has {taken} functions {PROVED}")
    return rest + "\n" + made


def program(name, clang, target, gcc, text=None, shape=None):
    """Compiles one program: of the module, or of a shape by itself."""
    path = os.path.join(WORK, name)
    flags = [f"--target={target}", "--no-default-config", "-O3", "-fPIC", "-Wno-override-module", "-c", "-o", path + ".o"]
    if text is None:
        run(clang, *flags, f"-DSHAPE={shape}", f"{ROOT}/bench/search/shapes.c")
    else:
        with open(path + ".ll", "w") as file:
            file.write(text)
        run(clang, *flags, "-x", "ir", path + ".ll")
    run(gcc, "-O2", "-static", "-I", f"{ROOT}/bindings/c", *(["-DALONE"] if text is None else []), f"{ROOT}/bench/search/main.c", path + ".o", "-o", path)
    return path


def times(path, sizes, calls):
    """Nanoseconds for each size: calls that do not wait for each other, and calls that do."""
    rounds = [[[float(x) for x in run(path, str(size), str(calls), "7").split()] for size in sizes] for _ in range(3)]
    return [[min(r[i][k] for r in rounds) for i in range(len(sizes))] for k in range(2)]


def instructions(path, size, few, many):
    """Instructions a call."""
    lines = []
    for calls in (few, many):
        emulated = subprocess.Popen(["qemu-x86_64", "-singlestep", "-d", "exec,nochain", path, str(size), str(calls), "1"], stderr=subprocess.PIPE)
        lines.append(sum(block.count(b"\n") for block in iter(lambda: emulated.stderr.read(1 << 20), b"")))
        if emulated.wait() != 0:
            sys.exit(f"bench/search.py: {path} failed")
    return (lines[1] - lines[0]) / (2 * (many - few))


def row(name, *figures):
    print(f"| {name} | " + " | ".join(figures) + " |")


def main():
    counted = sys.argv[1:] == ["instructions"]
    if sys.argv[1:] and not counted:
        sys.exit(__doc__)
    os.makedirs(WORK, exist_ok=True)
    processor = "x86_64" if counted else platform.machine()
    target, gcc = f"{processor}-unknown-linux-gnu", "gcc" if processor == platform.machine() else f"{processor}-linux-gnu-gcc"
    kit = toolchain()
    clang = os.path.join(kit, "toolchain", "bin", "clang")
    whole = module(kit, clang, processor)
    alone = [program(f"alone{i}", clang, target, gcc, shape=i) for i in range(len(SHAPES))]
    inside = [program("proved", clang, target, gcc, text=whole)]
    inside += [program(f"inside{i}", clang, target, gcc, text=in_place(whole, clang, target, i)) for i in range(len(SHAPES))]
    if counted:
        row("instructions a call", *[f"alone, {n}" for n in LEVELS], *[f"a delta, {n}" for n in PRICES])
        row("---", *["---"] * (len(LEVELS) + len(PRICES)))
        for name, one, other in zip(["proved", *SHAPES], [None, *alone], inside):
            row(name, *[f"{instructions(one, n, 1000, 3000):.0f}" if one else "" for n in LEVELS], *[f"{instructions(other, n, 1000, 3000):.0f}" for n in PRICES])
        return
    row("ns a call", *[f"alone, {n}" for n in LEVELS], *[f"waiting, {n}" for n in LEVELS], *[f"a delta, {n}" for n in PRICES])
    row("---", *["---"] * (2 * len(LEVELS) + len(PRICES)))
    for name, one, other in zip(["proved", *SHAPES], [None, *alone], inside):
        free, waiting = times(one, LEVELS, 4096 * 16) if one else ([], [])
        deltas = times(other, PRICES, 1000000)[0]
        row(name, *([f"{x:.1f}" for x in free + waiting] or [""] * (2 * len(LEVELS))), *[f"{x:.1f}" for x in deltas])


main()
