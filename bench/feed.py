#!/usr/bin/env python3
"""Times the feed program on a snapshot and 1,000,000 delta lines, from a file and from a pipe, five runs each.

bindings/program makes the program, for this machine's processor. The lines are random Sets and Removes at 100 prices a side, all of them taken.
"""
import random
import subprocess
import sys

sys.dont_write_bytecode = True
from timing import WORK, program, timed

FEED, COUNT = WORK / "million.feed", 1_000_000


def line(body):
    return (body + bytes([-sum(body) % 256])).hex().upper() + "\n"


def write_feed():
    rng = random.Random(1)
    WORK.mkdir(parents=True, exist_ok=True)
    with open(FEED, "w") as out:
        out.write(line(b"\2" + bytes(10)))
        for n in range(1, COUNT + 1):
            side, remove = rng.randrange(2), int(rng.randrange(4) == 0)
            price = 1000 - rng.randrange(100) if side == 0 else 1001 + rng.randrange(100)
            quantity = 0 if remove else rng.randrange(10**9 + 1)
            numbers = price.to_bytes(4, "big") + quantity.to_bytes(4, "big") + n.to_bytes(8, "big")
            out.write(line(bytes([1, side, remove]) + numbers))


PROGRAM = program("feed")
write_feed()
ends = subprocess.run([PROGRAM, FEED], capture_output=True, check=True).stdout.decode().split("\n")
taken = sum(1 for row in ends if row.endswith(" 0") and row[:1].isdigit())
assert taken == COUNT + 1 and f"live {COUNT}" in ends, taken
size = FEED.stat().st_size / 1e6
for name, command in (("file", f"{PROGRAM} {FEED} >/dev/null"), ("pipe", f"cat {FEED} | {PROGRAM} >/dev/null")):
    runs = sorted(timed(command) for _ in range(5))
    rates = ", ".join(f"{(COUNT + 1) / 1e6 / t:.2f} million lines and {size / t:.0f} MB a second" for t in (runs[-1], runs[0]))
    print(f"{name}: {runs[0]:.2f} to {runs[-1]:.2f} s ({rates}; {taken} lines taken)")
