#!/usr/bin/env python3
"""Times the day program, and run-day, on a day of 100,000 fills, all of them taken: seven runs each.

bindings/program makes the program, for this machine's processor. The fills are random buys and sales of 32 symbols.
"""
import random
import subprocess
import sys

sys.dont_write_bytecode = True
from timing import ROOT, WORK, program, timed

DAY, COUNT = WORK / "fills.day", 100_000


def write_day():
    rng = random.Random(1)
    WORK.mkdir(parents=True, exist_ok=True)
    with open(DAY, "w") as out:
        out.write("cash 1000000000000000\n")
        for _ in range(COUNT):
            out.write(f"{rng.randrange(32)} {rng.choice(['bid', 'ask'])} {rng.randrange(1000)} {1 + rng.randrange(10**5)} {rng.randrange(50)}\n")


PROGRAM = program("day_fills")
write_day()
told = subprocess.run([PROGRAM, DAY], capture_output=True, check=True).stdout.decode()
assert told.startswith(f"taken {COUNT}\ncash "), told[:100]
for name, command in (("program", PROGRAM), ("run-day", ROOT / "run-day")):
    runs = sorted(timed(f"{command} {DAY} >/dev/null") for _ in range(7))
    print(f"{name}: {runs[0]:.3f} to {runs[-1]:.3f} s for {COUNT} fills")
