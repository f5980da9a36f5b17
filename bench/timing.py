"""What bench/feed.py and bench/day.py share: the program to time, for this machine's processor, and the time of a command."""
import platform
import subprocess
import sys
import time
from pathlib import Path

ROOT = Path(__file__).resolve().parent.parent
WORK = ROOT / "target/bench"


def program(name):
    made = subprocess.run([ROOT / "bindings/program", name], stdout=subprocess.PIPE, text=True)
    if made.returncode != 0:
        sys.exit(f"There is no program {name} to time.")
    path = Path(made.stdout.strip())
    if platform.machine() != "x86_64" and path.parent.name == "x86_64":
        sys.exit("That program is for x86-64, and its time under an emulator says nothing.")
    return path


def timed(command):
    start = time.perf_counter()
    subprocess.run(command, shell=True, check=True)
    return time.perf_counter() - start
