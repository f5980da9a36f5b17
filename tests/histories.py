#!/usr/bin/env python3
"""Random histories of a ledger through the proved program, and the balance of each: histories.py [COUNT [SEED]].

A history is an opening cash, then fills and deposits, each offered whether the one before was taken or refused. They go to the program replay as a
list of operations (docs/CASES.md), many histories in one list. What it answers to each event, and the ledger as it stands after a deposit, after a
refusal and at the end, is held against the plain second reading of day_rules.py. Then two statements are counted in exact integers, from the events
and from what the program answered (balance_rules.py):
1. Cash, plus each position's signed quantity times its average, minus the realized profits, is the opening cash plus the accepted deposits, minus the
   division remainders of accepted increases of long positions, plus those of short ones.
2. The gap, by which that differs from opening cash and accepted deposits, is 0 where no accepted increase leaves a remainder, and else below the sum of
   |new quantity| over those that leave one.
An increase is a fill to a flat position or on the position's own side; its division is that of the new average. An opening cash outside its limit is
refused, and the history is then that of the ledger beside the refusal, whose cash is 0.
Wrong readings of the two are tried on the same histories, and are to be refuted. First come a few histories with literal numbers. A list that differs,
or whose history fails a statement, is kept in target/failed.list. A run of 100,000 histories, which is the default, or more fails where something that
is counted was never seen, or a wrong reading never refuted.
"""
import os
import random
import subprocess
import sys
import tempfile
from collections import Counter, deque
from concurrent.futures import ThreadPoolExecutor
from pathlib import Path

sys.dont_write_bytecode = True
from balance_rules import STATEMENTS, WRONG, balance, increase, is_increase, offered
from history_events import KNOWN, Deposit, History
from random_histories import drawn

ROOT = Path(__file__).resolve().parent.parent
FAILED = ROOT / "target" / "failed.list"
HISTORIES = 100_000
LIST = 65_535  # the most bytes that a list may have


# ── what was seen ──


PAST = [f"fills refused with 9 for {total} {way}" for total in ("lots", "cash", "profit") for way in ("above", "below")]
COUNTED = [
    *("histories", "histories whose opening cash was refused", "events", "accepted fills", "increases"),
    *("increases of long positions that left a remainder", "increases of short positions that left a remainder"),
    *("partial closes", "closes to flat", "turnovers", "fills of quantity 0", "accepted deposits"),
    *("fills refused with 2", "fills refused with 8", "fills refused with 9", *PAST, "deposits refused with 2", "deposits refused with 9"),
    *("events that left cash at the limit", "events that left lots at the limit", "events that left a realized profit at the limit"),
    *("histories with a gap", "histories with remainders on both sides", "histories whose remainders cancel to a gap of 0"),
    *("histories whose gap is one below its bound", "largest gap"),
]


def kinds(one):
    """As what an event is counted."""
    event, held = one.event, one.held
    if isinstance(event, Deposit):
        return ["accepted deposits"] if one.number == 0 else [f"deposits refused with {one.number}"]
    if one.number:
        return [f"fills refused with {one.number}"]
    if event.lots == 0:
        return ["accepted fills", "fills of quantity 0"]
    if is_increase(held, event.bought):
        side = "long" if event.bought else "short"
        return ["accepted fills", "increases"] + [f"increases of {side} positions that left a remainder"] * bool(increase(one).remainder)
    return ["accepted fills", "partial closes" if event.lots < abs(held) else "turnovers" if event.lots > abs(held) else "closes to flat"]


def count(counts, history, events, now):
    """Counts a history and its events in."""
    counts["histories"] += 1
    counts["histories whose opening cash was refused"] += not history.is_opened
    counts["events"] += len(events)
    for one in events:
        counts.update(kinds(one))
    counts.update(history.met)
    counts["histories with a gap"] += now.gap > 0
    counts["histories with remainders on both sides"] += now.long > 0 and now.short > 0
    counts["histories whose remainders cancel to a gap of 0"] += now.bound > 0 and now.gap == 0
    counts["histories whose gap is one below its bound"] += now.gap + 1 == now.bound
    counts["largest gap"] = max(counts["largest gap"], now.gap)
    for name, holds in WRONG.items():
        counts[name] += not holds(now)


# ── the comparison ──


def fail(why, text):
    FAILED.write_text(text)
    sys.exit(f"{why}; the list is in {FAILED}")


def checked(name, history, answers, text):
    """Holds a history's answers to the second reading, then the statements to its numbers."""
    for operation, got, want in zip(history.operations, answers, history.wanted):
        if got != want:
            fail(f"{name}: the ledger differs: to the operation '{operation}' the program answers '{got}', and the second reading '{want}'", text)
    events = offered(history, answers)
    now = balance(history, answers, events)
    for statement, holds in STATEMENTS.items():
        if not holds(now):
            fail(f"{name}: {statement} does not hold: {now}", text)
    return events, now


def answered(program, text):
    """What the program prints of a list, what it says, and its status. It prints word by word, which costs less into a file than into a pipe."""
    with tempfile.TemporaryFile("w+") as printed:
        got = subprocess.run(program, input=text, stdout=printed, stderr=subprocess.PIPE, text=True)
        printed.seek(0)
        return printed.read(), got.stderr, got.returncode


def answers_of(got, text, name):
    """The program's answers to a list, one for each operation."""
    printed, said, status = got
    answers = printed.split("\n")
    if status or said or len(answers) != text.count("\n") + 1:
        fail(f"{name}: the program prints {len(answers) - 1} answers, says {said!r} and ends with {status}", text)
    return answers


class Batch:
    """Histories, by their names, that go to the program as one list."""

    def __init__(self):
        self.histories, self.texts, self.size = {}, [], 0

    def has_room(self, text):
        return self.size + len(text) <= LIST

    def add(self, name, history, text):
        self.histories[name] = history
        self.texts.append(text)
        self.size += len(text)

    def check(self, got, counts):
        text, at = "".join(self.texts), 0
        answers = answers_of(got, text, "the list of " + next(iter(self.histories)))
        for name, history in self.histories.items():
            size = len(history.operations)
            count(counts, history, *checked(f"{name}, from line {at + 1} of its list", history, answers[at : at + size], text))
            at += size


def batches(histories):
    batch = Batch()
    for name, history in histories:
        text = history.text()
        if not batch.has_room(text):
            yield batch
            batch = Batch()
        batch.add(name, history, text)
    if batch.histories:
        yield batch


def run(program, histories):
    """Counts of the histories, which come with their names; as many lists as there are processors are with the program at a time."""
    counts, waiting, most = Counter(), deque(), os.cpu_count() or 1
    with ThreadPoolExecutor(most) as pool:
        for batch in batches(histories):
            waiting.append((batch, pool.submit(answered, program, "".join(batch.texts))))
            if len(waiting) > most:
                first, got = waiting.popleft()
                first.check(got.result(), counts)
        for batch, got in waiting:
            batch.check(got.result(), counts)
    return counts


def check_known(program):
    for name, cash, rows, wanted in KNOWN:
        history = History(cash, [event for event, _ in rows]).finish([30])
        text = history.text()
        answers = answers_of(answered(program, text), text, name)
        _, now = checked(name, history, answers, text)
        for (event, at), (_, answer) in zip(history.events, rows):
            if answers[at] != answer:
                fail(f"{name}: the answer to {event} is {answers[at]}, and was to be {answer}", text)
        if (now.left, now.long, now.short, now.gap, now.bound) != wanted:
            fail(f"{name}: the balance is {now}, and was to be {wanted}", text)


def main():
    number = int(sys.argv[1]) if len(sys.argv) > 1 else HISTORIES
    seed = int(sys.argv[2]) if len(sys.argv) > 2 else 1
    made = subprocess.run([ROOT / "bindings/program", "replay"], stdout=subprocess.PIPE, text=True, check=True)
    program, rng = made.stdout.strip(), random.Random(seed)
    check_known(program)
    print(f"{len(KNOWN)} histories with literal numbers alike")
    counts = run(program, ((f"history {n} of seed {seed}", drawn(rng)) for n in range(number)))
    print(f"{number} random histories alike, and the two statements hold of each. Seen:")
    print("\n".join(f"{name}: {counts[name]}" for name in COUNTED))
    print("Wrong readings, and how many histories refute each:")
    print("\n".join(f"{name}: {counts[name]}" for name in WRONG))
    missing = [name for name in [*COUNTED, *WRONG] if not counts[name]]
    if number >= HISTORIES and missing:
        sys.exit("never seen, or never refuted: " + "; ".join(missing))


if __name__ == "__main__":
    main()
