#!/usr/bin/env python3
"""Random days through the day program: days.py [COUNT [SEED]], or days.py --expected FILE.

Each day is an opening cash and fills, written as a person might: remarks, empty lines, blanks of each kind, zeros in front, carriage returns, no last
line feed. Numbers are small, at the limits of the rules, at the limits of their types, or beyond; one day in seven brings a total to its limit, to the
unit, and half of these go one past it. Two days in five are then spoilt: in a word, a line, a line's length or a byte. What the program prints, and
what it says on standard error, is held against a plain second reading of the rules (day_rules.py), byte for byte; every fiftieth day goes through
run-day too, with its status. Before them comes a day for each limit and for bytes that mean nothing, and days of 100,000 fills and what may follow.
A day that differs is kept in target/failed.day. A run of 5,000 days, which is the default, or more fails where no random day was refused by one of the
numbers, or with 9 for one of the totals alone.
--expected prints what is to be printed of the file's day, or else said.
"""
import random
import subprocess
import sys
from pathlib import Path

sys.dont_write_bytecode = True
from day_rules import COMMISSION, FILLS, LARGEST, LEAST, LINE, LOTS, MONEY, PRICE, U32, Ledger, expected

ROOT = Path(__file__).resolve().parent.parent
FAILED = ROOT / "target" / "failed.day"
DAYS = 5000
SIDES = {"above": "bid", "below": "ask"}
# The totals that a fill may take past their limits, either way, and how often a day does; a commission paid takes 4,000 fills.
HEAVY = {(total, way): 1 if total == "commission" else 2 for total in ("lots", "cash", "commission", "profit") for way in SIDES}
# How the random days must end, some of them at least: by each refusal, and by a 9 for each total alone.
NEEDED = ["refused 2", "refused 2, opening cash", "refused 8"] + [f"refused 9, {total} {way}" for total, way in HEAVY]


# ── random days ──


def near(rng, limit):
    return rng.choice([limit, limit - 1, limit + 1])


def signed(rng, limit, type_limit):
    size = rng.choice([0, rng.randrange(100), rng.randrange(limit + 1), near(rng, limit), near(rng, type_limit)])
    return rng.choice([1, -1]) * size


def any_fill(rng, calm):
    """Words of a fill: calm ones are within all limits."""
    small = calm or rng.random() < 0.97
    symbol = rng.randrange(4) if small else rng.choice([31, 32, near(rng, U32)])
    lots = rng.randrange(60) if small else rng.choice([0, near(rng, LOTS), near(rng, U32)])
    price = rng.randrange(90, 120) if small else rng.choice([0, 1, near(rng, PRICE), near(rng, U32)])
    commission = rng.randrange(-2, 5) if small else signed(rng, COMMISSION, 2**63)
    return [symbol, rng.choice(["bid", "ask"]), lots, price, commission]


def near_limit(rng, total, way):
    """An opening cash, and fills that bring a total close to its limit: no further from it than one fill can go, and the others far from theirs."""
    rest, some = rng.randrange(COMMISSION), rng.randrange(4)
    if total == "lots":
        return 2 * LOTS, [[1, SIDES[way], rng.randrange(LOTS), 1, 0]]
    if total == "cash" and way == "above":
        return MONEY - some * LOTS * PRICE - rest, [[i, "ask", LOTS, PRICE, 0] for i in range(some)]
    if total == "cash":  # a sale may leave cash below 0, a buy may not
        return some * COMMISSION + rest - MONEY, [[i, "ask", 0, 1, COMMISSION] for i in range(some)]
    if total == "commission":
        cash, each = (MONEY, COMMISSION) if way == "above" else (-MONEY, -COMMISSION)
        return cash, [[i % 32, "ask", 0, 1, each] for i in range(MONEY // COMMISSION - 1)]
    low, high = (1, PRICE) if way == "above" else (PRICE, 1)
    trade = [[1, "bid", LOTS, low, 0], [1, "ask", LOTS, high, 0]]
    rng.shuffle(trade)
    if way == "below":
        return MONEY, trade * 40
    spent = [[i, "bid", LOTS, PRICE, 0] for i in range(2, 12)]  # else cash would pass its limit first
    return LOTS, trade * 20 + spent + trade * 20


def at_limit(rng):
    """An opening cash, and fills that bring one total to its limit, to the unit; half the time another follows that goes one past it."""
    total, way = rng.choices(*zip(*HEAVY.items()))[0]
    cash, fills = near_limit(rng, total, way)
    ledger = Ledger(cash)
    for symbol, side, *numbers in fills:
        ledger.book(symbol, side == "bid", *numbers)
    lots, _, profit = ledger.positions[1]
    now, limit = {"lots": (lots, LOTS), "cash": (ledger.cash, MONEY), "commission": (ledger.commission, MONEY), "profit": (profit, MONEY)}[total]
    sign = 1 if (total == "commission") == (way == "above") else -1
    step = lambda by: [1, SIDES[way], by, 1, 0] if total == "lots" else [1, "ask", 0, 1, sign * by]
    return cash, fills + [step(limit - abs(now))] + [step(1)] * rng.randrange(2)


def written(rng, number):
    text = str(number)
    if rng.random() < 0.05:
        text = ("-" if text[0] == "-" else "") + "0" * rng.choice([1, 2, 30]) + text.lstrip("-")
    return text


def line_of(rng, words, plain):
    words = [w if isinstance(w, str) else written(rng, w) for w in words]
    if plain:
        return " ".join(words)
    blank = lambda least: "".join(rng.choice(" \t\r") for _ in range(rng.choice([least, least, 1, 3])))
    text = blank(0) + "".join(w + blank(1) for w in words[:-1]) + words[-1] + blank(0)
    return text + (rng.choice(["#", "# bought for the shop", "#1 bid 2 3 4"]) if rng.random() < 0.2 else "")


def spoilt_words(rng, words):
    words, at = list(words), rng.randrange(len(words))
    word = str(words[at])
    other = ["-", "+" + word, "-" + word, word + ".0", word.upper(), word + "x", "bid", "cash", "0x1", "1e3", str(U32 + 1), str(2**63), str(-(2**63) - 1), "٣"]
    kind = rng.randrange(3)
    if kind == 0:
        words[at] = rng.choice(other)
    elif kind == 1:
        del words[at]
    else:
        words.insert(at, rng.choice(other + ["1"]))
    return words or ["x"]


def day(rng):
    """The bytes of a day."""
    calm, plain = rng.random() < 0.4, rng.random() < 0.3
    count = rng.choice([0, 1, 5, 20, 60, 400])
    cash = rng.choice([0, 1000, 10**6, 10**12]) if calm or rng.random() < 0.9 else signed(rng, MONEY, 2**63)
    heavy = []
    if rng.random() < 0.15:
        cash, heavy = at_limit(rng)
    rows = [["cash", cash]] + heavy + [any_fill(rng, calm) for _ in range(count)]
    if not calm and rng.random() < 0.5:
        at = rng.randrange(len(rows))
        rows[at] = spoilt_words(rng, rows[at])
    if not calm and rng.random() < 0.1:
        at = rng.randrange(len(rows) + 1)
        rows.insert(at, rng.choice([["cash", 5], ["#"], rng.choice(rows)]))
    if rng.random() < 0.05:
        rows = rows[1:]
    texts = [line_of(rng, row, plain) for row in rows]
    if not plain:
        for _ in range(rng.randrange(4)):
            texts.insert(rng.randrange(len(texts) + 1), rng.choice(["", " \t", "# a remark", "#", "\r"]))
    if not calm and rng.random() < 0.1 and texts:
        at = rng.randrange(len(texts))
        texts[at] = (texts[at].split("#")[0] + rng.choice([" #", "   "])).ljust(rng.choice([LINE - 1, LINE, LINE + 1, 70000]))
    data = rng.choice(["\n", "\n", "\r\n"]).join(texts).encode() + rng.choice([b"\n", b""])
    if not calm and rng.random() < 0.1 and data:
        at = rng.randrange(len(data))
        data = data[:at] + bytes([rng.randrange(256)]) + data[at + rng.randrange(2) :]
    return data


def corners():
    """A day for each limit, of the rules and of the types: at it, and one beyond; and bytes that mean nothing. Each character is a byte."""
    for cash in (0, MONEY, MONEY + 1, -MONEY, -MONEY - 1, LARGEST, LARGEST + 1, LEAST, LEAST - 1):
        yield f"cash {cash}"
    limits = {0: (0, 31, 32, U32, U32 + 1), 2: (0, LOTS, LOTS + 1, U32, U32 + 1), 3: (0, 1, PRICE, PRICE + 1, U32, U32 + 1)}
    limits[4] = (COMMISSION, COMMISSION + 1, -COMMISSION, -COMMISSION - 1, LARGEST, LARGEST + 1, LEAST, LEAST - 1)
    for at, numbers in limits.items():
        for number in numbers + (-1, "-0", "+1", "-", "007", "1.0"):
            for side in ("bid", "ask"):
                words = ["3", side, "1", "1", "0"]
                words[at] = str(number)
                yield f"cash {MONEY}\n" + " ".join(words) + "\n"
    for length in (LINE - 1, LINE, LINE + 1):
        yield "cash 7".ljust(length) + "\n0 ask 1 1 0"
        yield "cash 7\n" + "0 ask 1 1 0".ljust(length)
        yield "#".ljust(length, "x") + "\ncash 7"
    for odd in "\0\v\f\x1c\x7f\x80\x85\xa0\xff":  # no blank, and no part of a word; in a remark anything may stand
        yield from (odd, f"{odd}cash 7", f"cash{odd}7", f"ca{odd}sh 7", f"cash 7{odd}", f"cash 7 {odd} ")
        for line in (odd, f"0{odd}ask 1 1 0", f"0 ask 1 1 {odd}0", f"0 ask 1 1 0{odd}", f"0 ask 1 1 0 {odd}", f"0 ask 1 1 0 #{odd}\n#{odd}"):
            yield f"cash 7\n{line}\n"
    yield "\xef\xbb\xbfcash 7\n"
    yield from ("", "\n", "#", "cash", "cash 7 7", "7", "0 ask 1 1 0", "cash 7\ncash 7", "cash 7\n0 ask 1 1", "cash 7\n0 ask 1 1 0 0", "cash 7\n0 Bid 1 1 0")


def full_days():
    """Days of as many fills as a day may have, and what may follow them, or may not."""
    fills = "".join(f"{i % 32} bid 1 1 0\n" for i in range(FILLS))
    for name, more in {
        "no more": "",
        "an empty line": "\n",
        "a remark": "# a remark",
        "a malformed line": "1 bid 1 1\n",
        "a fill": "1 bid 1 1 0",
        "a remark, a fill": "#\n1 bid 1 1 0\n",
    }.items():
        yield f"a day of {FILLS} fills and {name}", ("cash 1000000\n" + fills + more).encode()


# ── the comparison ──


def check(command, data, name, wanted):
    """Holds what is printed and said of a day, and the status, to what is wanted; keeps the day where it differs."""
    got = subprocess.run([command], input=data, capture_output=True)
    if (got.stdout, got.stderr, got.returncode) != wanted:
        FAILED.write_bytes(data)
        sys.exit(f"{name}: {command.name} prints, says or ends with something else; the day is in {FAILED}")


class Run:
    """The days tried so far, counted by how they ended."""

    def __init__(self, program):
        self.program, self.kinds = program, {}

    def tried(self, data, name, by_script=False):
        want = expected(data)
        check(self.program, data, name, (want.printed, want.said, 0))
        if by_script:
            check(ROOT / "run-day", data, name, (want.printed, b"run-day: " * bool(want.said) + want.said, int(bool(want.said))))
        self.kinds[want.ended] = self.kinds.get(want.ended, 0) + 1

    def told(self):
        return "; ".join(f"{kind}: {self.kinds[kind]}" for kind in sorted(self.kinds))


def main():
    if sys.argv[1:2] == ["--expected"]:
        sys.stdout.buffer.write(b"".join(expected(Path(sys.argv[2]).read_bytes())[:2]))
        return
    count = int(sys.argv[1]) if len(sys.argv) > 1 else DAYS
    seed = int(sys.argv[2]) if len(sys.argv) > 2 else 1
    made = subprocess.run([ROOT / "bindings/program", "day_fills"], stdout=subprocess.PIPE, text=True, check=True)
    program, rng = Path(made.stdout.strip()), random.Random(seed)
    fixed, drawn = Run(program), Run(program)
    for n, text in enumerate(corners()):
        fixed.tried(text.encode("latin-1"), f"corner {n}")
    for name, data in full_days():
        fixed.tried(data, name)
    print(f"{sum(fixed.kinds.values())} days at a corner alike. {fixed.told()}")
    for n in range(count):
        drawn.tried(day(rng), f"day {n} of seed {seed}", by_script=n % 50 == 0)
    print(f"{count} random days alike. {drawn.told()}")
    missing = [kind for kind in NEEDED if kind not in drawn.kinds]
    if count >= DAYS and missing:
        sys.exit("no random day ended so: " + "; ".join(missing))


if __name__ == "__main__":
    main()
