"""Histories of a ledger: an opening cash, then fills and deposits, as operations of docs/CASES.md, each with the answer of the plain second reading; and
some with literal numbers. For tests/histories.py."""
from typing import NamedTuple

from day_rules import LOTS, MONEY, SYMBOLS, Ledger


def amount(number):
    return f"{int(number < 0)} {abs(number)}"


def words(*numbers):
    return " ".join(map(str, numbers))


class Fill(NamedTuple):
    symbol: int
    bought: bool
    lots: int
    price: int
    commission: int = 0

    def operation(self):
        return f"7 {self.symbol} {int(not self.bought)} {self.lots} {self.price} {amount(self.commission)}"


class Deposit(NamedTuple):
    amount: int

    def operation(self):
        return f"8 {amount(self.amount)}"


def at_limits(ledger, symbol):
    lots, _, realized = ledger.positions[symbol]
    totals = {"cash": (ledger.cash, MONEY), "lots": (lots, LOTS), "a realized profit": (realized, MONEY)}
    return [f"events that left {name} at the limit" for name, (total, limit) in totals.items() if abs(total) == limit]


class History:
    """An opening cash and the events after it, as operations, each with what the second reading answers to it."""

    def __init__(self, cash, events=()):
        self.is_opened = abs(cash) <= MONEY
        self.opening = cash if self.is_opened else 0
        self.ledger, self.touched = Ledger(self.opening), {}
        self.events, self.ends = [], {}  # events with the places of their answers; the places of what is shown of symbols at the end
        self.operations, self.wanted = [f"6 {amount(cash)}"], ["0" if self.is_opened else "2"]
        self.met = []  # what is counted of limits: totals that an event left there, and one that alone would have gone past
        for event in events:
            self.offer(event)

    def show(self, symbol):
        self.operations.append(f"20 {symbol}")
        self.wanted.append(words(0, self.ledger.cash, self.ledger.commission, *self.ledger.positions[symbol]))

    def offer(self, event):
        ledger, is_fill = self.ledger, isinstance(event, Fill)
        why = (ledger.book if is_fill else ledger.deposit)(*event)
        self.events.append((event, len(self.operations)))
        self.operations.append(event.operation())
        symbol = event.symbol if is_fill and event.symbol < SYMBOLS else 0
        self.touched[symbol] = True
        if why:
            self.wanted.append(words(why.number, *why.values))
            self.met += [f"fills refused with 9 for {total}" for total in why.past if len(why.past) == 1]
        else:
            self.wanted.append(words(0, *ledger.positions[symbol], ledger.cash) if is_fill else "0")
            self.met += at_limits(ledger, symbol)
        if why or not is_fill:
            self.show(symbol)

    def finish(self, untouched):
        """Shows each symbol that an event had, and these others."""
        for symbol in [*self.touched, *untouched]:
            self.ends[symbol] = len(self.operations)
            self.show(symbol)
        return self

    def text(self):
        return "\n".join(self.operations) + "\n"


# ── histories with literal numbers ──


def buy(symbol, *numbers):
    return Fill(symbol, True, *numbers)


def sell(symbol, *numbers):
    return Fill(symbol, False, *numbers)


# Name, opening cash, events with the answers to them, and of the balance: left side, remainders of long and of short positions, gap and bound.
KNOWN = [
    (
        "the longer cash example",
        10000,
        [
            (buy(0, 3, 100, 2), "0 3 100 -2 9698"),
            (buy(0, 2, 101), "0 5 100 -2 9496"),
            (sell(0, 4, 110, 1), "0 1 100 37 9935"),
            (sell(0, 3, 90), "0 -2 90 27 10205"),
        ],
        (9998, 2, 0, 2, 5),
    ),
    ("a short position", 0, [(sell(0, 3, 100), "0 -3 100 0 300"), (sell(0, 2, 101), "0 -5 100 0 502")], (2, 0, 2, 2, 5)),
    (
        "refusals in the middle",
        1000,
        [
            (buy(0, 3, 100), "0 3 100 0 700"),
            (Deposit(10**18 + 1), "2"),
            (buy(0, 10, 151), "8 1510 700"),
            (Deposit(-50), "0"),
            (sell(32, 1, 100), "2"),
            (buy(0, 2, 102), "0 5 100 0 446"),
        ],
        (946, 4, 0, 4, 5),
    ),
    (
        "remainders that cancel",
        10000,
        [(buy(0, 3, 100), "0 3 100 0 9700"), (buy(0, 2, 101), "0 5 100 0 9498"), (sell(1, 3, 100), "0 -3 100 0 9798"), (sell(1, 2, 101), "0 -5 100 0 10000")],
        (10000, 2, 2, 0, 10),
    ),
    (
        "a turnover, no lots, and flat",
        1000,
        [
            (sell(7, 3, 100, 1), "0 -3 100 -1 1299"),
            (buy(7, 5, 90), "0 2 90 29 849"),
            (buy(7, 0, 5, 4), "0 2 90 25 845"),
            (buy(7, 1, 92), "0 3 90 25 753"),
            (sell(7, 3, 91), "0 0 0 28 1026"),
        ],
        (998, 2, 0, 2, 3),
    ),
    (
        "cash at its limit",
        4 * 10**18,
        [(Deposit(1), "9"), (sell(0, 1, 1), "9"), (buy(0, 1, 1), "0 1 1 0 3999999999999999999"), (Deposit(1), "0"), (sell(0, 1, 1), "9")],
        (4 * 10**18 + 1, 0, 0, 0, 0),
    ),
    (
        "the largest remainder",
        10**17,
        [(buy(31, 999999999, 10**8), "0 999999999 100000000 0 100000000"), (buy(31, 1, 99999999), "0 1000000000 99999999 0 1")],
        (99999999000000001, 999999999, 0, 999999999, 10**9),
    ),
]
