"""A plain second reading of the rules of a day, in exact integers: what the day program is to print, what it is to say, and how the day ends. For
tests/days.py; the ledger, with its deposits, for tests/histories.py too."""
import re
from typing import NamedTuple

FILLS, LINE = 100_000, 4096
U32, LARGEST, LEAST = 2**32 - 1, 2**63 - 1, -(2**63)
PRICE, LOTS, COMMISSION, DEPOSIT, MONEY, SYMBOLS = 10**8, 10**9, 10**15, 10**18, 4 * 10**18, 32


class Malformed(Exception):
    """A line that is none of a day, with what is said of it."""


def number(word, low, high):
    if not re.fullmatch(rb"-?[0-9]+" if low < 0 else rb"[0-9]+", word) or not low <= int(word) <= high:
        raise ValueError
    return int(word)


def fill(words):
    symbol, side, quantity, price, commission = words
    if side not in (b"bid", b"ask"):
        raise ValueError
    whole = [number(w, 0, U32) for w in (symbol, quantity, price)]
    return whole[0], side == b"bid", whole[1], whole[2], number(commission, LEAST, LARGEST)


def opening(words):
    word, cash = words
    if word != b"cash":
        raise ValueError
    return number(cash, LEAST, LARGEST)


def read(data):
    """The opening cash with its line, and the fills, each with its line."""
    lines = data.split(b"\n")
    cash, fills = None, []
    for at, line in enumerate(lines if lines[-1] else lines[:-1], 1):
        if len(line) > LINE:
            raise Malformed(f"line {at}: longer than {LINE} bytes")
        words = [w for w in re.split(rb"[ \t\r]", line.split(b"#")[0]) if w]
        try:
            if words and cash is None:
                cash = opening(words), at
            elif words:
                fills.append((fill(words), at))
        except ValueError:
            raise Malformed(f"line {at}: " + ("not an opening cash" if cash is None else "not a fill"))
        if len(fills) > FILLS:
            raise Malformed(f"line {at}: more than {FILLS} fills")
    if cash is None:
        raise Malformed("the day has no opening cash")
    return cash, fills


def moved(position, bought, lots, price, commission):
    """A position after a fill."""
    quantity, average, realized = position
    old, grows = abs(quantity), quantity == 0 or (quantity > 0) == bought
    closed = 0 if grows else min(lots, old)
    realized += closed * ((average - price) if bought else (price - average)) - commission
    if lots and grows:
        average = (average * old + price * lots) // (old + lots)
    elif lots >= old and lots:
        average = 0 if lots == old else price
    return quantity + (lots if bought else -lots), average, realized


class Refusal(NamedTuple):
    number: int
    values: tuple = ()
    past: tuple = ()  # of a 9: the totals that would leave their limits, each with the way


def past_limits(lots, cash, commission, profit):
    totals = ("lots", lots, LOTS), ("cash", cash, MONEY), ("commission", commission, MONEY), ("profit", profit, MONEY)
    return tuple(name + (" above" if total > 0 else " below") for name, total, limit in totals if abs(total) > limit)


class Ledger:
    def __init__(self, cash):
        self.cash, self.commission, self.positions = cash, 0, [(0, 0, 0)] * SYMBOLS

    def book(self, symbol, bought, lots, price, commission):
        """None where the fill is taken, else its refusal."""
        if symbol >= SYMBOLS or lots > LOTS or not 1 <= price <= PRICE or abs(commission) > COMMISSION:
            return Refusal(2)
        need = (lots if bought else -lots) * price + commission
        cash, paid = self.cash - need, self.commission + commission
        if bought and cash < 0:
            return Refusal(8, (need, self.cash))
        position = moved(self.positions[symbol], bought, lots, price, commission)
        past = past_limits(position[0], cash, paid, position[2])
        if past:
            return Refusal(9, past=past)
        self.cash, self.commission, self.positions[symbol] = cash, paid, position
        return None

    def deposit(self, amount):
        """None where the deposit is taken, else its refusal."""
        if abs(amount) > DEPOSIT:
            return Refusal(2)
        if abs(self.cash + amount) > MONEY:
            return Refusal(9)
        self.cash += amount
        return None


def refused(why, line):
    return " ".join(map(str, ["refused", why.number, "at line", line, *why.values]))


def booked(data):
    """What the day program is to print, and how the day ends."""
    (cash, at), fills = read(data)
    if abs(cash) > MONEY:
        return refused(Refusal(2), at) + "\n", "refused 2, opening cash"
    ledger, taken, rows, ended = Ledger(cash), 0, [], "all taken"
    for one, line in fills:
        why = ledger.book(*one)
        if why:
            rows, ended = [refused(why, line)], ", ".join([f"refused {why.number}", *why.past])
            break
        taken += 1
    rows = [f"taken {taken}"] + rows + [f"cash {ledger.cash}", f"commission {ledger.commission}"]
    rows += [f"{i} {p[0]} {p[1]} {p[2]}" for i, p in enumerate(ledger.positions) if any(p)]
    return "\n".join(rows) + "\n", ended


class Expected(NamedTuple):
    printed: bytes
    said: bytes
    ended: str


def expected(data):
    """What is printed, what is said, and how the day ends, in few words."""
    try:
        text, ended = booked(data)
        return Expected(text.encode(), b"", ended)
    except Malformed as why:
        return Expected(b"", f"{why}\n".encode(), "said: " + re.sub(r"^line \d+: ", "", str(why)))
