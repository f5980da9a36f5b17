"""A plain second reading of what must balance over a history, in exact integers, from its events and from what the program answered to them; and slips in
reading it. For tests/histories.py."""
from typing import NamedTuple

from history_events import Deposit, Fill


class Offered(NamedTuple):
    """An event, the number of the program's answer to it, and of a fill the position before it, as the program printed it last."""

    event: tuple
    number: int
    held: int = 0
    average: int = 0


def offered(history, answers):
    positions, events = {}, []
    for event, at in history.events:
        number, *values = map(int, answers[at].split())
        if isinstance(event, Deposit):
            events.append(Offered(event, number))
            continue
        events.append(Offered(event, number, *positions.get(event.symbol, (0, 0))))
        if number == 0:
            positions[event.symbol] = values[:2]
    return events


def deposits(events, taken):
    """The sum of the deposits that were taken, or of those that were refused."""
    return sum(one.event.amount for one in events if isinstance(one.event, Deposit) and (one.number == 0) == taken)


class Increase(NamedTuple):
    is_long: bool
    old: int
    new: int
    remainder: int
    taken: bool


def is_increase(held, bought):
    return held == 0 or (held > 0) == bought


def increase(one):
    fill, old = one.event, abs(one.held)
    remainder = (one.average * old + fill.price * fill.lots) % (old + fill.lots) if fill.lots else 0
    return Increase(fill.bought, old, old + fill.lots, remainder, one.number == 0)


def increases(events):
    """All that were offered, the refused ones with what their division would have left."""
    return [increase(one) for one in events if isinstance(one.event, Fill) and is_increase(one.held, one.event.bought)]


def remainders(increases, is_long, taken=True):
    return sum(one.remainder for one in increases if one.is_long == is_long and one.taken == taken)


def ended(history, answers):
    """The left side of the first statement, and the commission paid, from what the program shows at the end."""
    left = 0
    for at in history.ends.values():
        _, cash, commission, lots, average, realized = map(int, answers[at].split())
        left += lots * average - realized
    return left + cash, commission


class Balance(NamedTuple):
    left: int
    right: int
    gap: int
    bound: int  # of the gap: the new quantities of the accepted increases that leave a remainder, which is 0 where there are none
    old: int  # the old quantities of the same
    commission: int
    long: int  # the remainders of accepted increases of long positions
    short: int
    refused_deposits: int
    refused_remainders: int  # those of short positions less those of long ones, as the right side has those of accepted increases


def balance(history, answers, events):
    left, commission = ended(history, answers)
    grown, paid = increases(events), history.opening + deposits(events, True)
    long, short = remainders(grown, True), remainders(grown, False)
    uneven = [one for one in grown if one.taken and one.remainder]
    return Balance(
        left=left,
        right=paid - long + short,
        gap=abs(left - paid),
        bound=sum(one.new for one in uneven),
        old=sum(one.old for one in uneven),
        commission=commission,
        long=long,
        short=short,
        refused_deposits=deposits(events, False),
        refused_remainders=remainders(grown, False, taken=False) - remainders(grown, True, taken=False),
    )


STATEMENTS = {
    "the balance": lambda b: b.left == b.right,
    "the bound of the gap": lambda b: b.gap < b.bound if b.bound else b.gap == 0,
}
# Slips in reading them, each false of some history.
WRONG = {
    "a short position's remainder counted as a long one's": lambda b: b.left == b.right - 2 * b.short,
    "realized profit without commission": lambda b: b.left - b.commission == b.right,
    "refused deposits counted": lambda b: b.left == b.right + b.refused_deposits,
    "remainders of refused increases counted": lambda b: b.left == b.right + b.refused_remainders,
    "a bound of old quantities": lambda b: b.gap < b.old if b.bound else b.gap == 0,
    "a gap below the sum where no increase leaves a remainder": lambda b: b.gap < b.bound,
    "a bound that is one less": lambda b: b.gap + 1 < b.bound if b.bound else b.gap == 0,
}
