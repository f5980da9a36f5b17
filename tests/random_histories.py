"""Random histories of a ledger: small ones where remainders are common, and ones that bring lots, cash or a profit to a limit. For tests/histories.py."""
from typing import NamedTuple

from day_rules import COMMISSION, DEPOSIT, LOTS, MONEY, PRICE, SYMBOLS, U32
from history_events import Deposit, Fill, History


class Shape(NamedTuple):
    """How the events of a history are drawn."""

    symbols: list
    low: int
    high: int
    lots: int  # the most in a common fill
    bids: float
    deposits: float
    odd: float  # how many events have a number at a limit, or past it

    def cost(self):
        return self.lots * self.high


def any_shape(rng):
    low, high = rng.choice([(1, 3), (1, 30), (95, 110), (95, 110), (1000, 1001), (PRICE - 40, PRICE), (1, PRICE)])
    return Shape(
        symbols=rng.sample(range(SYMBOLS), rng.choices([1, 2, 3, 4, SYMBOLS], [8, 6, 4, 3, 1])[0]),
        low=low,
        high=high,
        lots=rng.choice([2, 5, 5, 12, 12, 100, 10**4, LOTS // 2]),
        bids=rng.choice([0.1, 0.5, 0.5, 0.9]),
        deposits=rng.choice([0, 0.05, 0.2, 0.5]),
        odd=rng.choice([0, 0, 0.02, 0.2]),
    )


def opening(rng, cost):
    """An opening cash beside what a fill may cost: none, little, enough, or near a limit."""
    near = MONEY - rng.choice([0, 1, rng.randrange(1000), rng.randrange(cost + 1), rng.randrange(DEPOSIT)])
    kinds = [0, rng.randrange(3 * cost), 40 * cost, -rng.randrange(3 * cost), near, -near, rng.choice([1, -1]) * (MONEY + 1)]
    return rng.choices(kinds, [10, 20, 60, 2, 4, 3, 1])[0]


def some_lots(rng, most, held, bought):
    """Lots of a fill beside the lots held: none, an increase, a part of the position, all of it, or past it."""
    some = rng.randrange(1, most + 1)
    if rng.random() < 0.05:
        return 0
    if held == 0 or (held > 0) == bought:
        return some
    return rng.choice([rng.randrange(1, abs(held) + 1), rng.randrange(1, abs(held) + 1), abs(held), min(LOTS, abs(held) + some), some])


def odd_fill(rng, fill, held):
    """The fill with one number at a limit, or past it."""
    sign, room = rng.choice([1, -1]), max(0, LOTS - abs(held))
    name, numbers = rng.choice(
        [
            ("symbol", [SYMBOLS - 1, SYMBOLS, U32]),
            ("lots", [0, 1, LOTS, LOTS + 1, room, room + 1]),
            ("price", [0, 1, PRICE, PRICE + 1]),
            ("commission", [sign * COMMISSION, sign * (COMMISSION + 1)]),
        ]
    )
    return fill._replace(**{name: rng.choice(numbers)})


def some_fill(rng, shape, ledger):
    symbol, bought = rng.choice(shape.symbols), rng.random() < shape.bids
    held = ledger.positions[symbol][0]
    commission = rng.choice([0, 0, 0, 1, 2, 5, -1, -3])
    fill = Fill(symbol, bought, some_lots(rng, shape.lots, held, bought), rng.randint(shape.low, shape.high), commission)
    return odd_fill(rng, fill, held) if rng.random() < shape.odd else fill


def some_deposit(rng, shape, ledger):
    if rng.random() >= max(shape.odd, 0.05):
        return Deposit(rng.randint(-shape.cost(), 2 * shape.cost()))
    sign, past = rng.choice([1, -1]), rng.randrange(2)
    return Deposit(rng.choice([0, sign * (DEPOSIT + past), sign * (MONEY + past) - ledger.cash]))


def full_position(rng):
    """A position close to its limit, filled up lot by lot a unit below its average: such an increase leaves one less than the new quantity."""
    symbol, bought, spare = rng.randrange(SYMBOLS), rng.random() < 0.5, rng.randrange(1, 5)
    history = History(MONEY // 2, [Fill(symbol, bought, LOTS - spare, rng.choice([PRICE, rng.randrange(10, PRICE)]))])
    for _ in range(spare + rng.randrange(2)):
        history.offer(Fill(symbol, bought, 1, history.ledger.positions[symbol][1] - 1))
    return history


def full_cash(rng):
    """Cash that a deposit or a fill takes to its limit, to the unit, and others that would take it past."""
    sign, some = rng.choice([1, -1]), rng.randrange(1, 1000)
    past = [Deposit(sign), Fill(rng.randrange(SYMBOLS), False, 1 if sign > 0 else 0, 1, 0 if sign > 0 else 1)]
    rng.shuffle(past)
    return History(sign * (MONEY - some), [rng.choice([Deposit(sign * some), Fill(1, False, 0, 1, -sign * some)])] + past)


def full_profit(rng):
    """A realized profit that a commission takes to its limit, to the unit, and others that would take it past."""
    symbol, sign = rng.randrange(SYMBOLS), rng.choice([1, -1])
    low, high = (1, PRICE) if sign > 0 else (PRICE, 1)
    trade = [Fill(symbol, True, LOTS, low), Fill(symbol, False, LOTS, high)]
    rng.shuffle(trade)
    history = History(MONEY // 2)
    for _ in range(40):
        cash = history.ledger.cash
        if not DEPOSIT < cash < 3 * DEPOSIT:
            history.offer(Deposit(DEPOSIT if cash < 2 * DEPOSIT else -DEPOSIT))
        for fill in trade:
            history.offer(fill)
    history.offer(Fill(symbol, False, 0, 1, history.ledger.positions[symbol][2] - sign * MONEY))
    history.offer(Fill(symbol, rng.random() < 0.5, 0, 1, -sign))
    return history


def drawn(rng):
    now = any_shape(rng)
    plain = lambda rng: History(opening(rng, now.cost()))
    history = rng.choices([plain, full_position, full_cash, full_profit], [93, 4, 2.6, 0.4])[0](rng)
    for _ in range(rng.choices([1, 2, 3, 5, 8, 12, 20, 30, 60, 200], [10, 10, 10, 10, 10, 10, 10, 6, 3, 0.2])[0]):
        some = some_deposit if rng.random() < now.deposits else some_fill
        history.offer(some(rng, now, history.ledger))
    others = [symbol for symbol in range(SYMBOLS) if symbol not in history.touched]
    return history.finish(rng.sample(others, min(len(others), rng.randrange(1, 3))))
