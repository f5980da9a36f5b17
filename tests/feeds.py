#!/usr/bin/env python3
"""Random feeds through the feed program: feeds.py [COUNT [SEED]].

Each feed is a sender's history (deltas offered to a plain book, those accepted sent, snapshots between; a third of the senders are not honest
and send some that their book refused), then loss, repeats, moves and damage. What the program prints is held against a plain second reading of the rules, byte for byte, and a live end state against the
sender's own book after that number. The program is run by run-feed, which builds it the first time.
"""
import random
import subprocess
import sys
from pathlib import Path

PROGRAM = Path(__file__).resolve().parent.parent / "run-feed"
LEVELS, PRICES, QUANTITIES = 128, 10**8, 10**9


def is_side(levels, falling):
    prices = [p for p, _ in levels]
    ordered = all((a > b) if falling else (a < b) for a, b in zip(prices, prices[1:]))
    return len(levels) <= LEVELS and ordered and all(1 <= p <= PRICES and q <= QUANTITIES for p, q in levels)


def is_apart(bids, asks):
    return not (bids and asks) or max(bids) < min(asks)


def applied(book, side, remove, price, quantity):
    """The two sides after a delta that is next, or None where the book refuses it."""
    new = [dict(book[0]), dict(book[1])]
    if remove:
        new[side].pop(price, None)
    else:
        new[side][price] = quantity
    return new if len(new[side]) <= LEVELS and is_apart(*new) else None


def line(body):
    return ((body + bytes([-sum(body) % 256])).hex().upper() + "\n").encode()


def best_first(book):
    return sorted(book[0].items(), reverse=True), sorted(book[1].items())


def snapshot_line(number, book):
    bids, asks = best_first(book)
    levels = b"".join(p.to_bytes(4, "big") + q.to_bytes(4, "big") for p, q in bids + asks)
    return line(b"\2" + number.to_bytes(8, "big") + bytes([len(bids), len(asks)]) + levels)


def delta_line(number, side, remove, price, quantity):
    numbers = price.to_bytes(4, "big") + (0 if remove else quantity).to_bytes(4, "big") + number.to_bytes(8, "big")
    return line(bytes([1, side, remove]) + numbers)


def read(text):
    """A frame, or None for damage."""
    digits = text[:-1]
    if text[-1:] != b"\n" or len(digits) > 4120 or len(digits) % 2 or not digits:
        return None
    if any(c not in b"0123456789ABCDEF" for c in digits):
        return None
    b = bytes.fromhex(digits.decode())
    if sum(b) % 256:
        return None
    number = lambda i, k: int.from_bytes(b[i : i + k], "big")
    if b[0] == 1 and len(b) == 20:
        side, remove, price, quantity = b[1], b[2], number(3, 4), number(7, 4)
        fits = side <= 1 and remove <= 1 and 1 <= price <= PRICES and quantity <= QUANTITIES and not (remove and quantity)
        return ("delta", number(11, 8), side, remove, price, quantity) if fits else None
    if b[0] == 2 and len(b) >= 12 and len(b) == 12 + 8 * (b[9] + b[10]):
        levels = [(number(11 + 8 * i, 4), number(15 + 8 * i, 4)) for i in range(b[9] + b[10])]
        bids, asks = levels[: b[9]], levels[b[9] :]
        if is_side(bids, True) and is_side(asks, False) and is_apart(dict(bids), dict(asks)):
            return ("snapshot", number(1, 8), dict(bids), dict(asks))
    return None


def received(data):
    """What the feed program is to print."""
    lines = data.split(b"\n")
    lines = [l + b"\n" for l in lines[:-1]] + ([lines[-1]] if lines[-1] else [])
    live, held, book, out = False, 0, [{}, {}], []
    for at, text in enumerate(lines, 1):
        frame = read(text)
        if frame is None:
            outcome = 12
        elif frame[0] == "snapshot":
            outcome = 14
            if frame[1] > held or (not live and frame[1] == held):
                live, held, book, outcome = True, frame[1], [frame[2], frame[3]], 0
        elif not live:
            outcome = 16
        elif frame[1] <= held:
            outcome = 14
        elif frame[1] > held + 1:
            live, outcome = False, 15
        else:
            new = applied(book, *frame[2:])
            live, outcome = new is not None, 17 if new is None else 0
            if new is not None:
                held, book = frame[1], new
        out.append(f"{at} {outcome}")
    if live:
        bids, asks = best_first(book)
        out += [f"live {held}"] + [f"bid {p} {q}" for p, q in bids] + [f"ask {p} {q}" for p, q in asks]
    else:
        out.append("waiting")
    return "\n".join(out) + "\n", live, held, book


def sent(rng):
    """The lines of a sender, and its book after each number."""
    books, lines = [[{}, {}]], []
    wide, honest = rng.choice([6, 40, 300]), rng.randrange(3) > 0
    for _ in range(rng.randrange(1, 120)):
        side, remove = rng.randrange(2), rng.randrange(4) == 0
        price = 1000 + rng.randrange(-wide, 5) if side == 0 else 1000 + rng.randrange(-4, wide)
        quantity = rng.choice([0, 1, rng.randrange(QUANTITIES + 1), QUANTITIES])
        new = applied(books[-1], side, remove, price, quantity)
        if new is not None:
            books.append(new)
            lines.append(delta_line(len(books) - 1, side, int(remove), price, quantity))
        elif not honest and rng.randrange(3) == 0:
            lines.append(delta_line(len(books), side, int(remove), price, quantity))
        if rng.randrange(8) == 0 or not lines:
            lines.append(snapshot_line(len(books) - 1, books[-1]))
    return lines, books


def arrived(rng, lines):
    """Lost, repeated, moved, damaged."""
    out, rate = [], rng.choice([0, 0.01, 0.1])
    for text in lines:
        if rng.random() >= rate:
            out.append(text)
        if rng.random() < rate:
            out.insert(rng.randrange(len(out) + 1), text)
    for at, text in enumerate(out):
        if rng.random() < rate:
            digits, kind = text[:-1], rng.randrange(5)
            if kind == 0:
                i = rng.randrange(len(digits))
                other = rng.choice([c for c in range(256) if c not in (10, digits[i])])
                out[at] = digits[:i] + bytes([other]) + digits[i + 1 :] + b"\n"
            elif kind == 1:
                out[at] = digits[: rng.randrange(1, len(digits))] + b"\n"
            elif kind == 2:
                out[at] = digits
            elif kind == 3:
                out[at] = digits + b"\r\n"
            else:
                out[at] = digits.lower() + b"\n"
    return b"".join(out)


def main():
    count = int(sys.argv[1]) if len(sys.argv) > 1 else 2000
    seed = int(sys.argv[2]) if len(sys.argv) > 2 else 1
    rng, ends, outcomes = random.Random(seed), {True: 0, False: 0}, {}
    for n in range(count):
        lines, books = sent(rng)
        data = arrived(rng, lines)
        want, live, held, book = received(data)
        got = subprocess.run([PROGRAM], input=data, capture_output=True, check=True).stdout.decode()
        if got != want:
            sys.exit(f"feed {n} of seed {seed}: the program prints something else")
        if live and book != books[held]:
            sys.exit(f"feed {n} of seed {seed}: the book shown at {held} is not the sender's")
        ends[live] += 1
        for row in want.split("\n"):
            if row[:1].isdigit():
                outcome = row.split()[1]
                outcomes[outcome] = outcomes.get(outcome, 0) + 1
    told = ", ".join(f"{k}: {outcomes[k]}" for k in sorted(outcomes, key=int))
    print(f"{count} feeds alike: {ends[True]} ended live with the sender's book, {ends[False]} waiting; outcomes {told}")


if __name__ == "__main__":
    main()
