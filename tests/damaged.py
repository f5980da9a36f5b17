#!/usr/bin/env python3
"""Writes the feed of crates/feed_damaged: its stdin, and its stdout by the second reading of the rules in feeds.py.

One sender's lines; each kind of damage, loss, repeat and move once or more, with the whole line after it, so that the next outcomes show what the
damage left; then lines that are whole in form and refused by a rule.
"""
from pathlib import Path

from feeds import delta_line, line, received, snapshot_line

CRATE = Path(__file__).resolve().parent.parent / "crates" / "feed_damaged"
BID, ASK, SET, REMOVE = 0, 1, 0, 1


def feed():
    book = [{100: 5, 99: 0}, {101: 4}]
    next_one = delta_line(6, BID, SET, 98, 10)
    whole = snapshot_line(5, book)
    yield next_one  # waiting: 16
    yield whole[:-2] + b"\n"  # the end cut off, a digit
    yield whole[:1] + b"\n"  # all but a digit
    yield whole
    yield whole  # repeated
    for i, other in ((0, b"1"), (9, b"G"), (13, b"a"), (25, b" "), (39, b"\r"), (39, b"\0")):
        yield next_one[:i] + other + next_one[i + 1 :]  # a digit replaced: kind, no digit, lower case, blank, other bytes
    yield b"\n"  # empty
    yield next_one[:-1]  # its line feed lost: it runs into the next line
    yield next_one
    yield next_one
    yield b"\n" + next_one[:20] + b"\n" + next_one[20:]  # a line feed put in
    yield next_one[:-1] + b"\r\n"
    yield b"00" * 2060 + b"\n"  # the longest line, and one digit and two more
    yield b"00" * 2060 + b"0\n"
    yield b"00" * 2061 + b"\n"
    yield b"0" * 70000 + b"\n"  # longer than any buffer
    yield delta_line(8, ASK, SET, 103, 6)  # a gap: 7 was lost
    yield delta_line(7, ASK, SET, 102, 6)  # moved behind it
    yield snapshot_line(5, book)  # old
    yield snapshot_line(6, [{100: 5, 99: 0, 98: 10}, {101: 4}])
    yield delta_line(7, ASK, SET, 102, 6)
    yield delta_line(7, ASK, SET, 102, 6)  # repeated
    yield line(bytes([1, BID, REMOVE]) + (99).to_bytes(4, "big") + (1).to_bytes(4, "big") + (8).to_bytes(8, "big"))  # a Remove with a quantity
    for body in (b"\1\2\0", b"\1\0\2", b"\0\0\0", b"\3\0\0"):  # side, action, kinds
        yield line(body + (99).to_bytes(4, "big") + (1).to_bytes(4, "big") + (8).to_bytes(8, "big"))
    yield delta_line(8, BID, SET, 0, 1)  # outside the limits
    yield delta_line(8, BID, SET, 10**8 + 1, 1)
    yield delta_line(8, BID, SET, 99, 10**9 + 1)
    yield snapshot_line(9, [{101: 1}, {101: 1}])  # no book
    yield line(b"\2" + (9).to_bytes(8, "big") + b"\2\0" + b"".join(n.to_bytes(4, "big") for n in (99, 1, 100, 1)))  # bids that rise
    yield line(b"\2" + (9).to_bytes(8, "big") + b"\1\0")  # a level too few
    yield delta_line(8, BID, SET, 101, 1)  # the next, and the book refuses it
    yield delta_line(8, BID, SET, 99, 7)  # waiting
    yield snapshot_line(2**64 - 1, book)
    yield delta_line(2**64 - 1, BID, SET, 99, 7)
    yield snapshot_line(2**64 - 1, book)[:-1]  # the last line feed lost, at the end of the feed


def main():
    data = b"".join(feed())
    (CRATE / "stdin").write_bytes(data)
    (CRATE / "stdout").write_text(received(data)[0])


main()
