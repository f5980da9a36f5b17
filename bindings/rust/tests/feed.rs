//! Lines of the feed, and the receiver's turns.
mod common;
use common::{book_k, full_book, level, remove, set};
use wermazul::{line_end, line_kind, read_line, write_delta, write_snapshot};
use wermazul::{BookDelta, Error, Frame, LineKind, OrderBook, Receiver, Side, MAX_LINE, MAX_PRICE};

const EMPTY_AT_0: &[u8] = b"0200000000000000000000FE\n";
const BID_100_AT_1: &[u8] = b"0100000000006400000005000000000000000195\n";

fn delta_line(delta: BookDelta) -> Vec<u8> {
    let mut line = vec![0; 41];
    assert_eq!(write_delta(delta, &mut line), Ok(41));
    line
}

fn snapshot_line(book: &OrderBook) -> Vec<u8> {
    let mut line = vec![0; MAX_LINE];
    let length = write_snapshot(book, &mut line).unwrap();
    line.truncate(length);
    line
}

#[test]
fn lines_are_written() {
    assert_eq!(snapshot_line(&OrderBook::new()), EMPTY_AT_0);
    assert_eq!(delta_line(set(Side::Bid, 100, 5, 1)), BID_100_AT_1);
    assert_eq!(snapshot_line(&full_book()).len(), MAX_LINE);
}

#[test]
fn lines_are_read_back() {
    let deltas = [set(Side::Bid, MAX_PRICE, 1_000_000_000, u64::MAX), set(Side::Ask, 1, 0, 0), remove(Side::Ask, 7, 1 << 40)];
    for delta in deltas {
        assert_eq!(read_line(&delta_line(delta)), Ok(Frame::Delta(delta)));
        assert_eq!(line_kind(&delta_line(delta)), Ok(LineKind::Delta));
    }
    for book in [OrderBook::new(), book_k(), full_book()] {
        let line = snapshot_line(&book);
        assert_eq!(line_kind(&line), Ok(LineKind::Snapshot));
        assert_eq!(read_line(&line), Ok(Frame::Snapshot(book)));
    }
}

#[test]
fn a_removals_quantity_is_sent_as_0() {
    let with_quantity = BookDelta { quantity: u32::MAX, ..remove(Side::Bid, 9, 3) };
    assert_eq!(read_line(&delta_line(with_quantity)), Ok(Frame::Delta(remove(Side::Bid, 9, 3))));
}

#[test]
fn writers_refuse() {
    let mut out = [7; 40];
    assert_eq!(write_delta(set(Side::Bid, 100, 5, 1), &mut out), Err(Error::NoRoom));
    assert_eq!(write_delta(set(Side::Bid, 0, 5, 1), &mut out), Err(Error::OutOfLimits));
    assert_eq!(write_snapshot(&book_k(), &mut out), Err(Error::NoRoom));
    let no_book = OrderBook { asks: book_k().bids, ..book_k() };
    assert_eq!(write_snapshot(&no_book, &mut out), Err(Error::NotARecord));
    assert_eq!(out, [7; 40]);
}

#[test]
fn writers_keep_the_rest() {
    let mut out = [7; 45];
    assert_eq!(write_delta(set(Side::Bid, 100, 5, 1), &mut out), Ok(41));
    assert_eq!((&out[..41], &out[41..]), (BID_100_AT_1, &[7; 4][..]));
}

#[test]
fn damaged_lines() {
    let cut = &BID_100_AT_1[..40];
    let lower = EMPTY_AT_0.to_ascii_lowercase();
    let changed = [b"1", &EMPTY_AT_0[1..]].concat();
    let run_on = [BID_100_AT_1, EMPTY_AT_0].concat();
    let lines: [&[u8]; 6] = [b"", b"\n", cut, &lower, &changed, &run_on];
    for line in lines {
        assert_eq!(read_line(line), Err(Error::DamagedLine));
        assert_eq!(line_kind(line), Err(Error::DamagedLine));
    }
}

#[test]
fn ends_of_lines() {
    assert_eq!(line_end(b"ab\ncd\n"), 3);
    assert_eq!(line_end(b"\n"), 1);
    assert_eq!(line_end(b"cd"), 2);
    assert_eq!(line_end(b""), 0);
}

#[test]
fn four_lines() {
    let text = [EMPTY_AT_0, BID_100_AT_1, BID_100_AT_1, b"\n"].concat();
    let mut receiver = Receiver::new();
    assert_eq!(receiver, Receiver { state: 0, book: OrderBook::new() });
    assert!(!receiver.is_live());
    let (mut rest, mut outcomes) = (&text[..], Vec::new());
    while !rest.is_empty() {
        let (line, after) = rest.split_at(line_end(rest));
        outcomes.push(receiver.take_line(line));
        rest = after;
    }
    assert_eq!(outcomes, [Ok(()), Ok(()), Err(Error::OldFrame), Err(Error::DamagedLine)]);
    assert!(receiver.is_live());
    assert_eq!(receiver.book.sequence, 1);
    assert_eq!(receiver.book.snapshot(128), Ok((vec![level(100, 5)], vec![])));
}

#[test]
fn turns() {
    let k = snapshot_line(&book_k());
    let mut receiver = Receiver::default();
    assert_eq!(receiver.take_line(&delta_line(set(Side::Bid, 1, 1, 1))), Err(Error::Waiting));
    receiver.take_line(&k).unwrap();
    assert_eq!(receiver, Receiver { state: 1, book: book_k() });
    assert_eq!(receiver.take_line(&k), Err(Error::OldFrame));
    assert_eq!(receiver, Receiver { state: 1, book: book_k() });
    assert_eq!(receiver.take_line(&delta_line(set(Side::Bid, 1, 1, 7))), Err(Error::Gap));
    assert_eq!(receiver, Receiver { state: 0, book: book_k() });
    assert_eq!(receiver.take_line(EMPTY_AT_0), Err(Error::OldFrame));
    receiver.take_line(&k).unwrap();
    assert_eq!(receiver.take_line(&delta_line(set(Side::Bid, 101, 1, 6))), Err(Error::RefusedDelta));
    assert_eq!(receiver, Receiver { state: 0, book: book_k() });
    receiver.take_line(&k).unwrap();
    receiver.take_line(&delta_line(remove(Side::Ask, 101, 6))).unwrap();
    assert_eq!((receiver.state, receiver.book.best_ask()), (1, Ok(level(103, 6))));
}

#[test]
fn malformed_receivers() {
    let mut no_book = book_k();
    no_book.bids.count = 200;
    for receiver in [Receiver { state: 2, book: book_k() }, Receiver { state: 1, book: no_book }] {
        let mut after = receiver.clone();
        assert_eq!(after.take_line(EMPTY_AT_0), Err(Error::NotARecord));
        assert_eq!(after, receiver);
    }
}
