//! Each refusal, reached by a call: its number, what it carries, and its words.
mod common;
use common::{book_k, full_book, set};
use wermazul::{write_delta, Error, Fill, OrderBook, PositionLedger, Receiver, Side};

fn sell(ledger: &mut PositionLedger, quantity: u32) -> Result<(), Error> {
    ledger.apply_fill(Fill { symbol: 3, side: Side::Ask, quantity, price: 1, commission: 0 })
}

fn by_the_book() -> Vec<Error> {
    let mut no_book = book_k();
    no_book.bids.count = 129;
    let mut last = OrderBook { sequence: u64::MAX, ..OrderBook::new() };
    vec![
        no_book.clear().unwrap_err(),
        book_k().depth_at(Side::Bid, 0).unwrap_err(),
        last.apply_delta(set(Side::Bid, 1, 1, 0)).unwrap_err(),
        book_k().apply_delta(set(Side::Bid, 1, 1, u64::MAX)).unwrap_err(),
        book_k().apply_delta(set(Side::Ask, 99, 1, 6)).unwrap_err(),
        full_book().apply_delta(set(Side::Ask, 2000, 1, 257)).unwrap_err(),
        book_k().vwap_for_qty(Side::Ask, 11).unwrap_err(),
    ]
}

fn by_the_ledger() -> (Error, Error, Error) {
    let mut ledger = PositionLedger::new(-1).unwrap();
    let buy = Fill { symbol: 3, side: Side::Bid, quantity: 1, price: 8, commission: 1 };
    let short_of_cash = ledger.apply_fill(buy).unwrap_err();
    sell(&mut ledger, 1_000_000_000).unwrap();
    let past_limit = sell(&mut ledger, 1).unwrap_err();
    (short_of_cash, past_limit, ledger.net_liquidation_value(&[0; 32]).unwrap_err())
}

/// 14 to 17, from one receiver.
fn by_the_receiver() -> Vec<Error> {
    let line = |delta| {
        let mut line = [0; 41];
        write_delta(delta, &mut line).unwrap();
        line
    };
    let mut live = Receiver { state: 1, book: book_k() };
    let old = live.take_line(&line(set(Side::Bid, 1, 1, 5))).unwrap_err();
    let gap = live.take_line(&line(set(Side::Bid, 1, 1, 7))).unwrap_err();
    let waiting = live.take_line(&line(set(Side::Bid, 1, 1, 6))).unwrap_err();
    let mut again = Receiver { state: 1, book: book_k() };
    let refused = again.take_line(&line(set(Side::Ask, 100, 1, 6))).unwrap_err();
    vec![old, gap, waiting, refused]
}

#[test]
fn each_has_its_number_and_values() {
    let (short_of_cash, past_limit, unpriced) = by_the_ledger();
    let mut reached = by_the_book();
    reached.extend([
        short_of_cash,
        past_limit,
        OrderBook::new().spread().unwrap_err(),
        write_delta(set(Side::Bid, 1, 1, 1), &mut []).unwrap_err(),
        Receiver::new().take_line(b"\n").unwrap_err(),
        unpriced,
    ]);
    reached.extend(by_the_receiver());
    let expected = [
        Error::NotARecord,
        Error::OutOfLimits,
        Error::LastSequence,
        Error::SequenceMismatch { expected: 6, got: u64::MAX },
        Error::InvertedSpread { best_bid: 100, best_ask: 99 },
        Error::FullSide,
        Error::InsufficientLiquidity { target: 11 },
        Error::InsufficientFunds { need: 9, have: -1 },
        Error::PastLimit,
        Error::NoValue,
        Error::NoRoom,
        Error::DamagedLine,
        Error::Unpriced { symbol: 3 },
        Error::OldFrame,
        Error::Gap,
        Error::Waiting,
        Error::RefusedDelta,
    ];
    assert_eq!(reached, expected);
    assert_eq!(reached.iter().map(Error::number).collect::<Vec<_>>(), (1..=17).collect::<Vec<_>>());
}

#[test]
fn words() {
    let say = |error: Error| error.to_string();
    assert_eq!(say(Error::SequenceMismatch { expected: 6, got: 5 }), "refusal 4: expected sequence 6, got 5");
    assert_eq!(say(Error::InsufficientFunds { need: 9, have: -1 }), "refusal 8: the fill needs 9, cash is -1");
    assert_eq!(say(Error::NoValue), "refusal 10: there is no answer");
}
