//! The book's changes and what a record must be.
mod common;
use common::{book_k, full_book, level, remove, set};
use std::collections::BTreeMap;
use wermazul::{BookDelta, DeltaAction, Error, Levels, Listing, OrderBook, Side, MAX_LEVELS, MAX_PRICE, MAX_QUANTITY};

/// A side as the record holds it.
fn side(levels: &[(u32, u32)]) -> Levels {
    let mut side = Levels { prices: [0; MAX_LEVELS], quantities: [0; MAX_LEVELS], count: levels.len() };
    for (i, &(price, quantity)) in levels.iter().enumerate() {
        side.prices[i] = price;
        side.quantities[i] = quantity;
    }
    side
}

/// Book K as a record, built without a call.
fn record_k() -> OrderBook {
    OrderBook { bids: side(&[(100, 5), (99, 0), (98, 10)]), asks: side(&[(101, 4), (103, 6)]), sequence: 5 }
}

#[test]
fn new_book_is_empty() {
    let empty = OrderBook { bids: side(&[]), asks: side(&[]), sequence: 0 };
    assert_eq!(OrderBook::new(), empty);
    assert_eq!(OrderBook::default(), empty);
}

#[test]
fn deltas_build_the_record() {
    assert_eq!(book_k(), record_k());
    assert!(record_k().is_book());
}

#[test]
fn refused_deltas_leave_the_book() {
    let refusals = [
        (set(Side::Bid, 101, 0, 6), Error::InvertedSpread { best_bid: 101, best_ask: 101 }),
        (set(Side::Ask, 90, 1, 6), Error::InvertedSpread { best_bid: 100, best_ask: 90 }),
        (set(Side::Bid, 90, 1, 5), Error::SequenceMismatch { expected: 6, got: 5 }),
        (set(Side::Bid, 0, 1, 6), Error::OutOfLimits),
        (set(Side::Bid, 90, MAX_QUANTITY + 1, 6), Error::OutOfLimits),
        (set(Side::Ask, MAX_PRICE + 1, 1, 6), Error::OutOfLimits),
    ];
    for (delta, refusal) in refusals {
        let mut book = book_k();
        assert_eq!(book.apply_delta(delta), Err(refusal));
        assert_eq!(book, record_k());
    }
}

/// The deltas that are taken, on a map a side: a plain book to hold ours to.
#[derive(Default)]
struct Maps {
    bids: BTreeMap<u32, u32>,
    asks: BTreeMap<u32, u32>,
    sequence: u64,
}

impl Maps {
    fn take(&mut self, delta: BookDelta) {
        let side = if delta.side == Side::Bid { &mut self.bids } else { &mut self.asks };
        match delta.action {
            DeltaAction::Set => side.insert(delta.price, delta.quantity),
            DeltaAction::Remove => side.remove(&delta.price),
        };
        self.sequence = delta.sequence;
    }

    fn record(&self) -> OrderBook {
        let pair = |(price, quantity): (&u32, &u32)| (*price, *quantity);
        let (bids, asks): (Vec<_>, Vec<_>) = (self.bids.iter().rev().map(pair).collect(), self.asks.iter().map(pair).collect());
        OrderBook { bids: side(&bids), asks: side(&asks), sequence: self.sequence }
    }
}

#[test]
fn taken_deltas_as_on_maps() {
    let (mut book, mut maps) = (OrderBook::new(), Maps::default());
    let mut taken = 0;
    for i in 0..2000u32 {
        let side = if i % 3 == 0 { Side::Bid } else { Side::Ask };
        let price = 1000 + i * 7919 % 263;
        let delta = if i % 5 == 4 { remove(side, price, book.sequence + 1) } else { set(side, price, i, book.sequence + 1) };
        if book.apply_delta(delta).is_ok() {
            maps.take(delta);
            taken += 1;
        }
        assert_eq!(book, maps.record(), "{delta:?}");
    }
    assert!(taken > 400 && taken < 1900, "deltas of both outcomes: {taken}");
}

#[test]
fn largest_numbers_are_taken() {
    let mut book = book_k();
    book.apply_delta(set(Side::Ask, MAX_PRICE, MAX_QUANTITY, 6)).unwrap();
    let asks = side(&[(101, 4), (103, 6), (MAX_PRICE, MAX_QUANTITY)]);
    assert_eq!(book, OrderBook { asks, sequence: 6, ..record_k() });
}

#[test]
fn removals() {
    let mut book = book_k();
    book.apply_delta(remove(Side::Ask, 102, 6)).unwrap();
    assert_eq!(book, OrderBook { sequence: 6, ..record_k() });
    book.apply_delta(remove(Side::Bid, 100, 7)).unwrap();
    assert_eq!(book, OrderBook { bids: side(&[(99, 0), (98, 10)]), sequence: 7, ..record_k() });
    book.remove_all(Side::Ask).unwrap();
    assert_eq!(book, OrderBook { bids: side(&[(99, 0), (98, 10)]), asks: side(&[]), sequence: 7 });
    book.clear().unwrap();
    assert_eq!(book, OrderBook::new());
}

#[test]
fn remove_all_bids_keeps_asks() {
    let mut book = book_k();
    book.remove_all(Side::Bid).unwrap();
    assert_eq!(book, OrderBook { bids: side(&[]), ..record_k() });
}

#[test]
fn full_sides_hold_every_place() {
    let mut book = full_book();
    assert_eq!(book.bids.prices[127], 873);
    assert_eq!(book.bids.quantities[127], 128);
    assert_eq!(book.asks.prices[127], 1128);
    assert_eq!(book.asks.quantities[127], 328);
    assert_eq!(book.apply_delta(set(Side::Bid, 1, 1, 257)), Err(Error::FullSide));
    assert_eq!(book.apply_delta(set(Side::Bid, 1001, 1, 257)), Err(Error::InvertedSpread { best_bid: 1001, best_ask: 1001 }));
    assert_eq!(book, full_book());
    book.apply_delta(remove(Side::Bid, 873, 257)).unwrap();
    book.apply_delta(set(Side::Bid, 1, 9, 258)).unwrap();
    assert_eq!(book.top_bids(128).unwrap()[127], level(1, 9));
}

#[test]
fn malformed_records_are_refused_everywhere() {
    let spoil: [fn(&mut OrderBook); 7] = [
        |b| b.bids.count = 129,
        |b| b.bids.prices.swap(0, 2),
        |b| b.asks.prices[1] = 101,
        |b| b.asks.prices[0] = 100,
        |b| b.bids.quantities[2] = MAX_QUANTITY + 1,
        |b| b.asks.quantities[127] = 1,
        |b| b.bids.prices[127] = 1,
    ];
    for spoil in spoil {
        let mut book = book_k();
        spoil(&mut book);
        let record = book.clone();
        assert!(!book.is_book());
        assert_eq!(book.apply_delta(set(Side::Bid, 1, 1, 6)), Err(Error::NotARecord));
        assert_eq!(book.clear(), Err(Error::NotARecord));
        assert_eq!(book.remove_all(Side::Bid), Err(Error::NotARecord));
        assert_eq!(book.best_bid(), Err(Error::NotARecord));
        assert_eq!((book.total_bid_volume(), book.total_ask_depth()), (Err(Error::NotARecord), Err(Error::NotARecord)));
        assert_eq!(book.vwap_for_qty(Side::Bid, 1), Err(Error::NotARecord));
        assert_eq!(book.price_impact(Side::Bid, 1), Err(Error::NotARecord));
        assert_eq!(book.top_asks(1), Err(Error::NotARecord));
        assert_eq!(book.places(Listing::Snapshot(1), 4), Err(Error::NotARecord));
        assert_eq!(book, record);
    }
}
