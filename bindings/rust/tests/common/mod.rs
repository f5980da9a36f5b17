//! What the tests share: book K, and short ways to write deltas and levels.
#![allow(dead_code)]
use wermazul::{BookDelta, DeltaAction, OrderBook, PriceLevel, Side};

pub fn set(side: Side, price: u32, quantity: u32, sequence: u64) -> BookDelta {
    BookDelta { side, price, quantity, action: DeltaAction::Set, sequence }
}

pub fn remove(side: Side, price: u32, sequence: u64) -> BookDelta {
    BookDelta { side, price, quantity: 0, action: DeltaAction::Remove, sequence }
}

pub fn level(price: u32, quantity: u32) -> PriceLevel {
    PriceLevel { price, quantity }
}

/// Sequence 5: bids 100×5, 99×0, 98×10; asks 101×4, 103×6.
pub fn book_k() -> OrderBook {
    let mut book = OrderBook::new();
    let deltas = [
        set(Side::Bid, 98, 10, 1),
        set(Side::Ask, 103, 6, 2),
        set(Side::Bid, 100, 5, 3),
        set(Side::Ask, 101, 4, 4),
        set(Side::Bid, 99, 0, 5),
    ];
    for delta in deltas {
        book.apply_delta(delta).unwrap();
    }
    book
}

/// 128 levels a side: bids 1000 down to 873 with quantities 1 to 128, asks 1001 up to 1128 with quantities 201 to 328.
pub fn full_book() -> OrderBook {
    let mut book = OrderBook::new();
    for i in 0..128 {
        let sequence = book.sequence;
        book.apply_delta(set(Side::Bid, 1000 - i, 1 + i, sequence + 1)).unwrap();
        book.apply_delta(set(Side::Ask, 1001 + i, 201 + i, sequence + 2)).unwrap();
    }
    book
}
