// The original's book: made, changed and read. Included once for each of its two builds, under the name `source`.
use self::source::error::FinError;
use self::source::orderbook::{BookDelta, DeltaAction, OrderBook, PriceLevel};
use self::source::types::{Price, Quantity, Side, Symbol};
use crate::forms::{Delta, Level, BID, SET};
use crate::quiet::caught;
use crate::said::{Said, PANICKED, UNMADE};
use rust_decimal::prelude::ToPrimitive;
use rust_decimal::Decimal;

pub fn new_book() -> OrderBook {
    OrderBook::new(Symbol::new("X").expect("a symbol"))
}

pub fn side_of(side: u64) -> Side {
    if side == BID {
        Side::Bid
    } else {
        Side::Ask
    }
}

pub fn price_of(price: u32) -> Option<Price> {
    Price::new(Decimal::from(price)).ok()
}

pub fn quantity_of(quantity: u32) -> Quantity {
    Quantity::new(Decimal::from(quantity)).expect("no quantity here is negative")
}

/// An error as our number and what it carries.
pub fn refused(error: &FinError) -> Said {
    match error {
        FinError::SequenceMismatch { expected, got } => Said::of(4, &[Decimal::from(*expected), Decimal::from(*got)]),
        FinError::InvertedSpread { best_bid, best_ask } => Said::of(5, &[*best_bid, *best_ask]),
        FinError::InsufficientLiquidity(target) => Said::of(7, &[*target]),
        FinError::InsufficientFunds { need, have } => Said::of(8, &[*need, *have]),
        FinError::PositionNotFound(name) => Said::of(13, &[symbol_number(name)]),
        _ => Said::refused(UNMADE),
    }
}

/// The number in a symbol's name, `S` and the number.
fn symbol_number(name: &str) -> Decimal {
    name[1..].parse().expect("a symbol's number")
}

/// An answer, or that the call panicked.
pub fn guarded(call: impl FnOnce() -> Said) -> Said {
    caught(call).unwrap_or_else(|| Said::refused(PANICKED))
}

pub fn apply(book: &mut OrderBook, delta: &Delta) -> Said {
    let price = match price_of(delta.price) {
        Some(price) => price,
        None => return Said::refused(UNMADE),
    };
    let action = if delta.action == SET { DeltaAction::Set } else { DeltaAction::Remove };
    let offered = BookDelta { side: side_of(delta.side), price, quantity: quantity_of(delta.quantity), action, sequence: delta.sequence };
    match book.apply_delta(offered) {
        Ok(()) => Said::done(),
        Err(error) => refused(&error),
    }
}

/// The word of a book that holds its sequence. No call sets it, so it is found once by its value, in a book brought to a number that no
/// other word of it has, and tried.
fn sequence_word() -> usize {
    const MARK: u64 = 77;
    let mut book = new_book();
    for sequence in 1..=MARK {
        let absent = Delta { side: BID, action: 1, price: 1, quantity: 0, sequence };
        apply(&mut book, &absent);
    }
    let words = std::mem::size_of::<OrderBook>() / 8;
    let start = &book as *const OrderBook as *const u64;
    // SAFETY: each word lies within the book, which is aligned for it. Padding would be read for what it holds: this is for tests alone.
    let found: Vec<usize> = (0..words).filter(|&word| unsafe { start.add(word).read_volatile() } == MARK).collect();
    assert_eq!(found.len(), 1, "the book's sequence must be found in one place");
    found[0]
}

/// Brings a book to a sequence number that calls alone would take too long to reach.
pub fn set_sequence(book: &mut OrderBook, sequence: u64) {
    thread_local!(static WORD: usize = sequence_word());
    let word = WORD.with(|word| *word);
    // SAFETY: the word lies within the book, and every number is a sequence.
    unsafe { (book as *mut OrderBook as *mut u64).add(word).write_volatile(sequence) };
    assert_eq!(book.sequence(), sequence, "the book's sequence must have been set");
}

pub fn level_of(level: &PriceLevel) -> Level {
    let whole = |value: Decimal| value.to_u32().expect("a whole number");
    (whole(level.price.value()), whole(level.quantity.value()))
}

pub fn levels(book: &OrderBook, side: u64) -> Vec<Level> {
    let all = if side == BID { book.top_bids(usize::MAX) } else { book.top_asks(usize::MAX) };
    all.iter().map(level_of).collect()
}

/// A book with these levels at this sequence.
pub fn book_of(bids: &[Level], asks: &[Level], sequence: u64) -> OrderBook {
    let mut book = new_book();
    let both = bids.iter().map(|level| (BID, level)).chain(asks.iter().map(|level| (1, level)));
    for (place, (side, level)) in both.enumerate() {
        let delta = Delta { side, action: SET, price: level.0, quantity: level.1, sequence: place as u64 + 1 };
        assert_eq!(apply(&mut book, &delta), Said::done(), "the levels must be a book");
    }
    set_sequence(&mut book, sequence);
    book
}
