//! The order book: deltas that change it, questions by the original's names or as a value, and levels listed.
mod answer;
mod ask;
pub(crate) mod lists;
pub(crate) mod named;

pub use answer::{Answer, Quote};
pub use ask::{Listing, Question};

use crate::error::Error;
use crate::ffi;
use crate::linked::require_ours;
use crate::types::{Price, Quantity, Quotient, Side, MAX_LEVELS};
use lists::{levels, named_listings};
use named::named_questions;

/// A level: so many lots at a price.
#[derive(Clone, Copy, Debug, PartialEq, Eq)]
pub struct PriceLevel {
    /// 1..=100,000,000.
    pub price: Price,
    /// 0..=1,000,000,000.
    pub quantity: Quantity,
}

/// What a delta does to its level.
#[derive(Clone, Copy, Debug, PartialEq, Eq)]
pub enum DeltaAction {
    /// Puts the quantity at the price. Quantity 0 keeps a level of quantity 0.
    Set = 0,
    /// Takes the level away, whatever the delta's quantity.
    Remove = 1,
}

/// An update of one level.
#[derive(Clone, Copy, Debug, PartialEq, Eq)]
pub struct BookDelta {
    /// The level's side.
    pub side: Side,
    /// The level's price.
    pub price: Price,
    /// The new quantity.
    pub quantity: Quantity,
    /// Set or Remove.
    pub action: DeltaAction,
    /// The book's sequence plus 1.
    pub sequence: u64,
}

/// One side of a book, best level first. Places from `count` on are 0.
#[repr(C)]
#[derive(Clone, Debug, PartialEq, Eq)]
pub struct Levels {
    /// The prices.
    pub prices: [Price; MAX_LEVELS],
    /// The quantities.
    pub quantities: [Quantity; MAX_LEVELS],
    /// How many levels there are.
    pub count: usize,
}

/// An order book. Any record may be made and asked: every call tests it, and refuses one that is no book with 1.
#[repr(C)]
#[derive(Clone, Debug, PartialEq, Eq)]
pub struct OrderBook {
    /// The bids, prices falling.
    pub bids: Levels,
    /// The asks, prices rising.
    pub asks: Levels,
    /// The sequence of the last delta taken.
    pub sequence: u64,
}

impl OrderBook {
    /// No levels, sequence 0.
    pub fn new() -> OrderBook {
        require_ours();
        // SAFETY: nothing goes over, and the record comes back by value.
        unsafe { ffi::wermazul_book() }
    }

    /// Whether the record is a book.
    pub fn is_book(&self) -> bool {
        let OrderBook { bids, asks, .. } = self;
        // SAFETY: the rows are four fields of one record, of 128 places each, lent for the call.
        unsafe { ffi::wermazul_is_book(&bids.prices, &bids.quantities, &asks.prices, &asks.quantities, self.counts()) != 0 }
    }

    pub(crate) fn counts(&self) -> ffi::Counts {
        ffi::Counts { bids: self.bids.count, asks: self.asks.count, sequence: self.sequence }
    }

    pub(crate) fn set_counts(&mut self, counts: ffi::Counts) {
        self.bids.count = counts.bids;
        self.asks.count = counts.asks;
        self.sequence = counts.sequence;
    }

    /// What a call left beside the rows, and its answer.
    fn become_told(&mut self, after: ffi::CountsTold) -> Result<(), Error> {
        self.set_counts(after.counts);
        after.told.done()
    }

    /// Takes a delta, where the book stands. A refused one leaves it as it was.
    pub fn apply_delta(&mut self, delta: BookDelta) -> Result<(), Error> {
        let BookDelta { side, price, quantity, action, sequence } = delta;
        let counts = self.counts();
        let OrderBook { bids, asks, .. } = self;
        // SAFETY: the rows are four fields of one record, of 128 places each, lent to this call alone.
        let after = unsafe {
            ffi::wermazul_apply_delta(
                &mut bids.prices,
                &mut bids.quantities,
                &mut asks.prices,
                &mut asks.quantities,
                counts,
                side as u64,
                action as u64,
                price,
                quantity,
                sequence,
            )
        };
        self.become_told(after)
    }

    /// Empties both sides and sets the sequence to 0.
    pub fn clear(&mut self) -> Result<(), Error> {
        let counts = self.counts();
        let OrderBook { bids, asks, .. } = self;
        // SAFETY: the rows are four fields of one record, of 128 places each, lent to this call alone.
        let after = unsafe { ffi::wermazul_clear(&mut bids.prices, &mut bids.quantities, &mut asks.prices, &mut asks.quantities, counts) };
        self.become_told(after)
    }

    /// Empties one side and keeps the sequence.
    pub fn remove_all(&mut self, side: Side) -> Result<(), Error> {
        let counts = self.counts();
        let OrderBook { bids, asks, .. } = self;
        // SAFETY: the rows are four fields of one record, of 128 places each, lent to this call alone.
        let after = unsafe {
            ffi::wermazul_remove_all(&mut bids.prices, &mut bids.quantities, &mut asks.prices, &mut asks.quantities, counts, side as u64)
        };
        self.become_told(after)
    }

    /// The answer to any question.
    #[inline(always)]
    pub fn ask(&self, question: Question) -> Result<Answer, Error> {
        let (q, OrderBook { bids, asks, .. }) = (question.asked(), self);
        // SAFETY: the rows are four fields of one record, of 128 places each, lent for the call.
        let told = unsafe {
            ffi::wermazul_ask(
                &bids.prices,
                &bids.quantities,
                &asks.prices,
                &asks.quantities,
                self.counts(),
                q.number,
                q.side,
                q.small,
                q.large,
            )
        };
        Answer::of(q.kind, &told)
    }

    /// The places that a listing fills in a buffer of `room` places.
    pub fn places(&self, listing: Listing, room: usize) -> Result<usize, Error> {
        let (l, OrderBook { bids, asks, .. }) = (listing.listed(), self);
        // SAFETY: the rows are four fields of one record, of 128 places each, lent for the call.
        let told = unsafe {
            ffi::wermazul_places(
                &bids.prices,
                &bids.quantities,
                &asks.prices,
                &asks.quantities,
                self.counts(),
                l.number,
                l.side,
                l.from,
                l.to,
                room as u64,
            )
        };
        told.length()
    }

    /// Writes a listing to the front of a lent buffer and gives the places filled. The rest keeps its numbers; all do on a refusal.
    pub fn list(&self, listing: Listing, out: &mut [u32]) -> Result<usize, Error> {
        let (l, OrderBook { bids, asks, .. }) = (listing.listed(), self);
        // SAFETY: the rows are four fields of one record, of 128 places each, and the buffer is one slice, lent to this call alone.
        let told = unsafe {
            ffi::wermazul_list(
                &bids.prices,
                &bids.quantities,
                &asks.prices,
                &asks.quantities,
                self.counts(),
                l.number,
                l.side,
                l.from,
                l.to,
                out.as_mut_ptr(),
                out.len(),
            )
        };
        told.length()
    }

    /// The book whose levels a listing writes.
    fn book(&self) -> &OrderBook {
        self
    }
}

impl Default for OrderBook {
    fn default() -> OrderBook {
        OrderBook::new()
    }
}

named_questions!(OrderBook);
named_listings!(OrderBook);
