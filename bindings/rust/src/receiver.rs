//! The receiver that takes the feed's lines, and answers as its book does while it is live.
use crate::error::Error;
use crate::ffi;
use crate::linked::require_ours;
use crate::orderbook::lists::{levels, named_listings};
use crate::orderbook::named::named_questions;
use crate::orderbook::{Answer, Listing, OrderBook, PriceLevel, Question, Quote};
use crate::types::{Price, Quantity, Quotient, Side, MAX_LEVELS};

/// The receiver of a feed. While it waits every question is refused with 16. Any record may be made and asked: every call tests it, and
/// refuses one that is no receiver with 1.
#[repr(C)]
#[derive(Clone, Debug, PartialEq, Eq)]
pub struct Receiver {
    /// 0 waiting, 1 live; another number is no receiver.
    pub state: u64,
    /// The book that it holds. While it waits this may be old: ask the receiver, which then refuses.
    pub book: OrderBook,
}

impl Receiver {
    /// Waiting, with an empty book at sequence 0.
    pub fn new() -> Receiver {
        require_ours();
        // SAFETY: nothing goes over, and the record comes back by value.
        unsafe { ffi::wermazul_receiver() }
    }

    /// Whether it is live, not waiting.
    pub fn is_live(&self) -> bool {
        self.state == 1
    }

    /// Takes a line, its line feed included, where the receiver stands. A line refused with 15 or 17 leaves it waiting; another refusal
    /// changes nothing.
    pub fn take_line(&mut self, line: &[u8]) -> Result<(), Error> {
        let counts = self.book.counts();
        let OrderBook { bids, asks, .. } = &mut self.book;
        // SAFETY: the rows are four fields of one record, of 128 places each, lent to this call alone; the line is one slice.
        let after = unsafe {
            ffi::wermazul_take_line(
                &mut bids.prices,
                &mut bids.quantities,
                &mut asks.prices,
                &mut asks.quantities,
                self.state,
                counts,
                line.as_ptr(),
                line.len(),
            )
        };
        self.state = after.state;
        self.book.set_counts(after.counts);
        after.told.done()
    }

    /// The answer to any question.
    #[inline(always)]
    pub fn ask(&self, question: Question) -> Result<Answer, Error> {
        let (q, OrderBook { bids, asks, .. }) = (question.asked(), &self.book);
        // SAFETY: the rows are four fields of one record, of 128 places each, lent for the call.
        let told = unsafe {
            ffi::wermazul_receiver_ask(
                &bids.prices,
                &bids.quantities,
                &asks.prices,
                &asks.quantities,
                self.state,
                self.book.counts(),
                q.number,
                q.side,
                q.small,
                q.large,
            )
        };
        Answer::of(q.kind, &told)
    }

    /// The places that a listing fills in a buffer of `room` places.
    pub fn places(&self, listing: Listing, room: usize) -> Result<usize, Error> {
        let (l, OrderBook { bids, asks, .. }) = (listing.listed(), &self.book);
        // SAFETY: the rows are four fields of one record, of 128 places each, lent for the call.
        let told = unsafe {
            ffi::wermazul_receiver_places(
                &bids.prices,
                &bids.quantities,
                &asks.prices,
                &asks.quantities,
                self.state,
                self.book.counts(),
                l.number,
                l.side,
                l.from,
                l.to,
                room as u64,
            )
        };
        told.length()
    }

    /// Writes a listing to the front of a lent buffer and gives the places filled. The rest keeps its numbers; all do on a refusal.
    pub fn list(&self, listing: Listing, out: &mut [u32]) -> Result<usize, Error> {
        let (l, OrderBook { bids, asks, .. }) = (listing.listed(), &self.book);
        // SAFETY: the rows are four fields of one record, of 128 places each, and the buffer is one slice, lent to this call alone.
        let told = unsafe {
            ffi::wermazul_receiver_list(
                &bids.prices,
                &bids.quantities,
                &asks.prices,
                &asks.quantities,
                self.state,
                self.book.counts(),
                l.number,
                l.side,
                l.from,
                l.to,
                out.as_mut_ptr(),
                out.len(),
            )
        };
        told.length()
    }

    /// The book whose levels a listing writes.
    fn book(&self) -> &OrderBook {
        &self.book
    }
}

impl Default for Receiver {
    fn default() -> Receiver {
        Receiver::new()
    }
}

named_questions!(Receiver);
named_listings!(Receiver);
