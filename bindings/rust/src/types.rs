//! What every module speaks of: sides, the numbers that are traded in and their limits, and exact quotients.
mod quotient;

pub use quotient::Quotient;

/// A price in whole ticks, 1 to [`MAX_PRICE`]: a plain number, which each call tests.
pub type Price = u32;

/// A quantity in whole lots, 0 to [`MAX_QUANTITY`]: a plain number, which each call tests.
pub type Quantity = u32;

/// A symbol by its number, below [`SYMBOLS`]: a plain number, which each call tests.
pub type Symbol = u32;

/// A side of a book, or of a trade.
#[derive(Clone, Copy, Debug, PartialEq, Eq)]
pub enum Side {
    /// Those who buy.
    Bid = 0,
    /// Those who sell.
    Ask = 1,
}

/// The largest price; the smallest is 1.
pub const MAX_PRICE: Price = 100_000_000;
/// The largest quantity of a level, a fill or a target.
pub const MAX_QUANTITY: Quantity = 1_000_000_000;
/// The most levels of a side.
pub const MAX_LEVELS: usize = 128;
/// The symbols of a ledger, numbered from 0.
pub const SYMBOLS: usize = 32;
