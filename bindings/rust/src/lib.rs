//! A proved order book, position ledger and market-feed receiver, for Rust.
//!
//! The work is done by an archive of functions that are written and proved in Rattle; this crate declares them and gives them the types
//! and names of the Rust modules that they were ported from. A book, a ledger or a receiver is asked and changed where it stands. A refused
//! call leaves the record as it was, but for a receiver that waits from a gap on, and a list of fills that is booked up to the refused one.
//! Prices, quantities and money are whole numbers, quotients are exact, and every refusal has a number ([`Error`]).
//!
//! The modules [`orderbook`], [`position`], [`types`] and [`error`] hold what the original has in modules of these names; [`feed`] and
//! [`receiver`] are added. Everything can be named at the root too.
//!
//! - [`OrderBook`]: deltas, questions by name or as a [`Question`], and levels listed into a buffer.
//! - [`PositionLedger`]: fills, one or a list of them, cash, what it holds, and what the positions are worth at prices.
//! - [`read_line`], [`write_delta`], [`write_snapshot`]: lines of the feed. [`Receiver`]: takes lines and answers while it is live.
//!
//! ```
#![doc = include_str!("../examples/first.rs")]
//! ```
#![deny(missing_docs, clippy::undocumented_unsafe_blocks)]

pub mod error;
pub mod feed;
mod ffi;
mod linked;
pub mod orderbook;
pub mod position;
pub mod receiver;
mod told;
pub mod types;

pub use error::Error;
pub use feed::{line_end, line_kind, read_line, write_delta, write_snapshot, Frame, LineKind, MAX_LINE};
pub use linked::{archive, OtherArchive, Version};
pub use orderbook::{Answer, BookDelta, DeltaAction, Levels, Listing, OrderBook, PriceLevel, Question, Quote};
pub use position::{Fill, FillsError, Position, PositionDirection, PositionLedger};
pub use receiver::Receiver;
pub use types::{Price, Quantity, Quotient, Side, Symbol, MAX_LEVELS, MAX_PRICE, MAX_QUANTITY, SYMBOLS};
