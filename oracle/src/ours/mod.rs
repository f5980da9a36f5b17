//! Our library, called through its Rust crate, with every answer as a `Said`. A quotient becomes one Decimal, divided by the library that
//! the original divides with.
pub mod changes;
pub mod mutants;

use crate::forms::{ASK, BID};
use crate::said::Said;
use rust_decimal::Decimal;
use wermazul::{Error, PriceLevel, Quote, Quotient, Side};

/// A value of ours, as Decimals.
pub trait Told {
    fn said(self) -> Said;
}

impl Told for () {
    fn said(self) -> Said {
        Said::done()
    }
}

impl Told for bool {
    fn said(self) -> Said {
        Said::flag(self)
    }
}

impl Told for PriceLevel {
    fn said(self) -> Said {
        Said::of(0, &[self.price.into(), self.quantity.into()])
    }
}

impl Told for Quote {
    fn said(self) -> Said {
        let Quote { bid, ask } = self;
        Said::of(0, &[bid.price.into(), bid.quantity.into(), ask.price.into(), ask.quantity.into()])
    }
}

impl Told for Quotient {
    fn said(self) -> Said {
        Said::is(Decimal::from(self.numerator) / Decimal::from(self.denominator))
    }
}

macro_rules! told_number {
    ($($number:ty),+) => {
        $(impl Told for $number {
            fn said(self) -> Said {
                Said::is(Decimal::from(self))
            }
        })+
    };
}
told_number!(u32, u64, i64, usize);

fn refusal(error: Error) -> Said {
    let number = error.number();
    match error {
        Error::SequenceMismatch { expected, got } => Said::of(number, &[expected.into(), got.into()]),
        Error::InvertedSpread { best_bid, best_ask } => Said::of(number, &[best_bid.into(), best_ask.into()]),
        Error::InsufficientLiquidity { target } => Said::of(number, &[target.into()]),
        Error::InsufficientFunds { need, have } => Said::of(number, &[need.into(), have.into()]),
        Error::Unpriced { symbol } => Said::of(number, &[symbol.into()]),
        _ => Said::refused(number),
    }
}

pub fn told<T: Told>(answer: Result<T, Error>) -> Said {
    answer.map_or_else(refusal, Told::said)
}

pub fn side_of(side: u64) -> Side {
    if side == BID {
        Side::Bid
    } else {
        debug_assert_eq!(side, ASK);
        Side::Ask
    }
}
