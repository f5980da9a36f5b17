//! What questions are answered with.
use super::PriceLevel;
use crate::error::Error;
use crate::told::{Told, Whole};
use crate::types::Quotient;

/// What a question is answered with.
#[derive(Clone, Copy, Debug, PartialEq, Eq)]
pub enum Answer {
    /// A price, a quantity, a count or a sequence.
    Number(u64),
    /// Yes or no.
    Flag(bool),
    /// A level.
    Level(PriceLevel),
    /// Both best levels.
    Quote(Quote),
    /// An exact quotient.
    Ratio(Quotient),
}

/// The best bid and the best ask.
#[derive(Clone, Copy, Debug, PartialEq, Eq)]
pub struct Quote {
    /// The best bid.
    pub bid: PriceLevel,
    /// The best ask.
    pub ask: PriceLevel,
}

/// The archive tells values alone; what they are hangs on the question.
pub(crate) enum Kind {
    Number,
    Flag,
    Level,
    Quote,
    Ratio,
}

fn level(price: Whole, quantity: Whole) -> PriceLevel {
    PriceLevel { price: price.word(), quantity: quantity.word() }
}

const OF_ITS_KIND: &str = "each question has answers of one kind";

impl Answer {
    /// What was told, as an answer of its kind.
    #[inline(always)]
    pub(crate) fn of(kind: Kind, told: &Told) -> Result<Answer, Error> {
        Ok(match kind {
            Kind::Number => {
                let [number] = told.values()?;
                Answer::Number(number.long())
            }
            Kind::Flag => {
                let [flag] = told.values()?;
                Answer::Flag(flag.long() != 0)
            }
            Kind::Level => {
                let [price, quantity] = told.values()?;
                Answer::Level(level(price, quantity))
            }
            Kind::Quote => {
                let [bid, lots, ask, lots_asked] = told.values()?;
                Answer::Quote(Quote { bid: level(bid, lots), ask: level(ask, lots_asked) })
            }
            Kind::Ratio => {
                let [numerator, denominator] = told.values()?;
                Answer::Ratio(Quotient { numerator: numerator.signed(), denominator: denominator.long() })
            }
        })
    }

    pub(crate) fn number(self) -> u64 {
        match self {
            Answer::Number(x) => x,
            _ => unreachable!("{OF_ITS_KIND}"),
        }
    }

    /// A price or the quantity of a level, which fit 32 bits.
    pub(crate) fn word(self) -> u32 {
        self.number().try_into().expect("prices and quantities of levels are within their limits")
    }

    pub(crate) fn flag(self) -> bool {
        match self {
            Answer::Flag(x) => x,
            _ => unreachable!("{OF_ITS_KIND}"),
        }
    }

    pub(crate) fn level(self) -> PriceLevel {
        match self {
            Answer::Level(x) => x,
            _ => unreachable!("{OF_ITS_KIND}"),
        }
    }

    pub(crate) fn quote(self) -> Quote {
        match self {
            Answer::Quote(x) => x,
            _ => unreachable!("{OF_ITS_KIND}"),
        }
    }

    pub(crate) fn ratio(self) -> Quotient {
        match self {
            Answer::Ratio(x) => x,
            _ => unreachable!("{OF_ITS_KIND}"),
        }
    }
}
