//! Why a call refuses.
use crate::told::{Told, Whole};
use std::fmt;

/// Why a call refuses: the numbers 1 to 17, in their order, each with what it carries. A refused call changes nothing, save that a line
/// refused with 15 or 17 leaves a receiver waiting, and that a list of fills is booked up to the refused one.
#[derive(Clone, Copy, Debug, PartialEq, Eq)]
pub enum Error {
    /// 1: the record is no book, ledger or receiver.
    NotARecord,
    /// 2: a number or a length is outside its limits.
    OutOfLimits,
    /// 3: the book's sequence is the last there is, and a delta was offered.
    LastSequence,
    /// 4: the delta's sequence is not the book's plus 1.
    SequenceMismatch {
        /// The book's sequence plus 1.
        expected: u64,
        /// The delta's.
        got: u64,
    },
    /// 5: the best bid would reach or pass the best ask. The prices are those after the change that was tried.
    InvertedSpread {
        /// The best bid's price.
        best_bid: u32,
        /// The best ask's price.
        best_ask: u32,
    },
    /// 6: Set of a new price on a side of 128 levels.
    FullSide,
    /// 7: the target of a VWAP is above the side's total quantity.
    InsufficientLiquidity {
        /// The target.
        target: u32,
    },
    /// 8: a Bid fill would leave cash negative.
    InsufficientFunds {
        /// What the fill costs, its commission included.
        need: i64,
        /// The ledger's cash.
        have: i64,
    },
    /// 9: a position or a limited total of money would leave its limit.
    PastLimit,
    /// 10: there is no answer, where the original answers None.
    NoValue,
    /// 11: the lent buffer is shorter than what must be written.
    NoRoom,
    /// 12: the line is damaged or malformed.
    DamagedLine,
    /// 13: an open position has no price.
    Unpriced {
        /// The smallest such symbol.
        symbol: u32,
    },
    /// 14: the frame is old.
    OldFrame,
    /// 15: the delta is beyond the next.
    Gap,
    /// 16: the receiver is waiting.
    Waiting,
    /// 17: the book refuses the next delta.
    RefusedDelta,
}

impl Error {
    /// What a refusal is told as. The archive tells 1 to 17 and no other number.
    pub(crate) fn of(told: &Told) -> Error {
        match told.number {
            1 => Error::NotARecord,
            2 => Error::OutOfLimits,
            3 => Error::LastSequence,
            4 => {
                let [expected, got] = told.carried().map(Whole::long);
                Error::SequenceMismatch { expected, got }
            }
            5 => {
                let [best_bid, best_ask] = told.carried().map(Whole::word);
                Error::InvertedSpread { best_bid, best_ask }
            }
            6 => Error::FullSide,
            7 => {
                let [target] = told.carried().map(Whole::word);
                Error::InsufficientLiquidity { target }
            }
            8 => {
                let [need, have] = told.carried().map(Whole::signed);
                Error::InsufficientFunds { need, have }
            }
            9 => Error::PastLimit,
            10 => Error::NoValue,
            11 => Error::NoRoom,
            12 => Error::DamagedLine,
            13 => {
                let [symbol] = told.carried().map(Whole::word);
                Error::Unpriced { symbol }
            }
            14 => Error::OldFrame,
            15 => Error::Gap,
            16 => Error::Waiting,
            17 => Error::RefusedDelta,
            other => panic!("the archive that is linked is another one: it answered {other}"),
        }
    }

    /// The refusal's number, 1 to 17.
    pub fn number(&self) -> u64 {
        match self {
            Error::NotARecord => 1,
            Error::OutOfLimits => 2,
            Error::LastSequence => 3,
            Error::SequenceMismatch { .. } => 4,
            Error::InvertedSpread { .. } => 5,
            Error::FullSide => 6,
            Error::InsufficientLiquidity { .. } => 7,
            Error::InsufficientFunds { .. } => 8,
            Error::PastLimit => 9,
            Error::NoValue => 10,
            Error::NoRoom => 11,
            Error::DamagedLine => 12,
            Error::Unpriced { .. } => 13,
            Error::OldFrame => 14,
            Error::Gap => 15,
            Error::Waiting => 16,
            Error::RefusedDelta => 17,
        }
    }
}

impl fmt::Display for Error {
    fn fmt(&self, f: &mut fmt::Formatter<'_>) -> fmt::Result {
        write!(f, "refusal {}: ", self.number())?;
        match self {
            Error::NotARecord => write!(f, "the record is no book, ledger or receiver"),
            Error::OutOfLimits => write!(f, "a number or a length is outside its limits"),
            Error::LastSequence => write!(f, "the book's sequence is the last there is"),
            Error::SequenceMismatch { expected, got } => write!(f, "expected sequence {expected}, got {got}"),
            Error::InvertedSpread { best_bid, best_ask } => write!(f, "bid {best_bid} would reach ask {best_ask}"),
            Error::FullSide => write!(f, "the side is full"),
            Error::InsufficientLiquidity { target } => write!(f, "the side has less than {target}"),
            Error::InsufficientFunds { need, have } => write!(f, "the fill needs {need}, cash is {have}"),
            Error::PastLimit => write!(f, "a position or a total would leave its limit"),
            Error::NoValue => write!(f, "there is no answer"),
            Error::NoRoom => write!(f, "the buffer is too short"),
            Error::DamagedLine => write!(f, "the line is damaged"),
            Error::Unpriced { symbol } => write!(f, "the open position of symbol {symbol} has no price"),
            Error::OldFrame => write!(f, "the frame is old"),
            Error::Gap => write!(f, "the delta is beyond the next"),
            Error::Waiting => write!(f, "the receiver is waiting"),
            Error::RefusedDelta => write!(f, "the book refuses the delta"),
        }
    }
}

impl std::error::Error for Error {}
