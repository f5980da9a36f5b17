//! What a call answered, from either side, in one form: the number of docs/ANSWERS.md and the values beside it, as Decimals.
use rust_decimal::Decimal;
use std::fmt;

/// The original's own endings, which have no number here.
pub const PANICKED: u64 = 100;
pub const UNMADE: u64 = 101;

#[derive(Clone, Copy, Debug, PartialEq, Eq)]
pub struct Said {
    pub number: u64,
    count: usize,
    values: [Decimal; 4],
}

impl Said {
    pub fn of(number: u64, values: &[Decimal]) -> Said {
        let mut all = [Decimal::ZERO; 4];
        all[..values.len()].copy_from_slice(values);
        Said { number, count: values.len(), values: all }
    }

    pub fn done() -> Said {
        Said::of(0, &[])
    }

    pub fn refused(number: u64) -> Said {
        Said::of(number, &[])
    }

    pub fn is(value: Decimal) -> Said {
        Said::of(0, &[value])
    }

    pub fn flag(yes: bool) -> Said {
        Said::is(Decimal::from(yes as u64))
    }

    pub fn count(n: usize) -> Said {
        Said::is(Decimal::from(n as u64))
    }

    /// A value, or the Rust's None.
    pub fn maybe(value: Option<Decimal>) -> Said {
        value.map_or(Said::refused(10), Said::is)
    }

    pub fn values(&self) -> &[Decimal] {
        &self.values[..self.count]
    }

    /// How far apart two answers of one value are.
    pub fn gap(&self, other: &Said) -> Option<Decimal> {
        let both = self.number == 0 && other.number == 0 && self.count == 1 && other.count == 1;
        both.then(|| (self.values[0] - other.values[0]).abs())
    }
}

impl fmt::Display for Said {
    fn fmt(&self, out: &mut fmt::Formatter<'_>) -> fmt::Result {
        match self.number {
            PANICKED => write!(out, "a panic")?,
            UNMADE => write!(out, "(no such value can be made)")?,
            number => write!(out, "{}", number)?,
        }
        for value in self.values() {
            write!(out, " {}", value.normalize())?;
        }
        Ok(())
    }
}

/// How a day's fills ended: how many were taken, and what was said then.
#[derive(Clone, Copy, Debug, PartialEq, Eq)]
pub struct Ended {
    pub taken: usize,
    pub said: Said,
}

impl Ended {
    /// All of them were taken.
    pub fn all(taken: usize) -> Ended {
        Ended { taken, said: Said::done() }
    }
}

impl fmt::Display for Ended {
    fn fmt(&self, out: &mut fmt::Formatter<'_>) -> fmt::Result {
        write!(out, "{} taken, {}", self.taken, self.said)
    }
}
