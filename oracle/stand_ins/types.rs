//! Stand-in for the original's `types.rs`, which was not supplied: only what the two modules call, with the checks that their error
//! type names (a price is positive, a quantity not negative, a symbol not empty and without spaces).
use crate::error::FinError;
use rust_decimal::Decimal;

/// A positive price.
#[derive(Debug, Clone, Copy, PartialEq, Eq, PartialOrd, Ord)]
pub struct Price(Decimal);

impl Price {
    /// The price of this value, if it is positive.
    pub fn new(value: Decimal) -> Result<Self, FinError> {
        if value <= Decimal::ZERO {
            return Err(FinError::InvalidPrice(value));
        }
        Ok(Self(value))
    }

    /// Its value.
    pub fn value(&self) -> Decimal {
        self.0
    }
}

/// A quantity, not negative.
#[derive(Debug, Clone, Copy, PartialEq, Eq, PartialOrd, Ord)]
pub struct Quantity(Decimal);

impl Quantity {
    /// The quantity of this value, if it is not negative.
    pub fn new(value: Decimal) -> Result<Self, FinError> {
        if value < Decimal::ZERO {
            return Err(FinError::InvalidQuantity(value));
        }
        Ok(Self(value))
    }

    /// None of it.
    pub fn zero() -> Self {
        Self(Decimal::ZERO)
    }

    /// Its value.
    pub fn value(&self) -> Decimal {
        self.0
    }

    /// Whether there is none.
    pub fn is_zero(&self) -> bool {
        self.0.is_zero()
    }
}

/// A side of the book, or of a fill.
#[derive(Debug, Clone, Copy, PartialEq, Eq)]
pub enum Side {
    /// Buyers.
    Bid,
    /// Sellers.
    Ask,
}

/// The name of an instrument.
#[derive(Debug, Clone, PartialEq, Eq, Hash, PartialOrd, Ord)]
pub struct Symbol(String);

impl Symbol {
    /// The symbol of this name, if it is a name.
    pub fn new(name: impl Into<String>) -> Result<Self, FinError> {
        let name = name.into();
        if name.is_empty() || name.chars().any(char::is_whitespace) {
            return Err(FinError::InvalidSymbol(name));
        }
        Ok(Self(name))
    }

    /// Its name.
    pub fn as_str(&self) -> &str {
        &self.0
    }
}

impl std::fmt::Display for Symbol {
    fn fmt(&self, out: &mut std::fmt::Formatter<'_>) -> std::fmt::Result {
        out.write_str(&self.0)
    }
}

/// A time, in nanoseconds.
#[derive(Debug, Clone, Copy, PartialEq, Eq, PartialOrd, Ord)]
pub struct NanoTimestamp(i64);

impl NanoTimestamp {
    /// The time of this many nanoseconds.
    pub fn new(nanoseconds: i64) -> Self {
        Self(nanoseconds)
    }
}
