//! Stand-in for the original's `position/kelly.rs`, which was not supplied: the names that `position` re-exports, and nothing behind them.
//!
//! `position` calls `Option::is_some_and` twice (in two counts that are not compared), which Rust has since 1.70. So that the module
//! builds unchanged with an older compiler, the name `KellyInput`, which it has in scope, is a trait that gives options that call; a
//! newer compiler prefers its own.

/// `is_some_and` for compilers that do not have it.
pub trait KellyInput<T> {
    /// Whether there is a value and the test holds of it.
    fn is_some_and(self, test: impl FnOnce(T) -> bool) -> bool;
}

impl<T> KellyInput<T> for Option<T> {
    fn is_some_and(self, test: impl FnOnce(T) -> bool) -> bool {
        match self {
            Some(value) => test(value),
            None => false,
        }
    }
}

/// A name only.
pub struct KellyResult;

/// A name only.
pub struct KellyPortfolio;

/// A name only.
pub fn full_kelly() {}

/// A name only.
pub fn fractional_kelly() {}
