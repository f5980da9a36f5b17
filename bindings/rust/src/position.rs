//! The position ledger: fills and deposits that change it, what it holds, and what that is worth at prices.
mod readings;

use crate::error::Error;
use crate::ffi;
use crate::linked::require_ours;
use crate::types::{Price, Quantity, Side, Symbol, SYMBOLS};
use std::fmt;

/// A trade to book.
#[derive(Clone, Copy, Debug, PartialEq, Eq)]
pub struct Fill {
    /// 0..=31.
    pub symbol: Symbol,
    /// Bid buys, Ask sells.
    pub side: Side,
    /// Lots, 0..=1,000,000,000.
    pub quantity: Quantity,
    /// 1..=100,000,000.
    pub price: Price,
    /// -10^15..=10^15; a negative one is paid to us.
    pub commission: i64,
}

impl Fill {
    /// A trade without commission.
    pub fn new(symbol: Symbol, side: Side, quantity: Quantity, price: Price) -> Fill {
        Fill::with_commission(symbol, side, quantity, price, 0)
    }

    /// A trade with its commission.
    pub fn with_commission(symbol: Symbol, side: Side, quantity: Quantity, price: Price, commission: i64) -> Fill {
        Fill { symbol, side, quantity, price, commission }
    }

    /// The numbers that it goes over as in a list of fills.
    fn numbers(&self) -> [i64; 5] {
        let Fill { symbol, side, quantity, price, commission } = *self;
        [symbol.into(), side as i64, quantity.into(), price.into(), commission]
    }
}

/// Why a list of fills was not taken to its end. The fills before the refused one are booked, and it changed nothing. A record that is no
/// ledger is refused before any fill is.
#[derive(Clone, Copy, Debug, PartialEq, Eq)]
pub struct FillsError {
    /// How many fills were taken: where a fill was refused, its place in the list, from 0; 0 where the record was.
    pub taken: usize,
    /// The refusal: that of the fill, or 1 if the record is no ledger.
    pub error: Error,
}

impl fmt::Display for FillsError {
    fn fmt(&self, f: &mut fmt::Formatter<'_>) -> fmt::Result {
        write!(f, "{} taken, then {}", self.taken, self.error)
    }
}

// Its words have the refusal's in them, so it names no source, which would say them again.
impl std::error::Error for FillsError {}

/// Which way a position stands.
#[derive(Clone, Copy, Debug, PartialEq, Eq)]
pub enum PositionDirection {
    /// More than no lots.
    Long,
    /// Fewer than none: lots are owed.
    Short,
    /// No lots.
    Flat,
}

/// What is held of one symbol: its place in each row of a ledger.
#[derive(Clone, Copy, Debug, Default, PartialEq, Eq)]
pub struct Position {
    /// Lots, negative if short, within 10^9 of 0.
    pub quantity: i64,
    /// Their average price, rounded down; 0 exactly if there are none.
    pub average: Price,
    /// The profit realized so far, commissions taken off.
    pub realized: i64,
}

/// Cash, and one position a symbol: the place of its number in each of three rows. Any record may be made and asked: every call tests it,
/// and refuses one that is no ledger with 1.
#[repr(C)]
#[derive(Clone, Debug, PartialEq, Eq)]
pub struct PositionLedger {
    /// Within 4·10^18 of 0.
    pub cash: i64,
    /// The commission paid so far, within 4·10^18 of 0.
    pub commission: i64,
    /// The lots of each symbol, negative if short, within 10^9 of 0.
    pub quantities: [i64; SYMBOLS],
    /// Their average price, rounded down; 0 exactly if there are none.
    pub averages: [Price; SYMBOLS],
    /// The profit that each symbol has realized so far, commissions taken off, within 4·10^18 of 0.
    pub realized: [i64; SYMBOLS],
}

impl PositionLedger {
    /// A ledger with this cash and nothing else; 2 if the cash is outside its limit.
    pub fn new(initial_cash: i64) -> Result<PositionLedger, Error> {
        require_ours();
        // SAFETY: a number goes over, and the record comes back by value.
        let made = unsafe { ffi::wermazul_ledger(initial_cash) };
        made.told.done().map(|()| made.ledger)
    }

    /// Whether the record is a ledger.
    pub fn is_ledger(&self) -> bool {
        let PositionLedger { quantities, averages, realized, .. } = self;
        // SAFETY: the rows are three fields of one record, of 32 places each, lent for the call.
        unsafe { ffi::wermazul_is_ledger(quantities, averages, realized, self.totals()) != 0 }
    }

    fn totals(&self) -> ffi::Totals {
        ffi::Totals { cash: self.cash, commission: self.commission }
    }

    /// What a call left beside the rows.
    fn become_of(&mut self, totals: ffi::Totals) {
        self.cash = totals.cash;
        self.commission = totals.commission;
    }

    /// What a call left beside the rows, and its answer.
    fn become_told(&mut self, after: ffi::TotalsTold) -> Result<(), Error> {
        self.become_of(after.totals);
        after.told.done()
    }

    /// Books a fill, where the ledger stands. A refused one leaves it as it was.
    pub fn apply_fill(&mut self, fill: Fill) -> Result<(), Error> {
        let Fill { symbol, side, quantity, price, commission } = fill;
        let totals = self.totals();
        let PositionLedger { quantities, averages, realized, .. } = self;
        // SAFETY: the rows are three fields of one record, of 32 places each, lent to this call alone.
        let after =
            unsafe { ffi::wermazul_apply_fill(quantities, averages, realized, totals, symbol, side as u64, quantity, price, commission) };
        self.become_told(after)
    }

    /// Books fills in order, until one is refused: how many there were, all of them taken, or how many were taken before the refused one,
    /// with its refusal. The ledger is then as if [`apply_fill`](Self::apply_fill) had booked those one by one. A record that is no ledger
    /// is refused with 1, with no fills too.
    pub fn apply_fills(&mut self, fills: &[Fill]) -> Result<usize, FillsError> {
        let numbers: Vec<i64> = fills.iter().flat_map(Fill::numbers).collect();
        let totals = self.totals();
        let PositionLedger { quantities, averages, realized, .. } = self;
        // SAFETY: the rows are three fields of one record, of 32 places each, and the numbers are one slice, all lent to this call alone.
        let after = unsafe { ffi::wermazul_apply_fills(quantities, averages, realized, totals, numbers.as_ptr(), numbers.len()) };
        self.become_of(after.totals);
        let taken = after.taken as usize;
        after.told.done().map(|()| taken).map_err(|error| FillsError { taken, error })
    }

    /// Pays cash in, or out if the amount is negative. A refused deposit leaves the ledger as it was.
    pub fn deposit(&mut self, amount: i64) -> Result<(), Error> {
        let PositionLedger { quantities, averages, realized, .. } = &*self;
        // SAFETY: the rows are three fields of one record, of 32 places each, lent for the call.
        let after = unsafe { ffi::wermazul_deposit(quantities, averages, realized, self.totals(), amount) };
        self.become_told(after)
    }

    /// The unrealized profit of one symbol at a price.
    pub fn checked_unrealized_pnl(&self, symbol: Symbol, current_price: Price) -> Result<i64, Error> {
        let PositionLedger { quantities, averages, realized, .. } = self;
        // SAFETY: the rows are three fields of one record, of 32 places each, lent for the call.
        let told = unsafe { ffi::wermazul_unrealized(quantities, averages, realized, self.totals(), symbol, current_price) };
        told.values().map(|[amount]| amount.signed())
    }

    /// One of the four worths at prices, by its number.
    fn worth(&self, worth: u64, prices: &[Price]) -> Result<i64, Error> {
        let PositionLedger { quantities, averages, realized, .. } = self;
        // SAFETY: the rows are three fields of one record, of 32 places each, and the prices are one slice, all lent for the call.
        let told = unsafe { ffi::wermazul_worth(quantities, averages, realized, self.totals(), worth, prices.as_ptr(), prices.len()) };
        told.values().map(|[amount]| amount.signed())
    }

    /// The unrealized profit of all positions. The prices of all 32 symbols, 0 for none: here and below another length gives 2.
    pub fn unrealized_pnl_total(&self, prices: &[Price]) -> Result<i64, Error> {
        self.worth(0, prices)
    }

    /// Cash and what all positions are worth.
    pub fn net_liquidation_value(&self, prices: &[Price]) -> Result<i64, Error> {
        self.worth(1, prices)
    }

    /// What the positions that have a price are worth; 10 if none has one.
    pub fn net_market_exposure(&self, prices: &[Price]) -> Result<i64, Error> {
        self.worth(2, prices)
    }

    /// Whether the net exposure is below a hundredth of the gross, or the gross is 0.
    pub fn delta_neutral_check(&self, prices: &[Price]) -> Result<bool, Error> {
        Ok(self.worth(3, prices)? != 0)
    }
}
