//! What a position and a ledger hold, read off their fields. Nothing is tested or worked out here, and no proved call is made: a record
//! that is no ledger is read as it stands (`is_ledger` tells).
use super::{Position, PositionDirection, PositionLedger};
use crate::types::{Price, Symbol, SYMBOLS};

impl Position {
    /// Whether there are no lots. Reads the field alone.
    pub fn is_flat(&self) -> bool {
        self.quantity == 0
    }

    /// Whether there are lots to sell. Reads the field alone.
    pub fn is_long(&self) -> bool {
        self.quantity > 0
    }

    /// Whether lots are owed. Reads the field alone.
    pub fn is_short(&self) -> bool {
        self.quantity < 0
    }

    /// Long, short or flat. Reads the field alone.
    pub fn direction(&self) -> PositionDirection {
        match self.quantity {
            0 => PositionDirection::Flat,
            lots if lots > 0 => PositionDirection::Long,
            _ => PositionDirection::Short,
        }
    }

    /// The lots without their sign. Reads the field alone.
    pub fn quantity_abs(&self) -> u64 {
        self.quantity.unsigned_abs()
    }

    /// The average price, rounded down; nothing where it is 0, as it is of a flat position. Reads the field alone.
    pub fn avg_entry_price(&self) -> Option<Price> {
        Some(self.average).filter(|average| *average != 0)
    }
}

impl PositionLedger {
    /// The cash. Reads the field alone.
    pub fn cash(&self) -> i64 {
        self.cash
    }

    /// The commission of all fills so far. Reads the field alone.
    pub fn total_commission_paid(&self) -> i64 {
        self.commission
    }

    /// What stands at a place of the rows.
    fn held(&self, place: usize) -> Position {
        Position { quantity: self.quantities[place], average: self.averages[place], realized: self.realized[place] }
    }

    /// The position of a symbol, flat if it was never traded; nothing for a symbol that there is not. Reads the fields alone.
    pub fn position(&self, symbol: Symbol) -> Option<Position> {
        let place = symbol as usize;
        (place < SYMBOLS).then(|| self.held(place))
    }

    /// Each symbol and its position, all 32, in the order of symbols. Reads the fields alone.
    pub fn positions(&self) -> impl Iterator<Item = (Symbol, Position)> + '_ {
        (0..SYMBOLS).map(move |place| (place as Symbol, self.held(place)))
    }

    /// The symbols that have lots, and their positions, in the order of symbols. Reads the fields alone.
    pub fn open_positions(&self) -> impl Iterator<Item = (Symbol, Position)> + '_ {
        self.positions().filter(|(_, it)| !it.is_flat())
    }

    /// The symbols that are long, and their positions, in the order of symbols. Reads the fields alone.
    pub fn long_positions(&self) -> impl Iterator<Item = (Symbol, Position)> + '_ {
        self.positions().filter(|(_, it)| it.is_long())
    }

    /// The symbols that are short, and their positions, in the order of symbols. Reads the fields alone.
    pub fn short_positions(&self) -> impl Iterator<Item = (Symbol, Position)> + '_ {
        self.positions().filter(|(_, it)| it.is_short())
    }

    /// The symbols that have lots, in their order. Reads the fields alone.
    pub fn open_symbols(&self) -> impl Iterator<Item = Symbol> + '_ {
        self.open_positions().map(|(symbol, _)| symbol)
    }

    /// How many symbols have lots. Reads the fields alone.
    pub fn open_position_count(&self) -> usize {
        self.open_positions().count()
    }

    /// How many symbols are long. Reads the fields alone.
    pub fn long_count(&self) -> usize {
        self.long_positions().count()
    }

    /// How many symbols are short. Reads the fields alone.
    pub fn short_count(&self) -> usize {
        self.short_positions().count()
    }

    /// Whether any symbol has lots. Reads the fields alone.
    pub fn has_open_positions(&self) -> bool {
        !self.all_flat()
    }

    /// Whether no symbol has lots. Reads the fields alone.
    pub fn all_flat(&self) -> bool {
        self.quantities.iter().all(|lots| *lots == 0)
    }

    /// The profit that a symbol has realized so far, commissions taken off; nothing for a symbol that there is not. Reads the field alone.
    pub fn realized_pnl(&self, symbol: Symbol) -> Option<i64> {
        self.realized.get(symbol as usize).copied()
    }

    /// The average price of a symbol's lots, rounded down; nothing where it has none. Reads the field alone.
    pub fn average_entry_price(&self, symbol: Symbol) -> Option<Price> {
        self.position(symbol)?.avg_entry_price()
    }
}
