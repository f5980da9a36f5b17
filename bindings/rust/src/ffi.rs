//! The functions of the archive as it exports them, and the records that only they speak of. Of these declarations only the sizes of the
//! records that `Layout` names are held to the archive: see README.md, "What crosses the boundary unchecked". That they are the archive's
//! is what every SAFETY line takes for granted.
use crate::orderbook::OrderBook;
use crate::position::PositionLedger;
use crate::receiver::Receiver;
use crate::told::Told;
use crate::types::{MAX_LEVELS, SYMBOLS};

#[cfg(test)]
mod layout;

/// What stands beside a book's rows where it is lent as these.
#[repr(C)]
#[derive(Clone, Copy)]
pub(crate) struct Counts {
    pub bids: usize,
    pub asks: usize,
    pub sequence: u64,
}

#[repr(C)]
pub(crate) struct CountsTold {
    pub counts: Counts,
    pub told: Told,
}

/// What stands beside a ledger's rows where it is lent as these.
#[repr(C)]
#[derive(Clone, Copy)]
pub(crate) struct Totals {
    pub cash: i64,
    pub commission: i64,
}

#[repr(C)]
pub(crate) struct TotalsTold {
    pub totals: Totals,
    pub told: Told,
}

/// The totals after a day's fills, how many of them were taken, and the answer.
#[repr(C)]
pub(crate) struct DayTold {
    pub totals: Totals,
    pub taken: u64,
    pub told: Told,
}

/// A new ledger.
#[repr(C)]
pub(crate) struct LedgerTold {
    pub ledger: PositionLedger,
    pub told: Told,
}

#[repr(C)]
pub(crate) struct TurnTold {
    pub state: u64,
    pub counts: Counts,
    pub told: Told,
}

#[repr(C)]
pub(crate) struct LineTold {
    pub told: Told,
    pub side: u64,
    pub action: u64,
    pub price: u32,
    pub quantity: u32,
    pub sequence: u64,
    pub book: OrderBook,
}

/// Which archive this is: its version, as major times 1,000,000, minor times 1,000 and patch, and the bytes of each record named here.
/// This record keeps its own shape from version to version, so that any crate can ask any archive.
#[repr(C)]
#[derive(Clone, Copy, Debug, PartialEq, Eq)]
pub(crate) struct Layout {
    pub version: u64,
    pub book: u64,
    pub ledger: u64,
    pub held: u64,
    pub told: u64,
    pub counts: u64,
    pub counts_told: u64,
    pub ledger_told: u64,
    pub turn_told: u64,
    pub line_told: u64,
}

/// The prices or the quantities of a side: a row of a book.
pub(crate) type Row = [u32; MAX_LEVELS];

/// The lots or the realized profits of all symbols: a row of a ledger.
pub(crate) type Amounts = [i64; SYMBOLS];

/// The average prices of all symbols: a row of a ledger.
pub(crate) type Averages = [u32; SYMBOLS];

extern "C" {
    pub(crate) fn wermazul_layout() -> Layout;

    pub(crate) fn wermazul_book() -> OrderBook;
    pub(crate) fn wermazul_is_book(
        bid_prices: *const Row,
        bid_quantities: *const Row,
        ask_prices: *const Row,
        ask_quantities: *const Row,
        counts: Counts,
    ) -> u8;
    pub(crate) fn wermazul_apply_delta(
        bid_prices: *mut Row,
        bid_quantities: *mut Row,
        ask_prices: *mut Row,
        ask_quantities: *mut Row,
        counts: Counts,
        side: u64,
        action: u64,
        price: u32,
        quantity: u32,
        sequence: u64,
    ) -> CountsTold;
    pub(crate) fn wermazul_clear(
        bid_prices: *mut Row,
        bid_quantities: *mut Row,
        ask_prices: *mut Row,
        ask_quantities: *mut Row,
        counts: Counts,
    ) -> CountsTold;
    pub(crate) fn wermazul_remove_all(
        bid_prices: *mut Row,
        bid_quantities: *mut Row,
        ask_prices: *mut Row,
        ask_quantities: *mut Row,
        counts: Counts,
        side: u64,
    ) -> CountsTold;
    pub(crate) fn wermazul_ask(
        bid_prices: *const Row,
        bid_quantities: *const Row,
        ask_prices: *const Row,
        ask_quantities: *const Row,
        counts: Counts,
        question: u64,
        side: u64,
        small: u32,
        large: u64,
    ) -> Told;
    pub(crate) fn wermazul_places(
        bid_prices: *const Row,
        bid_quantities: *const Row,
        ask_prices: *const Row,
        ask_quantities: *const Row,
        counts: Counts,
        listing: u64,
        side: u64,
        from: u64,
        to: u32,
        room: u64,
    ) -> Told;
    pub(crate) fn wermazul_list(
        bid_prices: *const Row,
        bid_quantities: *const Row,
        ask_prices: *const Row,
        ask_quantities: *const Row,
        counts: Counts,
        listing: u64,
        side: u64,
        from: u64,
        to: u32,
        out: *mut u32,
        out_len: usize,
    ) -> Told;

    pub(crate) fn wermazul_ledger(cash: i64) -> LedgerTold;
    pub(crate) fn wermazul_is_ledger(quantities: *const Amounts, averages: *const Averages, realized: *const Amounts, totals: Totals)
        -> u8;
    pub(crate) fn wermazul_apply_fill(
        quantities: *mut Amounts,
        averages: *mut Averages,
        realized: *mut Amounts,
        totals: Totals,
        symbol: u32,
        side: u64,
        quantity: u32,
        price: u32,
        commission: i64,
    ) -> TotalsTold;
    pub(crate) fn wermazul_apply_fills(
        quantities: *mut Amounts,
        averages: *mut Averages,
        realized: *mut Amounts,
        totals: Totals,
        numbers: *const i64,
        numbers_len: usize,
    ) -> DayTold;
    pub(crate) fn wermazul_deposit(
        quantities: *const Amounts,
        averages: *const Averages,
        realized: *const Amounts,
        totals: Totals,
        amount: i64,
    ) -> TotalsTold;
    pub(crate) fn wermazul_unrealized(
        quantities: *const Amounts,
        averages: *const Averages,
        realized: *const Amounts,
        totals: Totals,
        symbol: u32,
        price: u32,
    ) -> Told;
    pub(crate) fn wermazul_worth(
        quantities: *const Amounts,
        averages: *const Averages,
        realized: *const Amounts,
        totals: Totals,
        worth: u64,
        prices: *const u32,
        prices_len: usize,
    ) -> Told;

    pub(crate) fn wermazul_line_kind(line: *const u8, line_len: usize) -> Told;
    pub(crate) fn wermazul_read_line(line: *const u8, line_len: usize) -> LineTold;
    pub(crate) fn wermazul_line_end(text: *const u8, text_len: usize) -> u64;
    pub(crate) fn wermazul_write_delta(
        side: u64,
        action: u64,
        price: u32,
        quantity: u32,
        sequence: u64,
        out: *mut u8,
        out_len: usize,
    ) -> Told;
    pub(crate) fn wermazul_write_snapshot(
        bid_prices: *const Row,
        bid_quantities: *const Row,
        ask_prices: *const Row,
        ask_quantities: *const Row,
        counts: Counts,
        out: *mut u8,
        out_len: usize,
    ) -> Told;

    pub(crate) fn wermazul_receiver() -> Receiver;
    pub(crate) fn wermazul_take_line(
        bid_prices: *mut Row,
        bid_quantities: *mut Row,
        ask_prices: *mut Row,
        ask_quantities: *mut Row,
        state: u64,
        counts: Counts,
        line: *const u8,
        line_len: usize,
    ) -> TurnTold;
    pub(crate) fn wermazul_receiver_ask(
        bid_prices: *const Row,
        bid_quantities: *const Row,
        ask_prices: *const Row,
        ask_quantities: *const Row,
        state: u64,
        counts: Counts,
        question: u64,
        side: u64,
        small: u32,
        large: u64,
    ) -> Told;
    pub(crate) fn wermazul_receiver_places(
        bid_prices: *const Row,
        bid_quantities: *const Row,
        ask_prices: *const Row,
        ask_quantities: *const Row,
        state: u64,
        counts: Counts,
        listing: u64,
        side: u64,
        from: u64,
        to: u32,
        room: u64,
    ) -> Told;
    pub(crate) fn wermazul_receiver_list(
        bid_prices: *const Row,
        bid_quantities: *const Row,
        ask_prices: *const Row,
        ask_quantities: *const Row,
        state: u64,
        counts: Counts,
        listing: u64,
        side: u64,
        from: u64,
        to: u32,
        out: *mut u32,
        out_len: usize,
    ) -> Told;
}
