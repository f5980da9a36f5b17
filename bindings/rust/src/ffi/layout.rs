//! The layout that C gives each record on x86-64, worked out from the records' declarations in the archive's sources.
use super::*;
use crate::orderbook::Levels;
use crate::told::Whole;
use std::mem::{size_of, MaybeUninit};
use std::ptr::addr_of;

/// The sizes of a record and then the offset of each named field.
macro_rules! layout {
    ($record:ty, $($field:ident),+) => {{
        let place = MaybeUninit::<$record>::uninit();
        let start = place.as_ptr();
        // SAFETY: only addresses are taken; nothing is read.
        vec![size_of::<$record>(), $(unsafe { addr_of!((*start).$field) as usize - start as usize }),+]
    }};
}

#[test]
fn answers() {
    assert_eq!(layout!(Whole, size, negative), [16, 0, 8]);
    assert_eq!(layout!(Told, number, count, values), [80, 0, 8, 16]);
}

#[test]
fn the_archive_itself() {
    let offsets = layout!(Layout, version, book, ledger, held, told, counts, counts_told, ledger_told, turn_told, line_told);
    assert_eq!(offsets, [80, 0, 8, 16, 24, 32, 40, 48, 56, 64, 72]);
}

#[test]
fn books() {
    assert_eq!(layout!(Levels, prices, quantities, count), [1032, 0, 512, 1024]);
    assert_eq!(layout!(OrderBook, bids, asks, sequence), [2072, 0, 1032, 2064]);
    assert_eq!(layout!(Counts, bids, asks, sequence), [24, 0, 8, 16]);
    assert_eq!(layout!(CountsTold, counts, told), [104, 0, 24]);
    assert_eq!(size_of::<Row>(), 512);
}

#[test]
fn ledgers() {
    assert_eq!(layout!(PositionLedger, cash, commission, quantities, averages, realized), [656, 0, 8, 16, 272, 400]);
    assert_eq!(layout!(LedgerTold, ledger, told), [736, 0, 656]);
    assert_eq!(layout!(Totals, cash, commission), [16, 0, 8]);
    assert_eq!(layout!(TotalsTold, totals, told), [96, 0, 16]);
    assert_eq!(layout!(DayTold, totals, taken, told), [104, 0, 16, 24]);
    assert_eq!((size_of::<Amounts>(), size_of::<Averages>()), (256, 128));
}

#[test]
fn feeds() {
    assert_eq!(layout!(Receiver, state, book), [2080, 0, 8]);
    assert_eq!(layout!(TurnTold, state, counts, told), [112, 0, 8, 32]);
    assert_eq!(layout!(LineTold, told, side, action, price, quantity, sequence, book), [2184, 0, 80, 88, 96, 100, 104, 112]);
}
