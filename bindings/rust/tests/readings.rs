//! What a ledger holds, read off its fields; fills made by name; and the modules' paths.
use wermazul::position::{Fill, Position, PositionDirection, PositionLedger};
use wermazul::types::{Side, SYMBOLS};

/// Cash 1000: long 3 of symbol 2 at 100, short 2 of symbol 30 at 50, and a lot of symbol 7 bought at 10 and sold at 12. Commissions 4, 1.
fn ledger() -> PositionLedger {
    let mut ledger = PositionLedger::new(1000).unwrap();
    let fills = [
        Fill::with_commission(2, Side::Bid, 3, 100, 4),
        Fill::with_commission(30, Side::Ask, 2, 50, 1),
        Fill::new(7, Side::Bid, 1, 10),
        Fill::new(7, Side::Ask, 1, 12),
    ];
    for fill in fills {
        ledger.apply_fill(fill).unwrap();
    }
    ledger
}

#[test]
fn fills_by_name() {
    assert_eq!(Fill::new(1, Side::Ask, 2, 3), Fill { symbol: 1, side: Side::Ask, quantity: 2, price: 3, commission: 0 });
    let charged = Fill { symbol: 1, side: Side::Bid, quantity: 2, price: 3, commission: -4 };
    assert_eq!(Fill::with_commission(1, Side::Bid, 2, 3, -4), charged);
}

#[test]
fn cash_and_commission() {
    assert_eq!((ledger().cash(), ledger().total_commission_paid()), (1000 - 304 + 99 + 2, 5));
    let owing = PositionLedger::new(-7).unwrap();
    assert_eq!((owing.cash(), owing.total_commission_paid()), (-7, 0));
}

#[test]
fn positions_by_symbol() {
    let ledger = ledger();
    let long = Position { quantity: 3, average: 100, realized: -4 };
    let short = Position { quantity: -2, average: 50, realized: -1 };
    assert_eq!((ledger.position(2), ledger.position(30)), (Some(long), Some(short)));
    assert_eq!(
        (ledger.position(7), ledger.position(31)),
        (Some(Position { realized: 2, ..Position::default() }), Some(Position::default()))
    );
    assert_eq!((ledger.position(32), ledger.position(u32::MAX)), (None, None));
    assert_eq!([2, 30, 7, 31, 32].map(|it| ledger.realized_pnl(it)), [Some(-4), Some(-1), Some(2), Some(0), None]);
    assert_eq!([2, 30, 7, 31, 32].map(|it| ledger.average_entry_price(it)), [Some(100), Some(50), None, None, None]);
}

#[test]
fn positions_in_order() {
    let ledger = ledger();
    let all: Vec<_> = ledger.positions().collect();
    assert_eq!((all.len(), all[0].0, all[31].0), (SYMBOLS, 0, 31));
    assert!(all.iter().all(|(symbol, it)| ledger.position(*symbol) == Some(*it)));
    let symbols = |these: Vec<(u32, Position)>| these.into_iter().map(|(symbol, _)| symbol).collect::<Vec<_>>();
    assert_eq!(symbols(ledger.open_positions().collect()), [2, 30]);
    assert_eq!(symbols(ledger.long_positions().collect()), [2]);
    assert_eq!(symbols(ledger.short_positions().collect()), [30]);
    assert_eq!(ledger.open_symbols().collect::<Vec<_>>(), [2, 30]);
    assert_eq!((ledger.open_position_count(), ledger.long_count(), ledger.short_count()), (2, 1, 1));
}

#[test]
fn flat_or_not() {
    let flat = PositionLedger::new(5).unwrap();
    assert_eq!((flat.all_flat(), flat.has_open_positions(), flat.open_position_count()), (true, false, 0));
    assert_eq!((ledger().all_flat(), ledger().has_open_positions()), (false, true));
    let of = |quantity| Position { quantity, average: 1, realized: 0 };
    let told = |it: Position| (it.direction(), it.is_long(), it.is_short(), it.is_flat(), it.quantity_abs());
    assert_eq!(told(of(3)), (PositionDirection::Long, true, false, false, 3));
    assert_eq!(told(of(0)), (PositionDirection::Flat, false, false, true, 0));
    assert_eq!(told(of(i64::MIN)), (PositionDirection::Short, false, true, false, 1 << 63));
}

/// A record that is no ledger is read as it stands, while every call refuses it.
#[test]
fn readings_test_nothing() {
    let mut record = ledger();
    record.averages[0] = 9;
    assert!(!record.is_ledger());
    assert_eq!((record.cash(), record.average_entry_price(0), record.position(0).map(|it| it.is_flat())), (797, Some(9), Some(true)));
}

/// A path at the root and a path by the module name one type.
#[test]
fn one_type_by_two_paths() {
    let book: wermazul::OrderBook = wermazul::orderbook::OrderBook::new();
    let receiver: wermazul::Receiver = wermazul::receiver::Receiver { state: 1, book };
    let side: wermazul::Side = wermazul::types::Side::Bid;
    let refused: Result<wermazul::types::Quotient, wermazul::error::Error> = receiver.vwap_for_qty(side, 1);
    assert_eq!(refused, Err(wermazul::Error::InsufficientLiquidity { target: 1 }));
    let kind: Result<wermazul::LineKind, _> = wermazul::feed::line_kind(b"\n");
    assert_eq!(kind, Err(wermazul::Error::DamagedLine));
}
