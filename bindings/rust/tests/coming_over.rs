//! What docs/COMING-OVER.md gives in place of calls that are not here, as it stands there.
mod common;
#[path = "coming_over/recipes.rs"]
mod recipes;

use common::book_k;
use recipes::*;
use wermazul::position::{Fill, Position, PositionLedger};
use wermazul::types::{Side, SYMBOLS};
use wermazul::{Error, OrderBook};

/// Cash 1000 - 300 + 100: long 3 of symbol 2 at 100, short 2 of symbol 30 at 50; a lot of symbol 7 was bought at 10 and sold at 12.
fn ledger() -> PositionLedger {
    let mut ledger = PositionLedger::new(1000).unwrap();
    let fills = [(2, Side::Bid, 3, 100), (30, Side::Ask, 2, 50), (7, Side::Bid, 1, 10), (7, Side::Ask, 1, 12)];
    for (symbol, side, quantity, price) in fills {
        ledger.apply_fill(Fill::new(symbol, side, quantity, price)).unwrap();
    }
    ledger
}

#[test]
fn the_page_shows_them() {
    let shown = format!("```rust\n{}```\n", include_str!("coming_over/recipes.rs"));
    assert!(include_str!("../../../docs/COMING-OVER.md").contains(&shown), "docs/COMING-OVER.md shows other code");
}

/// The middle is 100.5: one percent of it reaches from 99.495 to 101.505, two percent from 98.49 to 102.51, three to 97.485 and 103.515.
#[test]
fn liquidity() {
    let at = |side, distance| liquidity_at_bps(&book_k(), side, distance).unwrap();
    assert_eq!([0, 49, 50, 100, 200, 300].map(|it| at(Side::Ask, it)), [0, 0, 4, 4, 4, 10]);
    assert_eq!([0, 49, 50, 100, 200, 300, 20_000].map(|it| at(Side::Bid, it)), [0, 0, 5, 5, 5, 15, 15]);
    assert_eq!(at(Side::Ask, u32::MAX), 10);
    assert_eq!(liquidity_at_bps(&OrderBook::new(), Side::Bid, 1), Err(Error::NoValue));
}

#[test]
fn of_a_fill_and_a_position() {
    assert_eq!(notional(&Fill::new(0, Side::Ask, 1_000_000_000, 100_000_000)), 100_000_000_000_000_000);
    let short = Position { quantity: -1_000_000_000, average: 100_000_000, realized: 0 };
    assert_eq!(cost_basis(&short), 100_000_000_000_000_000);
    assert_eq!(market_value(&short, 3), -3_000_000_000);
}

#[test]
fn withdrawals() {
    let mut ledger = PositionLedger::new(100).unwrap();
    assert_eq!(withdraw(&mut ledger, 101), Err(Error::InsufficientFunds { need: 101, have: 100 }));
    assert_eq!((withdraw(&mut ledger, 100), ledger.cash()), (Ok(()), 0));
    assert_eq!(withdraw(&mut ledger, i64::MIN), Err(Error::OutOfLimits));
}

#[test]
fn of_a_ledger() {
    let mut prices = [0; SYMBOLS];
    (prices[2], prices[30]) = (90, 70);
    let ledger = ledger();
    assert_eq!((ledger.cash(), realized_pnl_total(&ledger), net_quantity(&ledger)), (802, 2, 1));
    assert_eq!(largest_position(&ledger).map(|(symbol, _)| symbol), Some(2));
    assert_eq!(total_market_value(&ledger, &prices), Ok(270 - 140));
    assert_eq!(equity(&ledger, &prices), Ok(802 - 30 - 40));
    assert_eq!(pnl_by_symbol(&ledger, &prices), Ok(vec![(2, -30), (30, -40)]));
    prices[30] = 0;
    assert_eq!(equity(&ledger, &prices), Err(Error::Unpriced { symbol: 30 }));
    assert_eq!(pnl_by_symbol(&ledger, &prices), Err(Error::OutOfLimits));
}
