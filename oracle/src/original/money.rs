//! The original's ledger: made from any record of ours, changed and asked.
use super::released::{guarded, price_of, quantity_of, refused, side_of};
use crate::forms::{Fill, SYMBOLS};
use crate::said::{Said, UNMADE};
use original::error::FinError;
use original::position::{Fill as Traded, Position, PositionLedger};
use original::types::{NanoTimestamp, Price, Side, Symbol};
use rust_decimal::Decimal;
use std::collections::HashMap;

pub type Prices = HashMap<String, Price>;

fn name_of(symbol: u32) -> String {
    format!("S{}", symbol)
}

pub fn symbol_of(symbol: u32) -> Symbol {
    Symbol::new(name_of(symbol)).expect("a symbol")
}

/// A fill of the original. Its commission is any Decimal.
fn traded(symbol: u32, side: Side, quantity: u32, price: Price, commission: Decimal) -> Traded {
    let time = NanoTimestamp::new(0);
    Traded::with_commission(symbol_of(symbol), side, quantity_of(quantity), price, time, commission)
}

fn fill_of(fill: &Fill) -> Option<Traded> {
    let price = price_of(fill.price)?;
    Some(traded(fill.symbol, side_of(fill.side), fill.quantity, price, Decimal::from(fill.commission)))
}

pub fn apply(ledger: &mut PositionLedger, fill: &Fill) -> Said {
    let offered = match fill_of(fill) {
        Some(offered) => offered,
        None => return Said::refused(UNMADE),
    };
    match ledger.apply_fill(offered) {
        Ok(()) => Said::done(),
        Err(error) => refused(&error),
    }
}

/// One position of a record: quantity, average, realized profit.
pub type Holding = (i64, u32, i64);

/// A position of the original with these public fields, after a fill.
pub fn position_after(held: Holding, fill: &Fill) -> Option<Position> {
    let mut position = Position::new(symbol_of(fill.symbol));
    position.quantity = Decimal::from(held.0);
    position.avg_cost = Decimal::from(held.1);
    position.realized_pnl = Decimal::from(held.2);
    position.apply_fill(&fill_of(fill)?).ok()?;
    Some(position)
}

/// The fill that opens a flat position with just this quantity, average and realized profit.
fn opening(symbol: u32, held: Holding) -> Traded {
    let side = if held.0 < 0 { Side::Ask } else { Side::Bid };
    let price = price_of(held.1.max(1)).expect("a price");
    traded(symbol, side, held.0.unsigned_abs() as u32, price, -Decimal::from(held.2))
}

/// A ledger of the original with these positions, cash and commission paid. A symbol whose record is all 0 has no position in it. The
/// symbol numbered 99 stays flat and bears what commission is missing.
pub fn ledger_of(cash: i64, commission: i64, positions: &[Holding; SYMBOLS]) -> PositionLedger {
    let plenty = Decimal::from(1_000_000_000_000_000_000_000_000i128);
    let mut ledger = PositionLedger::new(plenty);
    let used = (0..SYMBOLS).filter(|&symbol| positions[symbol] != (0, 0, 0));
    for symbol in used {
        ledger.apply_fill(opening(symbol as u32, positions[symbol])).expect("there is plenty of cash");
    }
    let missing = Decimal::from(commission) - ledger.total_commission_paid();
    if !missing.is_zero() {
        let price = price_of(1).expect("a price");
        ledger.apply_fill(traded(99, Side::Ask, 0, price, missing)).expect("an Ask is taken");
    }
    ledger.deposit(Decimal::from(cash) - ledger.cash());
    ledger
}

/// The prices that are not 0, by name.
pub fn prices_of(prices: &[u32]) -> Prices {
    let named = prices.iter().enumerate().filter_map(|(symbol, &price)| Some((name_of(symbol as u32), price_of(price)?)));
    named.collect()
}

fn amount(answer: Result<Decimal, FinError>) -> Said {
    answer.map_or_else(|error| refused(&error), Said::is)
}

/// What the ledger is worth at prices, by the numbers of the worths.
pub fn worth(ledger: &PositionLedger, worth: u64, prices: &Prices) -> Said {
    guarded(|| match worth {
        0 => amount(ledger.unrealized_pnl_total(prices)),
        1 => amount(ledger.net_liquidation_value(prices)),
        2 => Said::maybe(ledger.net_market_exposure(prices)),
        _ => ledger.delta_neutral_check(prices).map_or_else(|error| refused(&error), Said::flag),
    })
}

/// The unrealized profit of a symbol, where the ledger has a position of it.
pub fn unrealized(ledger: &PositionLedger, symbol: u32, price: u32) -> Option<Said> {
    let position = ledger.position(&symbol_of(symbol))?;
    let at = match price_of(price) {
        Some(at) => at,
        None => return Some(Said::refused(UNMADE)),
    };
    Some(amount(position.checked_unrealized_pnl(at)))
}
