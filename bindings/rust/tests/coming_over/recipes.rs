// What to write in place of calls that are not here.
use wermazul::orderbook::{OrderBook, Quote};
use wermazul::position::{Fill, Position, PositionLedger};
use wermazul::types::{Price, Side, Symbol, MAX_PRICE};
use wermazul::Error;

/// `liquidity_at_pct`, the distance from the middle in hundredths of a percent: all asks of a book are above the middle, all bids below.
pub fn liquidity_at_bps(book: &OrderBook, side: Side, distance: u32) -> Result<u64, Error> {
    let Quote { bid, ask } = book.best_quote()?;
    let (both, distance) = (u64::from(bid.price + ask.price), u64::from(distance));
    let edge = match side {
        Side::Ask => both * (10_000 + distance) / 20_000,
        Side::Bid => (both * 10_000_u64.saturating_sub(distance) + 19_999) / 20_000,
    };
    book.cumulative_depth(side, edge.clamp(1, u64::from(MAX_PRICE)) as Price)
}

/// `Fill::notional`.
pub fn notional(fill: &Fill) -> u64 {
    u64::from(fill.price) * u64::from(fill.quantity)
}

/// `Position::cost_basis` and `total_cost_basis`.
pub fn cost_basis(held: &Position) -> u64 {
    held.quantity_abs() * u64::from(held.average)
}

/// `Position::market_value`.
pub fn market_value(held: &Position, price: Price) -> i64 {
    held.quantity * i64::from(price)
}

/// `withdraw`: `deposit` of a negative amount takes cash below 0 if it must.
pub fn withdraw(ledger: &mut PositionLedger, amount: i64) -> Result<(), Error> {
    if amount > ledger.cash() {
        return Err(Error::InsufficientFunds { need: amount, have: ledger.cash() });
    }
    ledger.deposit(amount.checked_neg().ok_or(Error::OutOfLimits)?)
}

/// `realized_pnl_total` and `total_realized_pnl`: the sum over 32 symbols may need more than 64 bits.
pub fn realized_pnl_total(ledger: &PositionLedger) -> i128 {
    ledger.positions().map(|(_, held)| i128::from(held.realized)).sum()
}

/// `net_exposure` and `net_quantity`.
pub fn net_quantity(ledger: &PositionLedger) -> i64 {
    ledger.positions().map(|(_, held)| held.quantity).sum()
}

/// `largest_position`; `smallest_position` is `min_by_key`.
pub fn largest_position(ledger: &PositionLedger) -> Option<(Symbol, Position)> {
    ledger.open_positions().max_by_key(|(_, held)| held.quantity_abs())
}

/// `total_market_value`.
pub fn total_market_value(ledger: &PositionLedger, prices: &[Price]) -> Result<i64, Error> {
    Ok(ledger.net_liquidation_value(prices)? - ledger.cash())
}

/// `equity`.
pub fn equity(ledger: &PositionLedger, prices: &[Price]) -> Result<i64, Error> {
    Ok(ledger.cash() + ledger.unrealized_pnl_total(prices)?)
}

/// `pnl_by_symbol`: sort it, or take its first or last, for the calls that rank by profit.
pub fn pnl_by_symbol(ledger: &PositionLedger, prices: &[Price]) -> Result<Vec<(Symbol, i64)>, Error> {
    let of = |symbol: Symbol| Ok((symbol, ledger.checked_unrealized_pnl(symbol, prices[symbol as usize])?));
    ledger.open_symbols().map(of).collect()
}
