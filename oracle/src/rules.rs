//! Our tests of records and inputs, written a second time and plainly: what a difference is classed by.
use crate::forms::*;
use wermazul::{Levels, OrderBook, Position, PositionLedger};

fn is_side(levels: &Levels, falls: bool) -> bool {
    if levels.count > MAX_LEVELS {
        return false;
    }
    let (prices, unused_prices) = levels.prices.split_at(levels.count);
    let (quantities, unused_quantities) = levels.quantities.split_at(levels.count);
    let ordered = prices.windows(2).all(|it| if falls { it[0] > it[1] } else { it[0] < it[1] });
    let within = prices.iter().all(|it| is_price(*it)) && quantities.iter().all(|it| *it <= MAX_QUANTITY);
    let unused = unused_prices.iter().chain(unused_quantities).all(|it| *it == 0);
    ordered && within && unused
}

pub fn is_book(book: &OrderBook) -> bool {
    let apart = book.bids.count == 0 || book.asks.count == 0 || book.bids.prices[0] < book.asks.prices[0];
    is_side(&book.bids, true) && is_side(&book.asks, false) && apart
}

pub fn side(book: &OrderBook, side: u64) -> &Levels {
    if side == BID {
        &book.bids
    } else {
        &book.asks
    }
}

pub fn has_price(levels: &Levels, price: u32) -> bool {
    levels.prices[..levels.count].contains(&price)
}

pub fn total(levels: &Levels) -> u64 {
    levels.quantities[..levels.count].iter().map(|it| *it as u64).sum()
}

pub fn delta_within(delta: &Delta) -> bool {
    is_price(delta.price) && (delta.action == REMOVE || delta.quantity <= MAX_QUANTITY)
}

/// Whether a Set at this price makes the best bid reach the best ask.
pub fn crosses(book: &OrderBook, delta: &Delta) -> bool {
    let other = side(book, 1 - delta.side);
    let reaches = if delta.side == BID { delta.price >= other.prices[0] } else { delta.price <= other.prices[0] };
    delta.action == SET && other.count > 0 && reaches
}

/// Whether a delta asks for a new level where there is no room.
pub fn overfills(book: &OrderBook, delta: &Delta) -> bool {
    let own = side(book, delta.side);
    delta.action == SET && own.count == MAX_LEVELS && !has_price(own, delta.price)
}

/// Whether what is asked with a question is within its limits.
pub fn asked_within(question: u64, asked: &Asked) -> bool {
    match question {
        9 | 10 | 17 => is_price(asked.small),
        25 | 26 => asked.small <= MAX_QUANTITY,
        27 => asked.large <= MAX_VOLUME,
        _ => true,
    }
}

fn is_money(amount: i128) -> bool {
    amount.abs() <= MAX_MONEY as i128
}

fn is_position(position: &Position) -> bool {
    let averaged = if position.quantity == 0 { position.average == 0 } else { is_price(position.average) };
    (position.quantity as i128).abs() <= MAX_POSITION as i128 && is_money(position.realized as i128) && averaged
}

/// What a ledger has of a symbol within the limits.
pub fn held(ledger: &PositionLedger, symbol: u32) -> Position {
    ledger.position(symbol).expect("a symbol within the limits")
}

pub fn is_ledger(ledger: &PositionLedger) -> bool {
    is_money(ledger.cash as i128) && is_money(ledger.commission as i128) && ledger.positions().all(|it| is_position(&it.1))
}

pub fn fill_within(fill: &Fill) -> bool {
    let numbers = (fill.symbol as usize) < SYMBOLS && fill.quantity <= MAX_QUANTITY && is_price(fill.price);
    numbers && (fill.commission as i128).abs() <= MAX_COMMISSION as i128
}

/// A fill on one position, in plain numbers.
pub struct Booking {
    pub held: Position,
    pub old: i128,
    pub new: i128,
    /// The average after the fill.
    pub average: i128,
    /// Realized profit after the fill.
    pub realized: i128,
    /// What the new average is of, where the fill increases: the cost of all lots.
    pub cost: i128,
    pub grown: bool,
}

pub fn booking(held: &Position, fill: &Fill) -> Booking {
    let old = held.quantity as i128;
    let new = old + fill.lots();
    let grown = old == 0 || (old > 0) == (fill.side == BID);
    let closed = if grown { 0 } else { old.abs().min(fill.quantity as i128) };
    let gain = (fill.price as i128 - held.average as i128) * old.signum();
    let cost = held.average as i128 * old.abs() + fill.price as i128 * fill.quantity as i128;
    let average = if new == 0 {
        0
    } else if grown {
        cost / new.abs()
    } else if new.signum() == old.signum() {
        held.average as i128
    } else {
        fill.price as i128
    };
    let realized = held.realized as i128 + closed * gain - fill.commission as i128;
    Booking { held: *held, old, new, average, realized, cost, grown }
}

impl Booking {
    pub fn is_small_turnover(&self) -> bool {
        self.old.signum() * self.new.signum() < 0 && self.new.abs() <= self.old.abs()
    }

    /// What rounding the average down cuts off the cost of all lots.
    pub fn cut_off(&self) -> i128 {
        if self.grown && self.new != 0 {
            self.cost % self.new.abs()
        } else {
            0
        }
    }

    pub fn is_rounded(&self) -> bool {
        self.cut_off() != 0
    }

    pub fn is_within(&self) -> bool {
        self.new.abs() <= MAX_POSITION as i128 && is_money(self.realized)
    }
}

/// Whether a fill that is not short of cash leaves every total within its limit.
pub fn is_bearable(ledger: &PositionLedger, fill: &Fill) -> bool {
    let cash = ledger.cash as i128 - fill.charge();
    let paid = ledger.commission as i128 + fill.commission as i128;
    is_money(cash) && is_money(paid) && booking(&held(ledger, fill.symbol), fill).is_within()
}

pub fn is_short(ledger: &PositionLedger, fill: &Fill) -> bool {
    fill.side == BID && (ledger.cash as i128) < fill.charge()
}

/// The number that a fill is refused with.
pub fn refusal(ledger: &PositionLedger, fill: &Fill) -> Option<u64> {
    if !fill_within(fill) {
        Some(2)
    } else if is_short(ledger, fill) {
        Some(8)
    } else if !is_bearable(ledger, fill) {
        Some(9)
    } else {
        None
    }
}

/// Books a fill that is not refused.
pub fn book(ledger: &mut PositionLedger, fill: &Fill) -> Booking {
    let symbol = fill.symbol as usize;
    let booking = booking(&held(ledger, fill.symbol), fill);
    ledger.cash = (ledger.cash as i128 - fill.charge()) as i64;
    ledger.commission += fill.commission;
    ledger.quantities[symbol] = booking.new as i64;
    ledger.averages[symbol] = booking.average as u32;
    ledger.realized[symbol] = booking.realized as i64;
    booking
}

/// A day's fills: what each that is taken does, the number that the next is refused with, and the ledger that they leave.
pub struct Plan {
    pub bookings: Vec<Booking>,
    pub refusal: Option<u64>,
    pub left: PositionLedger,
}

pub fn plan(ledger: &PositionLedger, fills: &[Fill]) -> Plan {
    let mut plan = Plan { bookings: Vec::new(), refusal: None, left: ledger.clone() };
    for fill in fills {
        plan.refusal = refusal(&plan.left, fill);
        if plan.refusal.is_some() {
            break;
        }
        plan.bookings.push(book(&mut plan.left, fill));
    }
    plan
}
