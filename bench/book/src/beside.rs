//! Calls beside the book's: a fill to the ledger, which the original has too, a day's fills and a line to the receiver, which it has not.
use crate::clock::now;
use crate::inputs::{self, FILLS};
use ::original::position as theirs;
use ::original::types::{NanoTimestamp, Price, Quantity, Side, Symbol};
use rust_decimal::Decimal;
use wermazul::{Fill, OrderBook, PositionLedger, Receiver, MAX_LINE};

const CASH: i64 = 1_000_000_000_000_000;
/// The fills of a day.
const DAY: usize = 400;

fn our_fill(it: &inputs::Fill) -> Fill {
    let side = if it.buys { wermazul::Side::Bid } else { wermazul::Side::Ask };
    Fill { symbol: it.symbol, side, quantity: it.quantity, price: it.price, commission: it.commission.into() }
}

fn their_fill(it: &inputs::Fill) -> theirs::Fill {
    let symbol = Symbol::new(format!("S{}", it.symbol)).expect("a symbol");
    let side = if it.buys { Side::Bid } else { Side::Ask };
    let quantity = Quantity::new(Decimal::from(it.quantity)).expect("a quantity");
    let price = Price::new(Decimal::from(it.price)).expect("a price");
    theirs::Fill::with_commission(symbol, side, quantity, price, NanoTimestamp::new(0), Decimal::from(it.commission))
}

/// All fills to a new ledger: nanoseconds a fill, of ours by a call each, of the original, and of ours by a call for each day of 400. Every one is
/// taken, and all have the same cash then.
pub fn fill(fills: &[inputs::Fill]) -> [f64; 3] {
    let (ours, originals): (Vec<_>, Vec<_>) = fills.iter().map(|it| (our_fill(it), their_fill(it))).unzip();
    let mut ledger = PositionLedger::new(CASH).expect("a ledger");
    let start = now();
    let taken = ours.iter().filter(|it| ledger.apply_fill(**it).is_ok()).count();
    let our_time = now() - start;
    let mut by_days = PositionLedger::new(CASH).expect("a ledger");
    let start = now();
    let booked: usize = ours.chunks(DAY).filter_map(|day| by_days.apply_fills(day).ok()).sum();
    let days_time = now() - start;
    let mut original = theirs::PositionLedger::new(Decimal::from(CASH));
    let (mut refused, start) = (0, now());
    for fill in originals {
        refused += usize::from(original.apply_fill(fill).is_err());
    }
    let their_time = now() - start;
    assert_eq!((taken, booked, refused), (FILLS, FILLS, 0), "every fill is taken");
    assert_eq!(ledger, by_days, "the ledger");
    assert_eq!(Decimal::from(ledger.cash), original.cash(), "the cash");
    [our_time, their_time, days_time].map(|time| time / FILLS as f64)
}

/// The lines of the deltas, behind that of an empty book.
pub fn lines(deltas: &[wermazul::BookDelta]) -> Vec<Vec<u8>> {
    let mut out = [0; MAX_LINE];
    let length = wermazul::write_snapshot(&OrderBook::new(), &mut out).expect("a line");
    let mut lines = vec![out[..length].to_vec()];
    for delta in deltas {
        let length = wermazul::write_delta(*delta, &mut out).expect("a line");
        lines.push(out[..length].to_vec());
    }
    lines
}

/// All lines to a new receiver: nanoseconds a line. Every one is taken, and its book has the sequence of the last.
pub fn take(lines: &[Vec<u8>]) -> f64 {
    let mut receiver = Receiver::new();
    let start = now();
    let taken = lines.iter().filter(|line| receiver.take_line(line).is_ok()).count();
    let time = now() - start;
    assert_eq!((taken as u64, receiver.book.sequence + 1), (lines.len() as u64, lines.len() as u64), "every line is taken");
    time / lines.len() as f64
}
