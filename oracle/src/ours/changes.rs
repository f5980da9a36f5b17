//! Our calls that change a record or ask it, by the shared words, with the planted slips in their way.
use super::mutants::{self, planted};
use super::{side_of, told};
use crate::calls::Call;
use crate::forms::{Asked, Delta, Fill, SET};
use crate::said::{Ended, Said};
use wermazul::{BookDelta, DeltaAction, Fill as OurFill, OrderBook, PositionLedger};

pub fn apply(book: &mut OrderBook, offered: &Delta) -> Said {
    let before = book.clone();
    let delta = mutants::delta(book, offered);
    let action = if delta.action == SET { DeltaAction::Set } else { DeltaAction::Remove };
    let said = told(book.apply_delta(BookDelta {
        side: side_of(delta.side),
        price: delta.price,
        quantity: delta.quantity,
        action,
        sequence: delta.sequence,
    }));
    mutants::applied(&before, book, &delta, said)
}

pub fn clear(book: &mut OrderBook) -> Said {
    let sequence = book.sequence;
    let said = told(book.clear());
    if planted("clear-keeps-sequence") {
        book.sequence = sequence;
    }
    said
}

pub fn remove_all(book: &mut OrderBook, side: u64) -> Said {
    if planted("remove-all-both") {
        let _ = book.remove_all(side_of(1 - side));
    }
    told(book.remove_all(side_of(side)))
}

pub fn ask(call: &Call, book: &OrderBook, asked: &Asked) -> Said {
    let said = (call.ours)(book, &mutants::asked(call.question, asked));
    mutants::answered(call.question, book, asked, said)
}

pub fn fill_of(fill: &Fill) -> OurFill {
    let Fill { symbol, side, quantity, price, commission } = *fill;
    OurFill { symbol, side: side_of(side), quantity, price, commission }
}

pub fn fill(ledger: &mut PositionLedger, fill: &Fill) -> Said {
    let before = ledger.clone();
    let said = told(ledger.apply_fill(fill_of(fill)));
    mutants::filled(&before, ledger, fill, said)
}

/// A day's fills in one call.
pub fn fills(ledger: &mut PositionLedger, fills: &[Fill]) -> Ended {
    let before = ledger.clone();
    let offered: Vec<OurFill> = mutants::offered(fills).iter().map(fill_of).collect();
    let ended = match ledger.apply_fills(&offered) {
        Ok(taken) => Ended::all(taken),
        Err(refused) => Ended { taken: refused.taken, said: told::<()>(Err(refused.error)) },
    };
    mutants::ended(&before, ledger, fills, ended)
}

pub fn deposit(ledger: &mut PositionLedger, amount: i64) -> Said {
    if planted("withdrawal-ignored") && amount < 0 {
        return Said::done();
    }
    told(ledger.deposit(amount))
}

/// What the ledger is worth at prices, by the numbers of the worths.
pub fn worth(ledger: &PositionLedger, worth: u64, prices: &[u32]) -> Said {
    let said = match worth {
        0 => told(ledger.unrealized_pnl_total(prices)),
        1 => told(ledger.net_liquidation_value(prices)),
        2 => told(ledger.net_market_exposure(prices)),
        _ => told(ledger.delta_neutral_check(prices)),
    };
    mutants::valued(worth, ledger, prices, said)
}
