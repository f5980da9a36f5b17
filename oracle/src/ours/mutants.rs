//! Slips planted in our answers on request, to see that the comparison catches them. Without a request nothing here changes anything.
use crate::forms::{Asked, Delta, Fill, ASK, BID, REMOVE};
use crate::ours::changes::fill_of;
use crate::rules::held;
use crate::said::{Ended, Said};
use rust_decimal::Decimal;
use std::sync::atomic::{AtomicUsize, Ordering};
use wermazul::{Levels, OrderBook, PositionLedger};

/// Their names, as the switch takes them.
pub const NAMES: [&str; 46] = [
    "zero-set-removes",
    "side-swapped",
    "sequence-kept-on-remove",
    "full-side-taken",
    "touch-taken",
    "refusal-moves-sequence",
    "crossed-prices-swapped",
    "remove-needs-quantity",
    "clear-keeps-sequence",
    "remove-all-both",
    "quote-swapped",
    "quotient-inverted",
    "impact-walks-own-side",
    "vwap-short-at-total",
    "volume-past-target",
    "zero-level-absent",
    "imbalance-unsigned",
    "tick-of-bids",
    "count-one-more",
    "cumulative-without-price",
    "empty-means-no-quantity",
    "mid-rounded-down",
    "no-bids-no-ratio",
    "between-downward",
    "low-above-high-empty",
    "short-buffer-written",
    "commission-off-by-one",
    "average-rounded-up",
    "small-turnover-keeps",
    "zero-cash-refused",
    "withdrawal-ignored",
    "flat-keeps-average",
    "commission-not-realized",
    "neutral-rounded",
    "unpriced-largest",
    "exposure-needs-all",
    "day-skips-one",
    "day-reversed",
    "day-stops-early",
    "day-lots-for-price",
    "day-counts-refused",
    "day-goes-on",
    "day-undone-by-refusal",
    "day-keeps-totals",
    "day-tells-opening-cash",
    "empty-day-untested",
];

static PLANTED: AtomicUsize = AtomicUsize::new(usize::MAX);

/// Plants the slip of this name; no if there is none.
pub fn plant(name: &str) -> bool {
    match NAMES.iter().position(|it| *it == name) {
        Some(place) => {
            PLANTED.store(place, Ordering::Relaxed);
            true
        }
        None => false,
    }
}

pub fn planted(name: &str) -> bool {
    let place = PLANTED.load(Ordering::Relaxed);
    place != usize::MAX && NAMES[place] == name
}

fn any() -> bool {
    PLANTED.load(Ordering::Relaxed) != usize::MAX
}

/// A delta as a slip would take it.
pub fn delta(book: &OrderBook, delta: &Delta) -> Delta {
    let mut changed = *delta;
    if planted("zero-set-removes") && delta.quantity == 0 {
        changed.action = REMOVE;
    }
    if planted("side-swapped") && book.bids.count + book.asks.count == 0 {
        changed.side = 1 - delta.side;
    }
    if planted("remove-needs-quantity") && delta.action == REMOVE && delta.quantity > crate::forms::MAX_QUANTITY {
        changed.price = 0;
    }
    changed
}

/// What a slip makes of a delta's outcome.
pub fn applied(before: &OrderBook, book: &mut OrderBook, delta: &Delta, said: Said) -> Said {
    if planted("sequence-kept-on-remove") && said.number == 0 && delta.action == REMOVE {
        book.sequence = before.sequence;
    }
    if planted("refusal-moves-sequence") && said.number == 4 {
        book.sequence = before.sequence.wrapping_add(1);
    }
    let touches = said.number == 5 && said.values()[0] == said.values()[1];
    match said.number {
        6 if planted("full-side-taken") => Said::done(),
        5 if planted("touch-taken") && touches => Said::done(),
        5 if planted("crossed-prices-swapped") => Said::of(5, &[said.values()[1], said.values()[0]]),
        _ => said,
    }
}

/// What is asked, as a slip would ask it.
pub fn asked(question: u64, asked: &Asked) -> Asked {
    let mut changed = *asked;
    if planted("impact-walks-own-side") && question == 26 {
        changed.side = 1 - asked.side;
    }
    if planted("volume-past-target") && question == 27 && asked.large > 0 {
        changed.large += 1;
    }
    if planted("count-one-more") && question == 21 {
        changed.large = asked.large.saturating_add(1);
    }
    changed
}

fn rows(book: &OrderBook, side: u64) -> &Levels {
    if side == BID {
        &book.bids
    } else {
        &book.asks
    }
}

fn quantity_at(levels: &Levels, price: u32) -> Option<u32> {
    let place = levels.prices[..levels.count].iter().position(|it| *it == price)?;
    Some(levels.quantities[place])
}

fn total(levels: &Levels) -> u64 {
    levels.quantities.iter().map(|it| *it as u64).sum()
}

fn inverted(said: Said) -> Said {
    match said.values()[0] {
        value if value.is_zero() => said,
        value => Said::is(Decimal::ONE / value),
    }
}

fn without_price(book: &OrderBook, asked: &Asked, said: Said) -> Said {
    let there = quantity_at(rows(book, asked.side), asked.small).unwrap_or(0);
    Said::is(said.values()[0] - Decimal::from(there))
}

fn tick_of_bids(book: &OrderBook, said: Said) -> Said {
    let gaps = book.bids.prices[..book.bids.count].windows(2).map(|it| it[0] - it[1]);
    gaps.min().map_or(said, |gap| Said::is(Decimal::from(gap)))
}

/// What a slip makes of a question's answer.
pub fn answered(question: u64, book: &OrderBook, asked: &Asked, said: Said) -> Said {
    if !any() || said.number != 0 {
        return said;
    }
    let v = said.values();
    match question {
        3 if planted("quote-swapped") => Said::of(0, &[v[2], v[3], v[0], v[1]]),
        5 if planted("mid-rounded-down") => Said::is(v[0].floor()),
        10 if planted("zero-level-absent") && quantity_at(rows(book, asked.side), asked.small) == Some(0) => Said::flag(false),
        14 if planted("empty-means-no-quantity") => Said::flag(total(&book.bids) + total(&book.asks) == 0),
        17 if planted("cumulative-without-price") => without_price(book, asked, said),
        19 if planted("tick-of-bids") => tick_of_bids(book, said),
        20 if planted("imbalance-unsigned") => Said::is(v[0].abs()),
        21 if planted("no-bids-no-ratio") && book.bids.count == 0 => Said::refused(10),
        21..=24 if planted("quotient-inverted") => inverted(said),
        25 if planted("vwap-short-at-total") && asked.small as u64 == total(rows(book, asked.side)) => Said::of(7, &[asked.small.into()]),
        _ => said,
    }
}

/// What a slip makes of a taken fill.
pub fn filled(before: &PositionLedger, ledger: &mut PositionLedger, fill: &Fill, said: Said) -> Said {
    if !any() || said.number != 0 {
        return said;
    }
    let (symbol, old) = (fill.symbol as usize, held(before, fill.symbol));
    let (lots, average) = (ledger.quantities[symbol], &mut ledger.averages[symbol]);
    let grown = old.quantity == 0 || (old.quantity > 0) == (fill.side == BID);
    let cost = old.average as i128 * old.quantity.unsigned_abs() as i128 + fill.price as i128 * fill.quantity as i128;
    let size = lots.unsigned_abs() as i128;
    let turned = (old.quantity > 0 && lots < 0) || (old.quantity < 0 && lots > 0);
    if planted("average-rounded-up") && grown && size > 0 && cost % size != 0 {
        *average += 1;
    }
    if planted("small-turnover-keeps") && turned && lots.abs() <= old.quantity.abs() {
        *average = old.average;
    }
    if planted("flat-keeps-average") && lots == 0 {
        *average = old.average;
    }
    if planted("commission-not-realized") {
        ledger.realized[symbol] += fill.commission;
    }
    if planted("commission-off-by-one") && fill.commission != 0 {
        ledger.cash -= 1;
    }
    if planted("zero-cash-refused") && fill.side != ASK && ledger.cash == 0 {
        *ledger = before.clone();
        return Said::of(8, &[Decimal::from(fill.charge()), before.cash.into()]);
    }
    said
}

/// The place of the fill that a slip skips.
fn skipped(fills: &[Fill]) -> usize {
    fills.len() / 2
}

/// A day's fills as a slip would lend them.
pub fn offered(fills: &[Fill]) -> Vec<Fill> {
    let mut changed = fills.to_vec();
    if planted("day-skips-one") && !fills.is_empty() {
        changed.remove(skipped(fills));
    }
    if planted("day-reversed") {
        changed.reverse();
    }
    if planted("day-stops-early") {
        changed.pop();
    }
    if planted("day-lots-for-price") {
        changed.iter_mut().for_each(|fill| std::mem::swap(&mut fill.quantity, &mut fill.price));
    }
    changed
}

/// What a slip makes of a day's end. The skipped fill is counted, so that only the ledger tells of it.
pub fn ended(before: &PositionLedger, ledger: &mut PositionLedger, fills: &[Fill], ended: Ended) -> Ended {
    let Ended { taken, said } = ended;
    if planted("day-skips-one") && said.number != 1 && taken >= skipped(fills) && !fills.is_empty() {
        return Ended { taken: taken + 1, said };
    }
    if planted("empty-day-untested") && fills.is_empty() {
        return Ended::all(0);
    }
    if !any() || said.number < 2 {
        return ended;
    }
    if planted("day-goes-on") {
        for fill in &fills[taken + 1..] {
            let _ = ledger.apply_fill(fill_of(fill));
        }
    }
    if planted("day-undone-by-refusal") {
        *ledger = before.clone();
    }
    if planted("day-keeps-totals") {
        (ledger.cash, ledger.commission) = (before.cash, before.commission);
    }
    match said.number {
        _ if planted("day-counts-refused") => Ended { taken: taken + 1, said },
        8 if planted("day-tells-opening-cash") => Ended { taken, said: Said::of(8, &[said.values()[0], before.cash.into()]) },
        _ => ended,
    }
}

fn exposures(ledger: &PositionLedger, prices: &[u32]) -> (i128, i128) {
    let each = ledger.quantities.iter().zip(prices).map(|(lots, price)| *lots as i128 * *price as i128);
    each.fold((0, 0), |(net, gross), worth| (net + worth, gross + worth.abs()))
}

/// The symbols that are open and have no price.
pub fn unpriced(ledger: &PositionLedger, prices: &[u32]) -> Vec<u32> {
    let open = |symbol: &usize| ledger.quantities[*symbol] != 0 && prices[*symbol] == 0;
    (0..prices.len().min(32)).filter(open).map(|symbol| symbol as u32).collect()
}

/// What a slip makes of a valuation.
pub fn valued(worth: u64, ledger: &PositionLedger, prices: &[u32], said: Said) -> Said {
    if !any() || prices.len() != 32 {
        return said;
    }
    let missing = unpriced(ledger, prices);
    if planted("unpriced-largest") && said.number == 13 {
        return Said::of(13, &[missing[missing.len() - 1].into()]);
    }
    if planted("exposure-needs-all") && worth == 2 && said.number == 0 && !missing.is_empty() {
        return Said::of(13, &[missing[0].into()]);
    }
    if planted("neutral-rounded") && worth == 3 && said.number == 0 {
        let (net, gross) = exposures(ledger, prices);
        return Said::flag(gross == 0 || net.abs() < gross / 100);
    }
    said
}
