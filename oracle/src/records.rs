//! Records that are no book or no ledger, which the original cannot hold: every call of ours must answer 1 and leave them as they are.
use crate::accounts;
use crate::books::Pair;
use crate::calls::CALLS;
use crate::forms::*;
use crate::listings::our_listing;
use crate::ours::{changes, told};
use crate::random::Random;
use crate::rules;
use crate::said::{Ended, Said};
use crate::shapes;
use crate::tally::{Class, Tally, Verdict};
use wermazul::{Error, Levels, OrderBook, PositionLedger};

fn spoil_side(random: &mut Random, levels: &mut Levels) {
    let place = random.below(MAX_LEVELS as u64) as usize;
    match random.below(6) {
        0 => levels.count = random.one_of(&[129, 130, usize::MAX]),
        1 => levels.count = random.below(129) as usize,
        2 => levels.prices[place] = random.one_of(&[0, 1, 7, MAX_PRICE + 1, u32::MAX]),
        3 => levels.quantities[place] = random.one_of(&[1, MAX_QUANTITY + 1, u32::MAX]),
        4 => levels.prices.swap(0, place.min(3)),
        _ => levels.quantities[levels.count.min(127)] = 1,
    }
}

fn spoil_book(random: &mut Random, book: &mut OrderBook) {
    if random.percent(20) {
        book.bids.prices[0] = book.asks.prices[0].saturating_add(random.below(2) as u32);
        book.bids.count = book.bids.count.max(1);
    } else if random.percent(50) {
        spoil_side(random, &mut book.bids);
    } else {
        spoil_side(random, &mut book.asks);
    }
}

fn refusal(ok: bool) -> Verdict {
    Verdict::allowed(Class::NotARecord, ok)
}

fn no_book(random: &mut Random, tally: &mut Tally, book: OrderBook) {
    let one = Said::refused(1);
    let mut kept = book.clone();
    let delta = Delta { side: random.below(2), action: random.below(2), price: 0, quantity: 1, sequence: book.sequence };
    let deltas = changes::apply(&mut kept, &delta) == one && changes::clear(&mut kept) == one;
    let changes = deltas && changes::remove_all(&mut kept, random.below(2)) == one;
    tally.count("changes of no book", 1, refusal(changes && kept == book), || format!("{:?}", book));
    let asked = Asked { side: random.below(2), small: 0, large: u64::MAX };
    let mut answers = CALLS.iter().map(|call| (call.ours)(&book, &asked));
    tally.count("questions to no book", 1, refusal(answers.all(|said| said == one)), || format!("{:?}", book));
    let ask = Listing { listing: random.below(3), side: random.below(2), from: 2, to: 1 };
    let mut buffer = [7; 3];
    let listed = told(book.list(our_listing(&ask), &mut buffer)) == one && told(book.places(our_listing(&ask), 0)) == one;
    tally.count("listings of no book", 1, refusal(listed && buffer == [7; 3]), || format!("{:?}", book));
}

/// A small book, spoilt; whether it is still a book must be told alike by us and by the plain rules.
pub fn book_round(random: &mut Random, tally: &mut Tally) {
    let mut pair = Pair::new();
    for sequence in 1..=random.below(7) {
        let (side, middle) = random.one_of(&[(BID, 100), (ASK, 200)]);
        let delta = Delta { side, action: SET, price: middle + random.below(50) as u32, quantity: shapes::quantity(random), sequence };
        pair.delta(tally, &delta);
    }
    let mut book = pair.ours;
    spoil_book(random, &mut book);
    let is_book = rules::is_book(&book);
    tally.count("is_book", 0, Verdict::same(book.is_book() == is_book), || format!("{:?}", book));
    if !is_book {
        no_book(random, tally, book);
    }
}

fn spoil_ledger(random: &mut Random, ledger: &mut PositionLedger) {
    let past = random.one_of(&[MAX_MONEY + 1, -MAX_MONEY - 1, i64::MAX, i64::MIN]);
    let symbol = random.below(SYMBOLS as u64) as usize;
    match random.below(7) {
        0 => ledger.cash = past,
        1 => ledger.commission = past,
        2 => ledger.realized[symbol] = past,
        3 => ledger.quantities[symbol] = random.one_of(&[MAX_POSITION + 1, -MAX_POSITION - 1, i64::MIN, i64::MAX]),
        4 => ledger.averages[symbol] = random.one_of(&[1, MAX_PRICE + 1, u32::MAX]),
        5 => ledger.averages[symbol] = 0,
        _ => ledger.quantities[symbol] = 0,
    }
}

fn no_ledger(random: &mut Random, tally: &mut Tally, ledger: PositionLedger) {
    let one = Said::refused(1);
    let mut kept = ledger.clone();
    let fill = Fill { symbol: random.below(40) as u32, side: random.below(2), quantity: 1, price: 0, commission: 0 };
    let changed = changes::fill(&mut kept, &fill) == one && changes::deposit(&mut kept, 1) == one;
    tally.count("changes of no ledger", 1, refusal(changed && kept == ledger), || format!("{:?}", ledger));
    let sold = Fill { symbol: 3, side: ASK, quantity: 1, price: 1, commission: 0 };
    let at_once = Ended { taken: 0, said: one };
    let days: [&[Fill]; 4] = [&[], &[sold], &[fill, sold], &[sold, fill, sold]];
    let refused = days.iter().all(|fills| changes::fills(&mut kept, fills) == at_once);
    tally.count("apply_fills of no ledger", 1, refusal(refused && kept == ledger), || format!("{:?}", ledger));
    let alone = told(ledger.checked_unrealized_pnl(40, 0)) == one;
    let prices = [0; 31];
    let valued = (0..4).all(|worth| changes::worth(&ledger, worth, &prices) == one);
    tally.count("valuations of no ledger", 1, refusal(alone && valued), || format!("{:?}", ledger));
}

/// Any ledger, spoilt; whether it is still a ledger must be told alike by us and by the plain rules.
pub fn ledger_round(random: &mut Random, tally: &mut Tally) {
    let mut ledger = accounts::ledger(random);
    spoil_ledger(random, &mut ledger);
    let is_ledger = rules::is_ledger(&ledger);
    tally.count("is_ledger", 0, Verdict::same(ledger.is_ledger() == is_ledger), || format!("{:?}", ledger));
    if !is_ledger {
        no_ledger(random, tally, ledger);
    }
    let cash = random.one_of(&[MAX_MONEY, MAX_MONEY + 1, -MAX_MONEY, -MAX_MONEY - 1, i64::MAX, i64::MIN, 0]);
    new_ledger(tally, cash);
}

fn new_ledger(tally: &mut Tally, cash: i64) {
    let made = PositionLedger::new(cash);
    let verdict = if (cash as i128).abs() <= MAX_MONEY as i128 {
        Verdict::same(made.as_ref().map_or(false, |it| *it == crate::ledgers::Accounts::new(cash).ours && it.cash == cash))
    } else {
        Verdict::allowed(Class::Limits, told(made.as_ref().map(|_| ()).map_err(|error| *error)).number == 2)
    };
    tally.count("PositionLedger::new", made.as_ref().map_or_else(Error::number, |_| 0), verdict, || {
        format!("cash {}: ours {:?}", cash, made)
    });
}
