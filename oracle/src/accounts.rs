//! Random ledgers, fills, deposits and prices: from small numbers to every limit and past it; and whole histories.
use crate::forms::*;
use crate::ledgers::Accounts;
use crate::random::Random;
use crate::rules;
use crate::tally::{Tally, Verdict};
use wermazul::{Position, PositionLedger};

/// A number near 0, near a limit, or anywhere within it.
fn within(random: &mut Random, limit: i64) -> i64 {
    let near = random.between(-3, 3);
    let small = random.between(-3000, 3000);
    let any = random.between(-limit, limit);
    random.one_of(&[0, near, small, small, any, limit, -limit, limit - near.abs(), near.abs() - limit])
}

/// The same, and sometimes past the limit.
fn about(random: &mut Random, limit: i64) -> i64 {
    if random.percent(2) {
        return random.one_of(&[limit + 1, -limit - 1, i64::MAX, i64::MIN]);
    }
    within(random, limit)
}

fn price(random: &mut Random) -> u32 {
    let any = 1 + random.below(MAX_PRICE as u64) as u32;
    let small = 90 + random.below(20) as u32;
    random.one_of(&[1, 2, small, small, small, small, any, MAX_PRICE, MAX_PRICE - 1])
}

fn offered_price(random: &mut Random) -> u32 {
    if random.percent(2) {
        return random.one_of(&[0, MAX_PRICE + 1, u32::MAX]);
    }
    price(random)
}

fn position(random: &mut Random) -> Position {
    let quantity = within(random, MAX_POSITION);
    let average = if quantity == 0 { 0 } else { price(random) };
    Position { quantity, average, realized: within(random, MAX_MONEY) }
}

fn put(ledger: &mut PositionLedger, symbol: usize, held: Position) {
    ledger.quantities[symbol] = held.quantity;
    ledger.averages[symbol] = held.average;
    ledger.realized[symbol] = held.realized;
}

fn empty() -> PositionLedger {
    PositionLedger::new(0).expect("no cash is within the limit")
}

/// Any ledger: some symbols used, cash often plenty.
pub fn ledger(random: &mut Random) -> PositionLedger {
    let mut ledger = empty();
    let used = random.one_of(&[0, 1, 1, 2, 2, 3, 6, 32]);
    for place in 0..used {
        let symbol = if used == 32 { place } else { random.below(SYMBOLS as u64) };
        put(&mut ledger, symbol as usize, position(random));
    }
    let plenty = 1_000_000_000_000_000;
    ledger.cash = if random.percent(50) { plenty } else { within(random, MAX_MONEY) };
    ledger.commission = within(random, MAX_MONEY);
    ledger
}

/// A symbol that the ledger uses, if it uses any; sometimes any, or none there is.
fn symbol(random: &mut Random, ledger: &PositionLedger) -> u32 {
    let used: Vec<u32> = ledger.positions().filter(|it| it.1 != Position::default()).map(|it| it.0).collect();
    if random.percent(2) {
        return random.one_of(&[32, 33, u32::MAX]);
    }
    if used.is_empty() || random.percent(20) {
        return random.below(SYMBOLS as u64) as u32;
    }
    random.one_of(&used)
}

/// A commission: often none, sometimes what brings cash to 0 or next to it.
fn commission(random: &mut Random, ledger: &PositionLedger, side: u64, quantity: u32, price: u32) -> i64 {
    let cost = quantity as i64 * price as i64;
    let rest = if side == BID { ledger.cash.checked_sub(cost) } else { ledger.cash.checked_add(cost) };
    let edge = rest.unwrap_or(0).saturating_add(random.between(-1, 1)).clamp(-MAX_COMMISSION, MAX_COMMISSION);
    let any = about(random, MAX_COMMISSION);
    random.one_of(&[0, 0, 1, 2, -1, any, any, edge])
}

pub fn fill(random: &mut Random, ledger: &PositionLedger) -> Fill {
    let symbol = symbol(random, ledger);
    let held = ledger.quantities.get(symbol as usize).map_or(0, |lots| lots.unsigned_abs() as u32);
    let side = random.below(2);
    let near = random.below(5) as u32;
    let any = random.below(MAX_QUANTITY as u64 + 1) as u32;
    let small = random.below(30) as u32;
    let limit = random.one_of(&[MAX_QUANTITY, MAX_QUANTITY - near, MAX_QUANTITY + 1, u32::MAX]);
    let quantity = random.one_of(&[0, 1, held, held + near, held.saturating_sub(near), held * 2, held * 2 + 1, small, small, any, limit]);
    let price = offered_price(random);
    let commission = commission(random, ledger, side, quantity, price);
    Fill { symbol, side, quantity, price, commission }
}

/// Prices of open symbols, most of them there; now and then one past its limit, or another number of them.
pub fn prices(random: &mut Random, ledger: &PositionLedger) -> Vec<u32> {
    let missing = random.one_of(&[0, 0, 30, 100]);
    let mut prices = vec![0; SYMBOLS];
    let open = (0..SYMBOLS).filter(|it| ledger.quantities[*it] != 0 || *it == 3);
    for symbol in open {
        prices[symbol] = if random.percent(missing) { 0 } else { price(random) };
    }
    if random.percent(2) {
        prices[random.below(SYMBOLS as u64) as usize] = random.one_of(&[MAX_PRICE + 1, u32::MAX]);
    }
    if random.percent(2) {
        prices.resize(random.one_of(&[0, 31, 33]), 1);
    }
    prices
}

pub fn value_some(random: &mut Random, accounts: &Accounts, tally: &mut Tally) {
    let symbol = symbol(random, &accounts.ours);
    accounts.unrealized(tally, symbol, offered_price(random));
    let prices = prices(random, &accounts.ours);
    for worth in 0..4 {
        accounts.worth(tally, worth, &prices);
    }
}

/// One round: any ledger, then fills, deposits and valuations, each from the same positions.
pub fn round(random: &mut Random, tally: &mut Tally) {
    let mut accounts = Accounts::of(ledger(random));
    for _ in 0..random.one_of(&[1, 2, 4, 10]) {
        let fill = fill(random, &accounts.ours);
        accounts.fill(tally, &fill);
        if random.percent(20) {
            accounts.deposit(tally, about(random, MAX_DEPOSIT));
        }
        if random.percent(40) {
            value_some(random, &accounts, tally);
        }
    }
    value_some(random, &accounts, tally);
}

/// Two positions whose net exposure is about a hundredth of the gross, and a third that tips it by a hair.
pub fn nearly_neutral(random: &mut Random, tally: &mut Tally) {
    let mut ours = empty();
    let share = random.one_of(&[1, 2, 7, 9_900_000]);
    let sign = random.one_of(&[1, -1]);
    let lots = [101 * share + random.between(-2, 2), -99 * share, random.between(-1, 1)];
    for (symbol, lots) in lots.iter().enumerate() {
        let average = if *lots == 0 { 0 } else { 1 };
        put(&mut ours, symbol, Position { quantity: lots * sign, average, realized: 0 });
    }
    let price = random.one_of(&[1, 1, 50, MAX_PRICE]);
    let mut prices = vec![0; SYMBOLS];
    prices[..3].copy_from_slice(&[price, price, 1]);
    let accounts = Accounts::of(ours);
    for worth in 0..4 {
        accounts.worth(tally, worth, &prices);
    }
}

fn divisor(a: u64, b: u64) -> u64 {
    if b == 0 {
        a
    } else {
        divisor(b, a % b)
    }
}

/// A fill after which the average is whole, and which is no small turnover: what is compared over whole histories.
pub fn whole_fill(random: &mut Random, ledger: &PositionLedger) -> Fill {
    let symbol = random.below(4) as u32;
    let held = rules::held(ledger, symbol);
    let side = random.below(2);
    let old = held.quantity.unsigned_abs();
    let grown = held.quantity == 0 || (held.quantity > 0) == (side == BID);
    let some = random.below(12);
    let part = random.below(old + 1);
    let closing = random.one_of(&[part, old, 2 * old + 1 + some]);
    let quantity = if grown { some } else { closing };
    let mut price = 1000 + random.below(200);
    if grown && old > 0 && quantity > 0 {
        let step = (old + quantity) / divisor(old + quantity, quantity);
        price = held.average as u64 + step * random.below(3);
    }
    Fill { symbol, side, quantity: quantity as u32, price: price as u32, commission: random.between(-5, 9) }
}

/// One whole history: the original's ledger is never made anew, and no difference at all is allowed.
pub fn history(random: &mut Random, tally: &mut Tally, fills: u64) {
    let mut accounts = Accounts::new(random.one_of(&[100_000, 1_000_000_000, 20_000]));
    for _ in 0..fills {
        let fill = whole_fill(random, &accounts.ours);
        let (said, verdict) = accounts.fill(tally, &fill);
        tally.demand(verdict == Verdict::Same, || format!("{:?} answered {} in a whole history", fill, said));
    }
    tally.histories += 1;
}
