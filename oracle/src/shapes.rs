//! Random books and what is asked of them: shapes from empty to full, prices and quantities at and beyond their limits, sequences near
//! both ends.
use crate::books::{levels, Pair};
use crate::calls::{Call, CALLS};
use crate::forms::*;
use crate::random::Random;
use crate::rules;
use crate::tally::Tally;

/// Where a round's prices lie: a middle, a step, how many steps to each side, and how often a bid or an ask is meant.
pub struct Shape {
    middle: i64,
    step: i64,
    steps: u64,
    bids: u64,
    /// How often a delta sets, in a hundred.
    sets: u64,
    /// How many deltas a round has.
    deltas: u64,
    /// Whether sides are let grow until they are full.
    full: bool,
    /// Whether quantities are small, so that targets reach over many levels.
    small: bool,
}

impl Shape {
    pub fn of(random: &mut Random) -> Shape {
        let full = random.percent(2);
        let steps = if full { 200 } else { random.one_of(&[1, 2, 4, 8, 20]) };
        let step = random.one_of(&[1, 1, 2, 7, 1000]);
        let reach = steps as i64 * step;
        let low = random.one_of(&[reach, reach + 1]);
        let high = MAX_PRICE as i64 - reach;
        let middle = random.one_of(&[low, 500_000, high, high + 1]).max(2);
        Shape {
            middle,
            step,
            steps,
            bids: random.one_of(&[0, 50, 50, 50, 50, 100]),
            sets: if full { 97 } else { random.one_of(&[60, 75, 90]) },
            deltas: if full { 600 } else { random.one_of(&[0, 2, 6, 14, 30]) },
            full,
            small: random.percent(50),
        }
    }

    /// A price of this shape's side; sometimes of the other, or a limit.
    pub fn price(&self, random: &mut Random, side: u64) -> u32 {
        if random.percent(3) {
            return random.one_of(&[0, 1, 2, MAX_PRICE - 1, MAX_PRICE, MAX_PRICE + 1, u32::MAX]);
        }
        let away = 1 + random.below(self.steps) as i64;
        let own = (side == BID) != random.percent(6);
        let price = if own { self.middle - away * self.step } else { self.middle + away * self.step };
        price.clamp(0, u32::MAX as i64) as u32
    }

    pub fn delta(&self, random: &mut Random, sequence: u64) -> Delta {
        let side = if random.percent(self.bids) { BID } else { ASK };
        let action = if random.percent(self.sets) { SET } else { REMOVE };
        Delta {
            side,
            action,
            price: self.price(random, side),
            quantity: if self.small { random.below(50) as u32 } else { quantity(random) },
            sequence: offered(random, sequence),
        }
    }
}

pub fn quantity(random: &mut Random) -> u32 {
    if random.percent(2) {
        return random.one_of(&[MAX_QUANTITY + 1, u32::MAX]);
    }
    let any = random.below(MAX_QUANTITY as u64 + 1) as u32;
    let small = random.below(20) as u32;
    random.one_of(&[0, 0, 1, MAX_QUANTITY, MAX_QUANTITY - 1, any, small, small, small, small])
}

/// Mostly the next sequence.
fn offered(random: &mut Random, sequence: u64) -> u64 {
    let next = sequence.wrapping_add(1);
    if random.percent(92) {
        return next;
    }
    random.one_of(&[sequence, next.wrapping_add(1), 0, 1, u64::MAX, random_long(sequence)])
}

fn random_long(seed: u64) -> u64 {
    Random::new(seed).next()
}

/// Where a round starts to count.
pub fn start(random: &mut Random) -> u64 {
    let any = random.next();
    random.one_of(&[0, 0, 0, 1, any, u64::MAX, u64::MAX - 1, u64::MAX - 5, u64::MAX - 20])
}

/// A price to ask about: one of the book's, its neighbour, a limit.
fn asked_price(random: &mut Random, pair: &Pair, side: u64) -> u32 {
    let own = levels(&pair.ours, side);
    if own.is_empty() || random.percent(10) {
        let any = random.below(MAX_PRICE as u64) as u32;
        return random.one_of(&[0, 1, 2, MAX_PRICE, MAX_PRICE + 1, u32::MAX, any]);
    }
    let price = random.one_of(&own).0;
    random.one_of(&[price, price, price.saturating_sub(1), price + 1])
}

/// A count to ask for: none, about as many as there are, all.
fn asked_count(random: &mut Random, pair: &Pair, side: u64) -> u64 {
    let count = rules::side(&pair.ours, side).count as u64;
    let any = random.below(count + 2);
    random.one_of(&[0, 1, any, count, count + 1, count.saturating_sub(1), 128, 129, u64::MAX])
}

/// A volume to ask for: none, about a side's total or a running total, the limits.
fn asked_volume(random: &mut Random, pair: &Pair) -> u64 {
    let side = random.below(2);
    let own = levels(&pair.ours, side);
    let some = random.below(own.len() as u64 + 1) as usize;
    let running: u64 = own[..some].iter().map(|level| level.1 as u64).sum();
    let total = rules::total(rules::side(&pair.ours, side));
    let any = random.below(total + 2);
    let limit = random.one_of(&[MAX_QUANTITY as u64, MAX_QUANTITY as u64 + 1, MAX_VOLUME, MAX_VOLUME + 1, u64::MAX, u32::MAX as u64]);
    random.one_of(&[0, 1, running, running + 1, running.saturating_sub(1), total, total + 1, any, any, limit])
}

/// A target, mostly within its limit.
fn asked_target(random: &mut Random, pair: &Pair) -> u32 {
    let volume = asked_volume(random, pair).min(u32::MAX as u64) as u32;
    if volume > MAX_QUANTITY && random.percent(80) {
        return random.below(MAX_QUANTITY as u64 + 1) as u32;
    }
    volume
}

/// What to ask with a question.
pub fn asked(random: &mut Random, pair: &Pair, call: &Call) -> Asked {
    let side = call.side.unwrap_or_else(|| random.below(2));
    let small = match call.question {
        25 | 26 => asked_target(random, pair),
        _ => asked_price(random, pair, side),
    };
    let large = match call.question {
        27 => asked_volume(random, pair),
        _ => asked_count(random, pair, side),
    };
    Asked { side, small, large }
}

pub fn ask_some(random: &mut Random, pair: &Pair, tally: &mut Tally) {
    let call = &CALLS[random.below(CALLS.len() as u64) as usize];
    let what = asked(random, pair, call);
    pair.ask(tally, call, &what);
}

pub fn ask_all(random: &mut Random, pair: &Pair, tally: &mut Tally) {
    for call in &CALLS {
        let what = asked(random, pair, call);
        pair.ask(tally, call, &what);
    }
}

pub fn listing(random: &mut Random, pair: &Pair) -> Listing {
    let listing = random.below(3);
    let side = random.below(2);
    let from = match listing {
        2 => asked_price(random, pair, side) as u64,
        _ => asked_count(random, pair, side),
    };
    let to = if listing == 2 { asked_price(random, pair, side) } else { 0 };
    let swap = listing == 2 && from > to as u64 && random.percent(85);
    if swap {
        return Listing { listing, side, from: to as u64, to: from as u32 };
    }
    Listing { listing, side, from, to }
}

/// A buffer's places for a listing: none, too few, just enough, too many.
pub fn room(random: &mut Random, needed: usize) -> usize {
    random.one_of(&[0, needed.saturating_sub(1), needed, needed, needed + 1, needed + 2, 512])
}

/// One round: a new book, its changes, and questions in between and at the end.
pub fn round(random: &mut Random, tally: &mut Tally) {
    let shape = Shape::of(random);
    let mut pair = Pair::new();
    if !shape.full {
        pair.set_sequence(start(random));
    }
    for _ in 0..shape.deltas {
        let delta = shape.delta(random, pair.ours.sequence);
        pair.delta(tally, &delta);
        between_deltas(random, &shape, &mut pair, tally);
    }
    ask_all(random, &pair, tally);
    list_some(random, &pair, tally);
}

fn between_deltas(random: &mut Random, shape: &Shape, pair: &mut Pair, tally: &mut Tally) {
    if pair.ours.sequence == u64::MAX && random.percent(50) {
        return pair.clear(tally);
    }
    match random.below(40) {
        0 | 1 if shape.full => (),
        0 => pair.remove_all(tally, random.below(2)),
        1 if random.percent(30) => pair.clear(tally),
        2..=4 => ask_all(random, pair, tally),
        5..=9 => list_some(random, pair, tally),
        _ => ask_some(random, pair, tally),
    }
}

pub fn list_some(random: &mut Random, pair: &Pair, tally: &mut Tally) {
    let ask = listing(random, pair);
    let needed = pair.list(tally, &ask).map_or(0, |levels| levels.len() * 2);
    pair.list_into(tally, &ask, room(random, needed));
}
