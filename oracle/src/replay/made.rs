//! What the list is made of: the worked examples, the limits, random books and histories.
use super::Replay;
use crate::accounts;
use crate::calls::CALLS;
use crate::forms::*;
use crate::random::Random;
use crate::shapes::{self, Shape};
use std::collections::BTreeSet;
use std::fs;
use std::path::Path;

/// Book K and its examples.
fn book_k(replay: &mut Replay) {
    replay.book();
    for (side, price, quantity) in [(BID, 100, 5), (BID, 99, 0), (BID, 98, 10), (ASK, 101, 4), (ASK, 103, 6)] {
        replay.set(side, price, quantity);
    }
    for (name, side, target) in [
        ("vwap_for_qty", BID, 7),
        ("price_impact", ASK, 7),
        ("vwap_for_qty", ASK, 7),
        ("price_impact", BID, 7),
        ("vwap_for_qty", BID, 15),
        ("vwap_for_qty", BID, 16),
        ("price_impact", ASK, 16),
    ] {
        replay.ask_named(name, side, target, 0);
    }
    for target in [0, 5, 6, 99, MAX_VOLUME] {
        replay.ask_named("price_at_volume", BID, 0, target);
    }
    replay.set(BID, 101, 0);
    replay.delta(&Delta { side: BID, action: SET, price: 101, quantity: 0, sequence: 5 });
    replay.delta(&Delta { side: ASK, action: REMOVE, price: 102, quantity: u32::MAX, sequence: 6 });
    CALLS.iter().for_each(|call| replay.ask(call, &Asked { side: call.side.unwrap_or(BID), small: 99, large: 2 }));
}

/// Sides at their most, prices and quantities at their limits.
fn full_book(replay: &mut Replay) {
    replay.book();
    for place in 0..128 {
        replay.set(BID, 1 + place, if place % 3 == 0 { MAX_QUANTITY } else { place });
    }
    replay.set(ASK, MAX_PRICE, MAX_QUANTITY);
    replay.set(BID, MAX_PRICE, 1);
    replay.set(BID, 128, 0);
    for target in [MAX_QUANTITY, 1, 0] {
        replay.ask_named("vwap_for_qty", BID, target, 0);
        replay.ask_named("vwap_for_qty", ASK, target, 0);
        replay.ask_named("price_impact", BID, target, 0);
    }
    for count in [0, 1, 127, 128, 129, u64::MAX] {
        replay.ask_named("cumulative_bid_qty", BID, 0, count);
        replay.ask_named("bid_depth_skew", BID, 0, count);
    }
    replay.list(&Listing { listing: 1, side: BID, from: 128, to: 0 });
    replay.list(&Listing { listing: 2, side: BID, from: 1, to: MAX_PRICE });
    CALLS.iter().for_each(|call| replay.ask(call, &Asked { side: call.side.unwrap_or(ASK), small: MAX_PRICE, large: 200 }));
}

fn random_book(replay: &mut Replay, random: &mut Random) {
    let shape = Shape::of(random);
    replay.book();
    for _ in 0..20 {
        let sequence = replay.pair.ours.sequence;
        replay.delta(&shape.delta(random, sequence));
        let call = &CALLS[random.below(CALLS.len() as u64) as usize];
        let asked = shapes::asked(random, &replay.pair, call);
        replay.ask(call, &asked);
        match random.below(16) {
            0..=4 => replay.list(&shapes::listing(random, &replay.pair)),
            5 => replay.remove_all(random.below(2)),
            6 if random.percent(40) => replay.clear(),
            _ => (),
        }
    }
}

/// The worked examples of cash and neutrality, and money at its limits.
fn fixed_ledgers(replay: &mut Replay) {
    let fill = |symbol, side, quantity, price, commission| Fill { symbol, side, quantity, price, commission };
    replay.ledger(100);
    replay.fill(&fill(0, BID, 1, 99, 2));
    replay.fill(&fill(0, BID, 1, 99, 1));
    replay.worths();
    replay.ledger(1000);
    replay.fill(&fill(0, BID, 51, 1, 0));
    replay.fill(&fill(1, ASK, 50, 1, 0));
    replay.price(0, 1);
    replay.worths();
    replay.price(1, 1);
    replay.worths();
    replay.price(1, 2);
    replay.worths();
    replay.ledger(MAX_MONEY);
    replay.fill(&fill(31, BID, MAX_QUANTITY, MAX_PRICE, MAX_COMMISSION));
    replay.unrealized(31, 1);
    replay.price(31, 1);
    replay.worths();
    replay.fill(&fill(31, ASK, MAX_QUANTITY, MAX_PRICE, -MAX_COMMISSION));
    replay.ledger(-MAX_MONEY);
    replay.deposit(MAX_DEPOSIT);
    replay.deposit(-MAX_DEPOSIT);
    replay.fill(&fill(31, BID, 1, 1, 0));
    replay.fill(&fill(31, ASK, 1, 1, 0));
    (0..SYMBOLS).for_each(|symbol| replay.price(symbol, 0));
}

fn random_ledger(replay: &mut Replay, random: &mut Random) {
    replay.ledger(random.one_of(&[20_000, 1_000_000_000, -7]));
    for _ in 0..24 {
        let fill = accounts::whole_fill(random, &replay.accounts.ours);
        replay.fill(&fill);
        match random.below(8) {
            0 => replay.deposit(random.between(-2000, 9000)),
            1 => replay.unrealized(fill.symbol, 900 + random.below(300) as u32),
            2 | 3 => replay.price(fill.symbol as usize, random.one_of(&[0, 900, 1000, 1100, 1250])),
            4 | 5 => replay.worths(),
            _ => (),
        }
    }
}

/// Writes the list to `stdin` and the answers to `stdout` of a folder; no if a call or an answer is not among them.
pub fn write(seed: u64, folder: &str) -> bool {
    let mut random = Random::new(seed);
    let mut replay = Replay::new();
    book_k(&mut replay);
    full_book(&mut replay);
    (0..14).for_each(|_| random_book(&mut replay, &mut random));
    fixed_ledgers(&mut replay);
    (0..9).for_each(|_| random_ledger(&mut replay, &mut random));
    let questions = replay.seen.iter().filter(|it| it.0 == 4).count();
    let kinds: BTreeSet<u64> = replay.seen.iter().map(|it| it.0).collect();
    println!("{} operations of {} kinds, {} questions, answers numbered {:?}", replay.lines, kinds.len(), questions, replay.numbers);
    println!("{} deltas and questions left out, in which the two differ as a class says", replay.left_out);
    let whole = kinds.len() == 12 && questions == 28 && [0, 4, 5, 7, 8, 10, 13].iter().all(|it| replay.numbers.contains(it));
    let put = |name: &str, text: &str| fs::write(Path::new(folder).join(name), text);
    let written = put("stdin", &replay.input).and_then(|()| put("stdout", &replay.output));
    whole && written.is_ok()
}
