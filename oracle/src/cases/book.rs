//! Deltas, on small and on full books, at the limits and at the last sequence.
use super::Case;
use crate::forms::*;
use crate::original::{checked, released};
use crate::ours::changes;
use wermazul::{Levels, OrderBook};

/// Our record with these levels.
pub fn our_book(bids: &[Level], asks: &[Level], sequence: u64) -> OrderBook {
    OrderBook { bids: rows(bids), asks: rows(asks), sequence }
}

fn rows(levels: &[Level]) -> Levels {
    let mut rows = OrderBook::new().bids;
    for (place, level) in levels.iter().enumerate() {
        rows.prices[place] = level.0;
        rows.quantities[place] = level.1;
    }
    rows.count = levels.len();
    rows
}

/// A book to try a delta on.
struct On<'a> {
    bids: &'a [Level],
    asks: &'a [Level],
    sequence: u64,
}

fn set(side: u64, price: u32, quantity: u32, sequence: u64) -> Delta {
    Delta { side, action: SET, price, quantity, sequence }
}

fn remove(side: u64, price: u32, quantity: u32, sequence: u64) -> Delta {
    Delta { side, action: REMOVE, price, quantity, sequence }
}

/// The answer, the levels of both sides and the sequence after it.
fn case(name: &'static str, on: &On, delta: Delta, expected: (&'static str, &'static str)) -> Case {
    let mut ours = our_book(on.bids, on.asks, on.sequence);
    let said = changes::apply(&mut ours, &delta);
    let mut theirs = released::book_of(on.bids, on.asks, on.sequence);
    let their_said = released::guarded(|| released::apply(&mut theirs, &delta));
    Case {
        name,
        ours: format!("{}, now {} and {} levels at {}", said, ours.bids.count, ours.asks.count, ours.sequence),
        theirs: format!("{}, now {} and {} levels at {}", their_said, theirs.bid_count(), theirs.ask_count(), theirs.sequence()),
        expected,
    }
}

/// The same with the original as a debug build has it.
fn checked_case(name: &'static str, on: &On, delta: Delta, expected: (&'static str, &'static str)) -> Case {
    let mut ours = our_book(on.bids, on.asks, on.sequence);
    let said = changes::apply(&mut ours, &delta);
    let mut theirs = checked::book_of(on.bids, on.asks, on.sequence);
    let their_said = checked::guarded(|| checked::apply(&mut theirs, &delta));
    Case { name, ours: said.to_string(), theirs: their_said.to_string(), expected }
}

fn full_side() -> Vec<Case> {
    let bids: Vec<Level> = (1..=128).rev().map(|price| (price, 1)).collect();
    let full = On { bids: &bids, asks: &[(130, 1)], sequence: 0 };
    let most = On { bids: &bids[1..], asks: &[], sequence: 0 };
    let taken = ("0, now 128 and 1 levels at 1", "0, now 128 and 1 levels at 1");
    vec![
        case("Set of a 129th price", &full, set(BID, 129, 1, 1), ("6, now 128 and 1 levels at 0", "0, now 129 and 1 levels at 1")),
        case("Set of a price that a full side has", &full, set(BID, 128, 2, 1), taken),
        case(
            "Set of a 129th price that crosses",
            &full,
            set(BID, 130, 1, 1),
            ("5 130 130, now 128 and 1 levels at 0", "5 130 130, now 128 and 1 levels at 0"),
        ),
        case("Set of a 128th price", &most, set(BID, 128, 1, 1), ("0, now 128 and 0 levels at 1", "0, now 128 and 0 levels at 1")),
    ]
}

fn limits() -> Vec<Case> {
    let empty = On { bids: &[], asks: &[], sequence: 0 };
    let one = On { bids: &[], asks: &[(5, 1)], sequence: 0 };
    let kept = "2, now 0 and 0 levels at 0";
    let one_bid = "0, now 1 and 0 levels at 1";
    vec![
        case("Set at price 100000001", &empty, set(BID, 100_000_001, 1, 1), (kept, one_bid)),
        case("Set at price 100000000", &empty, set(BID, 100_000_000, 1, 1), (one_bid, one_bid)),
        case("Set at price 0", &empty, set(BID, 0, 1, 1), (kept, "(no such value can be made), now 0 and 0 levels at 0")),
        case("Set of quantity 1000000001", &empty, set(BID, 1, 1_000_000_001, 1), (kept, one_bid)),
        case("Set of quantity 1000000000", &empty, set(BID, 1, 1_000_000_000, 1), (one_bid, one_bid)),
        case(
            "Remove with quantity 4294967295",
            &empty,
            remove(BID, 1, u32::MAX, 1),
            ("0, now 0 and 0 levels at 1", "0, now 0 and 0 levels at 1"),
        ),
        case("Remove at price 100000001", &empty, remove(BID, 100_000_001, 0, 1), (kept, "0, now 0 and 0 levels at 1")),
        case("price 100000001 and a wrong sequence", &empty, set(BID, 100_000_001, 1, 9), (kept, "4 1 9, now 0 and 0 levels at 0")),
        case(
            "quantity 1000000001 and a crossing price",
            &one,
            set(BID, 5, 1_000_000_001, 1),
            ("2, now 0 and 1 levels at 0", "5 5 5, now 0 and 1 levels at 0"),
        ),
    ]
}

fn sequences() -> Vec<Case> {
    let last = On { bids: &[], asks: &[(5, 1)], sequence: u64::MAX };
    let near = On { bids: &[], asks: &[], sequence: u64::MAX - 1 };
    let kept = "3, now 0 and 1 levels at 18446744073709551615";
    vec![
        case("last sequence, delta 0 (release)", &last, remove(BID, 1, 0, 0), (kept, "0, now 0 and 1 levels at 0")),
        checked_case("last sequence, delta 0 (debug)", &last, remove(BID, 1, 0, 0), ("3", "a panic")),
        case(
            "last sequence, delta 18446744073709551615 (release)",
            &last,
            remove(BID, 1, 0, u64::MAX),
            (kept, "4 0 18446744073709551615, now 0 and 1 levels at 18446744073709551615"),
        ),
        checked_case("last sequence, delta 18446744073709551615 (debug)", &last, remove(BID, 1, 0, u64::MAX), ("3", "a panic")),
        case(
            "last sequence, delta 0 that crosses (release)",
            &last,
            set(BID, 5, 1, 0),
            (kept, "5 5 5, now 0 and 1 levels at 18446744073709551615"),
        ),
        case(
            "the last delta that there is",
            &near,
            remove(BID, 1, 0, u64::MAX),
            ("0, now 0 and 0 levels at 18446744073709551615", "0, now 0 and 0 levels at 18446744073709551615"),
        ),
        case(
            "a wrong sequence and a crossing price",
            &On { bids: &[], asks: &[(5, 1)], sequence: 7 },
            set(BID, 5, 1, 7),
            ("4 8 7, now 0 and 1 levels at 7", "4 8 7, now 0 and 1 levels at 7"),
        ),
    ]
}

fn crossings() -> Vec<Case> {
    let k = On { bids: &[(100, 5), (99, 0), (98, 10)], asks: &[(101, 4), (103, 6)], sequence: 5 };
    let same = |text| (text, text);
    vec![
        case("book K, Set bid 101x0", &k, set(BID, 101, 0, 6), same("5 101 101, now 3 and 2 levels at 5")),
        case("book K, Set ask 99x1, a bid's price", &k, set(ASK, 99, 1, 6), same("5 100 99, now 3 and 2 levels at 5")),
        case("book K, Set bid 99x7 over its zero level", &k, set(BID, 99, 7, 6), same("0, now 3 and 2 levels at 6")),
        case("book K, Set bid 100x0 keeps a level", &k, set(BID, 100, 0, 6), same("0, now 3 and 2 levels at 6")),
        case("book K, Remove ask 102, absent", &k, remove(ASK, 102, 0, 6), same("0, now 3 and 2 levels at 6")),
    ]
}

pub fn cases() -> Vec<Case> {
    [full_side(), limits(), sequences(), crossings()].into_iter().flatten().collect()
}
