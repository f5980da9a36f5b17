//! Questions and listings: quotients, the spread's rounding, limits, lo above hi, buffers, records that are no book.
use super::book::our_book;
use super::Case;
use crate::calls::CALLS;
use crate::forms::*;
use crate::listings::{self, our_listing, Listed};
use crate::original::released;
use crate::ours::changes;
use crate::said::Said;
use original::orderbook::OrderBook;

const K_BIDS: [Level; 3] = [(100, 5), (99, 0), (98, 10)];
const K_ASKS: [Level; 2] = [(101, 4), (103, 6)];

fn case(name: &'static str, sides: (&[Level], &[Level]), call: &str, asked: Asked, expected: (&'static str, &'static str)) -> Case {
    let call = CALLS.iter().find(|it| it.name == call).expect("a call");
    let theirs = released::book_of(sides.0, sides.1, 5);
    Case {
        name,
        ours: changes::ask(call, &our_book(sides.0, sides.1, 5), &asked).to_string(),
        theirs: released::guarded(|| (call.theirs)(&theirs, &asked)).to_string(),
        expected,
    }
}

const NOTHING: Asked = Asked { side: BID, small: 0, large: 0 };

fn with_small(side: u64, small: u32) -> Asked {
    Asked { side, small, large: 0 }
}

fn with_large(side: u64, large: u64) -> Asked {
    Asked { side, small: 0, large }
}

fn same(text: &'static str) -> (&'static str, &'static str) {
    (text, text)
}

fn quotients() -> Vec<Case> {
    let tight: (&[Level], &[Level]) = (&[(1, 1)], &[(2, 1)]);
    let hundred: (&[Level], &[Level]) = (&[(100, 1)], &[(101, 1)]);
    let bids: (&[Level], &[Level]) = (&[(1, 1)], &[]);
    let asks: (&[Level], &[Level]) = (&[], &[(1, 1)]);
    let zero: (&[Level], &[Level]) = (&[(1, 0)], &[]);
    vec![
        case("mid_price of 1 and 2", tight, "mid_price", NOTHING, same("0 1.5")),
        case(
            "spread_pct of 1 and 2",
            tight,
            "spread_pct",
            NOTHING,
            ("0 66.666666666666666666666666667", "0 66.66666666666666666666666667"),
        ),
        case(
            "spread_pct of 100 and 101",
            hundred,
            "spread_pct",
            NOTHING,
            ("0 0.995024875621890547263681592", "0 0.99502487562189054726368159"),
        ),
        case(
            "spread_bps of 100 and 101",
            hundred,
            "spread_bps",
            NOTHING,
            ("0 99.5024875621890547263681592", "0 99.502487562189054726368159"),
        ),
        case("depth_ratio with no bids", asks, "depth_ratio", with_large(BID, 1), same("0 0")),
        case("bid_ask_ratio with no bids", asks, "bid_ask_ratio", NOTHING, same("10")),
        case("imbalance of bids alone", bids, "imbalance", NOTHING, same("0 1")),
        case("is_empty with one zero level", zero, "is_empty", NOTHING, same("0 0")),
    ]
}

fn targets() -> Vec<Case> {
    let k: (&[Level], &[Level]) = (&K_BIDS, &K_ASKS);
    let large: (&[Level], &[Level]) = (&[(2, MAX_QUANTITY), (1, 1)], &[]);
    vec![
        case("book K, vwap_for_qty Bid 7", k, "vwap_for_qty", with_small(BID, 7), same("0 99.42857142857142857142857143")),
        case("book K, vwap_for_qty Bid 16", k, "vwap_for_qty", with_small(BID, 16), same("7 16")),
        case("book K, vwap_for_qty Bid 0", k, "vwap_for_qty", with_small(BID, 0), same("0 0")),
        case("book K, price_impact Ask 16", k, "price_impact", with_small(ASK, 16), same("10")),
        case("book K, price_at_volume Bid 99", k, "price_at_volume", with_large(BID, 99), same("0 98")),
        case(
            "vwap_for_qty 1000000001 of so many",
            large,
            "vwap_for_qty",
            with_small(BID, 1_000_000_001),
            ("2", "0 1.999999999000000000999999999"),
        ),
        case("vwap_for_qty 1000000001 of an empty side", (&[], &[]), "vwap_for_qty", with_small(BID, 1_000_000_001), ("2", "7 1000000001")),
        case("price_at_volume 128000000001", large, "price_at_volume", with_large(BID, MAX_VOLUME + 1), ("2", "0 1")),
        case("price_at_volume 128000000000", large, "price_at_volume", with_large(BID, MAX_VOLUME), same("0 1")),
        case("depth_at price 100000001", k, "depth_at", with_small(BID, 100_000_001), ("2", "10")),
        case("depth_at price 0", k, "depth_at", with_small(BID, 0), ("2", "(no such value can be made)")),
        case("has_price 100000001", k, "has_price", with_small(BID, 100_000_001), ("2", "0 0")),
        case("cumulative_depth Ask 100000001", k, "cumulative_depth", with_small(ASK, 100_000_001), ("2", "0 10")),
    ]
}

fn listed(listed: &Listed) -> String {
    match listed {
        Ok(levels) => format!("{:?}", levels),
        Err(said) => said.to_string(),
    }
}

fn between(side: u64, low: u64, high: u32) -> Listing {
    Listing { listing: 2, side, from: low, to: high }
}

fn list_case(name: &'static str, theirs: &OrderBook, ask: Listing, expected: (&'static str, &'static str)) -> Case {
    let ours = our_book(&released::levels(theirs, BID), &released::levels(theirs, ASK), theirs.sequence());
    let (call, their_list) = listings::theirs(theirs, &ask).swap_remove(0);
    let our_list = listings::ours(&ours, call, &ask);
    Case { name, ours: listed(&our_list), theirs: listed(&their_list), expected }
}

/// A side that had a level and lost it, by Remove and by remove_all.
fn emptied(by_remove: bool) -> OrderBook {
    let mut book = released::book_of(&[(5, 1)], &[], 1);
    if by_remove {
        released::apply(&mut book, &Delta { side: BID, action: REMOVE, price: 5, quantity: 0, sequence: 2 });
    } else {
        book.remove_all(released::side_of(BID));
    }
    book
}

fn listings_between() -> Vec<Case> {
    let one = released::book_of(&[(5, 1)], &[], 1);
    let k = released::book_of(&K_BIDS, &K_ASKS, 5);
    vec![
        list_case("lo 2, hi 1, a side with a level", &one, between(BID, 2, 1), ("2", "a panic")),
        list_case("lo 2, hi 1, a side that never had one", &one, between(ASK, 2, 1), ("2", "[]")),
        list_case("lo 2, hi 1, a side emptied by Remove", &emptied(true), between(BID, 2, 1), ("2", "a panic")),
        list_case("lo 2, hi 1, a side emptied by remove_all", &emptied(false), between(BID, 2, 1), ("2", "[]")),
        list_case("lo 5, hi 5", &one, between(BID, 5, 5), same("[(5, 1)]")),
        list_case("lo 0, hi 5", &one, between(BID, 0, 5), ("2", "(no such value can be made)")),
        list_case("lo 5, hi 100000001", &one, between(BID, 5, 100_000_001), ("2", "[(5, 1)]")),
        list_case("book K, bids from 98 to 99, upward", &k, between(BID, 98, 99), same("[(98, 10), (99, 0)]")),
    ]
}

fn records() -> Vec<Case> {
    let touching = our_book(&[(5, 1)], &[(5, 1)], 0);
    let mut kept = touching;
    let none = "(no such value can be made)".to_string();
    let one = our_book(&[(5, 1)], &[], 0);
    let ask = Listing { listing: 0, side: BID, from: 1, to: 0 };
    let short = one.list(our_listing(&ask), &mut [0]).map_or_else(|error| Said::refused(error.number()), |_| Said::done());
    vec![
        Case {
            name: "clear of a record whose best prices touch",
            ours: changes::clear(&mut kept).to_string(),
            theirs: none,
            expected: ("1", "(no such value can be made)"),
        },
        Case {
            name: "one level into a buffer of 1 place",
            ours: short.to_string(),
            theirs: "[(5, 1)]".to_string(),
            expected: ("11", "[(5, 1)]"),
        },
    ]
}

pub fn cases() -> Vec<Case> {
    [quotients(), targets(), listings_between(), records()].into_iter().flatten().collect()
}
