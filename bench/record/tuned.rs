//! The test in the fastest form found in plain Rust: the loops of the proved one, where the compiler may use all that it knows.
use crate::books::{Book, Counts, Row, LEVELS, MAX_PRICE, MAX_QUANTITY};

fn is_price(price: u32) -> bool {
    (1..=MAX_PRICE).contains(&price)
}

/// Signed numbers in order lie between the first and the last, and these two are in the limits.
fn prices_fit(prices: &[u32], ahead: impl Fn(i32, i32) -> bool) -> bool {
    let (Some(first), Some(last)) = (prices.first(), prices.last()) else {
        return true;
    };
    let steps: u32 = prices.iter().zip(&prices[1..]).map(|(a, b)| u32::from(ahead(*a as i32, *b as i32))).sum();
    steps as usize == prices.len() - 1 && is_price(*first) && is_price(*last)
}

fn quantities_fit(quantities: &Row) -> bool {
    let bits = quantities.iter().fold(0, |bits, quantity| bits | quantity);
    bits <= MAX_QUANTITY || quantities.iter().all(|quantity| *quantity <= MAX_QUANTITY)
}

/// The bits of both rows' places from `count` on: by blocks of 8 from the end down, with the block at `count` under the last of them.
fn unused(prices: &Row, quantities: &Row, count: usize) -> u32 {
    let between = |from: usize, to: usize| prices[from..to].iter().zip(&quantities[from..to]).fold(0, |bits, (price, quantity)| bits | price | quantity);
    if count > LEVELS - 8 {
        return between(count, LEVELS);
    }
    let mut bits = between(count, count + 8);
    let mut at = LEVELS;
    while count + 8 < at {
        at -= 8;
        bits |= between(at, at + 8);
    }
    bits
}

fn fits(prices: &Row, quantities: &Row, count: usize, ahead: impl Fn(i32, i32) -> bool) -> bool {
    if count > LEVELS {
        return false;
    }
    prices_fit(&prices[..count], ahead) && unused(prices, quantities, count) == 0 && quantities_fit(quantities)
}

/// Of a record by reference. A call, as of a library's function.
#[inline(never)]
pub fn is_book(book: &Book) -> bool {
    let Book { bids, asks, .. } = book;
    fits(&bids.prices, &bids.quantities, bids.count, |a, b| a > b)
        && fits(&asks.prices, &asks.quantities, asks.count, |a, b| a < b)
        && (bids.count == 0 || asks.count == 0 || bids.prices[0] < asks.prices[0])
}

/// Of the rows and the counts, by the call of C that the archive has. The name keeps the compiler from another way of calling it.
#[no_mangle]
#[inline(never)]
pub extern "C" fn is_book_by_rows(bid_prices: &Row, bid_quantities: &Row, ask_prices: &Row, ask_quantities: &Row, counts: Counts) -> bool {
    let Counts { bids, asks, .. } = counts;
    fits(bid_prices, bid_quantities, bids, |a, b| a > b)
        && fits(ask_prices, ask_quantities, asks, |a, b| a < b)
        && (bids == 0 || asks == 0 || bid_prices[0] < ask_prices[0])
}
