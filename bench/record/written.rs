//! The test as one writes it in Rust from the rules: iterators that stop at the first fault.
use crate::books::{Book, Side, LEVELS, MAX_PRICE, MAX_QUANTITY};

fn fits(side: &Side, ahead: impl Fn(u32, u32) -> bool) -> bool {
    if side.count > LEVELS {
        return false;
    }
    let (prices, unused_prices) = side.prices.split_at(side.count);
    let (quantities, unused_quantities) = side.quantities.split_at(side.count);
    prices.windows(2).all(|pair| ahead(pair[0], pair[1]))
        && prices.iter().all(|price| (1..=MAX_PRICE).contains(price))
        && quantities.iter().all(|quantity| *quantity <= MAX_QUANTITY)
        && unused_prices.iter().chain(unused_quantities).all(|unused| *unused == 0)
}

/// Of a record by reference. A call, as of a library's function.
#[inline(never)]
pub fn is_book(book: &Book) -> bool {
    let Book { bids, asks, .. } = book;
    fits(bids, |a, b| a > b) && fits(asks, |a, b| a < b) && (bids.count == 0 || asks.count == 0 || bids.prices[0] < asks.prices[0])
}
