//! Every listing by its name: levels from the original and from us.
use crate::forms::{Level, Listing, BID};
use crate::original::released::{level_of, price_of, side_of};
use crate::ours::side_of as our_side;
use crate::quiet::caught;
use crate::said::{Said, PANICKED, UNMADE};
use original::orderbook::{OrderBook, PriceLevel};
use wermazul::{Error, Listing as OurListing, OrderBook as OurBook, PriceLevel as OurLevel};

/// What a listing gave: levels, or how the call ended instead.
pub type Listed = Result<Vec<Level>, Said>;

fn numbers(levels: Vec<PriceLevel>) -> Vec<Level> {
    levels.iter().map(level_of).collect()
}

fn between(book: &OrderBook, ask: &Listing) -> Listed {
    match (price_of(ask.from as u32), price_of(ask.to)) {
        (Some(low), Some(high)) => Ok(numbers(book.price_levels_between(side_of(ask.side), low, high))),
        _ => Err(Said::refused(UNMADE)),
    }
}

/// A listing's names in the original, and their answers.
pub fn theirs(book: &OrderBook, ask: &Listing) -> Vec<(&'static str, Listed)> {
    let n = ask.from as usize;
    match (ask.listing, ask.side) {
        (0, BID) => vec![
            ("top_bids", Ok(numbers(book.top_bids(n)))),
            ("bid_depth", Ok(numbers(book.bid_depth(n)))),
            ("top_n_bid_levels", Ok(numbers(book.top_n_bid_levels(n)))),
        ],
        (0, _) => vec![
            ("top_asks", Ok(numbers(book.top_asks(n)))),
            ("ask_depth", Ok(numbers(book.ask_depth(n)))),
            ("top_n_ask_levels", Ok(numbers(book.top_n_ask_levels(n)))),
        ],
        (1, _) => {
            let (bids, asks) = book.snapshot(n);
            vec![("snapshot", Ok([numbers(bids), numbers(asks)].concat()))]
        }
        _ => {
            let whole = caught(|| between(book, ask));
            vec![("price_levels_between", whole.unwrap_or_else(|| Err(Said::refused(PANICKED))))]
        }
    }
}

fn our_levels(levels: Result<Vec<OurLevel>, Error>) -> Listed {
    let level = |it: &OurLevel| (it.price, it.quantity);
    match levels {
        Ok(levels) => Ok(levels.iter().map(level).collect()),
        Err(error) => Err(Said::refused(error.number())),
    }
}

fn our_snapshot(book: &OurBook, n: usize) -> Listed {
    let (bids, asks) = book.snapshot(n).map_err(|error| Said::refused(error.number()))?;
    our_levels(Ok([bids, asks].concat()))
}

/// The same names with our answers.
pub fn ours(book: &OurBook, name: &str, ask: &Listing) -> Listed {
    let n = ask.from as usize;
    match name {
        "top_bids" => our_levels(book.top_bids(n)),
        "bid_depth" => our_levels(book.bid_depth(n)),
        "top_n_bid_levels" => our_levels(book.top_n_bid_levels(n)),
        "top_asks" => our_levels(book.top_asks(n)),
        "ask_depth" => our_levels(book.ask_depth(n)),
        "top_n_ask_levels" => our_levels(book.top_n_ask_levels(n)),
        "snapshot" => our_snapshot(book, n),
        _ => our_levels(book.price_levels_between(our_side(ask.side), ask.from as u32, ask.to)),
    }
}

/// The listing as our calls with a lent buffer take it.
pub fn our_listing(ask: &Listing) -> OurListing {
    match ask.listing {
        0 => OurListing::Top(our_side(ask.side), ask.from as usize),
        1 => OurListing::Snapshot(ask.from as usize),
        _ => OurListing::Between(our_side(ask.side), ask.from as u32, ask.to),
    }
}
