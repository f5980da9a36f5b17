//! The listings by the original's names, for a record that has `list` and `book`: a book and a receiver have the same.
use super::PriceLevel;
use crate::error::Error;
use crate::types::MAX_LEVELS;

/// The levels that fit a short buffer.
const SHORT: usize = 32;

/// The levels that a listing writes: its call in a buffer that has room for as many, of which a short one is the sooner made.
pub(crate) fn levels(most: usize, list: impl FnOnce(&mut [u32]) -> Result<usize, Error>) -> Result<Vec<PriceLevel>, Error> {
    if most <= SHORT {
        levels_in(&mut [0; 2 * SHORT], list)
    } else {
        levels_in(&mut [0; 4 * MAX_LEVELS], list)
    }
}

fn levels_in(places: &mut [u32], list: impl FnOnce(&mut [u32]) -> Result<usize, Error>) -> Result<Vec<PriceLevel>, Error> {
    let filled = list(places)?;
    let pairs = places[..filled].chunks_exact(2);
    Ok(pairs.map(|pair| PriceLevel { price: pair[0], quantity: pair[1] }).collect())
}

macro_rules! named_listings {
    ($record:ty) => {
        impl $record {
            /// The best `n` bids.
            pub fn top_bids(&self, n: usize) -> Result<Vec<PriceLevel>, Error> {
                levels(n, |out| self.list(Listing::Top(Side::Bid, n), out))
            }

            /// The best `n` asks.
            pub fn top_asks(&self, n: usize) -> Result<Vec<PriceLevel>, Error> {
                levels(n, |out| self.list(Listing::Top(Side::Ask, n), out))
            }

            /// Second name of `top_bids`.
            pub fn bid_depth(&self, n: usize) -> Result<Vec<PriceLevel>, Error> {
                self.top_bids(n)
            }

            /// Second name of `top_asks`.
            pub fn ask_depth(&self, n: usize) -> Result<Vec<PriceLevel>, Error> {
                self.top_asks(n)
            }

            /// Second name of `top_bids`.
            pub fn top_n_bid_levels(&self, n: usize) -> Result<Vec<PriceLevel>, Error> {
                self.top_bids(n)
            }

            /// Second name of `top_asks`.
            pub fn top_n_ask_levels(&self, n: usize) -> Result<Vec<PriceLevel>, Error> {
                self.top_asks(n)
            }

            /// The best `n` bids and the best `n` asks.
            pub fn snapshot(&self, n: usize) -> Result<(Vec<PriceLevel>, Vec<PriceLevel>), Error> {
                let mut bids = levels(n.saturating_mul(2), |out| self.list(Listing::Snapshot(n), out))?;
                let asks = bids.split_off(self.book().bids.count.min(n));
                Ok((bids, asks))
            }

            /// The levels of a side with prices from `lo` to `hi`, upward; 2 if `lo` is above `hi`.
            pub fn price_levels_between(&self, side: Side, lo: Price, hi: Price) -> Result<Vec<PriceLevel>, Error> {
                levels(MAX_LEVELS, |out| self.list(Listing::Between(side, lo, hi), out))
            }
        }
    };
}
pub(crate) use named_listings;
