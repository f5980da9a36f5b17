//! A plain book: a sorted array of prices a side, best first, and one of quantities beside it.
use super::plain::{delta_of, fill, imbalance, plain_contestant, question_of, quote, reach, refusal, Delta, Refusal};
use crate::inputs::Question;
use crate::said::{levels, number, ratio};

#[derive(Default)]
struct Rows {
    prices: Vec<u32>,
    quantities: Vec<u32>,
}

#[derive(Default)]
pub struct ArrayBook {
    bids: Rows,
    asks: Rows,
    sequence: u64,
}

impl Rows {
    /// The place of a price, or the place where it belongs.
    fn place(&self, bid: bool, price: u32) -> Result<usize, usize> {
        if bid {
            self.prices.binary_search_by(|other| price.cmp(other))
        } else {
            self.prices.binary_search(&price)
        }
    }

    fn set(&mut self, place: Result<usize, usize>, price: u32, quantity: u32) {
        match place {
            Ok(place) => self.quantities[place] = quantity,
            Err(place) => {
                self.prices.insert(place, price);
                self.quantities.insert(place, quantity);
            }
        }
    }

    fn remove(&mut self, place: Result<usize, usize>) {
        if let Ok(place) = place {
            self.prices.remove(place);
            self.quantities.remove(place);
        }
    }

    fn best(&self) -> Option<(u32, u32)> {
        Some((*self.prices.first()?, *self.quantities.first()?))
    }

    fn iter(&self) -> impl Iterator<Item = (u32, u32)> + '_ {
        self.prices.iter().copied().zip(self.quantities.iter().copied())
    }
}

impl ArrayBook {
    fn side(&self, bid: bool) -> &Rows {
        if bid {
            &self.bids
        } else {
            &self.asks
        }
    }

    fn apply(&mut self, delta: &Delta) -> Result<(), Refusal> {
        refusal(delta, self.sequence, self.bids.prices.first().copied(), self.asks.prices.first().copied())?;
        let side = if delta.bid { &mut self.bids } else { &mut self.asks };
        let place = side.place(delta.bid, delta.price);
        if delta.remove {
            side.remove(place);
        } else {
            side.set(place, delta.price, delta.quantity);
        }
        self.sequence = delta.sequence;
        Ok(())
    }

    fn vwap_for_qty(&self, bid: bool, target: u32) -> Option<(i64, u64)> {
        fill(self.side(bid).iter(), target)
    }

    fn price_at_volume(&self, bid: bool, volume: u64) -> Option<u32> {
        reach(self.side(bid).iter(), volume)
    }

    fn total_volume(&self, bid: bool) -> u64 {
        self.side(bid).quantities.iter().map(|&quantity| u64::from(quantity)).sum()
    }

    fn best_bid(&self) -> Option<(u32, u32)> {
        self.bids.best()
    }

    fn best_quote(&self) -> Option<[(u32, u32); 2]> {
        Some([self.bids.best()?, self.asks.best()?])
    }

    fn depth_at(&self, bid: bool, price: u32) -> Option<u32> {
        let side = self.side(bid);
        side.place(bid, price).ok().map(|place| side.quantities[place])
    }

    fn top(&self, bid: bool, count: usize) -> Vec<(u32, u32)> {
        self.side(bid).iter().take(count).collect()
    }
}

plain_contestant!(Array: ArrayBook);
