//! A plain book: a `BTreeMap` a side.
use super::plain::{delta_of, fill, imbalance, plain_contestant, question_of, quote, reach, refusal, Delta, Refusal};
use crate::inputs::Question;
use crate::said::{levels, number, ratio};
use std::collections::BTreeMap;

#[derive(Default)]
pub struct MapBook {
    bids: BTreeMap<u32, u32>,
    asks: BTreeMap<u32, u32>,
    sequence: u64,
}

fn pair((price, quantity): (&u32, &u32)) -> (u32, u32) {
    (*price, *quantity)
}

impl MapBook {
    fn side(&self, bid: bool) -> &BTreeMap<u32, u32> {
        if bid {
            &self.bids
        } else {
            &self.asks
        }
    }

    fn best_bid(&self) -> Option<(u32, u32)> {
        self.bids.iter().next_back().map(pair)
    }

    fn best_ask(&self) -> Option<(u32, u32)> {
        self.asks.iter().next().map(pair)
    }

    fn apply(&mut self, delta: &Delta) -> Result<(), Refusal> {
        refusal(delta, self.sequence, self.best_bid().map(|it| it.0), self.best_ask().map(|it| it.0))?;
        let side = if delta.bid { &mut self.bids } else { &mut self.asks };
        if delta.remove {
            side.remove(&delta.price);
        } else {
            side.insert(delta.price, delta.quantity);
        }
        self.sequence = delta.sequence;
        Ok(())
    }

    fn vwap_for_qty(&self, bid: bool, target: u32) -> Option<(i64, u64)> {
        if bid {
            fill(self.bids.iter().rev().map(pair), target)
        } else {
            fill(self.asks.iter().map(pair), target)
        }
    }

    fn price_at_volume(&self, bid: bool, volume: u64) -> Option<u32> {
        if bid {
            reach(self.bids.iter().rev().map(pair), volume)
        } else {
            reach(self.asks.iter().map(pair), volume)
        }
    }

    fn total_volume(&self, bid: bool) -> u64 {
        self.side(bid).values().map(|&quantity| u64::from(quantity)).sum()
    }

    fn best_quote(&self) -> Option<[(u32, u32); 2]> {
        Some([self.best_bid()?, self.best_ask()?])
    }

    fn depth_at(&self, bid: bool, price: u32) -> Option<u32> {
        self.side(bid).get(&price).copied()
    }

    fn top(&self, bid: bool, count: usize) -> Vec<(u32, u32)> {
        if bid {
            self.bids.iter().rev().take(count).map(pair).collect()
        } else {
            self.asks.iter().take(count).map(pair).collect()
        }
    }
}

plain_contestant!(Map: MapBook);
