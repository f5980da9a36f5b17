//! What the two plain books share: the refusals of a delta that the original has, the walks over levels, and the questions.
use crate::inputs;

/// A delta in the form that both take: the plain one.
pub use crate::inputs::Delta;

#[derive(Debug)]
#[allow(dead_code)] // only whether there is one is read
pub enum Refusal {
    Sequence { expected: u64, got: u64 },
    Crossed { best_bid: u32, best_ask: u32 },
}

/// The refusal of a delta by a book with this sequence and these best prices. A Remove never crosses.
pub fn refusal(delta: &Delta, sequence: u64, best_bid: Option<u32>, best_ask: Option<u32>) -> Result<(), Refusal> {
    if delta.sequence != sequence + 1 {
        return Err(Refusal::Sequence { expected: sequence + 1, got: delta.sequence });
    }
    match (delta.bid, best_bid, best_ask) {
        (true, _, Some(best_ask)) if !delta.remove && delta.price >= best_ask => Err(Refusal::Crossed { best_bid: delta.price, best_ask }),
        (false, Some(best_bid), _) if !delta.remove && delta.price <= best_bid => Err(Refusal::Crossed { best_bid, best_ask: delta.price }),
        _ => Ok(()),
    }
}

/// What filling a target costs, best level first, over the target; nothing if there is too little.
pub fn fill(levels: impl Iterator<Item = (u32, u32)>, target: u32) -> Option<(i64, u64)> {
    let (mut left, mut cost) = (target, 0);
    for (price, quantity) in levels {
        let filled = left.min(quantity);
        cost += u64::from(price) * u64::from(filled);
        left -= filled;
        if left == 0 {
            return Some((cost as i64, u64::from(target)));
        }
    }
    None
}

/// The price of the level that reaches a volume, else that of the last level.
pub fn reach(levels: impl Iterator<Item = (u32, u32)>, volume: u64) -> Option<u32> {
    let (mut left, mut last) = (volume, None);
    for (price, quantity) in levels {
        last = Some(price);
        if u64::from(quantity) >= left {
            return last;
        }
        left -= u64::from(quantity);
    }
    last
}

/// The bids' volume less the asks', over both.
pub fn imbalance(bids: u64, asks: u64) -> Option<(i64, u64)> {
    if bids + asks == 0 {
        return None;
    }
    Some((bids as i64 - asks as i64, bids + asks))
}

pub fn delta_of(it: &inputs::Delta) -> Delta {
    *it
}

pub fn question_of(it: &inputs::Question) -> inputs::Question {
    *it
}

pub fn quote(answer: Option<[(u32, u32); 2]>) -> Option<Vec<(u32, u32)>> {
    answer.map(|levels| levels.to_vec())
}

/// The contestant of a plain book: both have the same calls.
macro_rules! plain_contestant {
    ($name:ident: $book:ty) => {
        crate::contestant::contestant! {
            $name: $book,
            new <$book>::default(),
            delta delta_of -> Delta,
            question question_of -> Question,
            take |book, delta| book.apply(&delta),
            levels |book, bid| book.top(bid, usize::MAX),
            ask |book, with| {
                VwapForQty => book.vwap_for_qty(with.bid, with.target), ratio;
                PriceImpact => book.vwap_for_qty(!with.bid, with.target), ratio;
                TotalVolume => book.total_volume(with.bid), |it| number(Some(it));
                BestQuote => book.best_quote(), |it| levels(quote(it));
                Spread => book.spread(), number;
                MidPrice => book.mid_price(), ratio;
                DepthAt => book.depth_at(with.bid, with.price), number;
                Imbalance => imbalance(book.total_volume(true), book.total_volume(false)), ratio;
                PriceAtVolume => book.price_at_volume(with.bid, with.volume), number;
                TopBids => book.top(true, 10), |it| levels(Some(it));
                Snapshot => (book.top(true, 5), book.top(false, 5)), |(bids, asks): (Vec<_>, Vec<_>)| levels(Some([bids, asks].concat()));
                BestBid => book.best_bid(), |it: Option<(u32, u32)>| levels(it.map(|level| vec![level]));
                Sequence => book.sequence, |it| number(Some(it));
            }
        }

        impl $book {
            fn spread(&self) -> Option<u32> {
                self.best_quote().map(|[bid, ask]| ask.0 - bid.0)
            }

            fn mid_price(&self) -> Option<(i64, u64)> {
                self.best_quote().map(|[bid, ask]| (i64::from(bid.0) + i64::from(ask.0), 2))
            }
        }
    };
}
pub(crate) use plain_contestant;
