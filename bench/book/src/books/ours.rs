//! This library, by its Rust crate.
use crate::contestant::contestant;
use crate::inputs;
use crate::said::{levels, number, ratio};
use wermazul::{BookDelta, DeltaAction, Error, OrderBook, PriceLevel, Quote, Quotient, Side};

struct Question {
    side: Side,
    price: u32,
    target: u32,
    volume: u64,
}

fn side_of(bid: bool) -> Side {
    if bid {
        Side::Bid
    } else {
        Side::Ask
    }
}

pub fn delta_of(it: &inputs::Delta) -> BookDelta {
    let action = if it.remove { DeltaAction::Remove } else { DeltaAction::Set };
    BookDelta { side: side_of(it.bid), price: it.price, quantity: it.quantity, action, sequence: it.sequence }
}

fn question_of(it: &inputs::Question) -> Question {
    Question { side: side_of(it.bid), price: it.price, target: it.target, volume: it.volume }
}

fn total(book: &OrderBook, side: Side) -> Result<u64, Error> {
    match side {
        Side::Bid => book.total_bid_volume(),
        Side::Ask => book.total_ask_volume(),
    }
}

fn pair(level: PriceLevel) -> (u32, u32) {
    (level.price, level.quantity)
}

fn list(answer: Result<Vec<PriceLevel>, Error>) -> Option<Vec<(u32, u32)>> {
    answer.ok().map(|list| list.into_iter().map(pair).collect())
}

fn both(answer: Result<(Vec<PriceLevel>, Vec<PriceLevel>), Error>) -> Option<Vec<(u32, u32)>> {
    answer.ok().map(|(bids, asks)| bids.into_iter().chain(asks).map(pair).collect())
}

fn quote(answer: Result<Quote, Error>) -> Option<Vec<(u32, u32)>> {
    answer.ok().map(|quote| vec![pair(quote.bid), pair(quote.ask)])
}

fn over(answer: Result<Quotient, Error>) -> Option<(i64, u64)> {
    answer.ok().map(|it| (it.numerator, it.denominator))
}

fn all(book: &OrderBook, bid: bool) -> Vec<(u32, u32)> {
    let side = if bid { &book.bids } else { &book.asks };
    (0..side.count).map(|place| (side.prices[place], side.quantities[place])).collect()
}

contestant! {
    Ours: OrderBook,
    new OrderBook::new(),
    delta delta_of -> BookDelta,
    question question_of -> Question,
    take |book, delta| book.apply_delta(delta),
    levels |book, bid| all(book, bid),
    ask |book, with| {
        VwapForQty => book.vwap_for_qty(with.side, with.target), |it| ratio(over(it));
        PriceImpact => book.price_impact(with.side, with.target), |it| ratio(over(it));
        TotalVolume => total(book, with.side), |it: Result<u64, _>| number(it.ok());
        BestQuote => book.best_quote(), |it| levels(quote(it));
        Spread => book.spread(), |it: Result<u32, _>| number(it.ok());
        MidPrice => book.mid_price(), |it| ratio(over(it));
        DepthAt => book.depth_at(with.side, with.price), |it: Result<u32, _>| number(it.ok());
        Imbalance => book.imbalance(), |it| ratio(over(it));
        PriceAtVolume => book.price_at_volume(with.side, with.volume), |it: Result<u32, _>| number(it.ok());
        TopBids => book.top_bids(10), |it| levels(list(it));
        Snapshot => book.snapshot(5), |it| levels(both(it));
        BestBid => book.best_bid(), |it: Result<PriceLevel, _>| levels(it.ok().map(|level| vec![pair(level)]));
        Sequence => book.sequence(), |it: Result<u64, _>| number(it.ok());
    }
}
