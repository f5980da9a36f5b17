//! The original, unchanged. Its prices, quantities and targets are made of the numbers before any clock runs.
use crate::contestant::contestant;
use crate::inputs;
use crate::said::{levels, number};
use ::original::orderbook::{BookDelta, DeltaAction, OrderBook, PriceLevel};
use ::original::types::{Price, Quantity, Side, Symbol};
use rust_decimal::prelude::ToPrimitive;
use rust_decimal::Decimal;

struct Question {
    side: Side,
    price: Price,
    target: Quantity,
    volume: Decimal,
}

fn new_book() -> OrderBook {
    OrderBook::new(Symbol::new("X").expect("a symbol"))
}

fn side_of(bid: bool) -> Side {
    if bid {
        Side::Bid
    } else {
        Side::Ask
    }
}

fn price_of(price: u32) -> Price {
    Price::new(Decimal::from(price)).expect("a price")
}

fn quantity_of(quantity: u32) -> Quantity {
    Quantity::new(Decimal::from(quantity)).expect("a quantity")
}

fn delta_of(it: &inputs::Delta) -> BookDelta {
    let action = if it.remove { DeltaAction::Remove } else { DeltaAction::Set };
    BookDelta { side: side_of(it.bid), price: price_of(it.price), quantity: quantity_of(it.quantity), action, sequence: it.sequence }
}

fn question_of(it: &inputs::Question) -> Question {
    Question { side: side_of(it.bid), price: price_of(it.price), target: quantity_of(it.target), volume: Decimal::from(it.volume) }
}

fn total(book: &OrderBook, side: Side) -> Decimal {
    match side {
        Side::Bid => book.total_bid_volume(),
        Side::Ask => book.total_ask_volume(),
    }
}

fn pair(level: PriceLevel) -> (u32, u32) {
    let whole = |value: Decimal| value.to_u32().expect("a whole number");
    (whole(level.price.value()), whole(level.quantity.value()))
}

fn list(answer: Vec<PriceLevel>) -> Vec<(u32, u32)> {
    answer.into_iter().map(pair).collect()
}

fn both((bids, asks): (Vec<PriceLevel>, Vec<PriceLevel>)) -> Vec<(u32, u32)> {
    bids.into_iter().chain(asks).map(pair).collect()
}

fn quote(answer: Option<(PriceLevel, PriceLevel)>) -> Option<Vec<(u32, u32)>> {
    answer.map(|(bid, ask)| vec![pair(bid), pair(ask)])
}

contestant! {
    Original: OrderBook,
    new new_book(),
    delta delta_of -> BookDelta,
    question question_of -> Question,
    take |book, delta| book.apply_delta(delta),
    levels |book, bid| list(if bid { book.top_bids(usize::MAX) } else { book.top_asks(usize::MAX) }),
    ask |book, with| {
        VwapForQty => book.vwap_for_qty(with.side, with.target), |it: Result<Decimal, _>| number(it.ok());
        PriceImpact => book.price_impact(with.side, with.target), number;
        TotalVolume => total(book, with.side), |it| number(Some(it));
        BestQuote => book.best_quote(), |it| levels(quote(it));
        Spread => book.spread(), number;
        MidPrice => book.mid_price(), number;
        DepthAt => book.depth_at(with.side, with.price), number;
        Imbalance => book.imbalance(), number;
        PriceAtVolume => book.price_at_volume(with.side, with.volume), |it: Option<Price>| number(it.map(|price| price.value()));
        TopBids => book.top_bids(10), |it| levels(Some(list(it)));
        Snapshot => book.snapshot(5), |it| levels(Some(both(it)));
        BestBid => book.best_bid(), |it: Option<PriceLevel>| levels(it.map(|level| vec![pair(level)]));
        Sequence => book.sequence(), |it| number(Some(it));
    }
}
