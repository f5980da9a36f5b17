//! Every question of the book by its name, second names too: the number of the question, the original's call and ours.
use crate::forms::{Asked, ASK, BID};
use crate::original::released::{price_of, quantity_of, refused, side_of};
use crate::ours::{side_of as our_side, told};
use crate::said::{Said, UNMADE};
use original::orderbook::{OrderBook, PriceLevel};
use original::types::{Price, Quantity};
use rust_decimal::Decimal;
use wermazul::OrderBook as OurBook;

/// A call: its name, the question's number, its side where the name fixes it, and the call of either.
pub struct Call {
    pub name: &'static str,
    pub question: u64,
    pub side: Option<u64>,
    pub theirs: fn(&OrderBook, &Asked) -> Said,
    pub ours: fn(&OurBook, &Asked) -> Said,
}

fn level(level: Option<PriceLevel>) -> Said {
    level.map_or(Said::refused(10), |it| Said::of(0, &[it.price.value(), it.quantity.value()]))
}

fn price(price: Option<Price>) -> Said {
    Said::maybe(price.map(|it| it.value()))
}

fn quantity(quantity: Option<Quantity>) -> Said {
    Said::maybe(quantity.map(|it| it.value()))
}

fn quote(quote: Option<(PriceLevel, PriceLevel)>) -> Said {
    let values = |(bid, ask): (PriceLevel, PriceLevel)| [bid.price.value(), bid.quantity.value(), ask.price.value(), ask.quantity.value()];
    quote.map_or(Said::refused(10), |it| Said::of(0, &values(it)))
}

/// The answer at a price, where there is such a price.
fn at(asked: &Asked, answer: impl FnOnce(Price) -> Said) -> Said {
    price_of(asked.small).map_or(Said::refused(UNMADE), answer)
}

fn vwap(book: &OrderBook, asked: &Asked) -> Said {
    match book.vwap_for_qty(side_of(asked.side), quantity_of(asked.small)) {
        Ok(value) => Said::is(value),
        Err(error) => refused(&error),
    }
}

/// One call of the table: name, question, side, and the two calls with the same name on `b` with what is asked in `a`.
macro_rules! call {
    ($name:literal, $question:literal, $side:expr, $theirs:expr, $ours:expr) => {
        Call { name: $name, question: $question, side: $side, theirs: $theirs, ours: $ours }
    };
}

#[allow(deprecated)]
pub const CALLS: [Call; 39] = [
    call!("best_bid", 0, Some(BID), |b, _| level(b.best_bid()), |b, _| told(b.best_bid())),
    call!("best_ask", 0, Some(ASK), |b, _| level(b.best_ask()), |b, _| told(b.best_ask())),
    call!("best_bid_price", 1, Some(BID), |b, _| price(b.best_bid_price()), |b, _| told(b.best_bid_price())),
    call!("best_ask_price", 1, Some(ASK), |b, _| price(b.best_ask_price()), |b, _| told(b.best_ask_price())),
    call!("best_bid_qty", 2, Some(BID), |b, _| quantity(b.best_bid_qty()), |b, _| told(b.best_bid_qty())),
    call!("best_ask_qty", 2, Some(ASK), |b, _| quantity(b.best_ask_qty()), |b, _| told(b.best_ask_qty())),
    call!("best_quote", 3, None, |b, _| quote(b.best_quote()), |b, _| told(b.best_quote())),
    call!("spread", 4, None, |b, _| Said::maybe(b.spread()), |b, _| told(b.spread())),
    call!("mid_price", 5, None, |b, _| Said::maybe(b.mid_price()), |b, _| told(b.mid_price())),
    call!("spread_pct", 6, None, |b, _| Said::maybe(b.spread_pct()), |b, _| told(b.spread_pct())),
    call!("spread_bps", 7, None, |b, _| Said::maybe(b.spread_bps()), |b, _| told(b.spread_bps())),
    call!("weighted_mid", 8, None, |b, _| Said::maybe(b.weighted_mid()), |b, _| told(b.weighted_mid())),
    call!("weighted_mid_price", 8, None, |b, _| Said::maybe(b.weighted_mid_price()), |b, _| told(b.weighted_mid_price())),
    call!("depth_at", 9, None, |b, a| at(a, |p| Said::maybe(b.depth_at(side_of(a.side), p))), |b, a| told(
        b.depth_at(our_side(a.side), a.small)
    )),
    call!("has_price", 10, None, |b, a| at(a, |p| Said::flag(b.has_price(side_of(a.side), p))), |b, a| told(
        b.has_price(our_side(a.side), a.small)
    )),
    call!("bid_count", 11, Some(BID), |b, _| Said::count(b.bid_count()), |b, _| told(b.bid_count())),
    call!("ask_count", 11, Some(ASK), |b, _| Said::count(b.ask_count()), |b, _| told(b.ask_count())),
    call!("level_count", 11, None, |b, a| Said::count(b.level_count(side_of(a.side))), |b, a| told(b.level_count(our_side(a.side)))),
    call!("total_levels", 12, None, |b, _| Said::count(b.total_levels()), |b, _| told(b.total_levels())),
    call!("sequence", 13, None, |b, _| Said::is(Decimal::from(b.sequence())), |b, _| told(b.sequence())),
    call!("is_empty", 14, None, |b, _| Said::flag(b.is_empty()), |b, _| told(b.is_empty())),
    call!("is_crossed", 15, None, |b, _| Said::flag(b.is_crossed()), |b, _| told(b.is_crossed())),
    call!("total_bid_volume", 16, Some(BID), |b, _| Said::is(b.total_bid_volume()), |b, _| told(b.total_bid_volume())),
    call!("total_ask_volume", 16, Some(ASK), |b, _| Said::is(b.total_ask_volume()), |b, _| told(b.total_ask_volume())),
    call!("total_bid_depth", 16, Some(BID), |b, _| Said::is(b.total_bid_depth()), |b, _| told(b.total_bid_depth())),
    call!("total_ask_depth", 16, Some(ASK), |b, _| Said::is(b.total_ask_depth()), |b, _| told(b.total_ask_depth())),
    call!("cumulative_depth", 17, None, |b, a| at(a, |p| Said::is(b.cumulative_depth(side_of(a.side), p))), |b, a| {
        told(b.cumulative_depth(our_side(a.side), a.small))
    }),
    call!("cumulative_bid_qty", 18, Some(BID), |b, a| Said::is(b.cumulative_bid_qty(a.large as usize)), |b, a| told(
        b.cumulative_bid_qty(a.large as usize)
    )),
    call!("cumulative_ask_qty", 18, Some(ASK), |b, a| Said::is(b.cumulative_ask_qty(a.large as usize)), |b, a| told(
        b.cumulative_ask_qty(a.large as usize)
    )),
    call!("tick_size", 19, None, |b, _| Said::maybe(b.tick_size()), |b, _| told(b.tick_size())),
    call!("imbalance", 20, None, |b, _| Said::maybe(b.imbalance()), |b, _| told(b.imbalance())),
    call!("depth_imbalance", 20, None, |b, _| Said::maybe(b.depth_imbalance()), |b, _| told(b.depth_imbalance())),
    call!("depth_ratio", 21, None, |b, a| Said::maybe(b.depth_ratio(a.large as usize)), |b, a| told(b.depth_ratio(a.large as usize))),
    call!("bid_ask_ratio", 22, None, |b, _| Said::maybe(b.bid_ask_ratio()), |b, _| told(b.bid_ask_ratio())),
    call!("ask_bid_ratio", 23, None, |b, _| Said::maybe(b.ask_bid_ratio()), |b, _| told(b.ask_bid_ratio())),
    call!("bid_depth_skew", 24, None, |b, a| Said::maybe(b.bid_depth_skew(a.large as usize)), |b, a| told(
        b.bid_depth_skew(a.large as usize)
    )),
    call!("vwap_for_qty", 25, None, vwap, |b, a| told(b.vwap_for_qty(our_side(a.side), a.small))),
    call!("price_impact", 26, None, |b, a| Said::maybe(b.price_impact(side_of(a.side), quantity_of(a.small))), |b, a| told(
        b.price_impact(our_side(a.side), a.small)
    )),
    call!("price_at_volume", 27, None, |b, a| price(b.price_at_volume(side_of(a.side), Decimal::from(a.large))), |b, a| told(
        b.price_at_volume(our_side(a.side), a.large)
    )),
];
