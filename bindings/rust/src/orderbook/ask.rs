//! Questions and listings as values. Every method that asks goes by these.
use super::answer::Kind;
use crate::types::{Price, Quantity, Side};

/// Any question to a book. A second name of the original shares its twin's question, and a side is an argument.
#[derive(Clone, Copy, Debug, PartialEq, Eq)]
pub enum Question {
    /// The best level of a side.
    Best(Side),
    /// Its price.
    BestPrice(Side),
    /// Its quantity.
    BestQuantity(Side),
    /// Both best levels.
    BestQuote,
    /// Best ask less best bid.
    Spread,
    /// Bid and ask over 2.
    MidPrice,
    /// 200 times the spread, over bid and ask.
    SpreadPct,
    /// 20000 times the spread, over bid and ask.
    SpreadBps,
    /// The prices, each weighted with the other side's best quantity.
    WeightedMid,
    /// The quantity of a side's level at a price.
    DepthAt(Side, Price),
    /// Whether a side has a level at a price.
    HasPrice(Side, Price),
    /// How many levels a side has.
    LevelCount(Side),
    /// How many levels both sides have.
    TotalLevels,
    /// The sequence of the last delta taken.
    Sequence,
    /// Whether the book has no levels.
    IsEmpty,
    /// Whether the best bid reaches the best ask: never, in a book.
    IsCrossed,
    /// The quantity of a side.
    TotalVolume(Side),
    /// The quantity of a side at a price and better.
    CumulativeDepth(Side, Price),
    /// The quantity of the best levels of a side, as many as given.
    CumulativeQuantity(Side, usize),
    /// The smallest gap between neighbouring prices of either side.
    TickSize,
    /// The bids' quantity less the asks', over both.
    Imbalance,
    /// The quantity of the best bids over that of the best asks, as many a side as given.
    DepthRatio(usize),
    /// The bids' quantity over the asks'.
    BidAskRatio,
    /// The asks' quantity over the bids'.
    AskBidRatio,
    /// The quantity of the best bids over that of both sides, as many levels a side as given.
    BidDepthSkew(usize),
    /// The cost of filling a target from a side, over the target.
    VwapForQty(Side, Quantity),
    /// The same for a trade: Bid buys from the asks, Ask sells to the bids.
    PriceImpact(Side, Quantity),
    /// The price of the level at which the running total of a side reaches the target.
    PriceAtVolume(Side, u64),
}

/// What is listed into a lent buffer: price, quantity, price, quantity.
#[derive(Clone, Copy, Debug, PartialEq, Eq)]
pub enum Listing {
    /// The best levels of a side, at most as many as given.
    Top(Side, usize),
    /// The best levels of both sides, at most as many a side as given, bids first.
    Snapshot(usize),
    /// The levels of a side from one price to another, upward.
    Between(Side, Price, Price),
}

/// A question as the archive takes it.
pub(crate) struct Asked {
    pub number: u64,
    pub kind: Kind,
    pub side: u64,
    pub small: u32,
    pub large: u64,
}

impl Question {
    // Always inline, as `Answer::of` and `ask` are: a question by its name is then worked out by the compiler.
    #[inline(always)]
    pub(crate) fn asked(self) -> Asked {
        use Kind::{Flag, Level, Number, Quote, Ratio};
        // A question without a side is asked with Bid, one without numbers with 0.
        let (number, kind, side, small, large) = match self {
            Question::Best(side) => (0, Level, side, 0, 0),
            Question::BestPrice(side) => (1, Number, side, 0, 0),
            Question::BestQuantity(side) => (2, Number, side, 0, 0),
            Question::BestQuote => (3, Quote, Side::Bid, 0, 0),
            Question::Spread => (4, Number, Side::Bid, 0, 0),
            Question::MidPrice => (5, Ratio, Side::Bid, 0, 0),
            Question::SpreadPct => (6, Ratio, Side::Bid, 0, 0),
            Question::SpreadBps => (7, Ratio, Side::Bid, 0, 0),
            Question::WeightedMid => (8, Ratio, Side::Bid, 0, 0),
            Question::DepthAt(side, price) => (9, Number, side, price, 0),
            Question::HasPrice(side, price) => (10, Flag, side, price, 0),
            Question::LevelCount(side) => (11, Number, side, 0, 0),
            Question::TotalLevels => (12, Number, Side::Bid, 0, 0),
            Question::Sequence => (13, Number, Side::Bid, 0, 0),
            Question::IsEmpty => (14, Flag, Side::Bid, 0, 0),
            Question::IsCrossed => (15, Flag, Side::Bid, 0, 0),
            Question::TotalVolume(side) => (16, Number, side, 0, 0),
            Question::CumulativeDepth(side, price) => (17, Number, side, price, 0),
            Question::CumulativeQuantity(side, n) => (18, Number, side, 0, n as u64),
            Question::TickSize => (19, Number, Side::Bid, 0, 0),
            Question::Imbalance => (20, Ratio, Side::Bid, 0, 0),
            Question::DepthRatio(n) => (21, Ratio, Side::Bid, 0, n as u64),
            Question::BidAskRatio => (22, Ratio, Side::Bid, 0, 0),
            Question::AskBidRatio => (23, Ratio, Side::Bid, 0, 0),
            Question::BidDepthSkew(n) => (24, Ratio, Side::Bid, 0, n as u64),
            Question::VwapForQty(side, target) => (25, Ratio, side, target, 0),
            Question::PriceImpact(side, target) => (26, Ratio, side, target, 0),
            Question::PriceAtVolume(side, target) => (27, Number, side, 0, target),
        };
        Asked { number, kind, side: side as u64, small, large }
    }
}

/// A listing as the archive takes it.
pub(crate) struct Listed {
    pub number: u64,
    pub side: u64,
    pub from: u64,
    pub to: u32,
}

impl Listing {
    pub(crate) fn listed(self) -> Listed {
        let (number, side, from, to) = match self {
            Listing::Top(side, n) => (0, side, n as u64, 0),
            Listing::Snapshot(n) => (1, Side::Bid, n as u64, 0),
            Listing::Between(side, lo, hi) => (2, side, u64::from(lo), hi),
        };
        Listed { number, side: side as u64, from, to }
    }
}
