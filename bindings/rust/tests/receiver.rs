//! Questions to a receiver: a live one answers as its book does, a waiting one refuses.
mod common;
use common::{book_k, level};
use wermazul::{Answer, Error, Listing, OrderBook, Question, Receiver, Side};

/// Each question once, its numbers within their limits.
fn questions() -> Vec<Question> {
    let mut all = vec![
        Question::BestQuote,
        Question::Spread,
        Question::MidPrice,
        Question::SpreadPct,
        Question::SpreadBps,
        Question::WeightedMid,
        Question::TotalLevels,
        Question::Sequence,
        Question::IsEmpty,
        Question::IsCrossed,
        Question::TickSize,
        Question::Imbalance,
        Question::DepthRatio(2),
        Question::BidAskRatio,
        Question::AskBidRatio,
        Question::BidDepthSkew(1),
    ];
    for side in [Side::Bid, Side::Ask] {
        all.extend([
            Question::Best(side),
            Question::BestPrice(side),
            Question::BestQuantity(side),
            Question::DepthAt(side, 101),
            Question::HasPrice(side, 98),
            Question::LevelCount(side),
            Question::TotalVolume(side),
            Question::CumulativeDepth(side, 101),
            Question::CumulativeQuantity(side, 1),
            Question::VwapForQty(side, 12),
            Question::PriceImpact(side, 7),
            Question::PriceAtVolume(side, 6),
        ]);
    }
    all
}

const LISTINGS: [Listing; 3] = [Listing::Top(Side::Bid, 2), Listing::Snapshot(2), Listing::Between(Side::Ask, 103, 103)];

#[test]
fn a_live_one_answers_as_its_book() {
    let live = Receiver { state: 1, book: book_k() };
    for question in questions() {
        assert_eq!(live.ask(question), book_k().ask(question), "{question:?}");
    }
    for listing in LISTINGS {
        let (mut out, mut expected) = ([7; 9], [7; 9]);
        assert_eq!(live.list(listing, &mut out), book_k().list(listing, &mut expected), "{listing:?}");
        assert_eq!(out, expected);
        assert_eq!(live.places(listing, 9), book_k().places(listing, 9));
    }
}

#[test]
fn a_live_one_has_the_names() {
    let live = Receiver { state: 1, book: book_k() };
    assert_eq!(live.best_bid(), Ok(level(100, 5)));
    assert_eq!(live.ask(Question::TotalVolume(Side::Ask)), Ok(Answer::Number(10)));
    assert_eq!(live.top_asks(2), Ok(vec![level(101, 4), level(103, 6)]));
    assert_eq!(live.snapshot(1), Ok((vec![level(100, 5)], vec![level(101, 4)])));
    assert_eq!(live.price_levels_between(Side::Bid, 98, 99), Ok(vec![level(98, 10), level(99, 0)]));
}

#[test]
fn a_waiting_one_refuses() {
    let waiting = Receiver { state: 0, book: book_k() };
    for question in questions() {
        assert_eq!(waiting.ask(question), Err(Error::Waiting), "{question:?}");
    }
    for listing in LISTINGS {
        let mut out = [7; 9];
        assert_eq!(waiting.list(listing, &mut out), Err(Error::Waiting), "{listing:?}");
        assert_eq!(waiting.list(listing, &mut []), Err(Error::Waiting), "16 before 11");
        assert_eq!(waiting.places(listing, 9), Err(Error::Waiting));
        assert_eq!(out, [7; 9]);
    }
}

#[test]
fn limits_come_before_waiting() {
    let waiting = Receiver::new();
    assert_eq!(waiting.depth_at(Side::Bid, 0), Err(Error::OutOfLimits));
    assert_eq!(waiting.price_levels_between(Side::Bid, 2, 1), Err(Error::OutOfLimits));
}

#[test]
fn a_short_buffer_keeps_its_numbers() {
    let live = Receiver { state: 1, book: book_k() };
    let mut out = [7; 3];
    assert_eq!(live.list(Listing::Top(Side::Bid, 2), &mut out), Err(Error::NoRoom));
    assert_eq!(out, [7; 3]);
    assert_eq!(live.places(Listing::Top(Side::Bid, 2), 3), Err(Error::NoRoom));
}

#[test]
fn malformed_receivers() {
    let no_book = || OrderBook { asks: book_k().bids, ..book_k() };
    for (state, book) in [(2, book_k()), (1, no_book()), (0, no_book())] {
        let receiver = Receiver { state, book };
        assert_eq!(receiver.best_bid(), Err(Error::NotARecord));
        assert_eq!(receiver.depth_at(Side::Bid, 0), Err(Error::NotARecord));
        assert_eq!(receiver.top_bids(1), Err(Error::NotARecord));
        assert_eq!(receiver.places(Listing::Snapshot(1), 0), Err(Error::NotARecord));
    }
}
