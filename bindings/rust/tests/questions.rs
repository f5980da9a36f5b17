//! Every question to book K, by its name and its second name, with refusals beside the answers.
mod common;
use common::{book_k, full_book, level};
use wermazul::{Answer, Error, OrderBook, Question, Quote, Quotient, Side, MAX_QUANTITY};

/// Both numbers of a quotient, which are equal only as they stand.
fn exact(answer: Result<Quotient, Error>) -> Result<(i64, u64), Error> {
    answer.map(|it| (it.numerator, it.denominator))
}

#[test]
fn best_levels() {
    let k = book_k();
    assert_eq!(k.best_bid(), Ok(level(100, 5)));
    assert_eq!(k.best_ask(), Ok(level(101, 4)));
    assert_eq!(k.best_bid_price(), Ok(100));
    assert_eq!(k.best_ask_price(), Ok(101));
    assert_eq!(k.best_bid_qty(), Ok(5));
    assert_eq!(k.best_ask_qty(), Ok(4));
    assert_eq!(k.best_quote(), Ok(Quote { bid: level(100, 5), ask: level(101, 4) }));
    assert_eq!(k.spread(), Ok(1));
    assert_eq!(exact(k.mid_price()), Ok((201, 2)));
    assert_eq!(exact(k.spread_pct()), Ok((200, 201)));
    assert_eq!(exact(k.spread_bps()), Ok((20000, 201)));
    assert_eq!(exact(k.weighted_mid()), Ok((905, 9)));
    assert_eq!(exact(k.weighted_mid_price()), Ok((905, 9)));
}

#[test]
fn counts_and_volumes() {
    let k = OrderBook { sequence: 77, ..book_k() };
    assert_eq!(k.depth_at(Side::Bid, 98), Ok(10));
    assert_eq!(k.depth_at(Side::Ask, 98), Err(Error::NoValue));
    assert_eq!(k.has_price(Side::Bid, 99), Ok(true));
    assert_eq!(k.has_price(Side::Ask, 99), Ok(false));
    assert_eq!((k.level_count(Side::Bid), k.level_count(Side::Ask)), (Ok(3), Ok(2)));
    assert_eq!((k.bid_count(), k.ask_count(), k.total_levels()), (Ok(3), Ok(2), Ok(5)));
    assert_eq!(k.sequence(), Ok(77));
    assert_eq!((k.is_empty(), OrderBook::new().is_empty()), (Ok(false), Ok(true)));
    assert_eq!(k.is_crossed(), Ok(false));
    assert_eq!((k.total_bid_volume(), k.total_ask_volume()), (Ok(15), Ok(10)));
    assert_eq!((k.total_bid_depth(), k.total_ask_depth()), (Ok(15), Ok(10)));
    assert_eq!(k.cumulative_depth(Side::Bid, 99), Ok(5));
    assert_eq!(k.cumulative_depth(Side::Ask, 103), Ok(10));
    assert_eq!((k.cumulative_bid_qty(2), k.cumulative_ask_qty(1)), (Ok(5), Ok(4)));
    assert_eq!(k.tick_size(), Ok(1));
}

#[test]
fn ratios() {
    let k = book_k();
    assert_eq!(exact(k.imbalance()), Ok((5, 25)));
    assert_eq!(exact(k.depth_imbalance()), Ok((5, 25)));
    assert_eq!(exact(k.depth_ratio(2)), Ok((5, 10)));
    assert_eq!(exact(k.bid_ask_ratio()), Ok((15, 10)));
    assert_eq!(exact(k.ask_bid_ratio()), Ok((10, 15)));
    assert_eq!(exact(k.bid_depth_skew(1)), Ok((5, 9)));
}

#[test]
fn negative_numerator() {
    // Bids 1 to 128, asks 201 to 328: 8256 and 33856.
    assert_eq!(exact(full_book().imbalance()), Ok((-25600, 42112)));
}

#[test]
fn prices_of_trading() {
    let k = book_k();
    assert_eq!(exact(k.vwap_for_qty(Side::Bid, 7)), Ok((696, 7)));
    assert_eq!(exact(k.price_impact(Side::Ask, 7)), Ok((696, 7)));
    assert_eq!(exact(k.vwap_for_qty(Side::Ask, 7)), Ok((713, 7)));
    assert_eq!(exact(k.price_impact(Side::Bid, 7)), Ok((713, 7)));
    assert_eq!(exact(k.vwap_for_qty(Side::Bid, 15)), Ok((1480, 15)));
    assert_eq!(k.vwap_for_qty(Side::Bid, 16), Err(Error::InsufficientLiquidity { target: 16 }));
    assert_eq!(exact(k.vwap_for_qty(Side::Bid, 0)), Ok((0, 1)));
    assert_eq!(k.price_impact(Side::Ask, 16), Err(Error::NoValue));
    assert_eq!(k.price_at_volume(Side::Bid, 5), Ok(100));
    assert_eq!(k.price_at_volume(Side::Bid, 6), Ok(98));
    assert_eq!(k.price_at_volume(Side::Bid, 99), Ok(98));
}

#[test]
fn by_name_as_by_value() {
    for book in [OrderBook::new(), book_k(), full_book()] {
        for (side, volume) in [(Side::Bid, book.total_bid_volume()), (Side::Ask, book.total_ask_volume())] {
            assert_eq!(volume.map(Answer::Number), book.ask(Question::TotalVolume(side)));
            for target in [0, 1, 7, 15, 16, 8256, 8257, 33856, 33857, MAX_QUANTITY, MAX_QUANTITY + 1] {
                let (vwap, impact) = (book.vwap_for_qty(side, target), book.price_impact(side, target));
                assert_eq!(vwap.map(Answer::Ratio), book.ask(Question::VwapForQty(side, target)));
                assert_eq!(impact.map(Answer::Ratio), book.ask(Question::PriceImpact(side, target)));
            }
        }
    }
}

#[test]
fn limits_of_questions() {
    let k = book_k();
    assert_eq!(k.depth_at(Side::Bid, 0), Err(Error::OutOfLimits));
    assert_eq!(k.vwap_for_qty(Side::Bid, MAX_QUANTITY), Err(Error::InsufficientLiquidity { target: MAX_QUANTITY }));
    assert_eq!(k.vwap_for_qty(Side::Bid, MAX_QUANTITY + 1), Err(Error::OutOfLimits));
    // More than 32 bits: the target goes over whole.
    assert_eq!(k.price_at_volume(Side::Bid, 128_000_000_000), Ok(98));
    assert_eq!(k.price_at_volume(Side::Bid, 128_000_000_001), Err(Error::OutOfLimits));
}

#[test]
fn an_empty_book_has_no_values() {
    let empty = OrderBook::new();
    assert_eq!(empty.best_bid(), Err(Error::NoValue));
    assert_eq!(empty.best_quote(), Err(Error::NoValue));
    assert_eq!(empty.mid_price(), Err(Error::NoValue));
    assert_eq!(empty.tick_size(), Err(Error::NoValue));
    assert_eq!(empty.imbalance(), Err(Error::NoValue));
}

#[test]
fn questions_as_values() {
    let k = book_k();
    assert_eq!(k.ask(Question::Best(Side::Ask)), Ok(Answer::Level(level(101, 4))));
    assert_eq!(k.ask(Question::TotalVolume(Side::Bid)), Ok(Answer::Number(15)));
    assert_eq!(k.ask(Question::IsEmpty), Ok(Answer::Flag(false)));
    assert_eq!(k.ask(Question::BestQuote), Ok(Answer::Quote(Quote { bid: level(100, 5), ask: level(101, 4) })));
    assert_eq!(k.ask(Question::Imbalance), Ok(Answer::Ratio(Quotient { numerator: 5, denominator: 25 })));
}
