//! Levels written into lent buffers, and the lists that are made of them.
mod common;
use common::{book_k, full_book, level};
use wermazul::{Error, Listing, Side};

#[test]
fn lists_of_book_k() {
    let k = book_k();
    let bids = vec![level(100, 5), level(99, 0)];
    let asks = vec![level(101, 4), level(103, 6)];
    assert_eq!((k.top_bids(2), k.bid_depth(2), k.top_n_bid_levels(2)), (Ok(bids.clone()), Ok(bids.clone()), Ok(bids.clone())));
    assert_eq!((k.top_asks(9), k.ask_depth(9), k.top_n_ask_levels(9)), (Ok(asks.clone()), Ok(asks.clone()), Ok(asks.clone())));
    assert_eq!(k.top_bids(0), Ok(vec![]));
    assert_eq!(k.snapshot(2), Ok((bids, asks)));
    assert_eq!(k.snapshot(1), Ok((vec![level(100, 5)], vec![level(101, 4)])));
    assert_eq!(k.price_levels_between(Side::Bid, 98, 99), Ok(vec![level(98, 10), level(99, 0)]));
    assert_eq!(k.price_levels_between(Side::Ask, 102, 200), Ok(vec![level(103, 6)]));
    assert_eq!(k.price_levels_between(Side::Ask, 2, 1), Err(Error::OutOfLimits));
}

#[test]
fn a_full_book_fits() {
    for n in [0, 1, 16, 17, 32, 33, 127, 128, 129] {
        let (bids, asks) = full_book().snapshot(n).unwrap();
        assert_eq!((bids.len(), asks.len()), (n.min(128), n.min(128)));
        assert_eq!((Ok(bids), Ok(asks)), (full_book().top_bids(n), full_book().top_asks(n)));
    }
    let (bids, asks) = full_book().snapshot(usize::MAX).unwrap();
    assert_eq!((bids.len(), bids[0], bids[127]), (128, level(1000, 1), level(873, 128)));
    assert_eq!((asks.len(), asks[0], asks[127]), (128, level(1001, 201), level(1128, 328)));
}

#[test]
fn places_are_those_that_are_filled() {
    let k = book_k();
    let listings = [
        (Listing::Top(Side::Bid, 3), 6),
        (Listing::Top(Side::Ask, 1), 2),
        (Listing::Snapshot(2), 8),
        (Listing::Between(Side::Bid, 99, 100), 4),
        (Listing::Between(Side::Ask, 1, 100), 0),
    ];
    for (listing, places) in listings {
        assert_eq!(k.places(listing, places), Ok(places));
        let mut out = [7; 10];
        assert_eq!(k.list(listing, &mut out), Ok(places));
        assert!(out[places..].iter().all(|&x| x == 7), "the rest keeps its numbers");
        assert!(out[..places].iter().all(|&x| x != 7), "the front is written");
    }
}

#[test]
fn a_short_buffer_keeps_its_numbers() {
    let k = book_k();
    for (listing, room) in [(Listing::Top(Side::Bid, 3), 5), (Listing::Snapshot(9), 9), (Listing::Between(Side::Ask, 1, 200), 3)] {
        let mut out = vec![7; room];
        assert_eq!(k.list(listing, &mut out), Err(Error::NoRoom));
        assert_eq!(out, vec![7; room]);
        assert_eq!(k.places(listing, room), Err(Error::NoRoom));
        assert_eq!(k.places(listing, room + 1), Ok(room + 1));
    }
}

#[test]
fn an_empty_buffer_is_lent() {
    assert_eq!(book_k().list(Listing::Top(Side::Bid, 0), &mut []), Ok(0));
    assert_eq!(book_k().list(Listing::Top(Side::Bid, 1), &mut []), Err(Error::NoRoom));
}
