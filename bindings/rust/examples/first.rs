use wermazul::{BookDelta, DeltaAction, Error, OrderBook, Quotient, Side};

fn main() -> Result<(), Error> {
    let mut book = OrderBook::new();
    let set = DeltaAction::Set;
    book.apply_delta(BookDelta { side: Side::Ask, price: 101, quantity: 4, action: set, sequence: 1 })?;
    book.apply_delta(BookDelta { side: Side::Ask, price: 103, quantity: 6, action: set, sequence: 2 })?;

    // What 7 lots cost: 4 at 101 and 3 at 103, as an exact quotient.
    assert_eq!(book.vwap_for_qty(Side::Ask, 7)?, Quotient { numerator: 713, denominator: 7 });

    // A bid that reaches the best ask is refused, and the book stays as it was.
    let crossing = BookDelta { side: Side::Bid, price: 101, quantity: 1, action: set, sequence: 3 };
    assert_eq!(book.apply_delta(crossing), Err(Error::InvertedSpread { best_bid: 101, best_ask: 101 }));
    assert_eq!(book.sequence, 2);
    Ok(())
}
