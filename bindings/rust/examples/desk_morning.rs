// A dealer's morning: takes the feed, asks for a quote and for the price of buying, and hedges a customer's order.
use std::error::Error;
use std::fmt::Write;
use wermazul::feed::line_end;
use wermazul::orderbook::Quote;
use wermazul::position::{Fill, PositionLedger};
use wermazul::receiver::Receiver;
use wermazul::types::{Side, Symbol};

const GOLD: Symbol = 0;

/// A snapshot; a delta; a delta beyond the next, since one was lost; the snapshot that the sender sends after that; a damaged line.
const FEED: &str = "\
02000000000000000401010000006400000005000000650000000921
0101000000006500000004000000000000000590
010100000000670000000600000000000000078A
0200000000000000070102000000640000000500000065000000040000006700000006B5
01000000000064
";

/// What is printed.
const SAID: &str = "\
line 1: taken
line 2: taken
line 3: refusal 15: the delta is beyond the next
line 4: taken
line 5: refusal 12: the line is damaged
quote: 5 lots bid at 100, 4 lots asked at 101
buying 7 lots costs 713 in all, 101.86 a lot
hedge: 4 lots at 101
hedge: 3 lots at 103
flat again, realized 8, cash 10008
";

/// Hands the feed to the receiver, line by line.
fn hear(receiver: &mut Receiver, said: &mut String) -> Result<(), Box<dyn Error>> {
    let (mut rest, mut number) = (FEED.as_bytes(), 0);
    while !rest.is_empty() {
        let (line, after) = rest.split_at(line_end(rest));
        (rest, number) = (after, number + 1);
        match receiver.take_line(line) {
            Ok(()) => writeln!(said, "line {number}: taken")?,
            Err(refusal) => writeln!(said, "line {number}: {refusal}")?,
        }
    }
    Ok(())
}

/// Buys back what the desk owes, best level first.
fn hedge(ledger: &mut PositionLedger, receiver: &Receiver, said: &mut String) -> Result<(), Box<dyn Error>> {
    let mut owed = 7;
    for level in receiver.top_asks(2)? {
        let lots = level.quantity.min(owed);
        ledger.apply_fill(Fill::new(GOLD, Side::Bid, lots, level.price))?;
        writeln!(said, "hedge: {lots} lots at {}", level.price)?;
        owed -= lots;
    }
    Ok(())
}

fn main() -> Result<(), Box<dyn Error>> {
    let (mut receiver, mut said) = (Receiver::new(), String::new());
    hear(&mut receiver, &mut said)?;

    // The receiver is live, so it answers; a waiting one would refuse each of these with 16.
    let Quote { bid, ask } = receiver.best_quote()?;
    writeln!(said, "quote: {} lots bid at {}, {} lots asked at {}", bid.quantity, bid.price, ask.quantity, ask.price)?;
    let cost = receiver.vwap_for_qty(Side::Ask, 7)?;
    writeln!(said, "buying 7 lots costs {} in all, {cost:.2} a lot", cost.numerator)?;

    // A customer has bought 7 lots at 103, so that the desk owes them.
    let mut ledger = PositionLedger::new(10_000)?;
    ledger.apply_fill(Fill::new(GOLD, Side::Ask, 7, 103))?;
    hedge(&mut ledger, &receiver, &mut said)?;
    assert!(ledger.all_flat());
    let realized = ledger.realized_pnl(GOLD).ok_or("no such symbol")?;
    writeln!(said, "flat again, realized {realized}, cash {}", ledger.cash())?;

    print!("{said}");
    assert_eq!(said, SAID);
    Ok(())
}
