// A ledger's day: its fills in one call, one of which is refused, the rest after a deposit, and what the positions are worth at prices.
use std::error::Error;
use std::fmt::Write;
use wermazul::position::{Fill, PositionLedger};
use wermazul::types::{Side, Symbol, SYMBOLS};

const GOLD: Symbol = 0;
const SILVER: Symbol = 1;

/// What is printed.
const SAID: &str = "\
2 taken, then refusal 8: the fill needs 6030, cash is 4247
cash 4247, commission paid 3
cash 217, commission paid 3
symbol 0: Long 6 at 2005
symbol 1: Short 10 at 25
unrealized 100, worth 12097, exposed 11880
refusal 13: the open position of symbol 1 has no price
";

/// The day's fills, one of which is refused, and the rest after a deposit.
fn trade(ledger: &mut PositionLedger, said: &mut String) -> Result<(), Box<dyn Error>> {
    let fills = [
        Fill::with_commission(GOLD, Side::Bid, 3, 2000, 2),
        Fill::with_commission(SILVER, Side::Ask, 10, 25, 1),
        Fill::new(GOLD, Side::Bid, 3, 2010),
    ];

    // There is too little cash for the third: it is refused and changes nothing, and those before it are booked.
    let rest = match ledger.apply_fills(&fills) {
        Ok(_) => return Err("a fill that cannot be paid for was taken".into()),
        Err(refused) => {
            writeln!(said, "{refused}")?;
            &fills[refused.taken..]
        }
    };
    writeln!(said, "cash {}, commission paid {}", ledger.cash(), ledger.total_commission_paid())?;

    // With a deposit it is taken, and moves the average.
    ledger.deposit(2000)?;
    ledger.apply_fills(rest)?;
    writeln!(said, "cash {}, commission paid {}", ledger.cash(), ledger.total_commission_paid())?;
    Ok(())
}

/// What is held, and what that is worth. The prices are those of all symbols, 0 for none.
fn value(ledger: &PositionLedger, said: &mut String) -> Result<(), Box<dyn Error>> {
    for (symbol, held) in ledger.open_positions() {
        writeln!(said, "symbol {symbol}: {:?} {} at {}", held.direction(), held.quantity_abs(), held.average)?;
    }
    let mut prices = [0; SYMBOLS];
    prices[GOLD as usize] = 2020;
    prices[SILVER as usize] = 24;
    let (unrealized, worth) = (ledger.unrealized_pnl_total(&prices)?, ledger.net_liquidation_value(&prices)?);
    writeln!(said, "unrealized {unrealized}, worth {worth}, exposed {}", ledger.net_market_exposure(&prices)?)?;

    // Without the price of silver there is no answer, not a wrong one.
    prices[SILVER as usize] = 0;
    match ledger.net_liquidation_value(&prices) {
        Ok(worth) => return Err(format!("{worth} without a price of silver").into()),
        Err(refusal) => writeln!(said, "{refusal}")?,
    }
    Ok(())
}

fn main() -> Result<(), Box<dyn Error>> {
    let (mut ledger, mut said) = (PositionLedger::new(10_000)?, String::new());
    trade(&mut ledger, &mut said)?;
    value(&ledger, &mut said)?;
    print!("{said}");
    assert_eq!(said, SAID);
    Ok(())
}
