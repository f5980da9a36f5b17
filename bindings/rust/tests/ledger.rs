//! The ledger.
use wermazul::{Error, Fill, FillsError, Position, PositionLedger, Side, MAX_PRICE, SYMBOLS};

/// The limit of cash, commission and realized profit, on both sides of 0.
const MOST_MONEY: i64 = 4_000_000_000_000_000_000;

fn fill(symbol: u32, side: Side, quantity: u32, price: u32, commission: i64) -> Fill {
    Fill { symbol, side, quantity, price, commission }
}

/// A ledger with one fill a symbol.
fn holding(cash: i64, fills: &[Fill]) -> PositionLedger {
    let mut ledger = PositionLedger::new(cash).unwrap();
    for &fill in fills {
        ledger.apply_fill(fill).unwrap();
    }
    ledger
}

fn prices(given: &[(usize, u32)]) -> [u32; SYMBOLS] {
    let mut prices = [0; SYMBOLS];
    for &(symbol, price) in given {
        prices[symbol] = price;
    }
    prices
}

#[test]
fn new_ledgers() {
    let flat = PositionLedger { cash: -7, commission: 0, quantities: [0; SYMBOLS], averages: [0; SYMBOLS], realized: [0; SYMBOLS] };
    assert_eq!(PositionLedger::new(-7), Ok(flat));
    assert_eq!(PositionLedger::new(MOST_MONEY).map(|l| l.cash), Ok(MOST_MONEY));
    assert_eq!(PositionLedger::new(MOST_MONEY + 1), Err(Error::OutOfLimits));
    assert_eq!(PositionLedger::new(i64::MIN), Err(Error::OutOfLimits));
}

#[test]
fn four_fills() {
    let mut ledger = PositionLedger::new(10000).unwrap();
    let fills =
        [fill(31, Side::Bid, 3, 100, 2), fill(31, Side::Bid, 2, 101, 0), fill(31, Side::Ask, 4, 110, 1), fill(31, Side::Ask, 3, 90, 0)];
    for fill in fills {
        ledger.apply_fill(fill).unwrap();
    }
    assert_eq!((ledger.cash, ledger.commission), (10205, 3));
    assert_eq!((ledger.quantities[31], ledger.averages[31], ledger.realized[31]), (-2, 90, 27));
    assert!(ledger.positions().take(31).all(|(_, held)| held == Position::default()));
}

/// A fill goes to its own symbol's place of each row, and no other place moves.
#[test]
fn each_symbol_has_its_place() {
    let mut ledger = PositionLedger::new(1_000_000).unwrap();
    let mut expected = ledger.clone();
    for symbol in 0..SYMBOLS {
        let (lots, price) = (1 + symbol as u32, 100 + symbol as u32);
        ledger.apply_fill(fill(symbol as u32, Side::Bid, lots, price, 7 * i64::from(lots))).unwrap();
        expected.quantities[symbol] = lots.into();
        expected.averages[symbol] = price;
        expected.realized[symbol] = -7 * i64::from(lots);
        expected.commission += 7 * i64::from(lots);
        expected.cash -= i64::from(lots * price) + 7 * i64::from(lots);
        assert_eq!(ledger, expected);
    }
}

#[test]
fn too_little_cash() {
    let mut ledger = PositionLedger::new(100).unwrap();
    let before = ledger.clone();
    assert_eq!(ledger.apply_fill(fill(0, Side::Bid, 1, 99, 2)), Err(Error::InsufficientFunds { need: 101, have: 100 }));
    assert_eq!(ledger, before);
    ledger.apply_fill(fill(0, Side::Bid, 1, 99, 1)).unwrap();
    assert_eq!(ledger.cash, 0);
    let mut owing = PositionLedger::new(-5).unwrap();
    assert_eq!(owing.apply_fill(fill(0, Side::Bid, 1, 2, -1)), Err(Error::InsufficientFunds { need: 1, have: -5 }));
}

#[test]
fn deposits() {
    let mut ledger = PositionLedger::new(3_500_000_000_000_000_000).unwrap();
    let before = ledger.clone();
    assert_eq!(ledger.deposit(1_000_000_000_000_000_000), Err(Error::PastLimit));
    assert_eq!(ledger.deposit(1_000_000_000_000_000_001), Err(Error::OutOfLimits));
    assert_eq!(ledger, before);
    ledger.deposit(-1_000_000_000_000_000_000).unwrap();
    assert_eq!(ledger, PositionLedger { cash: 2_500_000_000_000_000_000, ..before });
}

#[test]
fn fills_outside_the_limits() {
    let mut ledger = PositionLedger::new(1000).unwrap();
    let before = ledger.clone();
    let refused = [
        fill(32, Side::Ask, 1, 1, 0),
        fill(0, Side::Ask, 1_000_000_001, 1, 0),
        fill(0, Side::Ask, 1, 0, 0),
        fill(0, Side::Ask, 1, MAX_PRICE + 1, 0),
        fill(0, Side::Ask, 1, 1, 1_000_000_000_000_001),
    ];
    for fill in refused {
        assert_eq!(ledger.apply_fill(fill), Err(Error::OutOfLimits));
        assert_eq!(ledger, before);
    }
}

#[test]
fn worths() {
    // Long 3 of symbol 2 at 100, short 2 of symbol 30 at 50: cash 1000 - 300 + 100.
    let ledger = holding(1000, &[fill(2, Side::Bid, 3, 100, 0), fill(30, Side::Ask, 2, 50, 0)]);
    let both = prices(&[(2, 90), (30, 70)]);
    assert_eq!(ledger.checked_unrealized_pnl(2, 90), Ok(-30));
    assert_eq!(ledger.checked_unrealized_pnl(30, 45), Ok(10));
    assert_eq!(ledger.checked_unrealized_pnl(32, 45), Err(Error::OutOfLimits));
    assert_eq!(ledger.checked_unrealized_pnl(30, 0), Err(Error::OutOfLimits));
    assert_eq!(ledger.unrealized_pnl_total(&both), Ok(-70));
    assert_eq!(ledger.net_liquidation_value(&both), Ok(930));
    assert_eq!(ledger.net_market_exposure(&both), Ok(130));
    assert_eq!(ledger.net_market_exposure(&prices(&[(30, 70)])), Ok(-140));
    assert_eq!(ledger.net_market_exposure(&prices(&[])), Err(Error::NoValue));
    assert_eq!(ledger.unrealized_pnl_total(&prices(&[(2, 90)])), Err(Error::Unpriced { symbol: 30 }));
    assert_eq!(ledger.delta_neutral_check(&prices(&[])), Err(Error::Unpriced { symbol: 2 }));
}

#[test]
fn neutrality() {
    let pair = |long, short| holding(1000, &[fill(0, Side::Bid, long, 1, 0), fill(1, Side::Ask, short, 1, 0)]);
    let at_1 = prices(&[(0, 1), (1, 1)]);
    assert_eq!(pair(51, 50).delta_neutral_check(&at_1), Ok(true));
    assert_eq!(pair(101, 99).delta_neutral_check(&at_1), Ok(false));
    assert_eq!(pair(0, 0).delta_neutral_check(&at_1), Ok(true));
}

#[test]
fn prices_of_another_length() {
    let ledger = PositionLedger::new(0).unwrap();
    for length in [0, 31, 33] {
        let prices = vec![1; length];
        assert_eq!(ledger.unrealized_pnl_total(&prices), Err(Error::OutOfLimits));
        assert_eq!(ledger.net_liquidation_value(&prices), Err(Error::OutOfLimits));
        assert_eq!(ledger.net_market_exposure(&prices), Err(Error::OutOfLimits));
        assert_eq!(ledger.delta_neutral_check(&prices), Err(Error::OutOfLimits));
    }
    assert_eq!(ledger.unrealized_pnl_total(&[1; 32]), Ok(0));
}

/// Long 3 of symbol 2 at 100 and short 2 of symbol 30 at 50, with a commission of 4 and of -1.
fn pair() -> PositionLedger {
    holding(1000, &[fill(2, Side::Bid, 3, 100, 4), fill(30, Side::Ask, 2, 50, -1)])
}

/// A refused change leaves cash, commission and all three rows of a ledger with open positions.
#[test]
fn refused_changes_leave_every_row() {
    let fills = [
        (fill(2, Side::Bid, 8, 100, -2), Error::InsufficientFunds { need: 798, have: 797 }),
        (fill(32, Side::Ask, 1, 99, 0), Error::OutOfLimits),
        (fill(2, Side::Ask, 1, 0, 0), Error::OutOfLimits),
        (fill(30, Side::Ask, 1_000_000_000, 1, 0), Error::PastLimit),
    ];
    for (fill, error) in fills {
        let mut ledger = pair();
        assert_eq!(ledger.apply_fill(fill), Err(error));
        assert_eq!(ledger, pair());
    }
    let deposits = [
        (797, i64::MIN, Error::OutOfLimits),
        (MOST_MONEY, 1, Error::PastLimit),
        (-MOST_MONEY, -1_000_000_000_000_000_000, Error::PastLimit),
    ];
    for (cash, amount, error) in deposits {
        let mut ledger = PositionLedger { cash, ..pair() };
        assert_eq!(ledger.deposit(amount), Err(error));
        assert_eq!(ledger, PositionLedger { cash, ..pair() });
    }
}

#[test]
fn numbers_at_their_limits() {
    let to_limit: [fn(&mut PositionLedger); 9] = [
        |l| l.cash = MOST_MONEY,
        |l| l.cash = -MOST_MONEY,
        |l| l.commission = MOST_MONEY,
        |l| l.commission = -MOST_MONEY,
        |l| l.quantities[2] = 1_000_000_000,
        |l| l.quantities[2] = -1_000_000_000,
        |l| l.averages[30] = MAX_PRICE,
        |l| l.realized[0] = MOST_MONEY,
        |l| l.realized[31] = -MOST_MONEY,
    ];
    for to_limit in to_limit {
        let mut ledger = pair();
        to_limit(&mut ledger);
        assert!(ledger.is_ledger());
    }
}

#[test]
fn malformed_records_are_refused_everywhere() {
    let spoil: [fn(&mut PositionLedger); 13] = [
        |l| l.cash = MOST_MONEY + 1,
        |l| l.cash = i64::MIN,
        |l| l.commission = -MOST_MONEY - 1,
        |l| l.commission = i64::MIN,
        |l| l.quantities[2] = 1_000_000_001,
        |l| l.quantities[30] = -1_000_000_001,
        |l| l.quantities[0] = 1,
        |l| l.quantities[2] = 0,
        |l| l.averages[30] = MAX_PRICE + 1,
        |l| l.averages[2] = 0,
        |l| l.averages[31] = 1,
        |l| l.realized[0] = MOST_MONEY + 1,
        |l| l.realized[31] = -MOST_MONEY - 1,
    ];
    for spoil in spoil {
        let mut ledger = pair();
        assert!(ledger.is_ledger());
        spoil(&mut ledger);
        refused_everywhere(ledger);
    }
}

fn refused_everywhere(mut ledger: PositionLedger) {
    let record = ledger.clone();
    assert!(!ledger.is_ledger());
    assert_eq!(ledger.apply_fill(fill(2, Side::Ask, 1, 1, 0)), Err(Error::NotARecord));
    assert_eq!(ledger.apply_fills(&[fill(2, Side::Ask, 1, 1, 0)]), Err(FillsError { taken: 0, error: Error::NotARecord }));
    assert_eq!(ledger.deposit(1), Err(Error::NotARecord));
    assert_eq!(ledger.checked_unrealized_pnl(2, 1), Err(Error::NotARecord));
    assert_eq!(ledger.unrealized_pnl_total(&[1; 32]), Err(Error::NotARecord));
    assert_eq!(ledger.net_liquidation_value(&[1; 32]), Err(Error::NotARecord));
    assert_eq!(ledger.net_market_exposure(&[1; 32]), Err(Error::NotARecord));
    assert_eq!(ledger.delta_neutral_check(&[1; 32]), Err(Error::NotARecord));
    assert_eq!(ledger, record);
}
