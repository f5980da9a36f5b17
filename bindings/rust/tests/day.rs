//! A day's fills in one call, held to a loop of single ones.
use std::error::Error as _;
use wermazul::{Error, Fill, FillsError, PositionLedger, Side, MAX_PRICE, MAX_QUANTITY, SYMBOLS};

/// The limit of cash, commission and realized profit, on both sides of 0.
const MOST_MONEY: i64 = 4_000_000_000_000_000_000;

/// The limit of a fill's commission, on both sides of 0.
const MOST_CHARGED: i64 = 1_000_000_000_000_000;

/// What a list of fills comes to.
type Day = (PositionLedger, Result<usize, FillsError>);

fn refused(taken: usize, error: Error) -> Result<usize, FillsError> {
    Err(FillsError { taken, error })
}

fn in_one_call(mut ledger: PositionLedger, fills: &[Fill]) -> Day {
    let answer = ledger.apply_fills(fills);
    (ledger, answer)
}

fn one_by_one(mut ledger: PositionLedger, fills: &[Fill]) -> Day {
    if !ledger.is_ledger() {
        return (ledger, refused(0, Error::NotARecord));
    }
    for (taken, &fill) in fills.iter().enumerate() {
        if let Err(error) = ledger.apply_fill(fill) {
            return (ledger, refused(taken, error));
        }
    }
    (ledger, Ok(fills.len()))
}

/// The day in one call, which is what the loop comes to.
fn held(ledger: PositionLedger, fills: &[Fill]) -> Day {
    let day = in_one_call(ledger.clone(), fills);
    assert_eq!(day, one_by_one(ledger, fills));
    day
}

fn opened(cash: i64) -> PositionLedger {
    PositionLedger::new(cash).unwrap()
}

/// Bought 3 at 100 and 2 at 101; sold 4 at 110 and 3 at 90.
fn worked() -> [Fill; 4] {
    [
        Fill::with_commission(0, Side::Bid, 3, 100, 2),
        Fill::new(0, Side::Bid, 2, 101),
        Fill::with_commission(0, Side::Ask, 4, 110, 1),
        Fill::new(0, Side::Ask, 3, 90),
    ]
}

#[test]
fn the_worked_day() {
    let mut expected = PositionLedger { commission: 3, ..opened(10205) };
    (expected.quantities[0], expected.averages[0], expected.realized[0]) = (-2, 90, 27);
    assert_eq!(held(opened(10000), &worked()), (expected, Ok(4)));
}

/// The second needs 101 and there is 98; the sale behind it, which would have paid for it, is not booked.
#[test]
fn a_refusal_in_the_middle() {
    let fills = [Fill::new(0, Side::Bid, 2, 1), Fill::new(1, Side::Bid, 1, 101), Fill::new(0, Side::Ask, 2, 5)];
    let mut expected = opened(98);
    (expected.quantities[0], expected.averages[0]) = (2, 1);
    let day = held(opened(100), &fills);
    assert_eq!(day, (expected, refused(1, Error::InsufficientFunds { need: 101, have: 98 })));
    assert_eq!(held(day.0, &fills[2..]).1, Ok(1));
    assert_eq!(held(opened(100), &fills[..2]).1, refused(1, Error::InsufficientFunds { need: 101, have: 98 }));
    assert_eq!(held(opened(100), &fills[1..]), (opened(100), refused(0, Error::InsufficientFunds { need: 101, have: 100 })));
}

#[test]
fn other_refusals() {
    let owing = [Fill::with_commission(4, Side::Ask, 1, 1, 6), Fill::with_commission(4, Side::Bid, 1, 99, -7)];
    assert_eq!(held(opened(0), &owing).1, refused(1, Error::InsufficientFunds { need: 92, have: -5 }));
    let sold_out = [Fill::new(5, Side::Ask, MAX_QUANTITY, 1), Fill::new(5, Side::Ask, 1, 1), Fill::new(5, Side::Bid, 1, 1)];
    assert_eq!(held(opened(0), &sold_out).1, refused(1, Error::PastLimit));
}

#[test]
fn no_fills() {
    for cash in [-7, 0, MOST_MONEY] {
        assert_eq!(held(opened(cash), &[]), (opened(cash), Ok(0)));
    }
}

/// A fill goes to its own symbol's place of each row, from a list as from a call of its own.
#[test]
fn each_symbol_has_its_place() {
    let fill = |symbol: u32| Fill::with_commission(symbol, Side::Bid, 1 + symbol, 100 + symbol, 7 - i64::from(symbol));
    let fills: Vec<Fill> = (0..SYMBOLS as u32).map(fill).collect();
    let mut expected = opened(1_000_000);
    for (place, fill) in fills.iter().enumerate() {
        (expected.quantities[place], expected.averages[place]) = (fill.quantity.into(), fill.price);
        expected.realized[place] = -fill.commission;
        expected.commission += fill.commission;
        expected.cash -= i64::from(fill.quantity * fill.price) + fill.commission;
    }
    assert_eq!(held(opened(1_000_000), &fills), (expected, Ok(SYMBOLS)));
}

#[test]
fn numbers_at_their_limits() {
    let sale = Fill::new(0, Side::Ask, 1, 1);
    let taken = [
        Fill { symbol: 31, ..sale },
        Fill { quantity: 0, ..sale },
        Fill { quantity: MAX_QUANTITY, ..sale },
        Fill { price: MAX_PRICE, ..sale },
        Fill { commission: MOST_CHARGED, ..sale },
        Fill { commission: -MOST_CHARGED, ..sale },
    ];
    for fill in taken {
        assert_eq!(held(opened(0), &[fill]).1, Ok(1));
    }
}

/// Each at each place of a day: those before it stand, and those behind it do not.
#[test]
fn numbers_outside_their_limits() {
    let sale = Fill::new(0, Side::Ask, 1, 1);
    let outside = [
        Fill { symbol: 32, ..sale },
        Fill { symbol: u32::MAX, ..sale },
        Fill { quantity: MAX_QUANTITY + 1, ..sale },
        Fill { quantity: u32::MAX, ..sale },
        Fill { price: 0, ..sale },
        Fill { price: MAX_PRICE + 1, ..sale },
        Fill { price: u32::MAX, ..sale },
        Fill { commission: MOST_CHARGED + 1, ..sale },
        Fill { commission: -MOST_CHARGED - 1, ..sale },
        Fill { commission: i64::MAX, ..sale },
        Fill { commission: i64::MIN, ..sale },
    ];
    for fill in outside {
        for place in 0..4 {
            let mut fills = worked();
            fills[place] = fill;
            let (before, taken) = held(opened(10000), &fills[..place]);
            assert_eq!(taken, Ok(place));
            assert_eq!(held(opened(10000), &fills), (before, refused(place, Error::OutOfLimits)));
        }
    }
}

/// Long 3 of symbol 2 at 100 and short 2 of symbol 30 at 50.
fn pair() -> PositionLedger {
    let fills = [Fill::with_commission(2, Side::Bid, 3, 100, 4), Fill::with_commission(30, Side::Ask, 2, 50, -1)];
    let (ledger, taken) = held(opened(1000), &fills);
    assert_eq!(taken, Ok(2));
    ledger
}

/// Refused with 1 at once: with no fills, with one that would be taken, and with one that would be refused.
fn no_ledger(record: PositionLedger) {
    assert!(!record.is_ledger());
    let fills = [Fill::new(0, Side::Ask, 1, 1), Fill::new(32, Side::Ask, 1, 0)];
    for fills in [&fills[..0], &fills[..1], &fills[1..], &fills[..]] {
        assert_eq!(held(record.clone(), fills), (record.clone(), refused(0, Error::NotARecord)));
    }
}

#[test]
fn records_that_are_no_ledger() {
    let spoil = |change: &dyn Fn(&mut PositionLedger)| {
        let mut record = pair();
        change(&mut record);
        no_ledger(record);
    };
    for money in [MOST_MONEY + 1, -MOST_MONEY - 1, i64::MAX, i64::MIN] {
        spoil(&|it| it.cash = money);
        spoil(&|it| it.commission = money);
        for place in 0..SYMBOLS {
            spoil(&|it| it.realized[place] = money);
            spoil(&|it| it.quantities[place] = money);
        }
    }
    for place in 0..SYMBOLS {
        let open = pair().quantities[place] != 0;
        spoil(&|it| it.quantities[place] = if open { 0 } else { -1 });
        spoil(&|it| it.averages[place] = if open { 0 } else { 1 });
        spoil(&|it| it.quantities[place] = i64::from(MAX_QUANTITY) + 1);
        spoil(&|it| it.quantities[place] = -i64::from(MAX_QUANTITY) - 1);
        spoil(&|it| it.averages[place] = MAX_PRICE + 1);
        spoil(&|it| it.averages[place] = u32::MAX);
    }
}

/// Random numbers from a seed (splitmix64), the same at every run.
struct Random(u64);

impl Random {
    fn below(&mut self, limit: u64) -> u64 {
        self.0 = self.0.wrapping_add(0x9E37_79B9_7F4A_7C15);
        let z = (self.0 ^ self.0 >> 30).wrapping_mul(0xBF58_476D_1CE4_E5B9);
        let z = (z ^ z >> 27).wrapping_mul(0x94D0_49BB_1331_11EB);
        (z ^ z >> 31) % limit
    }

    fn one_of<T: Copy>(&mut self, list: &[T]) -> T {
        list[self.below(list.len() as u64) as usize]
    }

    /// Mostly of three symbols, and one in forty with a number that is an end of some range.
    fn fill(&mut self) -> Fill {
        let symbol = if self.below(8) == 0 { self.below(32) } else { self.below(3) } as u32;
        let (side, quantity) = (self.one_of(&[Side::Bid, Side::Ask]), self.below(100) as u32);
        let (price, commission) = (1 + self.below(500) as u32, self.below(50) as i64 - 10);
        let fill = Fill { symbol, side, quantity, price, commission };
        match self.below(160) {
            0 => Fill { symbol: self.one_of(&[31, 32, u32::MAX]), ..fill },
            1 => Fill { quantity: self.one_of(&[0, MAX_QUANTITY, MAX_QUANTITY + 1]), ..fill },
            2 => Fill { price: self.one_of(&[0, MAX_PRICE, MAX_PRICE + 1]), ..fill },
            3 => Fill { commission: self.one_of(&[MOST_CHARGED, MOST_CHARGED + 1, -MOST_CHARGED, i64::MIN]), ..fill },
            _ => fill,
        }
    }

    fn spoil(&mut self, record: &mut PositionLedger) {
        let place = self.below(SYMBOLS as u64) as usize;
        let amount = self.one_of(&[0, 1, -1, MOST_MONEY, MOST_MONEY + 1, i64::MIN]);
        match self.below(5) {
            0 => record.quantities[place] = amount,
            1 => record.averages[place] = amount as u32,
            2 => record.realized[place] = amount,
            3 => record.cash = amount,
            _ => record.commission = amount,
        }
    }
}

/// A day in two calls, the second only if the first took all of its own.
fn in_two_calls(ledger: PositionLedger, fills: &[Fill], part: usize) -> Day {
    let (ledger, first) = in_one_call(ledger, &fills[..part]);
    if first.is_err() {
        return (ledger, first);
    }
    let (ledger, then) = in_one_call(ledger, &fills[part..]);
    let behind = |refused: FillsError| FillsError { taken: part + refused.taken, ..refused };
    (ledger, then.map(|taken| part + taken).map_err(behind))
}

/// Days of up to 40 fills, each on what the one before it left, at times with a number of the record replaced. Every answer that a fill can
/// have is seen, and all but 1 behind fills that were taken.
#[test]
fn random_days() {
    let mut random = Random(20_261_116);
    let mut ledger = opened(0);
    let (mut seen, mut behind) = ([0; 18], [0; 18]);
    for _ in 0..10_000 {
        if random.below(8) == 0 {
            ledger = opened(random.below(1_000_000) as i64);
        }
        if random.below(16) == 0 {
            random.spoil(&mut ledger);
        }
        let fills: Vec<Fill> = (0..random.below(41)).map(|_| random.fill()).collect();
        let day = held(ledger.clone(), &fills);
        let part = random.below(fills.len() as u64 + 1) as usize;
        assert_eq!(in_two_calls(ledger, &fills, part), day);
        let (number, taken) = day.1.map_or_else(|it| (it.error.number() as usize, it.taken), |taken| (0, taken));
        seen[number] += 1;
        behind[number] += u32::from(taken > 1);
        ledger = if number == 1 { opened(random.below(1_000_000) as i64) } else { day.0 };
    }
    for number in [0, 1, 2, 8, 9] {
        assert!(seen[number] > 20, "{number}: {seen:?}");
        assert!(number == 1 || behind[number] > 20, "{number}: {behind:?}");
    }
}

#[test]
fn a_long_day() {
    let mut random = Random(7);
    let side = |i: u64| if i % 2 == 0 { Side::Bid } else { Side::Ask };
    let fills: Vec<Fill> = (0..100_000).map(|i| Fill::new(random.below(32) as u32, side(i), 1, 1 + random.below(500) as u32)).collect();
    assert_eq!(held(opened(1_000_000_000), &fills).1, Ok(100_000));
}

#[test]
fn words() {
    let short = FillsError { taken: 1, error: Error::InsufficientFunds { need: 101, have: 98 } };
    assert_eq!(short.to_string(), "1 taken, then refusal 8: the fill needs 101, cash is 98");
    let no_record = FillsError { taken: 0, error: Error::NotARecord };
    assert_eq!(no_record.to_string(), "0 taken, then refusal 1: the record is no book, ledger or receiver");
    assert!(short.source().is_none());
}

/// `?` hands it on as any error, and the refusal is read off it.
#[test]
fn handed_on() {
    let book = |ledger: &mut PositionLedger| -> Result<(), Box<dyn std::error::Error>> {
        ledger.apply_fills(&worked())?;
        Ok(())
    };
    assert!(book(&mut opened(10000)).is_ok());
    let short = book(&mut opened(400)).unwrap_err();
    let expected = FillsError { taken: 1, error: Error::InsufficientFunds { need: 202, have: 98 } };
    assert_eq!(short.downcast_ref(), Some(&expected));
    assert_eq!(short.downcast_ref::<FillsError>().map(|it| it.error.number()), Some(8));
}
