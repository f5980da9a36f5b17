//! Fills, deposits and valuations: averages, turnovers, cash, limits, prices that are missing.
use super::Case;
use crate::forms::*;
use crate::original::money;
use crate::ours::{changes, told};
use crate::rules;
use original::position::PositionLedger;
use rust_decimal::Decimal;
use std::collections::BTreeSet;
use wermazul::PositionLedger as OurLedger;

pub const fn bought(quantity: u32, price: u32, commission: i64) -> Fill {
    Fill { symbol: 3, side: BID, quantity, price, commission }
}

pub const fn sold(quantity: u32, price: u32, commission: i64) -> Fill {
    Fill { symbol: 3, side: ASK, quantity, price, commission }
}

/// Both ledgers after the same fills, from the same cash.
fn after(cash: i64, fills: &[Fill]) -> (OurLedger, String, PositionLedger, String) {
    let mut ours = OurLedger::new(cash).expect("cash within its limit");
    let mut theirs = PositionLedger::new(Decimal::from(cash));
    let said: Vec<String> = fills.iter().map(|fill| changes::fill(&mut ours, fill).to_string()).collect();
    let their_said: Vec<String> = fills.iter().map(|fill| money::apply(&mut theirs, fill).to_string()).collect();
    (ours, said.join(", "), theirs, their_said.join(", "))
}

/// A Decimal in its shortest form; zero has no sign.
fn plain(value: Decimal) -> String {
    if value.is_zero() {
        return "0".to_string();
    }
    value.normalize().to_string()
}

/// The original's position; one that it does not have is told as flat.
pub fn held(theirs: &PositionLedger, symbol: u32) -> String {
    match theirs.position(&money::symbol_of(symbol)) {
        Some(it) => format!("{} at {} realized {}", plain(it.quantity), plain(it.avg_cost), plain(it.realized_pnl)),
        None => "0 at 0 realized 0".to_string(),
    }
}

pub fn our_held(ours: &OurLedger, symbol: u32) -> String {
    let it = rules::held(ours, symbol);
    format!("{} at {} realized {}", it.quantity, it.average, it.realized)
}

/// The answers of a history, and where it ends: cash, quantity, average, realized.
fn case(name: &'static str, cash: i64, fills: &[Fill], expected: (&'static str, &'static str)) -> Case {
    let (ours, said, theirs, their_said) = after(cash, fills);
    Case {
        name,
        ours: format!("{}: cash {}, {}", said, ours.cash, our_held(&ours, 3)),
        theirs: format!("{}: cash {}, {}", their_said, theirs.cash(), held(&theirs, 3)),
        expected,
    }
}

pub fn same(text: &'static str) -> (&'static str, &'static str) {
    (text, text)
}

fn averages() -> Vec<Case> {
    let longer = [bought(3, 100, 2), bought(2, 101, 0), sold(4, 110, 1), sold(3, 90, 0)];
    vec![
        case(
            "buy 3 at 100, then 2 at 101",
            10_000,
            &[bought(3, 100, 0), bought(2, 101, 0)],
            ("0, 0: cash 9498, 5 at 100 realized 0", "0, 0: cash 9498, 5 at 100.4 realized 0"),
        ),
        case(
            "buy 1 at 1, then 1 at 2",
            10_000,
            &[bought(1, 1, 0), bought(1, 2, 0)],
            ("0, 0: cash 9997, 2 at 1 realized 0", "0, 0: cash 9997, 2 at 1.5 realized 0"),
        ),
        case(
            "the longer worked example of cash, as a history",
            10_000,
            &longer,
            ("0, 0, 0, 0: cash 10205, -2 at 90 realized 27", "0, 0, 0, 0: cash 10205, -2 at 90 realized 25"),
        ),
    ]
}

fn turnovers() -> Vec<Case> {
    vec![
        case(
            "buy 1 at 1, then sell 2 at 2",
            1000,
            &[bought(1, 1, 0), sold(2, 2, 0)],
            ("0, 0: cash 1003, -1 at 2 realized 1", "0, 0: cash 1003, -1 at 1 realized 1"),
        ),
        case(
            "buy 1 at 1, sell 2 at 2, buy 1 at 2",
            1000,
            &[bought(1, 1, 0), sold(2, 2, 0), bought(1, 2, 0)],
            ("0, 0, 0: cash 1001, 0 at 0 realized 1", "0, 0, 0: cash 1001, 0 at 0 realized 0"),
        ),
        case(
            "buy 2 at 100, then sell 3 at 90",
            1000,
            &[bought(2, 100, 0), sold(3, 90, 0)],
            ("0, 0: cash 1070, -1 at 90 realized -20", "0, 0: cash 1070, -1 at 100 realized -20"),
        ),
        case(
            "buy 1 at 100, then sell 2 at 90 (as many left)",
            1000,
            &[bought(1, 100, 0), sold(2, 90, 0)],
            ("0, 0: cash 1080, -1 at 90 realized -10", "0, 0: cash 1080, -1 at 100 realized -10"),
        ),
        case(
            "buy 1 at 100, then sell 3 at 90 (more left)",
            1000,
            &[bought(1, 100, 0), sold(3, 90, 0)],
            same("0, 0: cash 1170, -2 at 90 realized -10"),
        ),
        case(
            "sell 2 at 100, then buy 3 at 110",
            1000,
            &[sold(2, 100, 0), bought(3, 110, 0)],
            ("0, 0: cash 870, 1 at 110 realized -20", "0, 0: cash 870, 1 at 100 realized -20"),
        ),
        case(
            "a partial close keeps the average",
            1000,
            &[bought(3, 100, 0), sold(2, 90, 0)],
            same("0, 0: cash 880, 1 at 100 realized -20"),
        ),
        case("a close to nothing", 1000, &[bought(3, 100, 0), sold(3, 90, 0)], same("0, 0: cash 970, 0 at 0 realized -30")),
    ]
}

fn cash() -> Vec<Case> {
    vec![
        case("cash 100, buy 1 at 99, commission 2", 100, &[bought(1, 99, 2)], same("8 101 100: cash 100, 0 at 0 realized 0")),
        case("cash 100, buy 1 at 99, commission 1", 100, &[bought(1, 99, 1)], same("0: cash 0, 1 at 99 realized -1")),
        case("an Ask may leave cash below zero", 0, &[sold(1, 1, 5)], same("0: cash -4, -1 at 1 realized -5")),
        case("a Bid of nothing with cash below zero", -5, &[bought(0, 1, 0)], same("8 0 -5: cash -5, 0 at 0 realized 0")),
        case("a Bid of nothing with a commission paid to us", -5, &[bought(0, 1, -5)], same("0: cash 0, 0 at 0 realized 5")),
    ]
}

fn limits() -> Vec<Case> {
    let outside = Fill { symbol: 32, side: ASK, quantity: 1, price: 1, commission: 0 };
    vec![
        case("symbol 32", 0, &[outside], ("2: cash 0, 0 at 0 realized 0", "0: cash 1, 0 at 0 realized 0")),
        case(
            "a fill at price 0",
            0,
            &[sold(1, 0, 0)],
            ("2: cash 0, 0 at 0 realized 0", "(no such value can be made): cash 0, 0 at 0 realized 0"),
        ),
        case(
            "a fill at price 100000001",
            0,
            &[sold(1, 100_000_001, 0)],
            ("2: cash 0, 0 at 0 realized 0", "0: cash 100000001, -1 at 100000001 realized 0"),
        ),
        case(
            "a fill of 1000000001",
            0,
            &[sold(1_000_000_001, 1, 0)],
            ("2: cash 0, 0 at 0 realized 0", "0: cash 1000000001, -1000000001 at 1 realized 0"),
        ),
        case(
            "commission 10^15 + 1",
            0,
            &[sold(0, 1, MAX_COMMISSION + 1)],
            ("2: cash 0, 0 at 0 realized 0", "0: cash -1000000000000001, 0 at 0 realized -1000000000000001"),
        ),
    ]
}

fn totals() -> Vec<Case> {
    let most = sold(1_000_000_000, 1, 0);
    vec![
        case(
            "a position past 10^9 lots",
            0,
            &[most, sold(1, 1, 0)],
            ("0, 9: cash 1000000000, -1000000000 at 1 realized 0", "0, 0: cash 1000000001, -1000000001 at 1 realized 0"),
        ),
        case(
            "cash past 4*10^18",
            MAX_MONEY,
            &[sold(1, 1, 0)],
            ("9: cash 4000000000000000000, 0 at 0 realized 0", "0: cash 4000000000000000001, -1 at 1 realized 0"),
        ),
        case(
            "cash below -4*10^18",
            -MAX_MONEY,
            &[sold(0, 1, 1)],
            ("9: cash -4000000000000000000, 0 at 0 realized 0", "0: cash -4000000000000000001, 0 at 0 realized -1"),
        ),
        case(
            "short of cash and past the position's limit",
            1_000_000_000,
            &[bought(1_000_000_000, 1, 0), bought(1, 1, 0)],
            same("0, 8 1 0: cash 0, 1000000000 at 1 realized 0"),
        ),
    ]
}

fn deposit(name: &'static str, cash: i64, amount: i64, expected: (&'static str, &'static str)) -> Case {
    let (mut ours, _, mut theirs, _) = after(cash, &[]);
    let said = changes::deposit(&mut ours, amount);
    theirs.deposit(Decimal::from(amount));
    Case { name, ours: format!("{}: cash {}", said, ours.cash), theirs: format!("0: cash {}", theirs.cash()), expected }
}

fn deposits() -> Vec<Case> {
    vec![
        deposit("deposit -5 with cash 0", 0, -5, same("0: cash -5")),
        deposit("deposit 10^18", 0, MAX_DEPOSIT, same("0: cash 1000000000000000000")),
        deposit("deposit 10^18 + 1", 0, MAX_DEPOSIT + 1, ("2: cash 0", "0: cash 1000000000000000001")),
        deposit("deposit 1 with cash 4*10^18", MAX_MONEY, 1, ("9: cash 4000000000000000000", "0: cash 4000000000000000001")),
    ]
}

fn worth(name: &'static str, fills: &[Fill], which: u64, prices: &[u32], expected: (&'static str, &'static str)) -> Case {
    let (ours, _, theirs, _) = after(100_000, fills);
    let their_said = money::worth(&theirs, which, &money::prices_of(prices));
    Case { name, ours: changes::worth(&ours, which, prices).to_string(), theirs: their_said.to_string(), expected }
}

fn priced(prices: &[(usize, u32)]) -> Vec<u32> {
    let mut all = vec![0; SYMBOLS];
    prices.iter().for_each(|it| all[it.0] = it.1);
    all
}

fn pair(long: u32, short: u32) -> [Fill; 2] {
    [bought(long, 1, 0), Fill { symbol: 7, side: ASK, quantity: short, price: 1, commission: 0 }]
}

fn worths() -> Vec<Case> {
    let ones = priced(&[(3, 1), (7, 1)]);
    vec![
        worth("unrealized_pnl_total of a new ledger", &[], 0, &priced(&[]), same("0 0")),
        worth("net_liquidation_value of a new ledger", &[], 1, &priced(&[]), same("0 100000")),
        worth("net_market_exposure of a new ledger", &[], 2, &priced(&[]), same("10")),
        worth("delta_neutral_check of a new ledger", &[], 3, &priced(&[]), same("0 1")),
        worth("exposures 51 and -50: neutral", &pair(51, 50), 3, &ones, same("0 1")),
        worth("exposures 101 and -99: not", &pair(101, 99), 3, &ones, same("0 0")),
        worth("exposure of one of two that has a price", &pair(5, 2), 2, &priced(&[(7, 10)]), same("0 -20")),
        worth("one open symbol without a price", &[bought(1, 1, 0)], 0, &priced(&[(7, 10)]), same("13 3")),
        worth("31 prices", &[], 0, &[0; 31], ("2", "0 0")),
        worth("price 100000001 for a flat symbol", &[], 0, &priced(&[(9, 100_000_001)]), ("2", "0 0")),
    ]
}

fn unrealized(name: &'static str, fills: &[Fill], symbol: u32, price: u32, expected: (&'static str, &'static str)) -> Case {
    let (ours, _, theirs, _) = after(100_000, fills);
    let their_said = money::unrealized(&theirs, symbol, price).map_or("no position".to_string(), |said| said.to_string());
    Case { name, ours: told(ours.checked_unrealized_pnl(symbol, price)).to_string(), theirs: their_said, expected }
}

/// What the original names when two open symbols have no price, over many ledgers.
fn named() -> Case {
    let names: BTreeSet<String> = (0..200).map(|_| worth("", &pair(1, 1), 0, &priced(&[]), ("", "")).theirs).collect();
    let ours = worth("", &pair(1, 1), 0, &priced(&[]), ("", "")).ours;
    let theirs = names.into_iter().collect::<Vec<_>>().join(" or ");
    Case { name: "symbols 3 and 7 open, no prices", ours, theirs, expected: ("13 3", "13 3 or 13 7") }
}

fn singles() -> Vec<Case> {
    let flat = [bought(1, 100, 0), sold(1, 100, 0)];
    vec![
        unrealized("checked_unrealized_pnl of symbol 31, never traded", &[], 31, 5, ("0 0", "no position")),
        unrealized("checked_unrealized_pnl of a symbol traded and flat", &flat, 3, 5, same("0 0")),
        unrealized("checked_unrealized_pnl of symbol 32", &[], 32, 5, ("2", "no position")),
        unrealized("checked_unrealized_pnl of 2 short at 100, price 90", &[sold(2, 100, 0)], 3, 90, same("0 20")),
        unrealized("checked_unrealized_pnl of 1 at 1 and 1 at 2, price 2", &[bought(1, 1, 0), bought(1, 2, 0)], 3, 2, ("0 2", "0 1")),
        unrealized("checked_unrealized_pnl at price 0", &flat, 3, 0, ("2", "(no such value can be made)")),
        named(),
    ]
}

/// Opening cash outside its limit, a record that is no ledger, and the sign of nothing.
fn records() -> Vec<Case> {
    let past = MAX_MONEY + 1;
    let (mut none, _, _, _) = after(0, &[]);
    none.averages[3] = 1;
    let (ours, _, theirs, _) = after(0, &[sold(0, 1, 0)]);
    let nothing = theirs.position(&money::symbol_of(3)).expect("a position").quantity;
    vec![
        Case {
            name: "a ledger opened with cash 4*10^18 + 1",
            ours: told(OurLedger::new(past).map(|_| ())).to_string(),
            theirs: format!("cash {}", PositionLedger::new(Decimal::from(past)).cash()),
            expected: ("2", "cash 4000000000000000001"),
        },
        Case {
            name: "deposit to a record with average 1 at quantity 0",
            ours: changes::deposit(&mut none, 1).to_string(),
            theirs: "(no such value can be made)".to_string(),
            expected: ("1", "(no such value can be made)"),
        },
        Case {
            name: "the quantity that an Ask of nothing leaves, as it is printed",
            ours: ours.quantities[3].to_string(),
            theirs: nothing.to_string(),
            expected: ("0", "-0"),
        },
    ]
}

pub fn cases() -> Vec<Case> {
    [averages(), turnovers(), cash(), limits(), totals(), deposits(), worths(), singles(), records()].into_iter().flatten().collect()
}
