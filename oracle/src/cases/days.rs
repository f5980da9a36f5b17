//! Days, each booked in one call, beside a loop of the original's `apply_fill` that stops at its first error.
use super::ledger::{bought, held, our_held, same, sold};
use super::Case;
use crate::forms::*;
use crate::original::money;
use crate::ours::changes;
use crate::said::{Ended, Said};
use original::position::PositionLedger;
use rust_decimal::Decimal;
use wermazul::PositionLedger as OurLedger;

/// The original's loop; a value that cannot be made ends it too.
fn looped(ledger: &mut PositionLedger, fills: &[Fill]) -> Ended {
    for (taken, fill) in fills.iter().enumerate() {
        let said = money::apply(ledger, fill);
        if said != Said::done() {
            return Ended { taken, said };
        }
    }
    Ended::all(fills.len())
}

/// How the day ended, and what it left: cash, commission paid, symbols 3 and 7.
fn case(name: &'static str, cash: i64, fills: &[Fill], expected: (&'static str, &'static str)) -> Case {
    let mut ours = OurLedger::new(cash).expect("cash within its limit");
    let mut theirs = PositionLedger::new(Decimal::from(cash));
    let (ended, their_ended) = (changes::fills(&mut ours, fills), looped(&mut theirs, fills));
    let (our_rows, their_rows) = ([3, 7].map(|it| our_held(&ours, it)), [3, 7].map(|it| held(&theirs, it)));
    Case {
        name,
        ours: format!("{}: cash {} paid {}, {}", ended, ours.cash, ours.commission, our_rows.join(", ")),
        theirs: format!("{}: cash {} paid {}, {}", their_ended, theirs.cash(), theirs.total_commission_paid(), their_rows.join(", ")),
        expected,
    }
}

const fn of_seven(fill: Fill) -> Fill {
    Fill { symbol: 7, ..fill }
}

/// Where both agree: taken to the end, or to the fill that is short of cash.
fn agreed() -> Vec<Case> {
    vec![
        case("no fills", 9, &[], same("0 taken, 0: cash 9 paid 0, 0 at 0 realized 0, 0 at 0 realized 0")),
        case(
            "a refusal in the middle: the sale behind it is not booked",
            100,
            &[bought(2, 1, 0), of_seven(bought(1, 101, 0)), sold(2, 5, 0)],
            same("1 taken, 8 101 98: cash 98 paid 0, 2 at 1 realized 0, 0 at 0 realized 0"),
        ),
        case(
            "the first refused",
            9,
            &[bought(1, 10, 0), sold(1, 5, 0)],
            same("0 taken, 8 10 9: cash 9 paid 0, 0 at 0 realized 0, 0 at 0 realized 0"),
        ),
        case(
            "the last refused",
            9,
            &[bought(1, 1, 0), of_seven(bought(1, 9, 0))],
            same("1 taken, 8 9 8: cash 8 paid 0, 1 at 1 realized 0, 0 at 0 realized 0"),
        ),
        case(
            "the last takes cash to 0",
            9,
            &[bought(1, 1, 0), of_seven(bought(1, 7, 1))],
            same("2 taken, 0: cash 0 paid 1, 1 at 1 realized 0, 1 at 7 realized -1"),
        ),
        case(
            "a sale pays for the next",
            0,
            &[sold(2, 5, 1), of_seven(bought(3, 3, 0)), bought(0, 1, -4), bought(1, 4, 0)],
            same("4 taken, 0: cash 0 paid -3, -1 at 5 realized 4, 3 at 3 realized 0"),
        ),
    ]
}

/// Where averages part, or a turnover: the count and the refusal stay equal.
fn parted() -> Vec<Case> {
    vec![
        case(
            "the worked day: its averages part, and the profit after them",
            10_000,
            &[bought(3, 100, 2), bought(2, 101, 0), sold(4, 110, 1), sold(3, 90, 0)],
            (
                "4 taken, 0: cash 10205 paid 3, -2 at 90 realized 27, 0 at 0 realized 0",
                "4 taken, 0: cash 10205 paid 3, -2 at 90 realized 25, 0 at 0 realized 0",
            ),
        ),
        case(
            "a small turnover, then a refusal",
            1000,
            &[bought(1, 1, 0), sold(2, 2, 0), of_seven(bought(1, 2000, 0)), bought(1, 2, 0)],
            (
                "2 taken, 8 2000 1003: cash 1003 paid 0, -1 at 2 realized 1, 0 at 0 realized 0",
                "2 taken, 8 2000 1003: cash 1003 paid 0, -1 at 1 realized 1, 0 at 0 realized 0",
            ),
        ),
    ]
}

/// Where only ours refuses a fill: the original's loop goes on, or cannot make the value.
fn ended() -> Vec<Case> {
    let outside = Fill { symbol: 32, ..sold(1, 1, 0) };
    vec![
        case(
            "symbol 32 first",
            9,
            &[outside, bought(1, 1, 0)],
            (
                "0 taken, 2: cash 9 paid 0, 0 at 0 realized 0, 0 at 0 realized 0",
                "2 taken, 0: cash 9 paid 0, 1 at 1 realized 0, 0 at 0 realized 0",
            ),
        ),
        case(
            "price 0 last",
            9,
            &[bought(1, 1, 0), sold(1, 0, 0)],
            (
                "1 taken, 2: cash 8 paid 0, 1 at 1 realized 0, 0 at 0 realized 0",
                "1 taken, (no such value can be made): cash 8 paid 0, 1 at 1 realized 0, 0 at 0 realized 0",
            ),
        ),
        case(
            "past a position's limit in the middle",
            0,
            &[sold(1_000_000_000, 1, 0), sold(1, 1, 0), of_seven(sold(1, 5, 0))],
            (
                "1 taken, 9: cash 1000000000 paid 0, -1000000000 at 1 realized 0, 0 at 0 realized 0",
                "3 taken, 0: cash 1000000006 paid 0, -1000000001 at 1 realized 0, -1 at 5 realized 0",
            ),
        ),
    ]
}

/// Average 1 at quantity 0, which is no ledger, and stays what it is.
fn no_ledger(name: &'static str, fills: &[Fill]) -> Case {
    let mut none = OurLedger::new(9).expect("cash within its limit");
    none.averages[3] = 1;
    let ended = changes::fills(&mut none, fills);
    Case {
        name,
        ours: format!("{}: cash {}, {}", ended, none.cash, our_held(&none, 3)),
        theirs: "(no such value can be made)".to_string(),
        expected: ("0 taken, 1: cash 9, 0 at 1 realized 0", "(no such value can be made)"),
    }
}

pub fn cases() -> Vec<Case> {
    let records = vec![no_ledger("no fills to no ledger", &[]), no_ledger("a fill to no ledger", &[sold(1, 1, 0)])];
    [agreed(), parted(), ended(), records].into_iter().flatten().collect()
}
