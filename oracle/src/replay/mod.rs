//! The replay list: operations on which both sides agree, one a line, and the original's answers to them, one a line.
//!
//! Operations: `0` new book; `1 SIDE ACTION PRICE QUANTITY SEQUENCE` delta; `2` clear; `3 SIDE` remove_all; `4 QUESTION SIDE SMALL LARGE`
//! ask; `5 LISTING SIDE FROM TO` list; `6 NEGATIVE SIZE` new ledger with this cash; `7 SYMBOL SIDE QUANTITY PRICE NEGATIVE SIZE` fill;
//! `8 NEGATIVE SIZE` deposit; `9 SYMBOL PRICE` checked_unrealized_pnl; `10 SYMBOL PRICE` sets one of 32 prices, all 0 at first;
//! `11 WORTH` a worth at those prices.
//!
//! Answers: the number of docs/ANSWERS.md, then its values. A quotient is cut to 6 places, a listing is the places filled and the numbers, a taken
//! fill is 0, the symbol's quantity, average and realized profit, and cash.
mod made;

pub use made::write;

use crate::books::Pair;
use crate::calls::{Call, CALLS};
use crate::forms::*;
use crate::ledgers::Accounts;
use crate::original::{money, released};
use crate::ours::changes;
use crate::said::Said;
use crate::tally::{Tally, Verdict};
use rust_decimal::{Decimal, RoundingStrategy};
use std::collections::BTreeSet;
use std::fmt::Write;

struct Replay {
    pair: Pair,
    accounts: Accounts,
    prices: Vec<u32>,
    tally: Tally,
    input: String,
    output: String,
    lines: usize,
    /// Deltas and questions of a class of differences.
    left_out: usize,
    /// What the list has: operations with their question or worth, and answers' numbers.
    seen: BTreeSet<(u64, u64)>,
    numbers: BTreeSet<u64>,
}

/// A whole number, or a quotient cut to 6 places; zero has no sign.
fn shown(value: Decimal, quotient: bool) -> String {
    let places = if quotient { 6 } else { 0 };
    let mut cut = value.round_dp_with_strategy(places, RoundingStrategy::ToZero);
    cut.rescale(places);
    if cut.is_zero() {
        cut.set_sign_positive(true);
    }
    cut.to_string()
}

fn answer(said: &Said, quotient: bool) -> String {
    let mut line = said.number.to_string();
    for value in said.values() {
        let _ = write!(line, " {}", shown(*value, quotient && said.number == 0));
    }
    line
}

fn signed(amount: i64) -> String {
    format!("{} {}", (amount < 0) as u64, amount.unsigned_abs())
}

impl Replay {
    fn new() -> Replay {
        Replay {
            pair: Pair::new(),
            accounts: Accounts::new(0),
            prices: vec![0; SYMBOLS],
            tally: Tally::default(),
            input: String::new(),
            output: String::new(),
            lines: 0,
            left_out: 0,
            seen: BTreeSet::new(),
            numbers: BTreeSet::new(),
        }
    }

    fn put(&mut self, kind: (u64, u64), operation: String, answer: String) {
        let number: Option<u64> = answer.split(' ').next().and_then(|it| it.parse().ok());
        self.numbers.extend(number);
        self.seen.insert(kind);
        self.lines += 1;
        let _ = writeln!(self.input, "{}", operation);
        let _ = writeln!(self.output, "{}", answer);
    }

    fn book(&mut self) {
        self.pair = Pair::new();
        self.put((0, 0), "0".to_string(), "0".to_string());
    }

    /// A delta with the original's own answer, if both answer alike; another is left out, and changes neither.
    fn delta(&mut self, delta: &Delta) {
        let said = released::guarded(|| released::apply(&mut self.pair.theirs.clone(), delta));
        if self.pair.delta(&mut self.tally, delta) != said {
            self.left_out += 1;
            return;
        }
        let Delta { side, action, price, quantity, sequence } = *delta;
        let operation = format!("1 {} {} {} {} {}", side, action, price, quantity, sequence);
        self.put((1, said.number), operation, answer(&said, false));
    }

    fn set(&mut self, side: u64, price: u32, quantity: u32) {
        let sequence = self.pair.ours.sequence + 1;
        self.delta(&Delta { side, action: SET, price, quantity, sequence });
    }

    fn clear(&mut self) {
        self.pair.clear(&mut self.tally);
        self.put((2, 0), "2".to_string(), "0".to_string());
    }

    fn remove_all(&mut self, side: u64) {
        self.pair.remove_all(&mut self.tally, side);
        self.put((3, side), format!("3 {}", side), "0".to_string());
    }

    /// A question, if the answers agree; quotients as they are shown.
    fn ask(&mut self, call: &Call, asked: &Asked) {
        let (theirs, _) = self.pair.ask(&mut self.tally, call, asked);
        let quotient = is_quotient(call.question);
        let line = answer(&theirs, quotient);
        if line != answer(&changes::ask(call, &self.pair.ours, asked), quotient) {
            self.left_out += 1;
            return;
        }
        let Asked { side, small, large } = used(call.question, asked);
        self.put((4, call.question), format!("4 {} {} {} {}", call.question, side, small, large), line);
    }

    fn ask_named(&mut self, name: &str, side: u64, small: u32, large: u64) {
        let call = CALLS.iter().find(|it| it.name == name).expect("a call");
        self.ask(call, &Asked { side, small, large });
    }

    fn list(&mut self, ask: &Listing) {
        if ask.listing == 2 && (!is_price(ask.from as u32) || !is_price(ask.to) || ask.from > ask.to as u64) {
            return;
        }
        if let Ok(levels) = self.pair.list(&mut self.tally, ask) {
            let mut line = format!("0 {}", levels.len() * 2);
            levels.iter().for_each(|level| write!(line, " {} {}", level.0, level.1).expect("a string"));
            let side = if ask.listing == 1 { 0 } else { ask.side };
            self.put((5, ask.listing), format!("5 {} {} {} {}", ask.listing, side, ask.from, ask.to), line);
        }
    }

    fn ledger(&mut self, cash: i64) {
        self.accounts = Accounts::new(cash);
        self.put((6, 0), format!("6 {}", signed(cash)), "0".to_string());
    }

    /// A fill of the original's own history, if it is answered and averaged alike.
    fn fill(&mut self, fill: &Fill) {
        let (said, verdict) = self.accounts.fill(&mut self.tally, fill);
        if verdict != Verdict::Same {
            assert!(said.number != 0, "a history of the list may not part: {:?}", fill);
            return;
        }
        let Fill { symbol, side, quantity, price, commission } = *fill;
        let operation = format!("7 {} {} {} {} {}", symbol, side, quantity, price, signed(commission));
        let mut line = answer(&said, false);
        if said.number == 0 {
            let held = self.accounts.theirs.position(&money::symbol_of(symbol)).expect("a position");
            let values = [held.quantity, held.avg_cost, held.realized_pnl, self.accounts.theirs.cash()];
            values.iter().for_each(|value| write!(line, " {}", shown(*value, false)).expect("a string"));
        }
        self.put((7, said.number), operation, line);
    }

    fn deposit(&mut self, amount: i64) {
        if self.accounts.deposit(&mut self.tally, amount) == Said::done() {
            self.put((8, 0), format!("8 {}", signed(amount)), "0".to_string());
        }
    }

    fn unrealized(&mut self, symbol: u32, price: u32) {
        if let Some(said) = self.accounts.unrealized(&mut self.tally, symbol, price) {
            self.put((9, 0), format!("9 {} {}", symbol, price), answer(&said, false));
        }
    }

    fn price(&mut self, symbol: usize, price: u32) {
        self.prices[symbol] = price;
        self.put((10, 0), format!("10 {} {}", symbol, price), "0".to_string());
    }

    /// The four worths, save where the original may name one of several symbols.
    fn worths(&mut self) {
        let open = |symbol: &usize| self.accounts.ours.quantities[*symbol] != 0 && self.prices[*symbol] == 0;
        if (0..SYMBOLS).filter(open).count() > 1 {
            return;
        }
        for worth in 0..4 {
            let (said, _) = self.accounts.worth(&mut self.tally, worth, &self.prices.clone());
            self.put((11, worth), format!("11 {}", worth), answer(&said, false));
        }
    }
}

/// What a question uses of what is asked; the rest is 0.
fn used(question: u64, asked: &Asked) -> Asked {
    let side = matches!(question, 0..=2 | 9..=11 | 16..=18 | 25..=27);
    let small = matches!(question, 9 | 10 | 17 | 25 | 26);
    let large = matches!(question, 18 | 21 | 24 | 27);
    Asked {
        side: if side { asked.side } else { 0 },
        small: if small { asked.small } else { 0 },
        large: if large { asked.large } else { 0 },
    }
}
