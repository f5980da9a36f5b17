//! The classes of differences that are allowed, each under a test of its input, and the counts of a run.
use crate::said::Ended;
use rust_decimal::Decimal;
use std::collections::BTreeMap;
use std::process::exit;

#[derive(Clone, Copy, Debug, PartialEq, Eq)]
pub enum Class {
    Limits,
    LastSequence,
    FullSide,
    LowAboveHigh,
    SpreadRounding,
    ShortBuffer,
    NotARecord,
    PastLimit,
    RoundedAverage,
    SmallTurnover,
    NeverTraded,
    NamedSymbol,
}

/// Each class: its name, what must hold of the input, and what either side then does.
pub const CLASSES: [(Class, &str, &str); 12] = [
    (Class::Limits, "limits", "a number outside its limits: 2, and the Rust goes on or cannot make it"),
    (Class::LastSequence, "last sequence", "the book is at 18446744073709551615: 3, and the Rust wraps or panics"),
    (Class::FullSide, "full side", "Set of a new price that does not cross, 128 levels there: 6, and the Rust takes it"),
    (Class::LowAboveHigh, "lo above hi", "both are prices: 2, and the Rust panics or lists nothing"),
    (Class::SpreadRounding, "spread rounding", "spread_pct and spread_bps only: at most 10^-9 apart"),
    (Class::ShortBuffer, "short buffer", "fewer places than twice the Rust's levels: 11"),
    (Class::NotARecord, "no record", "the record breaks a rule, by a test of its own: 1, and the Rust cannot hold it"),
    (Class::PastLimit, "past a limit", "position, cash, commission or profit would leave its limit: 9, and the Rust takes it"),
    (Class::RoundedAverage, "rounded average", "an increase whose average is not whole: the Rust's, rounded down, is ours"),
    (Class::SmallTurnover, "small turnover", "other sign, no more lots than before: the fill's price, and the Rust keeps the old average"),
    (Class::NeverTraded, "never traded", "no position in the Rust, all 0 here: unrealized profit 0"),
    (Class::NamedSymbol, "named symbol", "two or more open without a price: 13 names the smallest, the Rust any of them"),
];

/// Those that a day can part in.
const DAY_CLASSES: [Class; 4] = [Class::Limits, Class::PastLimit, Class::RoundedAverage, Class::SmallTurnover];

/// How a comparison came out.
#[derive(Clone, Copy, Debug, PartialEq, Eq)]
pub enum Verdict {
    Same,
    Allowed(Class),
    Different,
}

impl Verdict {
    pub fn same(agree: bool) -> Verdict {
        if agree {
            Verdict::Same
        } else {
            Verdict::Different
        }
    }

    /// A difference of this class if it has the class's form.
    pub fn allowed(class: Class, formed: bool) -> Verdict {
        if formed {
            Verdict::Allowed(class)
        } else {
            Verdict::Different
        }
    }
}

#[derive(Default)]
pub struct Tally {
    /// Comparisons by the kind of operation, and in it by the number that we answered.
    kinds: BTreeMap<&'static str, [u64; 18]>,
    classes: [u64; CLASSES.len()],
    /// Whole histories of a ledger that were equal throughout.
    pub histories: u64,
    /// Whole days of one, each booked in one call: those taken to the end, and those that ran short of cash.
    pub whole_days: [u64; 2],
    /// Fills that were taken in days.
    booked: u64,
    /// Of the classes' counts, those of days.
    day_classes: [u64; CLASSES.len()],
    /// The widest gap of spread_pct and spread_bps.
    pub widest: Decimal,
}

impl Tally {
    /// Counts a comparison; a difference that no class allows ends the run.
    pub fn count(&mut self, kind: &'static str, number: u64, verdict: Verdict, input: impl FnOnce() -> String) {
        self.kinds.entry(kind).or_insert([0; 18])[number as usize] += 1;
        match verdict {
            Verdict::Same => (),
            Verdict::Allowed(class) => self.classes[class as usize] += 1,
            Verdict::Different => self.demand(false, || format!("{}: {}", kind, input())),
        }
    }

    /// Counts a day; it may part in several classes at once.
    pub fn count_day(&mut self, ended: &Ended, agree: bool, classes: &[Class], input: impl FnOnce() -> String) {
        self.count("apply_fills", ended.said.number, Verdict::same(agree), input);
        self.booked += ended.taken as u64;
        for class in classes {
            self.classes[*class as usize] += 1;
            self.day_classes[*class as usize] += 1;
        }
    }

    /// Ends the run where something does not hold.
    pub fn demand(&self, holds: bool, input: impl FnOnce() -> String) {
        if !holds {
            println!("DIFFERENT {}", input());
            exit(1);
        }
    }

    /// Prints the counts; no if a class was never seen.
    pub fn report(&self, all_classes: bool) -> bool {
        println!("operations compared, and how many of them we answered with which number:");
        for (kind, numbers) in &self.kinds {
            println!("  {:9} {}:{}", numbers.iter().sum::<u64>(), kind, by_number(numbers));
        }
        println!("whole histories of a ledger, equal throughout: {}", self.histories);
        let [ended, short] = self.whole_days;
        println!("whole days of a ledger, each booked in one call, equal throughout: {}, and {} that ran short of cash", ended, short);
        println!("fills taken in days: {}; differences in days:{}", self.booked, self.by_day_class());
        println!("widest gap of spread_pct and spread_bps: {}", self.widest);
        println!("differences, by class:");
        for (class, name, what) in &CLASSES {
            println!("  {:9} {}: {}", self.classes[*class as usize], name, what);
        }
        let days = DAY_CLASSES.iter().all(|class| self.day_classes[*class as usize] > 0) && ended > 0 && short > 0;
        let seen = days && self.classes.iter().all(|count| *count > 0);
        let operations: u64 = self.kinds.values().flatten().sum();
        let differences: u64 = self.classes.iter().sum();
        println!("{} operations compared, {} differences, all classed", operations, differences);
        if all_classes && !seen {
            println!("FAILED: a class was never seen, or a day with it, or a whole day of either kind");
        }
        seen || !all_classes
    }

    fn by_day_class(&self) -> String {
        let named = DAY_CLASSES.iter().map(|class| (CLASSES[*class as usize].1, self.day_classes[*class as usize]));
        named.map(|(name, count)| format!(" {} x{}", name, count)).collect::<Vec<_>>().join(",")
    }
}

fn by_number(counts: &[u64; 18]) -> String {
    let answered = counts.iter().enumerate().filter(|it| *it.1 > 0);
    answered.map(|(number, count)| format!(" {} x{}", number, count)).collect()
}
