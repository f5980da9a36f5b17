//! The named cases: for each difference that docs/DIFFERENCES.md lists, its smallest input, with what either side answers, held to a
//! fixed text.
mod book;
mod days;
mod ledger;
mod questions;

/// One case: its name, what each side did, and what each must do.
pub struct Case {
    pub name: &'static str,
    pub ours: String,
    pub theirs: String,
    pub expected: (&'static str, &'static str),
}

impl Case {
    fn told(&self) -> bool {
        let holds = self.ours == self.expected.0 && self.theirs == self.expected.1;
        let verdict = if self.ours == self.theirs { "same" } else { "DIFFERS" };
        println!("  {:8} {}: ours {}; the Rust {}", verdict, self.name, self.ours, self.theirs);
        if !holds {
            println!("FAILED: expected ours {}; the Rust {}", self.expected.0, self.expected.1);
        }
        holds
    }
}

/// Prints every case; no if one is not as expected.
pub fn run() -> bool {
    let groups = [("deltas", book::cases()), ("questions", questions::cases()), ("ledger", ledger::cases()), ("days", days::cases())];
    let mut failed = 0;
    for (title, cases) in &groups {
        println!("named cases, {}:", title);
        failed += cases.iter().filter(|case| !case.told()).count();
    }
    let all: usize = groups.iter().map(|group| group.1.len()).sum();
    println!("{} named cases, {} not as expected", all, failed);
    failed == 0
}
