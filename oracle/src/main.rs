//! Does the same operations on the original's published modules and on our library, and compares every answer and every state. Each
//! difference must be of a class whose test holds of its input; any other ends the run.
//!
//! ```text
//! oracle compare SEED ROUNDS [--mutant NAME] [--short] [--days]
//! oracle cases
//! oracle replay SEED FOLDER
//! oracle mutants            (the names that --mutant takes)
//! ```
mod accounts;
mod books;
mod calls;
mod cases;
mod days;
mod forms;
mod ledgers;
mod listings;
mod original;
mod ours;
mod quiet;
mod random;
mod records;
mod replay;
mod rules;
mod said;
mod shapes;
mod tally;

use ours::mutants;
use random::Random;
use std::process::exit;
use tally::Tally;

/// What the switches ask for.
struct Wanted {
    /// Every class must be seen.
    all_classes: bool,
    /// Nothing but days is compared.
    only_days: bool,
}

fn books_and_ledgers(random: &mut Random, tally: &mut Tally, eighth: bool) {
    shapes::round(random, tally);
    accounts::round(random, tally);
    accounts::round(random, tally);
    accounts::nearly_neutral(random, tally);
    if eighth {
        records::book_round(random, tally);
        records::ledger_round(random, tally);
        accounts::history(random, tally, 60);
    }
}

fn compare(seed: u64, rounds: u64, wanted: Wanted) -> bool {
    let mut random = Random::new(seed);
    // Days draw numbers of their own, so that they are the same alone and beside the others.
    let mut of_days = Random::new(!seed);
    let mut tally = Tally::default();
    for round in 0..rounds {
        let eighth = round % 8 == 0;
        if !wanted.only_days {
            books_and_ledgers(&mut random, &mut tally, eighth);
        }
        if eighth {
            days::made::round(&mut of_days, &mut tally);
        }
    }
    tally.report(wanted.all_classes)
}

fn usage() -> ! {
    eprintln!("oracle compare SEED ROUNDS [--mutant NAME] [--short] [--days] | cases | replay SEED FOLDER | mutants");
    exit(2)
}

fn number(text: &str) -> u64 {
    text.parse().unwrap_or_else(|_| usage())
}

/// The switches after SEED and ROUNDS. A mutant is planted.
fn switches(rest: &[&str]) -> Wanted {
    match rest {
        [] => Wanted { all_classes: true, only_days: false },
        ["--short", rest @ ..] => Wanted { all_classes: false, ..switches(rest) },
        ["--days", rest @ ..] => Wanted { only_days: true, ..switches(rest) },
        ["--mutant", name, rest @ ..] if mutants::plant(name) => switches(rest),
        _ => usage(),
    }
}

fn main() {
    let arguments: Vec<String> = std::env::args().skip(1).collect();
    let words: Vec<&str> = arguments.iter().map(String::as_str).collect();
    quiet::start();
    let passed = match words.as_slice() {
        ["compare", seed, rounds, rest @ ..] => {
            let wanted = switches(rest);
            compare(number(seed), number(rounds), wanted)
        }
        ["cases", rest @ ..] => {
            switches(rest);
            cases::run()
        }
        ["replay", seed, folder] => replay::write(number(seed), folder),
        ["mutants"] => {
            println!("{}", mutants::NAMES.join("\n"));
            true
        }
        _ => usage(),
    };
    exit(if passed { 0 } else { 1 })
}
