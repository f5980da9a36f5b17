//! Times the book of this library beside the original and two plain books, in one process and on the same inputs, and the ledger and the
//! receiver beside them. `book time` compares the answers of all and then writes one run's times; `book table FILES` makes the tables of
//! such runs. bench/book.sh calls both.
mod beside;
mod books;
mod clock;
mod contestant;
mod inputs;
mod said;
mod table;

use books::{array::Array, map::Map, original::Original, ours::delta_of, ours::Ours};
use contestant::{Contestant, ASKS};
use inputs::{Delta, Fill, Question};
use table::{Rounds, APPLY, COLUMNS};

const ROUNDS: usize = 7;

/// Applies the deltas once everywhere; all must hold the same levels then, and give the same answer to every question.
fn compare(contestants: &mut [Box<dyn Contestant>]) {
    for contestant in contestants.iter_mut() {
        contestant.apply();
    }
    let (first, others) = contestants.split_first().expect("contestants");
    for bid in [true, false] {
        let levels = first.levels(bid);
        assert!((85..=100).contains(&levels.len()), "about 90 of 100 levels: {}", levels.len());
        assert!(others.iter().all(|other| other.levels(bid) == levels), "the books differ");
    }
    for (asks, name) in ASKS {
        for place in 0..inputs::QUESTIONS {
            let said = first.say(asks, place);
            for (other, column) in others.iter().zip(&COLUMNS[1..]) {
                assert_eq!(other.say(asks, place), said, "{name}, question {place}: {column}");
            }
        }
    }
}

/// A fill of a list, of 400 in a call; of the original, which has no such call, a fill of its loop.
const DAYS: &str = "apply_fills, a fill of 400";

/// One round: the deltas and then each question, to every contestant.
fn time_books(contestants: &mut [Box<dyn Contestant>], rounds: &mut Rounds) {
    for (contestant, column) in contestants.iter_mut().zip(COLUMNS) {
        rounds.add(APPLY, column, contestant.apply());
        for (asks, name) in ASKS {
            rounds.add(name, column, contestant.ask(asks));
        }
    }
}

fn time(deltas: &[Delta], questions: &[Question], fills: &[Fill]) -> Rounds {
    let (d, q) = (deltas, questions);
    let mut contestants = [Ours::seat(d, q), Original::seat(d, q), Map::seat(d, q), Array::seat(d, q)];
    compare(&mut contestants);
    let lines = beside::lines(&deltas.iter().map(delta_of).collect::<Vec<_>>());
    let mut rounds = Rounds::default();
    for _ in 0..ROUNDS {
        time_books(&mut contestants, &mut rounds);
        let [ours, original, by_days] = beside::fill(fills);
        for (row, time, column) in [("apply_fill", ours, 0), ("apply_fill", original, 1), (DAYS, by_days, 0), (DAYS, original, 1)] {
            rounds.add(row, COLUMNS[column], time);
        }
        rounds.add("take_line, a delta's", COLUMNS[0], beside::take(&lines));
    }
    rounds
}

fn main() {
    let arguments: Vec<String> = std::env::args().skip(1).collect();
    match arguments.split_first() {
        Some((command, [])) if command == "time" => {
            let (deltas, questions) = (inputs::deltas(0x9E37_79B9_7F4A_7C15), inputs::questions(88_172_645_463_325_252));
            print!("{}", time(&deltas, &questions, &inputs::fills(2_463_534_242)));
        }
        Some((command, files)) if command == "table" => {
            let runs: Vec<String> = files.iter().map(|file| std::fs::read_to_string(file).expect(file)).collect();
            print!("{}", table::tables(&runs));
        }
        _ => panic!("usage: book time | book table FILES"),
    }
}
