//! The test whether a record is a book: the proved one, by the archive, beside others in plain Rust, in one process. `record compare` asks all
//! about good books and about spoilt ones, and fails where two differ; `record time` writes the nanoseconds a call of each.
mod books;
mod tuned;
mod written;

use books::Book;
use std::env::args;
use std::hint::black_box;
use std::process::exit;
use std::time::Instant;

/// Many short rounds: what else the machine does spoils some of them, and the best is of those that it spared.
const ROUNDS: usize = 1_000;
const TURNS: usize = 100;

/// A test by its name: one answer, and the time of one round.
struct Test {
    name: &'static str,
    answer: fn(&Book) -> bool,
    round: fn(&[Book]) -> f64,
}

const TESTS: [Test; 4] = [
    Test { name: "proved", answer: proved, round: |books| round(proved, books) },
    Test { name: "by_rows", answer: by_rows, round: |books| round(by_rows, books) },
    Test { name: "tuned", answer: tuned::is_book, round: |books| round(tuned::is_book, books) },
    Test { name: "written", answer: written::is_book, round: |books| round(written::is_book, books) },
];

extern "C" {
    fn wermazul_is_book(
        bid_prices: *const books::Row,
        bid_quantities: *const books::Row,
        ask_prices: *const books::Row,
        ask_quantities: *const books::Row,
        counts: books::Counts,
    ) -> u8;
}

fn proved(book: &Book) -> bool {
    let Book { bids, asks, .. } = book;
    // SAFETY: four rows of 128 places each, lent for the call.
    unsafe { wermazul_is_book(&bids.prices, &bids.quantities, &asks.prices, &asks.quantities, book.counts()) != 0 }
}

fn by_rows(book: &Book) -> bool {
    let Book { bids, asks, .. } = book;
    tuned::is_book_by_rows(&bids.prices, &bids.quantities, &asks.prices, &asks.quantities, book.counts())
}

/// Asks all tests about every record, and fails where two answers differ or where only one answer was ever given.
fn compare() {
    let mut given = [0u64; 2];
    books::each_record(|book, what| {
        let answers = TESTS.map(|test| (test.answer)(book));
        assert!(answers.iter().all(|answer| *answer == answers[0]), "the tests differ on {what}: {answers:?}");
        given[usize::from(answers[0])] += 1;
    });
    let [no, yes] = given;
    assert!(yes > 0 && no > 0, "only one answer was given: {yes} books, {no} others");
    println!("All tests agree on {yes} books and {no} records that are none.");
}

/// The nanoseconds a call, of one round. The calls are direct: made for each test by itself.
fn round(test: impl Fn(&Book) -> bool, books: &[Book]) -> f64 {
    let start = Instant::now();
    for _ in 0..TURNS {
        for book in books {
            assert!(test(black_box(book)), "the books that are timed are books");
        }
    }
    start.elapsed().as_nanos() as f64 / (TURNS * books.len()) as f64
}

/// Each test's best round. The tests take turns, and each round another begins, so that what else the machine does meets all of them.
fn time() {
    let books: Vec<Book> = (0..8).map(|i| Book::of(86 + i, 93 - i, i as u32)).collect();
    let mut best = [f64::MAX; TESTS.len()];
    for number in 0..ROUNDS {
        for turn in 0..TESTS.len() {
            let at = (number + turn) % TESTS.len();
            best[at] = best[at].min((TESTS[at].round)(&books));
        }
    }
    for (best, test) in best.iter().zip(&TESTS) {
        println!("{} {best:.2}", test.name);
    }
}

fn main() {
    match args().nth(1).as_deref() {
        Some("compare") => compare(),
        Some("time") => time(),
        _ => {
            eprintln!("usage: record compare|time");
            exit(2);
        }
    }
}
