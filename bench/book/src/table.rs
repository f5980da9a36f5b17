//! What one run measured, as lines of numbers, and the tables of several runs in the form that docs/FIGURES.md has them.
use std::collections::BTreeMap;
use std::fmt;

pub const COLUMNS: [&str; 4] = ["this library", "original", "BTreeMap", "sorted array"];
pub const APPLY: &str = "apply_delta";

/// The times of every round, an operation and a contestant together, in the order that they came first.
#[derive(Default)]
pub struct Rounds(Vec<(&'static str, &'static str, Vec<f64>)>);

impl Rounds {
    pub fn add(&mut self, operation: &'static str, contestant: &'static str, time: f64) {
        match self.0.iter_mut().find(|it| (it.0, it.1) == (operation, contestant)) {
            Some((_, _, times)) => times.push(time),
            None => self.0.push((operation, contestant, vec![time])),
        }
    }
}

/// A line each: operation, contestant, the best round and the median one.
impl fmt::Display for Rounds {
    fn fmt(&self, f: &mut fmt::Formatter<'_>) -> fmt::Result {
        for (operation, contestant, times) in &self.0 {
            let mut sorted = times.clone();
            sorted.sort_by(f64::total_cmp);
            writeln!(f, "{operation}\t{contestant}\t{:.2}\t{:.2}", sorted[0], sorted[sorted.len() / 2])?;
        }
        Ok(())
    }
}

/// The times of a contestant at an operation, a run each: best or median.
type Times = BTreeMap<(String, String), Vec<f64>>;

fn read(runs: &[String], column: usize) -> (Vec<String>, Times) {
    let (mut operations, mut times) = (Vec::new(), Times::new());
    for line in runs.iter().flat_map(|run| run.lines()) {
        let fields: Vec<&str> = line.split('\t').collect();
        let (operation, contestant) = (fields[0].to_string(), fields[1].to_string());
        if !operations.contains(&operation) {
            operations.push(operation.clone());
        }
        times.entry((operation, contestant)).or_default().push(fields[column].parse().expect("a number"));
    }
    (operations, times)
}

/// A number with so many decimals if it is below 10, one fewer above, and one more below a tenth.
fn shown(number: f64, decimals: usize) -> String {
    let decimals = if number >= 9.95 {
        decimals - 1
    } else if number < 0.095 {
        decimals + 1
    } else {
        decimals
    };
    format!("{number:.decimals$}")
}

fn range(numbers: &[f64], decimals: usize) -> String {
    let least = shown(numbers.iter().copied().fold(f64::INFINITY, f64::min), decimals);
    let most = shown(numbers.iter().copied().fold(0.0, f64::max), decimals);
    if least == most {
        least
    } else {
        format!("{least} to {most}")
    }
}

/// An operation's row. Who does not have it has an empty place.
fn row(operation: &str, times: &Times) -> String {
    let of = |contestant: &str| times.get(&(operation.to_string(), contestant.to_string()));
    let cells = COLUMNS.map(|contestant| of(contestant).map_or(String::new(), |times| range(times, 1)));
    let ratios = of(COLUMNS[0]).zip(of(COLUMNS[1])).map(|(ours, theirs)| {
        let ratios: Vec<f64> = ours.iter().zip(theirs).map(|(ours, theirs)| theirs / ours).collect();
        range(&ratios, 2)
    });
    let note = if operation == APPLY { " (this library tests the whole record each time, the others test nothing of theirs)" } else { "" };
    format!("| {operation}{note} | {} | {} |", cells.join(" | "), ratios.unwrap_or_default())
}

fn table(runs: &[String], column: usize) -> String {
    let (operations, times) = read(runs, column);
    let head =
        "| ns a call | This library | Original | BTreeMap | Sorted array | Original over this library |\n|---|---|---|---|---|---|\n";
    let rows: Vec<String> = operations.iter().map(|operation| row(operation, &times)).collect();
    format!("{head}{}\n", rows.join("\n"))
}

/// Both tables of the runs.
pub fn tables(runs: &[String]) -> String {
    let of = if runs.len() == 1 { "one run".to_string() } else { format!("{} runs", runs.len()) };
    format!("The best of 7 rounds, {of}:\n\n{}\nThe median of 7 rounds, {of}:\n\n{}", table(runs, 2), table(runs, 3))
}
