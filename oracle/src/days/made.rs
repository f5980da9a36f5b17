//! Random days: short and long, with refusals at any place; and whole days, in which no difference at all is allowed.
use crate::accounts::{self, whole_fill};
use crate::forms::Fill;
use crate::ledgers::Accounts;
use crate::random::Random;
use crate::rules;
use crate::tally::Tally;
use wermazul::PositionLedger;

fn length(random: &mut Random) -> u64 {
    if random.below(250) == 0 {
        400
    } else {
        random.below(31)
    }
}

/// Fills for a ledger, each made for what those before it leave. After one that is refused they are made as if it had not been there.
fn fills(random: &mut Random, ledger: &PositionLedger, next: impl Fn(&mut Random, &PositionLedger) -> Fill) -> Vec<Fill> {
    let mut ledger = ledger.clone();
    let mut day = Vec::new();
    for _ in 0..length(random) {
        let fill = next(random, &ledger);
        if rules::refusal(&ledger, &fill).is_none() {
            rules::book(&mut ledger, &fill);
        }
        day.push(fill);
    }
    day
}

/// Any fill; one that is refused only this many times in a hundred, as long as another is soon found.
fn any_fill(random: &mut Random, ledger: &PositionLedger, refused: u64) -> Fill {
    for _ in 0..8 {
        let fill = accounts::fill(random, ledger);
        if rules::refusal(ledger, &fill).is_none() || random.percent(refused) {
            return fill;
        }
    }
    accounts::fill(random, ledger)
}

/// Any ledger, and a day's fills of any kind.
fn any_day(random: &mut Random, tally: &mut Tally) {
    let mut accounts = Accounts::of(accounts::ledger(random));
    let refused = random.one_of(&[0, 5, 20]);
    let day = fills(random, &accounts.ours, |random, ledger| any_fill(random, ledger, refused));
    accounts.day(tally, &day);
}

/// Whole days, one after another: the original's ledger is never made anew.
fn whole_days(random: &mut Random, tally: &mut Tally) {
    let mut accounts = Accounts::new(random.one_of(&[100_000, 1_000_000_000, 20_000]));
    for _ in 0..4 {
        let day = fills(random, &accounts.ours, whole_fill);
        let (ended, classes) = accounts.day(tally, &day);
        tally.demand(classes.is_empty(), || format!("{:?} parted in {:?} in a whole day", day, classes));
        tally.whole_days[(ended.said.number == 8) as usize] += 1;
    }
}

/// One round: days of any kind, each on a ledger of its own, and whole days.
pub fn round(random: &mut Random, tally: &mut Tally) {
    (0..4).for_each(|_| any_day(random, tally));
    whole_days(random, tally);
}
