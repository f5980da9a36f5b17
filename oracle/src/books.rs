//! A book of ours beside the original's: every change and question is done to both and compared.
use crate::calls::Call;
use crate::forms::{Asked, Delta, Level, Listing, ASK, BID, MAX_LEVELS};
use crate::listings::{self, Listed};
use crate::original::{checked, released};
use crate::ours::changes;
use crate::ours::mutants::planted;
use crate::rules;
use crate::said::{Said, PANICKED, UNMADE};
use crate::tally::{Class, Tally, Verdict};
use original::orderbook::OrderBook;
use rust_decimal::Decimal;
use wermazul::OrderBook as OurBook;

pub struct Pair {
    pub ours: OurBook,
    pub theirs: OrderBook,
}

/// Our levels of a side.
pub fn levels(book: &OurBook, side: u64) -> Vec<Level> {
    let rows = rules::side(book, side);
    let count = rows.count.min(MAX_LEVELS);
    (0..count).map(|place| (rows.prices[place], rows.quantities[place])).collect()
}

fn described(book: &OurBook) -> String {
    format!("sequence {} bids {:?} asks {:?}", book.sequence, levels(book, BID), levels(book, ASK))
}

/// What a delta beyond the last sequence gives in the build with overflow checks.
fn beyond_checked(book: &OurBook, delta: &Delta) -> Said {
    let mut theirs = checked::book_of(&levels(book, BID), &levels(book, ASK), book.sequence);
    checked::guarded(|| checked::apply(&mut theirs, delta))
}

fn beyond_released(delta: &Delta, said: &Said) -> bool {
    match delta.sequence {
        0 => said.number == 0 || said.number == 5,
        got => *said == Said::of(4, &[Decimal::ZERO, Decimal::from(got)]),
    }
}

impl Pair {
    pub fn new() -> Pair {
        Pair { ours: OurBook::new(), theirs: released::new_book() }
    }

    /// Brings both to a sequence.
    pub fn set_sequence(&mut self, sequence: u64) {
        self.ours.sequence = sequence;
        released::set_sequence(&mut self.theirs, sequence);
    }

    fn is_same(&self) -> bool {
        let sides = [BID, ASK];
        let mut levels_same = sides.iter().map(|&side| levels(&self.ours, side) == released::levels(&self.theirs, side));
        self.ours.sequence == self.theirs.sequence() && levels_same.all(|same| same) && rules::is_book(&self.ours) && self.ours.is_book()
    }

    /// The class of a delta whose outcomes may differ.
    fn delta_class(&self, delta: &Delta) -> Option<Class> {
        if !rules::delta_within(delta) {
            return Some(Class::Limits);
        }
        if self.ours.sequence == u64::MAX {
            return Some(Class::LastSequence);
        }
        let next = delta.sequence == self.ours.sequence + 1;
        if next && rules::overfills(&self.ours, delta) && !rules::crosses(&self.ours, delta) {
            return Some(Class::FullSide);
        }
        None
    }

    /// Whether ours and theirs, tried on a copy, end as the class says.
    fn delta_formed(&self, class: Class, delta: &Delta, said: &Said) -> bool {
        let mut trial = self.theirs.clone();
        let theirs = released::guarded(|| released::apply(&mut trial, delta));
        match class {
            Class::Limits if delta.price == 0 => said.number == 2 && theirs.number == UNMADE,
            Class::Limits => said.number == 2 && [0, 4, 5].contains(&theirs.number),
            Class::LastSequence => {
                let panics = beyond_checked(&self.ours, delta).number == PANICKED;
                said.number == 3 && beyond_released(delta, &theirs) && panics
            }
            _ => said.number == 6 && theirs.number == 0 && trial.level_count(released::side_of(delta.side)) == MAX_LEVELS + 1,
        }
    }

    pub fn delta(&mut self, tally: &mut Tally, delta: &Delta) -> Said {
        let before = self.ours.clone();
        let class = self.delta_class(delta);
        let said = changes::apply(&mut self.ours, delta);
        let verdict = match class {
            Some(class) => Verdict::allowed(class, self.ours == before && self.delta_formed(class, delta, &said)),
            None => {
                let theirs = released::guarded(|| released::apply(&mut self.theirs, delta));
                let kept = said.number == 0 || self.ours == before;
                Verdict::same(said == theirs && kept && self.is_same())
            }
        };
        let theirs = &self.theirs;
        tally.count("apply_delta", said.number, verdict, || {
            format!("{:?} on {}: ours {} now {}, theirs {:?}", delta, described(&before), said, described(&self.ours), theirs)
        });
        said
    }

    pub fn clear(&mut self, tally: &mut Tally) {
        let said = changes::clear(&mut self.ours);
        self.theirs.clear();
        tally.count("clear", said.number, Verdict::same(said == Said::done() && self.is_same()), || described(&self.ours));
    }

    pub fn remove_all(&mut self, tally: &mut Tally, side: u64) {
        let said = changes::remove_all(&mut self.ours, side);
        self.theirs.remove_all(released::side_of(side));
        let verdict = Verdict::same(said == Said::done() && self.is_same());
        tally.count("remove_all", said.number, verdict, || format!("side {} now {}", side, described(&self.ours)));
    }

    /// Asks a question by one of its names; gives the original's answer and the verdict.
    pub fn ask(&self, tally: &mut Tally, call: &Call, asked: &Asked) -> (Said, Verdict) {
        let ours = changes::ask(call, &self.ours, asked);
        let theirs = released::guarded(|| (call.theirs)(&self.theirs, asked));
        let verdict = if !rules::asked_within(call.question, asked) {
            Verdict::allowed(Class::Limits, ours.number == 2 && theirs.number != PANICKED)
        } else if ours != theirs && [6, 7].contains(&call.question) {
            Verdict::allowed(Class::SpreadRounding, is_near(tally, &ours, &theirs))
        } else {
            Verdict::same(ours == theirs)
        };
        tally.count(call.name, ours.number, verdict, || {
            format!("{:?} of {}: ours {}, theirs {}", asked, described(&self.ours), ours, theirs)
        });
        (theirs, verdict)
    }

    fn listing_class(&self, ask: &Listing) -> Option<Class> {
        let ends = [ask.from as u32, ask.to];
        if ask.listing < 2 {
            return None;
        }
        if !ends.iter().all(|end| crate::forms::is_price(*end)) {
            return Some(Class::Limits);
        }
        (ends[0] > ends[1]).then_some(Class::LowAboveHigh)
    }

    fn listing_formed(&self, class: Class, ask: &Listing, theirs: &Listed) -> bool {
        let panics = matches!(theirs, Err(said) if said.number == PANICKED);
        let nothing = matches!(theirs, Ok(levels) if levels.is_empty());
        let filled = rules::side(&self.ours, ask.side).count > 0;
        match class {
            Class::Limits => true,
            _ if filled => panics,
            _ => panics || nothing,
        }
    }

    /// Lists by every name; gives the original's first answer.
    pub fn list(&self, tally: &mut Tally, ask: &Listing) -> Listed {
        let class = self.listing_class(ask);
        let mut all = listings::theirs(&self.theirs, ask);
        for (name, theirs) in &all {
            let ours = slipped(listings::ours(&self.ours, name, ask), ask);
            let verdict = match class {
                Some(class) => Verdict::allowed(class, ours == Err(Said::refused(2)) && self.listing_formed(class, ask, theirs)),
                None => Verdict::same(ours == *theirs),
            };
            let number = ours.as_ref().map_or_else(|said| said.number, |_| 0);
            tally.count(name, number, verdict, || format!("{:?} of {}: ours {:?}, theirs {:?}", ask, described(&self.ours), ours, theirs));
        }
        all.swap_remove(0).1
    }

    /// Lists into a lent buffer of so many places, and asks the companion.
    pub fn list_into(&self, tally: &mut Tally, ask: &Listing, room: usize) {
        const MARK: u32 = 0xA5A5_A5A5;
        let mut buffer = vec![MARK; room];
        let ours = self.ours.list(listings::our_listing(ask), &mut buffer).map_err(|error| error.number());
        let places = self.ours.places(listings::our_listing(ask), room).map_err(|error| error.number());
        if planted("short-buffer-written") && ours == Err(11) && room > 0 {
            buffer[0] = 0;
        }
        let untouched = buffer.iter().all(|number| *number == MARK);
        let (_, theirs) = listings::theirs(&self.theirs, ask).swap_remove(0);
        let verdict = match (self.listing_class(ask), &theirs) {
            (Some(class), _) => Verdict::allowed(class, ours == Err(2) && untouched && self.listing_formed(class, ask, &theirs)),
            (None, Ok(levels)) if levels.len() * 2 > room => Verdict::allowed(Class::ShortBuffer, ours == Err(11) && untouched),
            (None, Ok(levels)) => Verdict::same(ours == Ok(levels.len() * 2) && holds(&buffer, levels, MARK)),
            (None, Err(_)) => Verdict::Different,
        };
        let verdict = if ours == places { verdict } else { Verdict::Different };
        tally.count("list into a buffer", ours.err().unwrap_or(0), verdict, || {
            format!(
                "{:?} into {} places of {}: ours {:?}, companion {:?}, theirs {:?}",
                ask,
                room,
                described(&self.ours),
                ours,
                places,
                theirs
            )
        });
    }
}

/// Whether two spreads are at most 10^-9 apart.
fn is_near(tally: &mut Tally, ours: &Said, theirs: &Said) -> bool {
    let gap = ours.gap(theirs);
    tally.widest = tally.widest.max(gap.unwrap_or(Decimal::ZERO));
    gap.map_or(false, |gap| gap <= Decimal::new(1, 9))
}

/// Whether the front of a buffer holds the levels and the rest its mark.
fn holds(buffer: &[u32], levels: &[Level], mark: u32) -> bool {
    let (front, rest) = buffer.split_at(levels.len() * 2);
    let written = front.chunks(2).zip(levels).all(|(pair, level)| pair == [level.0, level.1]);
    written && rest.iter().all(|number| *number == mark)
}

/// The planted slips of listings.
fn slipped(mut listed: Listed, ask: &Listing) -> Listed {
    if let (true, Ok(levels)) = (planted("between-downward") && ask.listing == 2, &mut listed) {
        levels.reverse();
    }
    if planted("low-above-high-empty") && ask.from > ask.to as u64 && ask.listing == 2 {
        return Ok(vec![]);
    }
    listed
}
