//! A day's fills in one call of ours, beside a loop of the original's `apply_fill` that stops at its first error, from the same position;
//! and beside our own fills one by one.
//!
//! Equal must be: how many were taken, the refusal and what it carries, cash, commission paid, and each symbol's quantity, average and
//! realized profit. What the classes allow, and what must hold in them:
//!
//! - limits, past a limit: ours ends with 2 or 9 at the first such fill. The original would go on, so it is compared before that fill, and
//!   then asked for it.
//! - rounded average, small turnover: after the first such fill of a symbol, ours (the day cut there) and the original's position have the
//!   class's form. From then on that symbol's average and profit part, and all else stays equal. At the end, its realized profit less the
//!   cost of its lots is apart by just what each rounding cut off and what each small turnover left at the old average.
//!
//! Whether or not a symbol has parted, our whole record at the end must be the one that the plain rules leave.
pub mod made;

use crate::forms::{Fill, SYMBOLS};
use crate::ledgers::{described, holdings, position_verdict, Accounts};
use crate::original::money::{self, symbol_of, Holding};
use crate::original::released::guarded;
use crate::ours::changes;
use crate::rules::{self, Plan};
use crate::said::{Ended, Said};
use crate::tally::{Class, Tally, Verdict};
use original::position::{Position, PositionLedger};
use rust_decimal::Decimal;
use wermazul::PositionLedger as OurLedger;

/// How the two have parted on one symbol.
#[derive(Clone, Copy, Default)]
struct Apart {
    class: Option<Class>,
    /// What ours has more, of realized profit less the cost of the lots.
    gap: Decimal,
}

struct Day<'a> {
    start: &'a OurLedger,
    fills: &'a [Fill],
    plan: Plan,
    apart: [Apart; SYMBOLS],
    /// Whether each symbol parted in the form of its class.
    formed: bool,
}

/// Realized profit less the cost of the lots. An exact average leaves it to the fills' prices and commissions alone.
fn settled(quantity: Decimal, average: Decimal, realized: Decimal) -> Decimal {
    realized - quantity * average
}

impl<'a> Day<'a> {
    fn new(start: &'a OurLedger, fills: &'a [Fill]) -> Day<'a> {
        Day { start, fills, plan: rules::plan(start, fills), apart: [Apart::default(); SYMBOLS], formed: true }
    }

    /// The class of the fill that only ours refuses, if the day has one.
    fn end_class(&self) -> Option<Class> {
        match self.plan.refusal {
            Some(2) => Some(Class::Limits),
            Some(9) => Some(Class::PastLimit),
            _ => None,
        }
    }

    /// Every class that the day parts in.
    fn classes(&self) -> Vec<Class> {
        self.apart.iter().filter_map(|it| it.class).chain(self.end_class()).collect()
    }

    /// Books the fills to the original until its first error, or the first fill that only ours refuses.
    fn book(&mut self, theirs: &mut PositionLedger) -> Ended {
        let reach = if self.end_class().is_some() { self.plan.bookings.len() } else { self.fills.len() };
        for (place, fill) in self.fills[..reach].iter().enumerate() {
            let parts = matches!(self.plan.bookings.get(place), Some(it) if it.is_rounded() || it.is_small_turnover());
            let symbol = symbol_of(fill.symbol);
            let average = theirs.position(&symbol).filter(|_| parts).map(|it| it.avg_cost);
            let said = guarded(|| money::apply(theirs, fill));
            if said != Said::done() {
                return Ended { taken: place, said };
            }
            if let (Some(average), Some(position)) = (average, theirs.position(&symbol)) {
                self.part(place, average, position);
            }
        }
        Ended::all(reach)
    }

    /// Notes how a taken fill moves the two apart on its symbol: the original's average before it, and its position after it.
    fn part(&mut self, place: usize, average: Decimal, theirs: &Position) {
        let (fill, booking) = (&self.fills[place], &self.plan.bookings[place]);
        let (class, more) = if booking.is_rounded() {
            (Class::RoundedAverage, Decimal::from(booking.new.signum() * booking.cut_off()))
        } else {
            (Class::SmallTurnover, Decimal::from(booking.new) * (average - Decimal::from(fill.price)))
        };
        let apart = &mut self.apart[fill.symbol as usize];
        apart.gap += more;
        if apart.class.is_none() && !more.is_zero() {
            apart.class = Some(class);
            let formed = self.after(place).map(|ours| position_verdict(theirs, &ours, booking, fill.price));
            self.formed &= formed == Some(Verdict::Allowed(class));
        }
    }

    /// What ours has of a fill's symbol if the day is cut after it.
    fn after(&self, place: usize) -> Option<Holding> {
        let mut ours = self.start.clone();
        let ended = changes::fills(&mut ours, &self.fills[..=place]);
        (ended == Ended::all(place + 1)).then(|| holdings(&ours)[self.fills[place].symbol as usize])
    }

    fn position_agrees(&self, symbol: usize, ours: &Holding, theirs: Option<&Position>) -> bool {
        let theirs = match theirs {
            Some(position) => position,
            None => return *ours == (0, 0, 0),
        };
        let (quantity, average, realized) = (Decimal::from(ours.0), Decimal::from(ours.1), Decimal::from(ours.2));
        let Apart { class, gap } = self.apart[symbol];
        if class.is_none() {
            return theirs.quantity == quantity && theirs.avg_cost == average && theirs.realized_pnl == realized;
        }
        let their_settled = settled(theirs.quantity, theirs.avg_cost, theirs.realized_pnl);
        let rest = settled(quantity, average, realized) - their_settled - gap;
        // What our rounding cuts off is whole; the original's own, at 28 digits, was never seen to leave more than 2·10^-10 over a day.
        theirs.quantity == quantity && rest.abs() < Decimal::new(1, 6)
    }

    fn end_agrees(&self, accounts: &Accounts, ours: &Ended, theirs: &Ended) -> bool {
        match self.end_class() {
            Some(class) => {
                let taken = self.plan.bookings.len();
                let formed = accounts.fill_formed(class, &self.fills[taken], &ours.said);
                ours.taken == taken && *theirs == Ended::all(taken) && formed
            }
            None => ours == theirs,
        }
    }

    fn agrees(&self, accounts: &Accounts, ours: &Ended, theirs: &Ended) -> bool {
        let position = |symbol: usize| accounts.theirs.position(&symbol_of(symbol as u32));
        let mut positions = holdings(&accounts.ours).into_iter().enumerate();
        self.end_agrees(accounts, ours, theirs)
            && self.formed
            && accounts.totals_same()
            && rules::is_ledger(&accounts.ours)
            && accounts.ours == self.plan.left
            && positions.all(|(symbol, held)| self.position_agrees(symbol, &held, position(symbol)))
    }
}

/// Our own fills one by one, until one is refused.
fn singly(ledger: &mut OurLedger, fills: &[Fill]) -> Ended {
    for (taken, fill) in fills.iter().enumerate() {
        let said = changes::fill(ledger, fill);
        if said != Said::done() {
            return Ended { taken, said };
        }
    }
    Ended::all(fills.len())
}

impl Accounts {
    /// A day's fills in one call; gives how it ended, and the classes that it parts in, none where all is equal.
    pub fn day(&mut self, tally: &mut Tally, fills: &[Fill]) -> (Ended, Vec<Class>) {
        let start = self.ours.clone();
        let mut day = Day::new(&start, fills);
        let ours = changes::fills(&mut self.ours, fills);
        let theirs = day.book(&mut self.theirs);
        let classes = day.classes();
        let told = || format!("{:?} on {}: ours {} now {}", fills, described(&start), ours, described(&self.ours));
        tally.count_day(&ours, day.agrees(self, &ours, &theirs), &classes, || {
            format!("{}, by the plain rules {}, theirs {} now {:?}", told(), described(&day.plan.left), theirs, self.theirs)
        });
        let mut single = start.clone();
        let ended = singly(&mut single, fills);
        tally.count("apply_fills by apply_fill", ended.said.number, Verdict::same(ours == ended && self.ours == single), || {
            format!("{}, one by one {} now {}", told(), ended, described(&single))
        });
        if !classes.is_empty() {
            self.meet();
        }
        (ours, classes)
    }
}
