//! A ledger of ours beside the original's: every change and valuation is done to both, from the same positions, and compared.
use crate::forms::{is_price, Fill, MAX_DEPOSIT, MAX_MONEY, MAX_PRICE, SYMBOLS};
use crate::original::money::{self, Holding};
use crate::original::released::guarded;
use crate::ours::{changes, told};
use crate::rules;
use crate::said::{Said, UNMADE};
use crate::tally::{Class, Tally, Verdict};
use original::position::{Position, PositionLedger};
use rust_decimal::Decimal;
use wermazul::PositionLedger as OurLedger;

pub struct Accounts {
    pub ours: OurLedger,
    pub theirs: PositionLedger,
}

/// What the rows have of each symbol.
pub fn holdings(ledger: &OurLedger) -> [Holding; SYMBOLS] {
    std::array::from_fn(|symbol| (ledger.quantities[symbol], ledger.averages[symbol], ledger.realized[symbol]))
}

/// A record in few words: cash, commission, and the positions that are not all 0.
pub fn described(ledger: &OurLedger) -> String {
    let used = holdings(ledger).into_iter().enumerate().filter(|it| it.1 != (0, 0, 0)).collect::<Vec<_>>();
    format!("cash {} commission {} positions {:?}", ledger.cash, ledger.commission, used)
}

/// How a position of the original compares with one of ours: all equal, or in all but the average.
pub fn position_verdict(theirs: &Position, ours: &Holding, booking: &rules::Booking, price: u32) -> Verdict {
    let old = booking.held.average;
    let moved = theirs.quantity == Decimal::from(ours.0) && theirs.realized_pnl == Decimal::from(ours.2);
    let average = Decimal::from(ours.1);
    if !moved {
        Verdict::Different
    } else if booking.is_rounded() {
        Verdict::allowed(Class::RoundedAverage, theirs.avg_cost.floor() == average)
    } else if booking.is_small_turnover() && old != price {
        let kept = theirs.avg_cost == Decimal::from(old) && ours.1 == price;
        Verdict::allowed(Class::SmallTurnover, kept)
    } else {
        Verdict::same(theirs.avg_cost == average)
    }
}

impl Accounts {
    /// Both with the same cash and nothing else.
    pub fn new(cash: i64) -> Accounts {
        let ours = OurLedger::new(cash).expect("cash within its limit");
        Accounts { ours, theirs: PositionLedger::new(Decimal::from(cash)) }
    }

    /// Both at this record, which is a ledger.
    pub fn of(ours: OurLedger) -> Accounts {
        let theirs = money::ledger_of(ours.cash, ours.commission, &holdings(&ours));
        Accounts { ours, theirs }
    }

    /// The original's ledger made anew from ours, where their averages have parted.
    pub fn meet(&mut self) {
        *self = Accounts::of(self.ours.clone());
    }

    pub fn totals_same(&self) -> bool {
        self.theirs.cash() == Decimal::from(self.ours.cash) && self.theirs.total_commission_paid() == Decimal::from(self.ours.commission)
    }

    /// A taken fill: totals, the fill's position in the ledger and alone, and the other positions of ours untouched.
    fn taken(&self, before: &OurLedger, fill: &Fill) -> Verdict {
        let symbol = fill.symbol as usize;
        let (mut others, after) = (holdings(before), holdings(&self.ours));
        let (old, new) = (others[symbol], after[symbol]);
        others[symbol] = new;
        let others_kept = others == after;
        let booking = rules::booking(&rules::held(before, fill.symbol), fill);
        let within = self.theirs.position(&money::symbol_of(fill.symbol));
        let alone = money::position_after(old, fill);
        match (within, alone) {
            (Some(within), Some(alone)) if others_kept && self.totals_same() => {
                let verdict = position_verdict(within, &new, &booking, fill.price);
                let same = position_verdict(&alone, &new, &booking, fill.price) == verdict;
                if same {
                    verdict
                } else {
                    Verdict::Different
                }
            }
            _ => Verdict::Different,
        }
    }

    fn fill_class(&self, fill: &Fill) -> Option<Class> {
        if !rules::fill_within(fill) {
            return Some(Class::Limits);
        }
        let refused = !rules::is_short(&self.ours, fill) && !rules::is_bearable(&self.ours, fill);
        refused.then_some(Class::PastLimit)
    }

    /// Whether both answer a fill that only ours refuses as its class says.
    pub fn fill_formed(&self, class: Class, fill: &Fill, said: &Said) -> bool {
        let theirs = money::apply(&mut self.theirs.clone(), fill).number;
        let goes_on = if rules::is_short(&self.ours, fill) { 8 } else { 0 };
        match class {
            Class::Limits if fill.price == 0 => *said == Said::refused(2) && theirs == UNMADE,
            Class::Limits => *said == Said::refused(2) && theirs == goes_on,
            _ => *said == Said::refused(9) && theirs == 0,
        }
    }

    pub fn fill(&mut self, tally: &mut Tally, fill: &Fill) -> (Said, Verdict) {
        let before = self.ours.clone();
        let class = self.fill_class(fill);
        let said = changes::fill(&mut self.ours, fill);
        let verdict = match class {
            Some(class) => Verdict::allowed(class, self.ours == before && self.fill_formed(class, fill, &said)),
            None => {
                let theirs = guarded(|| money::apply(&mut self.theirs, fill));
                let same = said == theirs && (said.number == 0 || self.ours == before) && rules::is_ledger(&self.ours);
                if !same {
                    Verdict::Different
                } else if said.number == 0 {
                    self.taken(&before, fill)
                } else {
                    Verdict::Same
                }
            }
        };
        tally.count("apply_fill", said.number, verdict, || {
            format!("{:?} on {}: ours {} now {}, theirs {:?}", fill, described(&before), said, described(&self.ours), self.theirs)
        });
        if matches!(verdict, Verdict::Allowed(Class::RoundedAverage) | Verdict::Allowed(Class::SmallTurnover)) {
            self.meet();
        }
        (said, verdict)
    }

    pub fn deposit(&mut self, tally: &mut Tally, amount: i64) -> Said {
        let before = self.ours.clone();
        let said = changes::deposit(&mut self.ours, amount);
        let total = before.cash as i128 + amount as i128;
        let verdict = if (amount as i128).abs() > MAX_DEPOSIT as i128 {
            Verdict::allowed(Class::Limits, said.number == 2 && self.ours == before)
        } else if total.abs() > MAX_MONEY as i128 {
            Verdict::allowed(Class::PastLimit, said.number == 9 && self.ours == before)
        } else {
            self.theirs.deposit(Decimal::from(amount));
            let rows_kept = holdings(&self.ours) == holdings(&before);
            Verdict::same(said == Said::done() && self.totals_same() && rows_kept)
        };
        tally.count("deposit", said.number, verdict, || {
            format!("{} on {}: ours {} now {}", amount, described(&before), said, described(&self.ours))
        });
        said
    }

    /// The unrealized profit of one symbol; gives the original's answer where it has the position.
    pub fn unrealized(&self, tally: &mut Tally, symbol: u32, price: u32) -> Option<Said> {
        let ours = told(self.ours.checked_unrealized_pnl(symbol, price));
        let theirs = money::unrealized(&self.theirs, symbol, price);
        let within = (symbol as usize) < SYMBOLS && is_price(price);
        let verdict = match &theirs {
            _ if !within => Verdict::allowed(Class::Limits, ours.number == 2),
            Some(theirs) => Verdict::same(ours == *theirs),
            None => {
                let untouched = holdings(&self.ours)[symbol as usize] == (0, 0, 0);
                Verdict::allowed(Class::NeverTraded, untouched && ours == Said::is(Decimal::ZERO))
            }
        };
        tally.count("checked_unrealized_pnl", ours.number, verdict, || {
            format!("symbol {} at {} of {}: ours {}, theirs {:?}", symbol, price, described(&self.ours), ours, theirs)
        });
        theirs
    }

    /// One of the four worths at prices; gives the original's answer.
    pub fn worth(&self, tally: &mut Tally, worth: u64, prices: &[u32]) -> (Said, Verdict) {
        const NAMES: [&str; 4] = ["unrealized_pnl_total", "net_liquidation_value", "net_market_exposure", "delta_neutral_check"];
        let ours = changes::worth(&self.ours, worth, prices);
        let theirs = money::worth(&self.theirs, worth, &money::prices_of(prices));
        let verdict = if prices.len() != SYMBOLS || prices.iter().any(|price| *price > MAX_PRICE) {
            Verdict::allowed(Class::Limits, ours.number == 2)
        } else if ours.number == 13 && theirs.number == 13 && ours != theirs {
            Verdict::allowed(Class::NamedSymbol, self.names_differ(&ours, &theirs, prices))
        } else {
            Verdict::same(ours == theirs)
        };
        tally.count(NAMES[worth as usize], ours.number, verdict, || {
            format!("at {:?} of {}: ours {}, theirs {}", prices, described(&self.ours), ours, theirs)
        });
        (theirs, verdict)
    }

    /// Whether ours is the smallest open symbol without a price, and theirs another such symbol.
    fn names_differ(&self, ours: &Said, theirs: &Said, prices: &[u32]) -> bool {
        let open = |symbol: &usize| self.ours.quantities[*symbol] != 0 && prices[*symbol] == 0;
        let missing: Vec<Decimal> = (0..SYMBOLS).filter(open).map(Decimal::from).collect();
        missing.first() == ours.values().first() && missing.contains(&theirs.values()[0])
    }
}
