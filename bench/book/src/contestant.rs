//! A contestant: a book, the inputs in the form that it takes them, and each operation once to be timed and once to be compared.
use crate::said::Said;

/// The questions that are timed.
#[derive(Clone, Copy)]
pub enum Asks {
    VwapForQty,
    PriceImpact,
    TotalVolume,
    BestQuote,
    Spread,
    MidPrice,
    DepthAt,
    Imbalance,
    PriceAtVolume,
    TopBids,
    Snapshot,
    BestBid,
    Sequence,
}

pub const ASKS: [(Asks, &str); 13] = [
    (Asks::VwapForQty, "vwap_for_qty"),
    (Asks::PriceImpact, "price_impact"),
    (Asks::TotalVolume, "total_bid_volume, total_ask_volume"),
    (Asks::BestQuote, "best_quote"),
    (Asks::Spread, "spread"),
    (Asks::MidPrice, "mid_price"),
    (Asks::DepthAt, "depth_at"),
    (Asks::Imbalance, "imbalance"),
    (Asks::PriceAtVolume, "price_at_volume"),
    (Asks::TopBids, "top_bids(10)"),
    (Asks::Snapshot, "snapshot(5)"),
    (Asks::BestBid, "best_bid"),
    (Asks::Sequence, "sequence"),
];

pub trait Contestant {
    /// Applies all deltas to a new book: nanoseconds a delta. Every one must be taken.
    fn apply(&mut self) -> f64;
    /// Asks one thing with all inputs: nanoseconds a question.
    fn ask(&self, asks: Asks) -> f64;
    /// The answer with the input at a place.
    fn say(&self, asks: Asks, place: usize) -> Said;
    /// All levels of a side, best first.
    fn levels(&self, bid: bool) -> Vec<(u32, u32)>;
}

/// Makes a module's contestant of its book, its inputs and its calls. `delta` and `question` bring the inputs to its form, before any
/// clock runs; `take` applies a delta; each question is a call, and beside it how its answer is brought to the form that is compared.
macro_rules! contestant {
    (
        $name:ident: $book:ty,
        new $new:expr,
        delta $delta:ident -> $delta_type:ty,
        question $question:ident -> $question_type:ty,
        take |$taker:ident, $taken:ident| $take:expr,
        levels |$listed:ident, $bid:ident| $levels:expr,
        ask |$asked:ident, $with:ident| { $($asks:ident => $call:expr, $form:expr;)* }
    ) => {
        pub struct $name {
            book: $book,
            deltas: Vec<$delta_type>,
            questions: Vec<$question_type>,
        }

        impl $name {
            pub fn seat(deltas: &[crate::inputs::Delta], questions: &[crate::inputs::Question]) -> Box<dyn crate::contestant::Contestant> {
                let (deltas, questions) = (deltas.iter().map($delta).collect(), questions.iter().map($question).collect());
                Box::new($name { book: $new, deltas, questions })
            }
        }

        impl crate::contestant::Contestant for $name {
            fn apply(&mut self) -> f64 {
                self.book = $new;
                let mut refused = 0;
                let ($taker, start) = (&mut self.book, crate::clock::now());
                for $taken in self.deltas.iter().cloned() {
                    refused += usize::from($take.is_err());
                }
                let time = crate::clock::now() - start;
                assert_eq!(refused, 0, "every delta is taken");
                time / self.deltas.len() as f64
            }

            #[allow(unused_variables)]
            fn ask(&self, asks: crate::contestant::Asks) -> f64 {
                let start = crate::clock::now();
                match asks {
                    $(crate::contestant::Asks::$asks => {
                        for $with in &self.questions {
                            let $asked = std::hint::black_box(&self.book);
                            let _ = std::hint::black_box($call);
                        }
                    })*
                }
                (crate::clock::now() - start) / self.questions.len() as f64
            }

            #[allow(unused_variables)]
            fn say(&self, asks: crate::contestant::Asks, place: usize) -> crate::said::Said {
                let ($asked, $with) = (&self.book, &self.questions[place]);
                match asks {
                    $(crate::contestant::Asks::$asks => $form($call),)*
                }
            }

            fn levels(&self, $bid: bool) -> Vec<(u32, u32)> {
                let $listed = &self.book;
                $levels
            }
        }
    };
}
pub(crate) use contestant;
