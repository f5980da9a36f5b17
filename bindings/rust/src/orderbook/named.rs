//! The questions by the original's names, for a record that has `ask`: a book and a receiver have the same.

macro_rules! named_questions {
    ($record:ty) => {
        impl $record {
            /// The best bid.
            pub fn best_bid(&self) -> Result<PriceLevel, Error> {
                Ok(self.ask(Question::Best(Side::Bid))?.level())
            }

            /// The best ask.
            pub fn best_ask(&self) -> Result<PriceLevel, Error> {
                Ok(self.ask(Question::Best(Side::Ask))?.level())
            }

            /// The best bid's price.
            pub fn best_bid_price(&self) -> Result<Price, Error> {
                Ok(self.ask(Question::BestPrice(Side::Bid))?.word())
            }

            /// The best ask's price.
            pub fn best_ask_price(&self) -> Result<Price, Error> {
                Ok(self.ask(Question::BestPrice(Side::Ask))?.word())
            }

            /// The best bid's quantity.
            pub fn best_bid_qty(&self) -> Result<Quantity, Error> {
                Ok(self.ask(Question::BestQuantity(Side::Bid))?.word())
            }

            /// The best ask's quantity.
            pub fn best_ask_qty(&self) -> Result<Quantity, Error> {
                Ok(self.ask(Question::BestQuantity(Side::Ask))?.word())
            }

            /// The best bid and the best ask.
            pub fn best_quote(&self) -> Result<Quote, Error> {
                Ok(self.ask(Question::BestQuote)?.quote())
            }

            /// Best ask less best bid.
            pub fn spread(&self) -> Result<Price, Error> {
                Ok(self.ask(Question::Spread)?.word())
            }

            /// Bid and ask over 2.
            pub fn mid_price(&self) -> Result<Quotient, Error> {
                Ok(self.ask(Question::MidPrice)?.ratio())
            }

            /// The spread in percent of the middle: 200 times the spread, over bid and ask.
            pub fn spread_pct(&self) -> Result<Quotient, Error> {
                Ok(self.ask(Question::SpreadPct)?.ratio())
            }

            /// The spread in hundredths of a percent: 20000 times the spread, over bid and ask.
            pub fn spread_bps(&self) -> Result<Quotient, Error> {
                Ok(self.ask(Question::SpreadBps)?.ratio())
            }

            /// The prices, each weighted with the other side's best quantity.
            pub fn weighted_mid(&self) -> Result<Quotient, Error> {
                Ok(self.ask(Question::WeightedMid)?.ratio())
            }

            /// Second name of `weighted_mid`.
            pub fn weighted_mid_price(&self) -> Result<Quotient, Error> {
                self.weighted_mid()
            }

            /// The quantity of a side's level at a price; 10 if there is no such level.
            pub fn depth_at(&self, side: Side, price: Price) -> Result<Quantity, Error> {
                Ok(self.ask(Question::DepthAt(side, price))?.word())
            }

            /// Whether a side has a level at a price.
            pub fn has_price(&self, side: Side, price: Price) -> Result<bool, Error> {
                Ok(self.ask(Question::HasPrice(side, price))?.flag())
            }

            /// How many levels a side has.
            pub fn level_count(&self, side: Side) -> Result<usize, Error> {
                Ok(self.ask(Question::LevelCount(side))?.number() as usize)
            }

            /// How many bids there are.
            pub fn bid_count(&self) -> Result<usize, Error> {
                self.level_count(Side::Bid)
            }

            /// How many asks there are.
            pub fn ask_count(&self) -> Result<usize, Error> {
                self.level_count(Side::Ask)
            }

            /// How many levels both sides have.
            pub fn total_levels(&self) -> Result<usize, Error> {
                Ok(self.ask(Question::TotalLevels)?.number() as usize)
            }

            /// The sequence of the last delta taken.
            pub fn sequence(&self) -> Result<u64, Error> {
                Ok(self.ask(Question::Sequence)?.number())
            }

            /// Whether there are no levels.
            pub fn is_empty(&self) -> Result<bool, Error> {
                Ok(self.ask(Question::IsEmpty)?.flag())
            }

            /// Whether the best bid reaches the best ask: never, in a book.
            pub fn is_crossed(&self) -> Result<bool, Error> {
                Ok(self.ask(Question::IsCrossed)?.flag())
            }

            /// The quantity of all bids.
            pub fn total_bid_volume(&self) -> Result<u64, Error> {
                Ok(self.ask(Question::TotalVolume(Side::Bid))?.number())
            }

            /// The quantity of all asks.
            pub fn total_ask_volume(&self) -> Result<u64, Error> {
                Ok(self.ask(Question::TotalVolume(Side::Ask))?.number())
            }

            /// Second name of `total_bid_volume`.
            pub fn total_bid_depth(&self) -> Result<u64, Error> {
                self.total_bid_volume()
            }

            /// Second name of `total_ask_volume`.
            pub fn total_ask_depth(&self) -> Result<u64, Error> {
                self.total_ask_volume()
            }

            /// The quantity of a side at a price and better.
            pub fn cumulative_depth(&self, side: Side, price: Price) -> Result<u64, Error> {
                Ok(self.ask(Question::CumulativeDepth(side, price))?.number())
            }

            /// The quantity of the best `n` bids.
            pub fn cumulative_bid_qty(&self, n: usize) -> Result<u64, Error> {
                Ok(self.ask(Question::CumulativeQuantity(Side::Bid, n))?.number())
            }

            /// The quantity of the best `n` asks.
            pub fn cumulative_ask_qty(&self, n: usize) -> Result<u64, Error> {
                Ok(self.ask(Question::CumulativeQuantity(Side::Ask, n))?.number())
            }

            /// The smallest gap between neighbouring prices of either side.
            pub fn tick_size(&self) -> Result<Price, Error> {
                Ok(self.ask(Question::TickSize)?.word())
            }

            /// The bids' quantity less the asks', over both.
            pub fn imbalance(&self) -> Result<Quotient, Error> {
                Ok(self.ask(Question::Imbalance)?.ratio())
            }

            /// Second name of `imbalance`.
            pub fn depth_imbalance(&self) -> Result<Quotient, Error> {
                self.imbalance()
            }

            /// The quantity of the best `n` bids over that of the best `n` asks.
            pub fn depth_ratio(&self, n: usize) -> Result<Quotient, Error> {
                Ok(self.ask(Question::DepthRatio(n))?.ratio())
            }

            /// The bids' quantity over the asks'; 10 if either is 0.
            pub fn bid_ask_ratio(&self) -> Result<Quotient, Error> {
                Ok(self.ask(Question::BidAskRatio)?.ratio())
            }

            /// The asks' quantity over the bids'.
            pub fn ask_bid_ratio(&self) -> Result<Quotient, Error> {
                Ok(self.ask(Question::AskBidRatio)?.ratio())
            }

            /// The quantity of the best `n` bids over that of the best `n` levels of both sides.
            pub fn bid_depth_skew(&self, n: usize) -> Result<Quotient, Error> {
                Ok(self.ask(Question::BidDepthSkew(n))?.ratio())
            }

            /// The cost of filling `qty` from a side, best first, over `qty`; 7 if the side has less. For 0 it is 0 over 1.
            pub fn vwap_for_qty(&self, side: Side, qty: Quantity) -> Result<Quotient, Error> {
                Ok(self.ask(Question::VwapForQty(side, qty))?.ratio())
            }

            /// The same for a trade: Bid buys from the asks, Ask sells to the bids. 10 for 0 or too little depth.
            pub fn price_impact(&self, side: Side, qty: Quantity) -> Result<Quotient, Error> {
                Ok(self.ask(Question::PriceImpact(side, qty))?.ratio())
            }

            /// The price of the first level at which the running total of a side reaches the target, else the last level's.
            pub fn price_at_volume(&self, side: Side, target_qty: u64) -> Result<Price, Error> {
                Ok(self.ask(Question::PriceAtVolume(side, target_qty))?.word())
            }
        }
    };
}
pub(crate) use named_questions;
