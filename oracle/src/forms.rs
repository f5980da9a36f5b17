//! Words that both sides share: the limits, sides and actions by their numbers, deltas, fills, and which form each question's answer has.

pub const MAX_PRICE: u32 = 100_000_000;
pub const MAX_QUANTITY: u32 = 1_000_000_000;
pub const MAX_LEVELS: usize = 128;
pub const MAX_VOLUME: u64 = 128_000_000_000;
pub const MAX_COMMISSION: i64 = 1_000_000_000_000_000;
pub const MAX_DEPOSIT: i64 = 1_000_000_000_000_000_000;
pub const MAX_POSITION: i64 = 1_000_000_000;
pub const MAX_MONEY: i64 = 4_000_000_000_000_000_000;
pub const SYMBOLS: usize = 32;

pub const BID: u64 = 0;
pub const ASK: u64 = 1;
pub const SET: u64 = 0;
pub const REMOVE: u64 = 1;

/// Price and quantity.
pub type Level = (u32, u32);

#[derive(Clone, Copy, Debug)]
pub struct Delta {
    pub side: u64,
    pub action: u64,
    pub price: u32,
    pub quantity: u32,
    pub sequence: u64,
}

#[derive(Clone, Copy, Debug)]
pub struct Fill {
    pub symbol: u32,
    pub side: u64,
    pub quantity: u32,
    pub price: u32,
    pub commission: i64,
}

impl Fill {
    /// The lots with their sign.
    pub fn lots(&self) -> i128 {
        let lots = self.quantity as i128;
        if self.side == BID {
            lots
        } else {
            -lots
        }
    }

    /// What the fill takes from cash.
    pub fn charge(&self) -> i128 {
        self.lots() * self.price as i128 + self.commission as i128
    }
}

/// What is asked with a question: its side, its price or quantity, its count or volume.
#[derive(Clone, Copy, Debug)]
pub struct Asked {
    pub side: u64,
    pub small: u32,
    pub large: u64,
}

/// A listing: 0 the best `from` levels of a side, 1 those of both sides, 2 the levels of a side with prices from `from` to `to`.
#[derive(Clone, Copy, Debug)]
pub struct Listing {
    pub listing: u64,
    pub side: u64,
    pub from: u64,
    pub to: u32,
}

pub fn is_price(price: u32) -> bool {
    (1..=MAX_PRICE).contains(&price)
}

/// Whether a question's answer is a quotient.
pub fn is_quotient(question: u64) -> bool {
    matches!(question, 5..=8 | 20..=26)
}
