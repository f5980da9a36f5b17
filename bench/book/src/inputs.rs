//! What every contestant is given: a million deltas, a hundred thousand questions and as many fills, from a seed.

pub const DELTAS: usize = 1_000_000;
pub const QUESTIONS: usize = 100_000;
pub const FILLS: usize = 100_000;

/// A delta in plain numbers. Its sequence is its place, counted from 1.
#[derive(Clone, Copy)]
pub struct Delta {
    pub bid: bool,
    pub remove: bool,
    pub price: u32,
    pub quantity: u32,
    pub sequence: u64,
}

/// What a question may take: a side, a price of it, a quantity to fill and a volume to reach. Each question takes what it needs.
#[derive(Clone, Copy)]
pub struct Question {
    pub bid: bool,
    pub price: u32,
    pub target: u32,
    pub volume: u64,
}

/// A fill in plain numbers.
#[derive(Clone, Copy)]
pub struct Fill {
    pub symbol: u32,
    pub buys: bool,
    pub quantity: u32,
    pub price: u32,
    pub commission: u32,
}

/// Marsaglia's xorshift of 64 bits.
struct Random(u64);

impl Random {
    fn below(&mut self, bound: u64) -> u64 {
        self.0 ^= self.0 << 13;
        self.0 ^= self.0 >> 7;
        self.0 ^= self.0 << 17;
        (self.0 >> 16) % bound
    }

    fn between(&mut self, from: u32, to: u32) -> u32 {
        from + self.below(u64::from(to - from) + 1) as u32
    }

    /// One of 100 prices of a side; no bid reaches an ask.
    fn price(&mut self, bid: bool) -> u32 {
        if bid {
            self.between(9_901, 10_000)
        } else {
            self.between(10_001, 10_100)
        }
    }
}

pub fn deltas(seed: u64) -> Vec<Delta> {
    let mut random = Random(seed);
    let mut one = |place: usize| {
        let (bid, remove) = (random.below(2) == 0, random.below(10) == 0);
        Delta { bid, remove, price: random.price(bid), quantity: random.between(1, 1_000), sequence: place as u64 + 1 }
    };
    (0..DELTAS).map(&mut one).collect()
}

pub fn questions(seed: u64) -> Vec<Question> {
    let mut random = Random(seed);
    let mut one = |_| {
        let bid = random.below(2) == 0;
        Question { bid, price: random.price(bid), target: random.between(20, 20_000), volume: 1 + random.below(60_000) }
    };
    (0..QUESTIONS).map(&mut one).collect()
}

pub fn fills(seed: u64) -> Vec<Fill> {
    let mut random = Random(seed);
    let mut one = |_| {
        let (symbol, buys) = (random.below(32) as u32, random.below(2) == 0);
        Fill { symbol, buys, quantity: random.between(1, 1_000), price: random.between(9_901, 10_100), commission: random.between(0, 9) }
    };
    (0..FILLS).map(&mut one).collect()
}
