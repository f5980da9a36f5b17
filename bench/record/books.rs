//! Records as the archive takes them: good books of many sizes, and the same with one number spoilt.

pub const LEVELS: usize = 128;
pub const MAX_PRICE: u32 = 100_000_000;
pub const MAX_QUANTITY: u32 = 1_000_000_000;

pub type Row = [u32; LEVELS];

#[repr(C)]
#[derive(Clone)]
pub struct Side {
    pub prices: Row,
    pub quantities: Row,
    pub count: usize,
}

/// Laid out as the library's record is.
#[repr(C)]
#[derive(Clone)]
pub struct Book {
    pub bids: Side,
    pub asks: Side,
    pub sequence: u64,
}

/// What the archive takes beside the rows.
#[repr(C)]
pub struct Counts {
    pub bids: usize,
    pub asks: usize,
    pub sequence: u64,
}

/// The next number of a sequence that looks random.
fn next(seed: &mut u32) -> u32 {
    *seed ^= *seed << 13;
    *seed ^= *seed >> 17;
    *seed ^= *seed << 5;
    *seed
}

impl Side {
    /// `count` levels from the price `first` on, one to five ticks apart.
    fn of(count: usize, first: u32, rising: bool, seed: &mut u32) -> Side {
        let mut side = Side { prices: [0; LEVELS], quantities: [0; LEVELS], count };
        let mut price = first;
        for place in 0..count {
            side.prices[place] = price;
            side.quantities[place] = next(seed) % 1001;
            let step = 1 + next(seed) % 5;
            price = if rising { price + step } else { price - step };
        }
        side
    }
}

impl Book {
    pub fn of(bids: usize, asks: usize, number: u32) -> Book {
        let mut seed = 2_463_534_242 + number;
        Book { bids: Side::of(bids, 50_000, false, &mut seed), asks: Side::of(asks, 50_001, true, &mut seed), sequence: 0 }
    }

    pub fn counts(&self) -> Counts {
        Counts { bids: self.bids.count, asks: self.asks.count, sequence: self.sequence }
    }
}

/// The bids' prices and quantities are rows 0 and 1, the asks' 2 and 3.
fn row_of(book: &mut Book, row: usize) -> &mut Row {
    let side = if row < 2 { &mut book.bids } else { &mut book.asks };
    if row % 2 == 0 {
        &mut side.prices
    } else {
        &mut side.quantities
    }
}

/// The book with one place of one row set to each of some numbers: limits, the neighbours, and numbers with the highest bit.
fn each_number(book: &Book, row: usize, place: usize, name: &str, tell: &mut impl FnMut(&Book, &str)) {
    let mut spoilt = book.clone();
    let numbers = *row_of(&mut spoilt, row);
    let (before, after) = (numbers[place.saturating_sub(1)], numbers[(place + 1).min(LEVELS - 1)]);
    let high = 1 << 31;
    for number in [0, 1, before, after, MAX_PRICE, MAX_PRICE + 1, MAX_QUANTITY, MAX_QUANTITY + 1, high, high + 50_000, u32::MAX] {
        row_of(&mut spoilt, row)[place] = number;
        tell(&spoilt, &format!("{name}, row {row}, {number} at place {place}"));
    }
}

/// The book with one of its counts set to another number.
fn each_count(book: &Book, name: &str, tell: &mut impl FnMut(&Book, &str)) {
    for count in (0..=LEVELS + 1).chain([1 << 31, 1 << 32, usize::MAX]) {
        let mut spoilt = book.clone();
        spoilt.bids.count = count;
        tell(&spoilt, &format!("{name}, the bids' count {count}"));
        spoilt = book.clone();
        spoilt.asks.count = count;
        tell(&spoilt, &format!("{name}, the asks' count {count}"));
    }
}

/// Books of many sizes, good and with one number spoilt.
pub fn each_record(mut tell: impl FnMut(&Book, &str)) {
    let sizes = [0, 1, 2, 3, 7, 8, 9, 16, 63, 64, 89, 90, 91, 120, 121, 126, 127, 128];
    for (number, bids) in sizes.into_iter().enumerate() {
        let asks = sizes[(number * 5 + 3) % sizes.len()];
        let book = Book::of(bids, asks, number as u32);
        let name = format!("{bids} bids and {asks} asks");
        tell(&book, &name);
        for place in 0..LEVELS {
            (0..4).for_each(|row| each_number(&book, row, place, &name, &mut tell));
        }
        each_count(&book, &name, &mut tell);
    }
}
