//! Quotients as values: compared, ordered, shown and rounded without losing a digit on the way.
use std::cmp::Ordering;
use std::fmt;

/// An exact quotient, not reduced. Quotients are equal if their values are: 101 over 1 equals 202 over 2.
///
/// The denominator of an answer is never 0. One that is made with 0 is above all others, and has no decimals.
#[derive(Clone, Copy, Debug)]
pub struct Quotient {
    /// What is divided.
    pub numerator: i64,
    /// By what.
    pub denominator: u64,
}

impl Quotient {
    /// The value in units of so many decimal places, rounded, a half away from 0: 201 over 2 is 101 to no place and 1005 to one. Nothing if
    /// the denominator is 0 or a number of 128 bits is too small; to 19 places it never is.
    pub fn rounded(&self, places: u32) -> Option<i128> {
        let divisor = u128::from(self.denominator);
        let scaled = 10u128.checked_pow(places)?.checked_mul(self.size())?;
        let down = scaled.checked_div(divisor)?;
        let nearest = down + u128::from(scaled % divisor * 2 >= divisor);
        let size = i128::try_from(nearest).ok()?;
        Some(if self.numerator < 0 { -size } else { size })
    }

    /// The nearest `f64`; of two as near, the even one, as for any `f64`. With the denominator 0 it is infinite, or no number.
    pub fn to_f64(&self) -> f64 {
        if self.numerator == 0 || self.denominator == 0 {
            return self.numerator as f64 / self.denominator as f64;
        }
        // As far to the left as 128 bits allow, the quotient has 64 bits or more: 11 more than an f64 keeps, so that the last of them may
        // stand for all that is behind it.
        let (shift, divisor) = (self.size().leading_zeros(), u128::from(self.denominator));
        let shifted = self.size() << shift;
        let nearest = ((shifted / divisor) | u128::from(shifted % divisor != 0)) as f64;
        let size = nearest * f64::from_bits(u64::from(1023 - shift) << 52);
        if self.numerator < 0 {
            -size
        } else {
            size
        }
    }

    /// The numerator without its sign.
    fn size(&self) -> u128 {
        self.numerator.unsigned_abs().into()
    }

    /// The size of the value as digits, so many of them behind the point, rounded a half up. The denominator is not 0.
    fn digits(&self, places: usize) -> String {
        let divisor = u128::from(self.denominator);
        let (mut digits, mut rest) = ((self.size() / divisor).to_string().into_bytes(), self.size() % divisor);
        for _ in 0..places {
            rest *= 10;
            digits.push(b'0' + (rest / divisor) as u8);
            rest %= divisor;
        }
        if rest * 2 >= divisor {
            add_one(&mut digits);
        }
        let mut text: String = digits.into_iter().map(char::from).collect();
        if places > 0 {
            text.insert(text.len() - places, '.');
        }
        text
    }
}

/// The next number of a row of decimal digits.
fn add_one(digits: &mut Vec<u8>) {
    let nines = digits.iter().rev().take_while(|digit| **digit == b'9').count();
    let kept = digits.len() - nines;
    digits[kept..].fill(b'0');
    match kept.checked_sub(1) {
        Some(last) => digits[last] += 1,
        None => digits.insert(0, b'1'),
    }
}

impl Ord for Quotient {
    fn cmp(&self, other: &Quotient) -> Ordering {
        let crossed = |one: &Quotient, two: &Quotient| i128::from(one.numerator) * i128::from(two.denominator);
        match (self.denominator, other.denominator) {
            (0, 0) => self.numerator.cmp(&other.numerator),
            (0, _) => Ordering::Greater,
            (_, 0) => Ordering::Less,
            _ => crossed(self, other).cmp(&crossed(other, self)),
        }
    }
}

impl PartialOrd for Quotient {
    fn partial_cmp(&self, other: &Quotient) -> Option<Ordering> {
        Some(self.cmp(other))
    }
}

impl PartialEq for Quotient {
    fn eq(&self, other: &Quotient) -> bool {
        self.cmp(other) == Ordering::Equal
    }
}

impl Eq for Quotient {}

/// `{}` shows both numbers, `{:.2}` two decimal places, rounded a half away from 0. Any number of places is exact.
impl fmt::Display for Quotient {
    fn fmt(&self, f: &mut fmt::Formatter<'_>) -> fmt::Result {
        let places = match f.precision() {
            Some(places) if self.denominator != 0 => places,
            _ => return write!(f, "{}/{}", self.numerator, self.denominator),
        };
        let digits = self.digits(places);
        let nothing = digits.bytes().all(|it| it == b'0' || it == b'.');
        f.pad_integral(self.numerator >= 0 || nothing, "", &digits)
    }
}
