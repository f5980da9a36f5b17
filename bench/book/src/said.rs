//! An answer in a form that every contestant's can be brought to, so that they can be compared. Quotients are divided as Decimals.
use rust_decimal::Decimal;

#[derive(Debug, PartialEq)]
pub enum Said {
    Nothing,
    Number(Decimal),
    Levels(Vec<(u32, u32)>),
}

pub fn number(value: Option<impl Into<Decimal>>) -> Said {
    value.map_or(Said::Nothing, |it| Said::Number(it.into()))
}

pub fn ratio(value: Option<(i64, u64)>) -> Said {
    value.map_or(Said::Nothing, |(numerator, denominator)| Said::Number(Decimal::from(numerator) / Decimal::from(denominator)))
}

pub fn levels(value: Option<Vec<(u32, u32)>>) -> Said {
    value.map_or(Said::Nothing, Said::Levels)
}
