//! Quotients: equal by value, ordered, rounded and shown.
use std::cmp::Ordering;
use wermazul::Quotient;

fn over(numerator: i64, denominator: u64) -> Quotient {
    Quotient { numerator, denominator }
}

#[test]
fn equal_by_value() {
    assert_eq!(over(101, 1), over(202, 2));
    assert_eq!(over(0, 1), over(0, 7));
    assert_eq!(over(-5, 25), over(-1, 5));
    assert_ne!(over(1, 3), over(-1, 3));
    assert_ne!(over(i64::MAX, u64::MAX), over(i64::MAX - 1, u64::MAX - 2));
    assert_eq!(over(i64::MIN, u64::MAX).cmp(&over(i64::MIN, u64::MAX)), Ordering::Equal);
}

#[test]
fn ordered() {
    let mut all = [over(1, 0), over(713, 7), over(-1, 3), over(201, 2), over(i64::MIN, 1), over(0, 9), over(-2, 3), over(i64::MAX, 1)];
    all.sort();
    let expected = [(i64::MIN, 1), (-2, 3), (-1, 3), (0, 9), (201, 2), (713, 7), (i64::MAX, 1), (1, 0)];
    assert_eq!(all.map(|it| (it.numerator, it.denominator)), expected);
    assert!(over(i64::MAX, u64::MAX) < over(i64::MAX, u64::MAX - 1));
}

#[test]
fn rounded_to_places() {
    assert_eq!([0, 1, 2].map(|places| over(201, 2).rounded(places)), [Some(101), Some(1005), Some(10050)]);
    assert_eq!([0, 1, 2].map(|places| over(-201, 2).rounded(places)), [Some(-101), Some(-1005), Some(-10050)]);
    assert_eq!(over(713, 7).rounded(4), Some(1_018_571));
    assert_eq!(over(i64::MIN, 1).rounded(19), Some(i128::from(i64::MIN) * 10_i128.pow(19)));
    assert_eq!((over(i64::MIN, 1).rounded(20), over(1, 1).rounded(40), over(1, 0).rounded(1)), (None, None, None));
}

#[test]
fn shown() {
    let half = over(201, 2);
    assert_eq!(half.to_string(), "201/2");
    assert_eq!(format!("{:.0} {:.1} {:.3}", half, half, half), "101 100.5 100.500");
    assert_eq!(format!("{:.2} {:.2}", over(-1, 3), over(-1, 1000)), "-0.33 0.00");
    assert_eq!(format!("{:.2} {:.0}", over(1999, 200), over(19, 2)), "10.00 10");
    assert_eq!(format!("{:8.2}|{:+.1}|{:08.2}", over(713, 7), half, over(-1, 3)), "  101.86|+100.5|-0000.33");
    assert_eq!(format!("{:.30}", over(1, 7)), "0.142857142857142857142857142857");
    assert_eq!(format!("{:.1}", over(i64::MIN, u64::MAX)), "-0.5");
    assert_eq!(format!("{:.1}", over(1, 0)), "1/0");
}

#[test]
fn nearest_f64() {
    assert_eq!(over(201, 2).to_f64(), 100.5);
    assert_eq!(over(-1, 3).to_f64(), -1.0 / 3.0);
    assert_eq!(over(0, 5).to_f64(), 0.0);
    assert_eq!((over(1, u64::MAX).to_f64(), over(i64::MIN, 1).to_f64()), (2_f64.powi(-64), -(2_f64.powi(63))));
    assert!(over(1, 0).to_f64().is_infinite() && over(0, 0).to_f64().is_nan());
    // As f64 the numerator would be rounded to 2^53 first, and the quotient then be 3002399751580330.5.
    assert_eq!(over((1 << 53) + 1, 3).to_f64(), 3_002_399_751_580_331.0);
    assert_eq!(over((1 << 53) + 1, 1).to_f64(), 9_007_199_254_740_992.0);
    assert_eq!(over((1 << 53) + 3, 1).to_f64(), 9_007_199_254_740_996.0);
}

/// Whole numbers above 2^53, over 1: the nearest f64 is the one that the conversion gives.
#[test]
fn nearest_f64_of_whole_numbers() {
    let mut number: i64 = 0x1234_5678_9ABC_DEF1;
    for _ in 0..1000 {
        number = number.wrapping_mul(6_364_136_223_846_793_005).wrapping_add(1_442_695_040_888_963_407);
        let (halved, tripled) = (over(number, 2).to_f64(), i128::from(number / 3) * 3);
        assert_eq!(over(number, 1).to_f64(), number as f64);
        assert_eq!(halved, number as f64 / 2.0);
        assert_eq!(over(tripled as i64, 3).to_f64(), (tripled / 3) as f64);
    }
}
