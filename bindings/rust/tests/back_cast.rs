//! Back-casts through the Rust door, held to the table that the C door is held to.
use nedrulov::{back_cast, BackCast, LoadCurve};

const TABLE: &str = include_str!("../../../tests/door/back_casts.txt");

#[test]
fn the_table() {
    let mut cases = 0;
    for line in TABLE.lines() {
        let words: Vec<&str> = line.split(' ').collect();
        let double = |at: usize| f64::from_bits(u64::from_str_radix(words[at], 16).unwrap());
        let curve = LoadCurve { base: double(0), slope: double(1), turning: double(2) };
        let expected = BackCast { number: words[4].parse().unwrap(), quantity: words[5].parse().unwrap() };
        assert_eq!(back_cast(curve, double(3)), expected, "{line}");
        cases += 1;
    }
    assert!(cases > 100, "{cases}");
}

/// 520.00 Dth, and 61.75 more for each degree below 65.
#[test]
fn members_and_units() {
    let curve = LoadCurve { base: 52_000.0, slope: 6_175.0, turning: 65.0 };
    assert_eq!(back_cast(curve, 64.0), BackCast { number: 0, quantity: 58_175 });
    assert_eq!(back_cast(curve, 80.0), BackCast { number: 0, quantity: 52_000 });
    assert_eq!(back_cast(curve, f64::NAN), BackCast { number: 31, quantity: 0 });
    assert_eq!(back_cast(curve, -200_000.0), BackCast { number: 32, quantity: 0 });
}
