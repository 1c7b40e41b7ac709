//! Plain decimals, and what the library is handed for them: doubles, or whole units of gas.

/// What a reader has to write: digits, if need be with a sign before them and a point between them.
pub const EXPECTED: &str = "a number, as 31.7 or -0.5";
/// The same of gas that is counted in whole units.
pub const EXPECTED_GAS: &str =
    "Dth from 0.01 to 10000000.00 with at most two decimals, as 1500 or 1500.25";

/// A number as it was written, and its double; one too large for any is an infinity, which the library refuses.
#[derive(Clone, Copy, Debug, PartialEq)]
pub struct Decimal<'a> {
    pub text: &'a str,
    pub double: f64,
}

impl Decimal<'_> {
    /// The double nearest to what is written.
    pub fn degrees(text: &str) -> Option<Decimal<'_>> {
        shifted(text, 0)
    }

    /// The double nearest to as many Dth in units, hundredths of a Dth.
    pub fn dth(text: &str) -> Option<Decimal<'_>> {
        shifted(text, 2)
    }
}

/// The point is moved in the text, before the one conversion: that rounds once, as the rule of the back-cast has it. A
/// double times 100 would be rounded a second time, and 0.29 Dth be less than 29 units.
fn shifted(text: &str, places: u32) -> Option<Decimal<'_>> {
    if !is_plain(text) {
        return None;
    }
    let double = format!("{text}e{places}").parse().ok()?;
    Some(Decimal { text, double })
}

/// Dth in units, exactly: the point is moved in the text. None where there is a sign, a third decimal, or more than u64
/// can hold.
pub fn units(text: &str) -> Option<u64> {
    let (whole, part) = text.split_once('.').unwrap_or((text, "0"));
    let right = is_plain(text) && !text.starts_with(['-', '+']) && part.len() <= 2;
    let digits = format!("{whole}{part:0<2}");
    digits.parse().ok().filter(|_| right)
}

/// No exponent, no words for what is not finite, no comma; a point has digits on both sides.
fn is_plain(text: &str) -> bool {
    let size = text.strip_prefix(['-', '+']).unwrap_or(text);
    let (whole, part) = size.split_once('.').unwrap_or((size, "0"));
    let digits = |text: &str| !text.is_empty() && text.bytes().all(|b| b.is_ascii_digit());
    digits(whole) && digits(part)
}

#[cfg(test)]
mod tests {
    use super::*;

    /// Degrees and units of a plain decimal.
    fn doubles(text: &str) -> [f64; 2] {
        [Decimal::degrees, Decimal::dth].map(|read| read(text).expect("plain").double)
    }

    #[test]
    fn plain_decimals_are_read() {
        for (text, due) in [
            ("0", [0.0, 0.0]),
            ("-0", [-0.0, -0.0]),
            ("+0.0", [0.0, 0.0]),
            ("5", [5.0, 500.0]),
            ("-5", [-5.0, -500.0]),
            ("+5", [5.0, 500.0]),
            ("31.7", [31.7, 3170.0]),
            ("-3.50", [-3.5, -350.0]),
            ("0061.750", [61.75, 6175.0]),
            ("520.005", [520.005, 52000.5]),
            ("0.29", [0.29, 29.0]),
            ("-0.29", [-0.29, -29.0]),
        ] {
            // Bits tell -0 from 0.
            let [read, due] = [doubles(text), due].map(|pair| pair.map(f64::to_bits));
            assert_eq!(read, due, "{text}");
            assert_eq!(Decimal::dth(text).map(|number| number.text), Some(text));
        }
    }

    #[test]
    fn nothing_else_is_read() {
        let words = "- + . -. 5. .5 -.5 -5. +-5 --5 5- 1e3 1E3 1.5e-3 inf -inf infinity nan NaN 1,5 1,000.5 1.000.5 1_0 \
                     0x10 5° \u{2212}5 \u{663} \u{feff}5 five";
        let blanks = ["", " ", " 5", "5 ", "- 5", "5\n", "5\0"];
        for text in words.split(' ').chain(blanks) {
            assert_eq!(Decimal::degrees(text), None, "{text:?}");
            assert_eq!(Decimal::dth(text), None, "{text:?}");
        }
        let read = |word: &&str| Decimal::degrees(word).is_some();
        assert_eq!(EXPECTED.split(' ').filter(read).count(), 2, "the examples");
    }

    #[test]
    fn units_of_gas_are_exact() {
        for (text, due) in [
            ("0", 0),
            ("0.00", 0),
            ("0.01", 1),
            ("0.29", 29),
            ("1500", 150_000),
            ("1500.5", 150_050),
            ("1500.05", 150_005),
            ("1500.25", 150_025),
            ("007.10", 710),
            ("10000000.01", 1_000_000_001),
            // 2^53 + 1, which no double is.
            ("90071992547409.93", 9_007_199_254_740_993),
            ("184467440737095516.15", u64::MAX),
        ] {
            assert_eq!(units(text), Some(due), "{text}");
        }
        let words = "- + . 5. .5 -5 +5 -0 1.500 0.001 1e3 1.5e3 1,000 1.5.5 1_0 inf nan 0x10 \
                     \u{663} 184467440737095516.16 184467440737095517 99999999999999999999999";
        for text in words.split(' ').chain(["", " ", " 5", "5 ", "5\n", "5.\0"]) {
            assert_eq!(units(text), None, "{text:?}");
        }
        let examples = EXPECTED_GAS.split(' ').filter_map(units);
        assert_eq!(
            examples.collect::<Vec<_>>(),
            [1, 1_000_000_000, 150_000, 150_025]
        );
    }

    #[test]
    fn the_largest_double_and_beyond() {
        let largest = format!("{:.0}", f64::MAX);
        let least = format!("{:.1074}", f64::from_bits(1));
        assert_eq!(doubles(&largest), [f64::MAX, f64::INFINITY]);
        assert_eq!(
            doubles(&format!("-{largest}")),
            [f64::MIN, f64::NEG_INFINITY]
        );
        assert_eq!(doubles(&"9".repeat(400)), [f64::INFINITY; 2]);
        assert_eq!(doubles(&least).map(f64::to_bits), [1, 100]);
    }

    /// Whether no double lies nearer to `whole` / 10^`places`, and of two as near this is the even one. In integers: the
    /// double is `m` / 2^`e`, and the next ones are `m` - 1 and `m` + 1, or half as far down from a power of 2.
    fn is_nearest(double: f64, whole: u128, places: u32) -> bool {
        let e = 1_075 - (double.to_bits() >> 52) as u32;
        let m = u128::from(double.to_bits() & ((1 << 52) - 1) | 1 << 52);
        let one = 10u128.pow(places);
        let (written, found) = (whole << e, m * one);
        let distance = written.abs_diff(found);
        let half = match m == 1 << 52 && written < found {
            true => one / 2,
            false => one,
        };
        2 * distance < half || 2 * distance == half && m % 2 == 0
    }

    #[test]
    fn units_are_the_doubles_nearest_to_what_is_written() {
        let (mut drawn, mut otherwise) = (1u64, 0);
        for _ in 0..20_000 {
            // Knuth's generator.
            drawn = drawn.wrapping_mul(6_364_136_223_846_793_005);
            drawn = drawn.wrapping_add(1_442_695_040_888_963_407);
            let (places, digits) = ((drawn >> 8) as u32 % 6 + 1, (drawn >> 16) as u32 % 13);
            let one = 10u128.pow(places);
            let whole = one + u128::from(drawn >> 20) % 10u128.pow(digits);
            let width = places as usize;
            let text = format!("{}.{:0width$}", whole / one, whole % one);
            let [degrees, units] = doubles(&text);
            assert!(is_nearest(degrees, whole, places), "{text}");
            assert!(is_nearest(units, 100 * whole, places), "{text}");
            assert_eq!(doubles(&format!("-{text}")), [-degrees, -units]);
            otherwise += u32::from(degrees * 100.0 != units);
        }
        assert!(otherwise > 1_000, "only {otherwise} show the difference");
    }

    #[test]
    fn neighbours_are_not_nearest() {
        for (text, digits) in [("520.005", 520_005), ("1.001", 1_001), ("40.960", 40_960)] {
            let [_, units] = doubles(text);
            for (step, right) in [(-1, false), (0, true), (1, false)] {
                let double = f64::from_bits(units.to_bits().wrapping_add_signed(step));
                assert_eq!(is_nearest(double, 100 * digits, 3), right, "{text}");
            }
        }
    }
}
