//! A load curve as it was given. The library works out its back-casts.

use crate::decimal::Decimal;
use nedrulov::{BackCast, LoadCurve};

/// The load in Dth at the turning temperature and above it, and how much more it is for each degree below.
pub struct Curve<'a> {
    pub base: Decimal<'a>,
    pub slope: Decimal<'a>,
    pub turning: Decimal<'a>,
}

impl Curve<'_> {
    pub fn back_cast(&self, temperature: Decimal) -> BackCast {
        let curve = LoadCurve {
            base: self.base.double,
            slope: self.slope.double,
            turning: self.turning.double,
        };
        nedrulov::back_cast(curve, temperature.double)
    }

    /// The names of those that are too large for a double: with them every temperature is refused.
    pub fn not_finite(&self) -> Vec<&'static str> {
        let named = [
            ("base", self.base),
            ("slope", self.slope),
            ("turning", self.turning),
        ];
        let infinite = named.iter().filter(|(_, n)| !n.double.is_finite());
        infinite.map(|(name, _)| *name).collect()
    }
}

#[cfg(test)]
mod tests {
    use super::*;

    fn curve<'a>(base: &'a str, slope: &'a str, turning: &'a str) -> Curve<'a> {
        Curve {
            base: Decimal::dth(base).expect("plain"),
            slope: Decimal::dth(slope).expect("plain"),
            turning: Decimal::degrees(turning).expect("plain"),
        }
    }

    /// Number and units.
    fn answer(curve: &Curve, temperature: &str) -> (u64, u64) {
        let answer = curve.back_cast(Decimal::degrees(temperature).expect("plain"));
        (answer.number, answer.quantity)
    }

    #[test]
    fn the_library_answers() {
        let usual = curve("520", "61.75", "65");
        for (temperature, units) in [
            ("31.7", 257_627),
            ("65", 52_000),
            ("95", 52_000),
            ("-10", 515_125),
        ] {
            assert_eq!(answer(&usual, temperature), (0, units), "{temperature}");
        }
        // One degree below the turning temperature the slope alone makes the load; 0.29 Dth are 29 units.
        assert_eq!(answer(&curve("0", "0.29", "1"), "0"), (0, 29));
        assert_eq!(answer(&curve("0.29", "0", "1"), "0"), (0, 29));
        assert_eq!(answer(&curve("0", "10", "22.4"), "22.2"), (0, 199));
    }

    #[test]
    fn refusals() {
        assert_eq!(answer(&curve("-0.01", "1", "65"), "65"), (32, 0));
        assert_eq!(
            answer(&curve("10000000", "1", "65"), "65"),
            (0, 1_000_000_000)
        );
        assert_eq!(answer(&curve("10000000.01", "1", "65"), "65"), (32, 0));
        let nines = "9".repeat(400);
        assert_eq!(answer(&curve("520", "61.75", "65"), &nines), (31, 0));
        let finite: [&str; 0] = [];
        assert_eq!(curve("520", "61.75", "65").not_finite(), finite);
        for (curve, names) in [
            (curve(&nines, "1", "1"), &["base"][..]),
            (curve("1", &nines, "1"), &["slope"]),
            (curve(&nines, "1", &nines), &["base", "turning"]),
        ] {
            assert_eq!(curve.not_finite(), names);
            assert_eq!(answer(&curve, "0"), (31, 0));
            assert_eq!(answer(&curve, "99"), (31, 0));
        }
    }
}
