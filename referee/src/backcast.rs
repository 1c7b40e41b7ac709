//! The back-cast of a day from its temperature, by a load curve.
//!
//! Each of the three operations is rounded once to a double. The machine's
//! own operations, comparisons and casts are not used: what they should give
//! is worked out on the bits, in the module of doubles.

use crate::double::{Double, Finite};
use crate::number;

/// The most that a load may be, in units.
const LOAD_MAX: u64 = 1_000_000_000;

/// A supplier's load by temperature.
#[derive(Clone, Copy, Debug)]
pub struct Curve {
    /// The load at the turning temperature and above, in units.
    pub base: f64,
    /// Units for each degree below the turning temperature.
    pub slope: f64,
    /// On the scale of the temperature.
    pub turning: f64,
}

/// The answer.
#[derive(Clone, Copy, PartialEq, Eq, Debug)]
pub struct BackCast {
    pub number: u64,
    /// 0 with a refusal.
    pub units: u64,
}

impl BackCast {
    fn refused(number: u64) -> BackCast {
        BackCast { number, units: 0 }
    }
}

/// The whole units in the load at this temperature.
pub fn back_cast(curve: Curve, temperature: f64) -> BackCast {
    let four = [curve.base, curve.slope, curve.turning, temperature];
    let [Some(base), Some(slope), Some(turning), Some(temperature)] =
        four.map(|value| Double::of(value).finite())
    else {
        return BackCast::refused(number::NOT_FINITE);
    };
    match units_in(load(base, slope, turning, temperature)) {
        Some(units) => BackCast {
            number: number::ACCEPTED,
            units,
        },
        None => BackCast::refused(number::LOAD),
    }
}

fn load(base: Finite, slope: Finite, turning: Finite, temperature: Finite) -> Double {
    if temperature.is_below(turning) {
        turning.minus(temperature).times(slope).plus(base)
    } else {
        Double::Finite(base)
    }
}

/// The load rounded down, if it is a number from 0 to 10^9. Minus 0 is 0.
fn units_in(load: Double) -> Option<u64> {
    let load = load.finite()?;
    let fits = !load.is_below(Finite::whole(0)) && !Finite::whole(LOAD_MAX).is_below(load);
    fits.then(|| load.whole_part())
}
