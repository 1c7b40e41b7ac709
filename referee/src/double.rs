//! Doubles by their bits: order, sum and product, without the machine's
//! floating-point operations. A sum or a product is formed exactly, in one
//! wide integer, and then rounded once, to nearest and ties to even.

use std::cmp::Ordering;

/// The least exponent of a finite double, also of 0 and the subnormals.
const LEAST: i32 = -1074;
/// The greatest exponent of a finite double.
const GREATEST: i32 = 971;
/// The bit that every significand has, but for those of 0 and the subnormals.
const LEADING: u64 = 1 << 52;

/// A double taken apart, or the result of an operation.
#[derive(Clone, Copy, Debug)]
pub enum Double {
    NotANumber,
    Infinite { negative: bool },
    Finite(Finite),
}

/// Plus or minus significand × 2^exponent.
#[derive(Clone, Copy, Debug)]
pub struct Finite {
    negative: bool,
    significand: u64,
    exponent: i32,
}

impl Double {
    pub fn of(value: f64) -> Double {
        let bits = value.to_bits();
        let negative = bits >> 63 == 1;
        let field = (bits >> 52 & 0x7ff) as i32;
        let fraction = bits & (LEADING - 1);
        let (significand, exponent) = match field {
            0x7ff if fraction == 0 => return Double::Infinite { negative },
            0x7ff => return Double::NotANumber,
            0 => (fraction, LEAST),
            _ => (LEADING | fraction, LEAST + field - 1),
        };
        Double::Finite(Finite {
            negative,
            significand,
            exponent,
        })
    }

    pub fn finite(self) -> Option<Finite> {
        match self {
            Double::Finite(number) => Some(number),
            _ => None,
        }
    }

    /// The sum. No finite number changes an infinity.
    pub fn plus(self, other: Finite) -> Double {
        let Double::Finite(own) = self else {
            return self;
        };
        let (size, other_size) = (own.size(), other.size());
        if own.negative == other.negative {
            return size.plus(other_size).rounded(own.negative);
        }
        match size.cmp(&other_size) {
            Ordering::Greater => size.minus(other_size).rounded(own.negative),
            Ordering::Less => other_size.minus(size).rounded(other.negative),
            Ordering::Equal => Wide::ZERO.rounded(false),
        }
    }

    /// The product. An infinity times 0 is not a number.
    pub fn times(self, other: Finite) -> Double {
        match self {
            Double::Finite(own) => {
                let product = u128::from(own.significand) * u128::from(other.significand);
                Wide::new(product, own.exponent + other.exponent)
                    .rounded(own.negative != other.negative)
            }
            Double::Infinite { negative } if other.significand != 0 => Double::Infinite {
                negative: negative != other.negative,
            },
            _ => Double::NotANumber,
        }
    }
}

impl Finite {
    pub const fn whole(number: u64) -> Finite {
        Finite {
            negative: false,
            significand: number,
            exponent: 0,
        }
    }

    /// The difference, which is the sum with the opposite number.
    pub fn minus(self, other: Finite) -> Double {
        Double::Finite(self).plus(Finite {
            negative: !other.negative,
            ..other
        })
    }

    /// Whether this number is less. The two zeros are equal.
    pub fn is_below(self, other: Finite) -> bool {
        let (size, other_size) = (self.size(), other.size());
        match (self.negative, other.negative) {
            (false, false) => size < other_size,
            (true, true) => size > other_size,
            (true, false) => size > Wide::ZERO || other_size > Wide::ZERO,
            (false, true) => false,
        }
    }

    /// The number without sign and fraction. It must be below 2^64.
    pub fn whole_part(self) -> u64 {
        self.size().0[WHOLE - 1]
    }

    fn size(self) -> Wide {
        Wide::new(self.significand.into(), self.exponent)
    }
}

/// 64-bit limbs before the point, for sizes below 2^2048.
const WHOLE: usize = 32;
/// 64-bit limbs behind the point, down to the bit of 2^-2176.
const FRACTION: usize = 34;

/// A number of 0 or more, as an integer with a point. Every double, sum and
/// product of two fits in: a product is below 2^2048 and has no bit below
/// that of 2^-2148. The highest limb comes first, so that the derived order
/// is that of the numbers.
#[derive(Clone, Copy, PartialEq, Eq, PartialOrd, Ord)]
struct Wide([u64; WHOLE + FRACTION]);

impl Wide {
    const ZERO: Wide = Wide([0; WHOLE + FRACTION]);

    /// number × 2^exponent, bit by bit.
    fn new(number: u128, exponent: i32) -> Wide {
        let mut wide = Wide::ZERO;
        for bit in 0..128 {
            if number >> bit & 1 == 1 {
                let (limb, place) = Wide::place(exponent + bit);
                wide.0[limb] |= 1 << place;
            }
        }
        wide
    }

    /// The limb that has the bit of 2^power, and its place there.
    fn place(power: i32) -> (usize, usize) {
        let from_the_end = (power + 64 * FRACTION as i32) as usize;
        let limb = WHOLE + FRACTION - 1 - from_the_end / 64;
        (limb, from_the_end % 64)
    }

    fn bit(&self, power: i32) -> u64 {
        let (limb, place) = Wide::place(power);
        self.0[limb] >> place & 1
    }

    /// The power of the highest bit that is set; none in 0.
    fn highest(&self) -> Option<i32> {
        let limb = self.0.iter().position(|&limb| limb != 0)?;
        let zeros = 64 * limb as i32 + self.0[limb].leading_zeros() as i32;
        Some(64 * WHOLE as i32 - 1 - zeros)
    }

    fn plus(mut self, other: Wide) -> Wide {
        let mut carry = 0;
        for (limb, add) in self.0.iter_mut().zip(other.0).rev() {
            let sum = u128::from(*limb) + u128::from(add) + carry;
            *limb = sum as u64;
            carry = sum >> 64;
        }
        self
    }

    /// The other is not the larger one.
    fn minus(mut self, other: Wide) -> Wide {
        let mut borrow = false;
        for (limb, take) in self.0.iter_mut().zip(other.0).rev() {
            let (rest, first) = limb.overflowing_sub(take);
            let (rest, second) = rest.overflowing_sub(borrow.into());
            *limb = rest;
            borrow = first || second;
        }
        self
    }

    /// The nearest double; of two equally near, the one with an even
    /// significand. From halfway past the largest finite one on, an infinity.
    fn rounded(self, negative: bool) -> Double {
        // 53 bits from the highest on, but none below the least exponent's.
        let exponent = match self.highest() {
            Some(power) => LEAST.max(power - 52),
            None => LEAST,
        };
        let kept = (exponent..exponent + 53)
            .rev()
            .fold(0, |kept, power| kept << 1 | self.bit(power));
        let rest = self.minus(Wide::new(kept.into(), exponent));
        let half = Wide::new(1, exponent - 1);
        let up = match rest.cmp(&half) {
            Ordering::Less => 0,
            Ordering::Equal => kept & 1,
            Ordering::Greater => 1,
        };
        let (significand, exponent) = if kept + up == 2 * LEADING {
            (LEADING, exponent + 1)
        } else {
            (kept + up, exponent)
        };
        if exponent > GREATEST {
            Double::Infinite { negative }
        } else {
            Double::Finite(Finite {
                negative,
                significand,
                exponent,
            })
        }
    }
}

#[cfg(test)]
mod tests {
    use super::*;

    /// The double put together again; any NaN is one and the same.
    fn bits(double: Double) -> u64 {
        let (negative, rest) = match double {
            Double::NotANumber => (false, f64::NAN.to_bits()),
            Double::Infinite { negative } => (negative, 0x7ff << 52),
            Double::Finite(number) => {
                let field = (number.exponent - LEAST) as u64;
                // The leading bit makes the field one more.
                (number.negative, (field << 52) + number.significand)
            }
        };
        u64::from(negative) << 63 | rest
    }

    fn machine(value: f64) -> u64 {
        if value.is_nan() {
            f64::NAN.to_bits()
        } else {
            value.to_bits()
        }
    }

    fn finite(value: f64) -> Finite {
        Double::of(value).finite().unwrap()
    }

    /// The operations on a and b are the machine's, bit for bit.
    fn compare(a: f64, b: f64) {
        assert_eq!(bits(Double::of(a)), machine(a));
        assert_eq!(Double::of(a).finite().is_some(), a.is_finite());
        if !b.is_finite() {
            return;
        }
        let own = Double::of(a);
        assert_eq!(bits(own.plus(finite(b))), machine(a + b), "{a:e} + {b:e}");
        assert_eq!(bits(own.times(finite(b))), machine(a * b), "{a:e} * {b:e}");
        if let Some(own) = own.finite() {
            assert_eq!(bits(own.minus(finite(b))), machine(a - b), "{a:e} - {b:e}");
            assert_eq!(own.is_below(finite(b)), a < b, "{a:e} < {b:e}");
        }
        if a.abs() < 1e19 {
            assert_eq!(finite(a).whole_part(), a.abs().floor() as u64, "{a:e}");
        }
    }

    #[test]
    fn at_the_edges() {
        let sizes = [
            0,                     // 0
            1,                     // the smallest subnormal
            2,                     // twice that
            (1 << 52) - 1,         // the largest subnormal
            1 << 52,               // the smallest normal
            (1 << 52) + 1,         // the next one
            1 << 53,               // twice the smallest normal
            0x1ff << 52,           // about 2^-512
            0x3ca << 52,           // 2^-53
            (0x3ca << 52) + 1,     // just above 2^-53
            0x3cb << 52,           // 2^-52
            0x3fe << 52,           // 0.5
            (0x3ff << 52) - 1,     // just below 1
            0x3ff << 52,           // 1
            (0x3ff << 52) + 1,     // just above 1
            0x3ff8 << 48,          // 1.5
            (0x434 << 52) - 1,     // 2^54 - 2
            0x5ff << 52,           // 2^512
            0x7c8f_ffff_ffff_ffff, // just below 2^970
            0x7c9 << 52,           // 2^970, half of the last step
            0x7fe << 52,           // 2^1023
            (0x7ff << 52) - 1,     // the largest
            0x7ff << 52,           // infinity
            (0x7ff << 52) + 1,     // signalling NaN
            0x7ff8 << 48,          // quiet NaN
        ];
        let all = || sizes.iter().flat_map(|&size| [size, size | 1 << 63]);
        for a in all() {
            for b in all() {
                compare(f64::from_bits(a), f64::from_bits(b));
            }
        }
    }

    #[test]
    fn anywhere() {
        let mut state: u64 = 0x9e37_79b9_7f4a_7c15;
        let mut next = || {
            state ^= state << 13;
            state ^= state >> 7;
            state ^= state << 17;
            state
        };
        for round in 0..200_000 {
            let (a, mut b) = (next(), next());
            match round % 4 {
                // Exponents up to 64 apart, so that the bits meet.
                0 => {
                    let field = (a >> 52 & 0x7ff).saturating_sub(b >> 52 & 0x3f);
                    b = b & !(0x7ff << 52) | field << 52;
                }
                // Few bits in both, so that there are ties.
                1 => {
                    let field = (a >> 52 & 0x7ff).saturating_sub(b >> 52 & 0x3f);
                    b = b & 1 << 63 | field << 52 | b & b >> 9 & b >> 21 & (LEADING - 1);
                }
                // Products around the smallest doubles.
                2 => {
                    let field = 970 + (b >> 52 & 0x7f) as i64 - (a >> 52 & 0x7ff) as i64;
                    b = b & !(0x7ff << 52) | (field.clamp(0, 0x7fe) as u64) << 52;
                }
                _ => {}
            }
            compare(f64::from_bits(a), f64::from_bits(b));
        }
    }
}
