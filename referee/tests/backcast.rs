//! The back-cast: its bounds, whole numbers, and the machine's own doubles.

mod common;

use common::Random;
use referee::{back_cast, BackCast, Curve};

const MAX: f64 = f64::MAX;
/// The smallest subnormal.
const TINY: f64 = f64::from_bits(1);
const BILLION: f64 = 1e9;

/// Number and units.
fn answer(base: f64, slope: f64, turning: f64, temperature: f64) -> (u64, u64) {
    let curve = Curve {
        base,
        slope,
        turning,
    };
    let BackCast { number, units } = back_cast(curve, temperature);
    (number, units)
}

/// The rule in the machine's arithmetic, which rounds each operation once and
/// fuses none.
fn by_machine(base: f64, slope: f64, turning: f64, temperature: f64) -> (u64, u64) {
    let four = [base, slope, turning, temperature];
    if !four.iter().all(|value| value.is_finite()) {
        return (31, 0);
    }
    let load = if temperature < turning {
        let difference = turning - temperature;
        let product = slope * difference;
        base + product
    } else {
        base
    };
    if (0.0..=BILLION).contains(&load) {
        (0, load.floor() as u64)
    } else {
        (32, 0)
    }
}

/// 2^power.
fn two(power: i32) -> f64 {
    f64::from_bits(((power + 1_023) as u64) << 52)
}

#[test]
fn around_the_turning_temperature() {
    // 65 less the next double below is 2^-46, a whole unit at this slope.
    let slope = two(46);
    assert_eq!(65.0 - 65f64.next_down(), two(-46));
    assert_eq!(answer(100.0, slope, 65.0, 65.0), (0, 100));
    assert_eq!(answer(100.0, slope, 65.0, 65f64.next_down()), (0, 101));
    assert_eq!(answer(100.0, slope, 65.0, 65f64.next_up()), (0, 100));

    // From it on nothing overflows. (At it the three operations would give the
    // base too, so no input can tell whether they are done there.)
    assert_eq!(answer(100.0, MAX, 65.0, 65.0), (0, 100));
    assert_eq!(answer(100.0, MAX, 65.0, 66.0), (0, 100));
    assert_eq!(answer(100.0, MAX, -MAX, MAX), (0, 100));
    assert_eq!(answer(100.0, MAX, 65.0, 64.0), (32, 0));

    // Between the zeros nothing is below; a subnormal is.
    assert_eq!(answer(0.0, -1.0, 0.0, -0.0), (0, 0));
    assert_eq!(answer(0.0, -1.0, -0.0, 0.0), (0, 0));
    assert_eq!(answer(0.0, -1.0, 0.0, -TINY), (32, 0));
    assert_eq!(answer(0.0, -1.0, TINY, -0.0), (32, 0));
    assert_eq!(answer(0.0, -1.0, -TINY, -2.0 * TINY), (32, 0));
    assert_eq!(answer(0.0, -1.0, -2.0 * TINY, -TINY), (0, 0));
    assert_eq!(answer(100.0, 1.0, 65.0, -0.0), (0, 165));
}

#[test]
fn loads_at_their_bounds() {
    let below_one = 1f64.next_down();
    let cases = [
        (-0.5, (32, 0)),
        (-TINY, (32, 0)),
        (-0.0, (0, 0)),
        (0.0, (0, 0)),
        (TINY, (0, 0)),
        (below_one, (0, 0)),
        (1.0, (0, 1)),
        (1.5, (0, 1)),
        (2f64.next_down(), (0, 1)),
        (BILLION.next_down(), (0, 999_999_999)),
        (BILLION, (0, 1_000_000_000)),
        (BILLION.next_up(), (32, 0)),
        (BILLION + 0.5, (32, 0)),
        (MAX, (32, 0)),
        (-MAX, (32, 0)),
    ];
    for (load, expected) in cases {
        // As the base itself.
        assert_eq!(answer(load, 7.0, 65.0, 65.0), expected, "{load:e}");
        // As the product, the base being 0.
        assert_eq!(answer(0.0, load, 65.0, 64.0), expected, "{load:e}");
        assert_eq!(answer(-0.0, load, 65.0, 64.0), expected, "{load:e}");
        // As the sum with a slope that adds nothing.
        assert_eq!(answer(load, 0.0, 65.0, -65.0), expected, "{load:e}");
        assert_eq!(answer(load, -0.0, 65.0, -65.0), expected, "{load:e}");
    }
    // As the sum of two numbers.
    assert_eq!(answer(-1.0, 0.5, 65.0, 64.0), (32, 0));
    assert_eq!(answer(5.0, -5.0, 65.0, 64.0), (0, 0));
    assert_eq!(answer(1.0, -two(-53), 65.0, 64.0), (0, 0));
    assert_eq!(answer(BILLION, -two(-23), 65.0, 64.0), (0, 999_999_999));
    assert_eq!(answer(BILLION - 20.0, 10.0, 65.0, 63.0), (0, 1_000_000_000));
    assert_eq!(answer(BILLION, two(-23), 65.0, 64.0), (32, 0));
}

#[test]
fn the_rounded_load_counts() {
    // Steps at 10^9 are 2^-23. Less than half of one, or just half, is lost.
    assert_eq!(answer(BILLION, two(-24), 65.0, 64.0), (0, 1_000_000_000));
    assert_eq!(answer(BILLION, -two(-25), 65.0, 64.0), (0, 1_000_000_000));
    assert_eq!(answer(3.0, -two(-60), 65.0, 64.0), (0, 3));
    assert_eq!(answer(0.0, two(-100), two(100), TINY), (0, 1));
    // A half of minus the smallest subnormal is -0, three quarters are not.
    assert_eq!(answer(0.0, -TINY, 1.0, 0.5), (0, 0));
    assert_eq!(answer(0.0, -TINY, 1.0, 0.25), (32, 0));
    // Subnormal numbers on the way count: 2^-1023 × 2^1023.
    let smallest_normal = f64::MIN_POSITIVE;
    let turning = 1.5 * smallest_normal;
    assert_eq!(answer(0.0, two(1023), turning, smallest_normal), (0, 1));
    // Digits are not doubles.
    assert_eq!(answer(0.0, 0.29, 100.0, 0.0), (0, 28));
    assert_eq!(answer(0.0, 1_000.0, 22.4, 22.2), (0, 199));
}

#[test]
fn signs_of_the_curve() {
    assert_eq!(answer(1_000.0, -3.0, 65.0, 55.0), (0, 970));
    assert_eq!(answer(1_000.0, -3.0, 65.0, -300.0), (32, 0));
    assert_eq!(answer(-1_000.0, 300.0, 65.0, 55.0), (0, 2_000));
    assert_eq!(answer(-1_000.0, 300.0, 65.0, 65.0), (32, 0));
    assert_eq!(answer(0.5, 2.25, -5.0, -7.0), (0, 5));
}

#[test]
fn infinite_on_the_way() {
    // The difference overflows; times 0 it is not a number.
    for slope in [1.0, -1.0, 0.0, -0.0, TINY, -TINY, MAX] {
        assert_eq!(answer(7.0, slope, MAX, -MAX), (32, 0), "{slope:e}");
    }
    // Halfway past the largest double it does, before that it does not.
    assert_eq!(answer(7.0, 0.0, MAX, -two(970)), (32, 0));
    assert_eq!(answer(7.0, 0.0, MAX, -two(970).next_down()), (0, 7));
    // The product overflows. The base is finite, and so no infinity can meet
    // its opposite: the load stays infinite.
    for base in [0.0, MAX, -MAX] {
        assert_eq!(answer(base, two(1000), two(100), 0.0), (32, 0));
        assert_eq!(answer(base, -two(1000), two(100), 0.0), (32, 0));
    }
    // The sum overflows, or comes to 0.
    assert_eq!(answer(MAX, MAX, 65.0, 64.0), (32, 0));
    assert_eq!(answer(-MAX, -MAX, 65.0, 64.0), (32, 0));
    assert_eq!(answer(-MAX, MAX, 65.0, 64.0), (0, 0));
}

#[test]
fn not_finite() {
    let patterns = [
        0x7ff8_0000_0000_0000, // quiet
        0x7ff0_0000_0000_0001, // signalling
        0xfff8_0000_0000_0000, // negative
        0xfff0_0000_0000_0001, // negative and signalling
        0x7ff8_0000_dead_beef, // with a payload
        0xfff7_ffff_ffff_ffff, // signalling, all of the payload set
        0x7fff_ffff_ffff_ffff,
        0xffff_ffff_ffff_ffff,
        0x7ff0_0000_0000_0000, // infinity
        0xfff0_0000_0000_0000, // minus infinity
    ];
    // Alone accepted below and above the turning temperature, refused by 32,
    // and refused as the difference, product or sum overflows.
    let others = [
        [1.0, 1.0, 65.0, 60.0],
        [1.0, 1.0, 65.0, 70.0],
        [-1.0, 1.0, 65.0, 70.0],
        [BILLION, 1.0, 65.0, 60.0],
        [0.0, 0.0, MAX, -MAX],
        [1.0, MAX, 65.0, 60.0],
        [MAX, MAX, 65.0, 64.0],
    ];
    for four in others {
        let [base, slope, turning, temperature] = four;
        assert_ne!(answer(base, slope, turning, temperature).0, 31);
        for pattern in patterns {
            // Every choice of one to four of the inputs.
            for which in 1..16 {
                let mut four = four;
                for (place, value) in four.iter_mut().enumerate() {
                    if which >> place & 1 == 1 {
                        *value = f64::from_bits(pattern);
                    }
                }
                let [base, slope, turning, temperature] = four;
                let given = answer(base, slope, turning, temperature);
                assert_eq!(given, (31, 0), "{pattern:x} {which}");
            }
        }
    }
}

/// Whole numbers, where doubles are exact. The difference is at most 20,000,
/// so the product is at most 2 × 10^8 in size and the load at most 3 × 10^8.
/// Nothing on the way comes near 2^53, and 10^9 is never exceeded: what is
/// refused is a negative load.
fn compare_whole(base: i64, slope: i64, turning: i64, temperature: i64) -> bool {
    let load = if temperature < turning {
        base + slope * (turning - temperature)
    } else {
        base
    };
    assert!(load.abs() <= 300_000_000);
    let expected = match u64::try_from(load) {
        Ok(units) => (0, units),
        Err(_) => (32, 0),
    };
    let [b, s, t, f] = [base, slope, turning, temperature].map(|number| number as f64);
    let given = answer(b, s, t, f);
    assert_eq!(given, expected, "{base} {slope} {turning} {temperature}");
    load >= 0
}

#[test]
fn whole_numbers() {
    let bases = [-100_000_000, -99_999_999, -1, 0, 1, 100_000_000];
    let others = [-10_000, -9_999, -5_000, -1, 0, 1, 65, 5_000, 10_000];
    for base in bases {
        for slope in others {
            for turning in others {
                for temperature in others {
                    compare_whole(base, slope, turning, temperature);
                }
            }
        }
    }
    let mut random = Random::new(31);
    let mut accepted = 0;
    for _ in 0..100_000 {
        let mut whole = |most: u64| random.below(2 * most + 1) as i64 - most as i64;
        let (base, slope, turning) = (whole(100_000_000), whole(10_000), whole(10_000));
        accepted += u64::from(compare_whole(base, slope, turning, whole(10_000)));
        // Loads around 0.
        let temperature = whole(10_000).min(turning);
        let base = (slope * (temperature - turning)).clamp(-99_999_998, 99_999_998) + whole(2);
        accepted += u64::from(compare_whole(base, slope, turning, temperature));
    }
    assert!((80_000..150_000).contains(&accepted), "{accepted}");
}

/// A double with this exponent and sign by chance; its bits are few, many, or
/// just any, so that ties and cancellation are common.
fn double(random: &mut Random, exponent: i64) -> f64 {
    let fraction = match random.below(6) {
        0 => 0,
        1 => random.below(4),
        2 => 1 << random.below(52),
        3 => !random.below(4),
        4 => random.next() & random.next() & random.next(),
        _ => random.next(),
    } & ((1 << 52) - 1);
    let field = (exponent + 1023).clamp(0, 0x7fe) as u64;
    f64::from_bits(random.below(2) << 63 | field << 52 | fraction)
}

/// The same double, or one up to three steps away.
fn nudged(random: &mut Random, value: f64) -> f64 {
    let up = random.chance(2);
    (0..random.below(4)).fold(value, |value, _| match up {
        true => value.next_up(),
        false => value.next_down(),
    })
}

#[test]
fn any_bits() {
    let mut random = Random::new(32);
    for _ in 0..200_000 {
        let mut any = || f64::from_bits(random.next());
        let (base, slope, turning, temperature) = (any(), any(), any(), any());
        assert_eq!(
            answer(base, slope, turning, temperature),
            by_machine(base, slope, turning, temperature),
            "{base:e} {slope:e} {turning:e} {temperature:e}"
        );
    }
}

#[test]
fn near_each_other() {
    let mut random = Random::new(33);
    let (mut accepted, mut positive, mut fused) = (0, 0, 0);
    for _ in 0..500_000 {
        // Temperatures up to 70 binary places apart, also at both ends.
        let place = match random.below(10) {
            0 => -1_023 + random.below(60) as i64,
            1 => 1_023 - random.below(60) as i64,
            _ => random.below(80) as i64 - 40,
        };
        let turning = double(&mut random, place);
        let temperature = if random.chance(4) {
            nudged(&mut random, turning)
        } else {
            let apart = random.below(70) as i64;
            double(&mut random, place - apart)
        };
        // A slope that brings the product near the loads that pass, or not.
        let product_place = match random.below(10) {
            0 => random.below(2_200) as i64 - 1_100,
            1 => -1_074 + random.below(60) as i64,
            2 => 40 + random.below(30) as i64,
            _ => random.below(34) as i64,
        };
        let slope = double(&mut random, product_place - place);
        let product = slope * (turning - temperature);
        // The load: the base alone, a small sum of large numbers, about 10^9.
        let base = match random.below(6) {
            0 => double(&mut random, 31),
            1 => nudged(&mut random, -product),
            2 => nudged(&mut random, BILLION - product),
            3 => {
                let whole = random.below(40) as f64;
                nudged(&mut random, whole - product)
            }
            4 => {
                let place = random.below(34) as i64 - 4;
                double(&mut random, place) - product
            }
            _ => {
                let apart = random.below(120) as i64 - 60;
                double(&mut random, product_place + apart)
            }
        };
        let given = answer(base, slope, turning, temperature);
        assert_eq!(
            given,
            by_machine(base, slope, turning, temperature),
            "{base:e} {slope:e} {turning:e} {temperature:e}"
        );
        accepted += u64::from(given.0 == 0);
        positive += u64::from(given.1 > 0);
        if temperature < turning && given.0 == 0 {
            let load = slope.mul_add(turning - temperature, base);
            fused += u64::from(load.floor() != given.1 as f64);
        }
    }
    // Enough of the interesting ones were among them.
    assert!(accepted > 100_000, "{accepted}");
    assert!(positive > 80_000, "{positive}");
    assert!(fused > 3_000, "{fused}");
}

#[test]
fn not_fused() {
    // (2^27 + 1)^2 is 2^54 + 2^28 + 1; rounded, the last 1 is lost.
    let root = two(27) + 1.0;
    assert_eq!(answer(-two(54), root, root, 0.0), (0, 268_435_456));
    assert_eq!(root.mul_add(root, -two(54)), 268_435_457.0);
    // The double nearest to a third is less than it; times 3 it rounds to 1.
    let third = 1.0 / 3.0;
    assert_eq!(answer(-1.0, third, 3.0, 0.0), (0, 0));
    assert!(third.mul_add(3.0, -1.0) < 0.0);
}

#[test]
fn down_and_not_to_nearest() {
    for (base, nearest) in [(1.75, 2.0), (0.99, 1.0), (999_999_999.5, BILLION)] {
        assert_eq!(f64::round(base), nearest);
        assert_eq!(answer(base, 1.0, 65.0, 65.0), (0, nearest as u64 - 1));
    }
    assert_eq!(answer(0.75, 1.0, 65.0, 64.0), (0, 1));
    // Nor toward 0: that would let this load pass.
    assert_eq!(answer(-0.5, 1.0, 65.0, 65.0), (32, 0));
}

#[test]
fn the_difference_is_rounded_once() {
    // 1 + 2^-53 is halfway between two doubles and rounds to 1, the even one.
    let slope = 3.0 * two(51);
    let base = 7.0 - slope;
    let unrounded = slope.mul_add(1.0, slope * two(-53)) + base;
    assert_eq!(answer(base, slope, 1.0, -two(-53)), (0, 7));
    assert_eq!(unrounded, 8.0);

    // 1 + 2^-53 + 2^-70 is past halfway and rounds up. Rounded to 64 bits
    // first, it would come to lie halfway, and then go down to 1.
    let slope = two(52);
    let base = 5.0 - slope;
    let temperature = -two(-53) - two(-70);
    let rounded_twice = slope * 1.0 + base;
    assert_eq!(answer(base, slope, 1.0, temperature), (0, 6));
    assert_eq!(rounded_twice, 5.0);
}

#[test]
fn a_plausible_curve() {
    // 52,000.5 + 6,175.25 × (65 - f)
    for (temperature, units) in [
        (-10.0, 515_144),
        (0.0, 453_391),
        (31.7, 257_636),
        (32.5, 252_696),
        (64.9, 52_618),
        (65.0, 52_000),
        (95.0, 52_000),
    ] {
        let given = answer(52_000.5, 6_175.25, 65.0, temperature);
        assert_eq!(given, (0, units), "{temperature}");
    }
}
