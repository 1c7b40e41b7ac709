//! Cases (f): back-casts of four doubles, by the library, by the referee and, of whole numbers, by integers.

use crate::random::Random;
use crate::run::{same, Run, Same};

/// Base, slope, turning temperature and temperature.
type Four = [f64; 4];

const NAMES: [&str; 4] = ["base", "slope", "turning", "temperature"];
const MOST: f64 = 1e9;

/// Number and units.
type Answer = (u64, u64);

pub fn case(random: &mut Random, run: &mut Run) -> Same {
    for _ in 0..40 {
        let any = std::array::from_fn(|_| f64::from_bits(random.next()));
        compare(run, "any bits", any)?;
        let spoilt = spoilt(random);
        compare(run, "numbers and others", spoilt)?;
        let edge = at_an_edge(random);
        compare(run, "at an edge", edge)?;
        let near = near(random);
        compare(run, "sums that round", near)?;
        whole(random, run)?;
    }
    Ok(())
}

fn library([base, slope, turning, temperature]: Four) -> Answer {
    let curve = nedrulov::LoadCurve {
        base,
        slope,
        turning,
    };
    let answer = nedrulov::back_cast(curve, temperature);
    (answer.number, answer.quantity)
}

fn referee([base, slope, turning, temperature]: Four) -> Answer {
    let curve = referee::Curve {
        base,
        slope,
        turning,
    };
    let answer = referee::back_cast(curve, temperature);
    (answer.number, answer.units)
}

fn compare(run: &mut Run, sort: &'static str, four: Four) -> Result<(), String> {
    let bytes = four.map(f64::to_bits).map(u64::to_be_bytes);
    run.holds(None, bytes.as_flattened());
    let answer = library(four);
    same("back-cast", &answer, &referee(four))?;
    count(run, sort, four, answer);
    Ok(())
}

/// What was met, by the machine's own doubles.
fn count(run: &mut Run, sort: &'static str, four: Four, (number, units): Answer) {
    for (column, of) in [("0", 0), ("31", 31), ("32", 32)] {
        run.reached.event(sort, column, number == of);
    }
    match number {
        31 => count_others(run, four),
        0 => {
            count_load(run, four);
            count_accepted(run, four, units);
        }
        _ => count_load(run, four),
    }
}

/// Which of the four is no number, where one alone is none.
fn count_others(run: &mut Run, four: Four) {
    let others = four.map(|value| !value.is_finite());
    let alone = others.iter().filter(|other| **other).count() == 1;
    for (name, other) in NAMES.into_iter().zip(others) {
        run.reached.event("31 by one alone", name, alone && other);
    }
}

fn load([base, slope, turning, temperature]: Four) -> f64 {
    match temperature < turning {
        true => base + slope * (turning - temperature),
        false => base,
    }
}

fn count_load(run: &mut Run, four: Four) {
    let load = load(four);
    for (column, met) in [
        ("-0", load == 0.0 && load.is_sign_negative()),
        ("just below 0", load == -f64::from_bits(1)),
        ("-0.5", load == -0.5),
        ("just below 1", load == 1f64.next_down()),
        ("10^9", load == MOST),
        ("just above 10^9", load == MOST.next_up()),
        ("infinite", load.is_infinite()),
        ("no number", load.is_nan()),
    ] {
        run.reached.event("load", column, met);
    }
}

fn count_accepted(run: &mut Run, four: Four, units: u64) {
    let [base, slope, turning, temperature] = four;
    let cold = temperature < turning;
    for (column, met) in [
        ("at turning", temperature == turning),
        ("just below", cold && temperature.next_up() == turning),
        ("just above", temperature.next_down() == turning),
    ] {
        run.reached.event("temperature", column, met);
    }
    let difference = turning - temperature;
    let fused = slope.mul_add(difference, base);
    let product = slope * difference;
    for (column, met) in [
        ("fused", cold && !is_units(fused, units)),
        ("to nearest", load(four).round() as u64 != units),
        ("subnormal product", cold && product.is_subnormal()),
    ] {
        let name = "another rounding would differ, or did";
        run.reached.event(name, column, met);
    }
}

/// Whether a load has just these units.
fn is_units(load: f64, units: u64) -> bool {
    (0.0..=MOST).contains(&load) && load as u64 == units
}

/// Calm numbers, one or more of them replaced by what is no number.
fn spoilt(random: &mut Random) -> Four {
    let mut four = [100.5, 3.25, 65.0, random.between(-20, 90) as f64];
    let many = random.pick(&[0, 1, 1, 1, 2, 4]);
    for _ in 0..many {
        let payload = random.next() & ((1 << 52) - 1);
        let other = random.pick(&[
            f64::INFINITY,
            f64::NEG_INFINITY,
            f64::from_bits(0x7ff << 52 | payload),
            f64::from_bits(0xfff << 52 | payload),
        ]);
        four[random.below(4) as usize] = other;
    }
    four
}

/// A load on or next to a bound, as base, as product or as sum; or a temperature next to the turning one.
fn at_an_edge(random: &mut Random) -> Four {
    let tiny = f64::from_bits(1);
    let loads = [
        0.0,
        -0.0,
        tiny,
        -tiny,
        0.5,
        -0.5,
        1.0,
        1.5,
        MOST,
        f64::MAX,
        -f64::MAX,
    ];
    let edge = random.pick(&loads);
    let load = next(random, edge);
    match random.below(6) {
        0 => [load, 7.0, 65.0, next(random, 65.0)],
        1 => [-0.0, load, 1.0, 0.0],
        2 => [0.0, load, 65.0, 64.0],
        3 => [load - 100.0, 50.0, 65.0, 63.0],
        4 => {
            let steep = random.pick(&[70_368_744_177_664.0, 0.0, 1.0, f64::MAX]);
            [100.0, steep, 65.0, next(random, 65.0)]
        }
        _ => {
            let slope = random.pick(&[0.0, -0.0, 1.0, -1.0, f64::MAX, tiny]);
            let far = random.pick(&[-f64::MAX, f64::MAX, -9.979_201_547_673_6e291]);
            [7.0, slope, f64::MAX, far]
        }
    }
}

/// The double itself, or one next to it.
fn next(random: &mut Random, value: f64) -> f64 {
    match random.below(3) {
        0 => value.next_up(),
        1 => value.next_down(),
        _ => value,
    }
}

/// A base that all but cancels the product, so that what is lost in rounding is seen.
fn near(random: &mut Random) -> Four {
    let turning = double(random, -20, 40);
    let temperature = match random.below(3) {
        0 => next(random, turning),
        _ => turning - double(random, -20, 40).abs(),
    };
    let slope = match random.below(8) {
        0 => double(random, -1_060, -1_000),
        _ => double(random, -20, 60),
    };
    let product = slope * (turning - temperature);
    let load = match random.below(3) {
        0 => random.between(0, 40) as f64,
        1 => MOST,
        _ => double(random, -2, 29),
    };
    let base = load - product;
    [next(random, base), slope, turning, temperature]
}

/// 2^least to 2^most in size, with few digits or many; subnormal where the least exponent of a double is passed.
fn double(random: &mut Random, least: i64, most: i64) -> f64 {
    let field = (random.between(least, most) + 1_023).max(0) as u64;
    let digits = match random.below(3) {
        0 => 0,
        1 => 1 << random.below(52),
        _ => random.next() & ((1 << 52) - 1),
    };
    f64::from_bits(random.below(2) << 63 | field << 52 | digits)
}

/// Whole numbers up to the exact case's bounds: the answer is also that of the integers.
fn whole(random: &mut Random, run: &mut Run) -> Same {
    let mut size = |most: i64| match random.below(6) {
        0 => most,
        1 => -most,
        2 => random.between(-2, 2),
        _ => random.between(-most, most),
    };
    let (slope, turning, temperature) = (size(10_000), size(10_000), size(10_000));
    let more = slope * (turning - temperature).max(0);
    // Around 0 half of the time.
    let base = match size(1) {
        0 => (-more).clamp(-99_999_990, 99_999_990) + size(3),
        _ => size(100_000_000),
    };
    let four = [base, slope, turning, temperature].map(|number| number as f64);
    compare(run, "whole numbers", four)?;
    let exact = match u64::try_from(base + more) {
        Ok(units) => (0, units),
        Err(_) => (32, 0),
    };
    same("back-cast of whole numbers", &library(four), &exact)
}
