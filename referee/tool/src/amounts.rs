//! Amounts of gas and measurements, calm or at the thresholds of the rules.

use crate::random::Random;
use referee::{Account, Date, Month};

/// Bound of the words of DELIVER.
const MOST: i64 = 1_000_000_000;

/// Toward the middle of the month's limits by the month's end, with some weather.
pub fn planned(random: &mut Random, account: &Account, date: Date) -> i64 {
    let month = date.month();
    let bcq = account.bcq as i64;
    let goal = (month.minimum() + month.maximum()) as i64 * bcq / 2;
    let days = 32 - date.day() as i64;
    (goal - account.bank) / days + random.between(-bcq / 4, bcq / 4)
}

/// An amount at a threshold, one past it, or far past it.
pub fn special(random: &mut Random, account: &Account, date: Date) -> i64 {
    let month = date.month();
    let (bank, net) = (account.bank, account.net);
    let percent = |p: u64| (p * account.bcq) as i64;
    let past = random.pick(&[0, 0, 1, 1, 2, 999]);
    match random.below(9) {
        0 => -bank - past,
        1 => percent(102) - bank + past,
        2 => percent(month.mmbq()) / v1_times(month) + past,
        3 => -(random.pick(&[50, 65, 80, 100]) * account.mddq as i64) - past,
        4 => percent(month.mmbq()) - net + past,
        5 => {
            let most = percent(month.withdrawal_maximum().unwrap_or(40));
            -(most - account.carry as i64).max(0) - net - past
        }
        6 => percent(month.maximum()) - bank + past,
        7 => percent(random.pick(&[10, 20, 30, 60, 65, 85])) - bank - past,
        _ => random.between(-1, 1),
    }
}

pub fn v1_times(month: Month) -> i64 {
    match month {
        Month::NOVEMBER | Month::DECEMBER => 30,
        _ => 25,
    }
}

/// The difference of a delivery that gives exactly this amount after retainage.
pub fn before_retainage(amount: i64, retainage: u64) -> i64 {
    let kept = 10_000 - retainage;
    let size = (amount.unsigned_abs() * 10_000).div_ceil(kept);
    (size as i64 * amount.signum()).clamp(-MOST, MOST)
}

/// Delivered and back-cast with this difference, the back-cast near the load where both fit.
pub fn words(difference: i64, load: i64) -> (u32, u32) {
    let back_cast = load.clamp((-difference).max(0), MOST - difference.max(0));
    ((back_cast + difference) as u32, back_cast as u32)
}

/// What CONFISCATED tells of an account with this excess: nothing at all, 0, or an amount beside the excess.
pub fn confiscated(random: &mut Random, excess: u64) -> Option<u32> {
    let units = match random.below(9) {
        0 | 1 => return None,
        2 => 0,
        3 => random.below(excess + 1),
        4 => excess.saturating_sub(1),
        5 => excess,
        6 => excess + 1,
        7 => excess + random.below(excess + 1),
        _ => 1_000_000_000,
    };
    Some(units.min(1_000_000_000) as u32)
}

/// Measurements on and next to every edge of a step.
pub fn measurements(k: i64) -> [i64; 18] {
    let (top, bottom) = (3_000 * k, 3_000 * (k - 1));
    [
        top - 1,
        top,
        top + 1,
        top + 499,
        top + 500,
        top + 501,
        bottom + 1,
        bottom,
        bottom - 1,
        bottom - 499,
        bottom - 500,
        bottom - 501,
        0,
        1,
        1_500,
        3_000,
        299_999,
        300_000,
    ]
}

#[cfg(test)]
mod tests {
    use super::*;

    #[test]
    fn the_amount_comes_out_exactly() {
        let mut random = Random::new(3);
        for _ in 0..10_000 {
            let retainage = random.pick(&[0, 1, 150, 5_000, 9_000]);
            let amount = random.between(-1_000_000, 1_000_000);
            let difference = before_retainage(amount, retainage);
            assert_eq!(difference * (10_000 - retainage as i64) / 10_000, amount);
        }
    }

    #[test]
    fn words_have_the_difference() {
        let mut random = Random::new(4);
        for _ in 0..10_000 {
            let difference = random.between(-MOST, MOST);
            let load = random.between(0, MOST);
            let (delivered, back_cast) = words(difference, load);
            assert_eq!(i64::from(delivered) - i64::from(back_cast), difference);
            assert!(delivered as i64 <= MOST && back_cast as i64 <= MOST);
        }
    }
}
