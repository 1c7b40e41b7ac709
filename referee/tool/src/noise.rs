//! Cases (e): random bytes of any length to every function.

use crate::archives;
use crate::both::{entry_number, Both};
use crate::ledgers::any_ledger;
use crate::random::Random;
use crate::run::{Run, Same};

pub fn case(random: &mut Random, run: &mut Run) -> Same {
    for _ in 0..20 {
        let length = length(random);
        let mut bytes = random.bytes(length);
        match random.below(4) {
            0 => header(random, &mut bytes),
            1 => small_numbers(random, &mut bytes),
            _ => {}
        }
        entry_number(run, &bytes)?;
        Both::fresh(random.one_in(2)).post(run, &bytes)?;
        Both::of(&any_ledger(random)).post(run, &bytes)?;
        let is_new = random.one_in(2);
        archives::write(random, run, is_new, &bytes)?;
        archives::read(random, run, &bytes)?;
    }
    Ok(())
}

/// Short lengths often, as many rules are about 8 and 32 bytes.
fn length(random: &mut Random) -> usize {
    match random.below(5) {
        0 => random.below(34) as usize,
        1 => random.pick(&[0, 1, 7, 8, 9, 15, 16, 31, 32, 33, 48, 63, 64, 65]),
        2 => 32 * random.below(8) as usize,
        3 => random.below(600) as usize,
        _ => random.below(5_000) as usize,
    }
}

/// Opening bytes, a small count and two zeros, as far as there is room; for some a first pair that fits.
fn header(random: &mut Random, bytes: &mut [u8]) {
    let length = bytes.len();
    let count = random.below(3) as u8;
    let any = random.next() as u8;
    let fourth = random.pick(&[48, 49, 49, 49, 50, 50, 50, 51, any]);
    let opening = [69, 70, 66, fourth, count, 0, 0, 0];
    let room = length.min(8);
    bytes[..room].copy_from_slice(&opening[..room]);
    if count == 1 && length >= 16 {
        bytes[8..12].copy_from_slice(&16u32.to_le_bytes());
        bytes[12..16].copy_from_slice(&(length as u32 - 16).to_le_bytes());
    }
}

/// Mostly zeros and small numbers, which get further into the checks.
fn small_numbers(random: &mut Random, bytes: &mut [u8]) {
    for (at, byte) in bytes.iter_mut().enumerate() {
        *byte = match at % 32 {
            0 => 1 + random.below(13) as u8,
            4 => 206 + random.below(50) as u8,
            5 => 7,
            6 => 1 + random.below(13) as u8,
            7 => 1 + random.below(31) as u8,
            _ if random.one_in(10) => random.below(20) as u8,
            _ => 0,
        };
    }
}
