//! Damage to the bytes of an archive or a list.

use crate::entries::{self, Bytes};
use crate::random::Random;

/// One byte of one entry after `start`, most often one of its first eight.
pub fn spoil_entry(random: &mut Random, bytes: &mut [u8], start: usize) {
    let entries = bytes.len().saturating_sub(start) / 32;
    if entries == 0 {
        return;
    }
    let entry = start + 32 * random.below(entries as u64) as usize;
    let at = if random.one_in(3) {
        random.below(32)
    } else {
        random.below(8)
    };
    bytes[entry + at as usize] =
        random.pick(&[0, 1, 2, 3, 4, 8, 9, 10, 11, 12, 13, 16, 31, 32, 200, 255]);
    if random.one_in(4) {
        // A transfer to itself or of unlike words, or a letter to itself: number 7.
        let (day, other) = ((2026, 4, 30), random.pick(&[1, 2]));
        let mut transfer: Bytes = entries::transfer(1, other, day, 5);
        transfer[12] = random.pick(&[5, 6]);
        let letter = entries::notice(1, other, random.below(2) as u8, day, 5);
        let spoilt = random.pick(&[transfer, transfer, transfer, letter]);
        bytes[entry..entry + 32].copy_from_slice(&spoilt);
    }
}

pub fn damage(random: &mut Random, bytes: &mut Vec<u8>) {
    let count = sections(bytes);
    let directory = 8 + 8 * count;
    match random.below(10) {
        0 => {
            let at = random.below(bytes.len().max(1) as u64) as usize;
            if let Some(byte) = bytes.get_mut(at) {
                *byte ^= 1 << random.below(8);
            }
        }
        1 => {
            let length = random.below(bytes.len() as u64 + 1) as usize;
            bytes.truncate(length);
        }
        2 => bytes.truncate(bytes.len().saturating_sub(random.pick(&[1, 31, 32, 64]))),
        3 => bytes.extend(random.pick(&[&[0; 1][..], &[0; 32], &[9; 8]])),
        4 => edit_header(random, bytes),
        5 => edit_directory(random, bytes, count),
        6 => swap_sections(random, bytes, count),
        7 => join_sections(random, bytes, count),
        8 => split_section(random, bytes, count),
        _ => spoil_entry(random, bytes, directory),
    }
}

/// N as the header has it, if its directory is there.
fn sections(bytes: &[u8]) -> usize {
    let count = bytes
        .get(4..6)
        .map_or(0, |n| usize::from(u16::from_le_bytes([n[0], n[1]])));
    if 8 + 8 * count <= bytes.len() {
        count
    } else {
        0
    }
}

fn word(bytes: &[u8], at: usize) -> u32 {
    u32::from_le_bytes([bytes[at], bytes[at + 1], bytes[at + 2], bytes[at + 3]])
}

fn set(bytes: &mut [u8], at: usize, word: u32) {
    bytes[at..at + 4].copy_from_slice(&word.to_le_bytes());
}

fn edit_header(random: &mut Random, bytes: &mut [u8]) {
    let at = random.below(8) as usize;
    if let Some(byte) = bytes.get_mut(at) {
        *byte = random.pick(&[byte.wrapping_add(1), byte.wrapping_sub(1), 0, 255]);
    }
}

/// One offset or length a little off, far off, or off so that the sum of both wraps.
fn edit_directory(random: &mut Random, bytes: &mut [u8], count: usize) {
    if count == 0 {
        return;
    }
    let pair = 8 + 8 * random.below(count as u64) as usize;
    let at = pair + 4 * random.below(2) as usize;
    let old = word(bytes, at);
    let by = random.pick(&[1, 8, 31, 32, 64, 1 << 31]);
    let new = if random.one_in(2) {
        old.wrapping_add(by)
    } else {
        old.wrapping_sub(by)
    };
    set(
        bytes,
        at,
        random.pick(&[new, new, 0, u32::MAX, u32::MAX - 31]),
    );
}

/// Two directory pairs change places.
fn swap_sections(random: &mut Random, bytes: &mut [u8], count: usize) {
    if count < 2 {
        return;
    }
    let at = 8 + 8 * random.below(count as u64 - 1) as usize;
    bytes[at..at + 16].rotate_left(8);
}

/// Two sections become one: its directory fits, and a kind 9 is not last.
fn join_sections(random: &mut Random, bytes: &mut Vec<u8>, count: usize) {
    if count < 2 {
        return;
    }
    let at = 8 + 8 * random.below(count as u64 - 1) as usize;
    let length = word(bytes, at + 4).wrapping_add(word(bytes, at + 12));
    set(bytes, at + 4, length);
    bytes.drain(at + 8..at + 16);
    renumber(bytes, count - 1);
}

/// One section becomes two: its directory fits, and the first may end otherwise than by kind 9.
fn split_section(random: &mut Random, bytes: &mut Vec<u8>, count: usize) {
    if count == 0 {
        return;
    }
    let at = 8 + 8 * random.below(count as u64) as usize;
    let length = word(bytes, at + 4);
    if length < 64 {
        return;
    }
    let first = 32 * (1 + random.below(u64::from(length / 32) - 1) as u32);
    set(bytes, at + 4, first);
    let pair = [0u32.to_le_bytes(), (length - first).to_le_bytes()].concat();
    bytes.splice(at + 8..at + 8, pair);
    renumber(bytes, count + 1);
}

/// Sets the count, and each offset from the lengths before it.
fn renumber(bytes: &mut [u8], count: usize) {
    bytes[4..6].copy_from_slice(&(count as u16).to_le_bytes());
    let mut offset = (8 + 8 * count) as u32;
    for section in 0..count {
        let at = 8 + 8 * section;
        set(bytes, at, offset);
        offset = offset.wrapping_add(word(bytes, at + 4));
    }
}
