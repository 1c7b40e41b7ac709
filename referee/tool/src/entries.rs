//! Entries as bytes, by kind. Nothing is checked here.

use referee::Date;

pub type Bytes = [u8; 32];

/// Year, month, day; also of days that do not exist.
pub type Day = (u16, u8, u8);

pub fn day_of(date: Date) -> Day {
    (
        date.year() as u16,
        date.month().number() as u8,
        date.day() as u8,
    )
}

pub fn entry(kind: u8, accounts: [u8; 2], flags: u8, day: Day, words: &[u32]) -> Bytes {
    let mut bytes = [0; 32];
    bytes[..4].copy_from_slice(&[kind, accounts[0], accounts[1], flags]);
    bytes[4..6].copy_from_slice(&day.0.to_le_bytes());
    bytes[6] = day.1;
    bytes[7] = day.2;
    for (place, &word) in words.iter().enumerate() {
        set_word(&mut bytes, place, word);
    }
    bytes
}

/// Sets word w1 (place 0) to w6 (place 5).
pub fn set_word(bytes: &mut Bytes, place: usize, word: u32) {
    bytes[8 + 4 * place..][..4].copy_from_slice(&word.to_le_bytes());
}

pub fn terms(day: Day, words: [u32; 6]) -> Bytes {
    entry(1, [0, 0], 0, day, &words)
}

pub fn enrol(a: u8, flags: u8, day: Day, mdq: u32, opening: u32) -> Bytes {
    entry(2, [a, 0], flags, day, &[mdq, opening])
}

pub fn deliver(a: u8, day: Day, delivered: u32, back_cast: u32) -> Bytes {
    entry(3, [a, 0], 0, day, &[delivered, back_cast])
}

pub fn transfer(a: u8, b: u8, day: Day, units: u32) -> Bytes {
    entry(4, [a, b], 0, day, &[units, units])
}

pub fn trade(a: u8, flags: u8, day: Day, units: u32) -> Bytes {
    entry(5, [a, 0], flags, day, &[units])
}

pub fn measure(a: u8, day: Day, mdq: u32) -> Bytes {
    entry(6, [a, 0], 0, day, &[mdq])
}

pub fn usage(a: u8, day: Day, mcf: u32) -> Bytes {
    entry(7, [a, 0], 0, day, &[mcf])
}

pub fn close_day(day: Day) -> Bytes {
    entry(8, [0, 0], 0, day, &[])
}

pub fn close_month(day: Day, prices: [u32; 4]) -> Bytes {
    entry(9, [0, 0], 0, day, &prices)
}

pub fn confiscated(a: u8, day: Day, units: u32) -> Bytes {
    entry(10, [a, 0], 0, day, &[units])
}

pub fn holiday(day: Day, words: [u32; 3]) -> Bytes {
    entry(11, [0, 0], 0, day, &words)
}

pub fn notice(a: u8, b: u8, flag: u8, day: Day, units: u32) -> Bytes {
    entry(12, [a, b], flag, day, &[units])
}

/// Whether a list has an entry of this kind.
pub fn has(list: &[u8], kind: u8) -> bool {
    list.chunks(32).any(|entry| entry[0] == kind)
}

/// What an old archive can hold of a list: no CONFISCATED, HOLIDAY or NOTICE.
pub fn for_old(list: &[u8]) -> Vec<u8> {
    let others = list.chunks(32).filter(|entry| !matches!(entry[0], 10..=12));
    others.flatten().copied().collect()
}

/// The closing that this date asks for.
pub fn close(date: Date, prices: [u32; 4]) -> Bytes {
    if date.is_month_end() {
        close_month(day_of(date), prices)
    } else {
        close_day(day_of(date))
    }
}

#[cfg(test)]
mod tests {
    use super::*;

    #[test]
    fn a_list_for_old_is_the_rest() {
        let day = (2026, 1, 31);
        let (amount, date) = (confiscated(3, day, 5), holiday(day, [2026, 12, 25]));
        let closing = close_month(day, [3_000; 4]);
        let letter = notice(3, 5, 1, day, 7);
        let list = [amount, closing, date, letter, close_day(day), date].concat();
        assert!(has(&list, 12) && has(&list, 10) && has(&list, 11) && !has(&closing, 11));
        assert_eq!(for_old(&list), [closing, close_day(day)].concat());
    }
}
