//! The archive: refusals 8 to 13, writer, replay, sheet and panel line.

mod common;

use common::*;
use referee::{check, panel_line, replay, section, write, year_sheet, Ledger, Written};

fn archive_of(entries: &[Bytes]) -> Vec<u8> {
    told_archive_of(false, entries)
}

fn told_archive_of(is_new: bool, entries: &[Bytes]) -> Vec<u8> {
    let list = entries.concat();
    let mut out = vec![0; 8 + 8 * 1_200 + list.len()];
    let written = write(is_new, &list, &mut out);
    assert_eq!((written.number, written.index), (0, 0));
    out.truncate(written.length);
    out
}

fn month_end() -> Bytes {
    close_month((2026, 4, 30), [0; 4])
}

/// Two sections, of 2 entries and of 1.
fn sample() -> Vec<u8> {
    archive_of(&[terms(START, 0, 0), month_end(), close_day(START)])
}

fn spoilt(place: usize, value: u8) -> Vec<u8> {
    let mut archive = sample();
    archive[place] = value;
    archive
}

#[test]
fn what_the_writer_writes() {
    let archive = sample();
    let mut expected = b"EFB1\x02\0\0\0".to_vec();
    for number in [24_u32, 64, 88, 32] {
        expected.extend(number.to_le_bytes());
    }
    expected.extend(terms(START, 0, 0));
    expected.extend(month_end());
    expected.extend(close_day(START));
    assert_eq!(archive, expected);
    assert_eq!(check(&archive), (0, 0));
    assert_eq!(section(&archive, 0), Ok(&archive[24..88]));
    assert_eq!(section(&archive, 1), Ok(&archive[88..]));

    assert_eq!(archive_of(&[]), b"EFB1\0\0\0\0");
    // A list that ends in kind 9 has no empty last section.
    assert_eq!(archive_of(&[month_end()])[4], 1);
    assert_eq!(archive_of(&[month_end(), month_end()])[4], 2);
}

#[test]
fn number_8() {
    for length in 0..8 {
        assert_eq!(check(&sample()[..length]), (8, 0));
    }
    for place in 0..4 {
        assert_eq!(check(&spoilt(place, 0)), (8, 0));
    }
    assert_eq!(check(&spoilt(6, 1)), (8, 0));
    assert_eq!(check(&spoilt(7, 1)), (8, 0));
    // N of 1,201 and of 1,200, with room for the directory.
    let mut archive = vec![0; 8 + 8 * 1_201];
    archive[..4].copy_from_slice(b"EFB1");
    archive[4..6].copy_from_slice(&1_201_u16.to_le_bytes());
    assert_eq!(check(&archive), (8, 0));
    archive[4..6].copy_from_slice(&1_200_u16.to_le_bytes());
    assert_eq!(check(&archive), (9, 0));
    // The directory beyond the end.
    assert_eq!(check(b"EFB1\x01\0\0\0"), (8, 0));
    assert_eq!(check(&sample()[..23]), (8, 0));
}

#[test]
fn number_9() {
    assert_eq!(check(b"EFB1\0\0\0\0\0"), (9, 0));
    assert_eq!(check(&sample()[..24]), (9, 0));
    let mut longer = sample();
    longer.push(0);
    assert_eq!(check(&longer), (9, 0));
    assert_eq!(check(&sample()[..119]), (9, 0));
    for place in 8..24 {
        assert_eq!(check(&spoilt(place, 201)), (9, 0), "{place}");
    }
    // A length of 0, though the ends would fit.
    let mut archive = b"EFB1\x01\0\0\0\x10\0\0\0\0\0\0\0".to_vec();
    assert_eq!(check(&archive), (9, 0));
    // Offset plus length is not taken modulo 2^32.
    archive[12..16].copy_from_slice(&0xffff_ffe0_u32.to_le_bytes());
    assert_eq!(check(&archive), (9, 0));
    // 9 comes before the entries.
    let mut archive = spoilt(24, 99);
    assert_eq!(check(&archive), (2, 0));
    archive.push(0);
    assert_eq!(check(&archive), (9, 0));
}

#[test]
fn entries_and_number_10() {
    assert_eq!(check(&spoilt(24, 0)), (2, 0));
    assert_eq!(check(&spoilt(24 + 32 + 7, 0)), (3, 1));
    assert_eq!(check(&spoilt(24 + 64 + 3, 1)), (5, 2));

    // A section but the last that ends otherwise: its last entry.
    let mut archive = sample();
    archive[56..88].copy_from_slice(&close_day(START));
    assert_eq!(check(&archive), (10, 1));
    // Kind 9 not last in its section: its own index.
    let mut archive = sample();
    archive[24..56].copy_from_slice(&month_end());
    assert_eq!(check(&archive), (10, 0));
    // 2 to 7 of an entry come before its 10, and 10 before a later entry.
    archive[24 + 31] = 1;
    assert_eq!(check(&archive), (5, 0));
    archive[24 + 31] = 0;
    archive[56] = 99;
    assert_eq!(check(&archive), (10, 0));
    // The last section may end either way.
    assert_eq!(check(&archive_of(&[month_end(), month_end()])), (0, 0));
}

#[test]
fn numbers_11_and_12() {
    let mut out = vec![7; 8 + 8 * 1_201 + 32 * 1_201];
    let list = [month_end(); 1_201].concat();
    let refused = Written {
        number: 11,
        index: 0,
        length: 0,
    };
    assert_eq!(write(false, &list, &mut out), refused);
    assert!(out.iter().all(|&byte| byte == 7));
    let length = 8 + 40 * 1_200;
    let written = write(false, &list[32..], &mut out);
    assert_eq!((written.number, written.length), (0, length));
    assert_eq!(check(&out[..length]), (0, 0));
    // One more section that ends otherwise is too many as well.
    let mut longer = list[32..].to_vec();
    longer.extend(close_day(START));
    assert_eq!(write(false, &longer, &mut out).number, 11);

    let list = terms(START, 0, 0);
    for room in 0..48 {
        let mut out = vec![7; room];
        let written = write(false, &list, &mut out);
        assert_eq!((written.number, written.length), (12, 0));
        assert!(out.iter().all(|&byte| byte == 7));
    }
    let mut out = vec![7; 60];
    assert_eq!(write(false, &list, &mut out).length, 48);
    assert!(out[48..].iter().all(|&byte| byte == 7));
    assert_eq!(check(&out[..48]), (0, 0));
    assert_eq!(write(false, &[], &mut [0; 7]).number, 12);
}

#[test]
fn the_list_comes_first() {
    let mut out = [7; 8];
    let mut list = [terms(START, 0, 0), close_day(START)].concat();
    list[32 + 3] = 1;
    let written = write(false, &list, &mut out);
    assert_eq!((written.number, written.index), (5, 1));
    list.pop();
    let written = write(false, &list, &mut out);
    assert_eq!((written.number, written.index), (1, 0));
    assert_eq!(out, [7; 8]);
}

#[test]
fn number_13() {
    assert_eq!(section(&sample(), 2), Err((13, 0)));
    assert_eq!(section(&sample(), usize::MAX), Err((13, 0)));
    assert_eq!(section(&archive_of(&[]), 0), Err((13, 0)));
    // The other refusals of the reader come first.
    assert_eq!(section(&[], 9), Err((8, 0)));
    assert_eq!(section(&spoilt(8, 0), 9), Err((9, 0)));
    assert_eq!(section(&spoilt(24 + 64, 0), 9), Err((2, 2)));
    assert_eq!(section(&spoilt(24 + 64, 0), 0), Err((2, 2)));
}

#[test]
fn what_the_writer_of_new_archives_writes() {
    let list = [terms(START, 0, 0), month_end(), close_day(START)];
    for entries in [&list[..], &list[..1], &[]] {
        let old = archive_of(entries);
        let new = told_archive_of(true, entries);
        assert_eq!((old[3], new[3]), (49, 50));
        let mut changed = old.clone();
        changed[3] = 50;
        assert_eq!(new, changed);
        assert_eq!(check(&new), (0, 0));
    }
    assert_eq!(told_archive_of(true, &[]), b"EFB2\0\0\0\0");

    // CONFISCATED ends no section.
    let new = told_archive_of(true, &[month_end(), confiscated(0, JANUARY, 7), list[0]]);
    assert_eq!(&new[..8], b"EFB2\x02\0\0\0");
    assert_eq!(check(&new), (0, 0));
    assert_eq!(section(&new, 0), Ok(&new[24..56]));
    assert_eq!(section(&new, 1), Ok(&new[56..]));
    assert_eq!(new[56..88], confiscated(0, JANUARY, 7));
    assert_eq!(section(&new, 2), Err((13, 0)));
}

#[test]
fn the_writer_is_told() {
    let list = [terms(START, 0, 0), confiscated(0, JANUARY, 7)].concat();
    let refused = |is_new, list: &[u8]| {
        let mut out = [7; 80];
        let written = write(is_new, list, &mut out);
        assert_eq!((out, written.length), ([7; 80], 0));
        (written.number, written.index)
    };
    assert_eq!(refused(false, &list), (2, 1));
    assert_eq!(write(true, &list, &mut [0; 80]).length, 80);
    for kind in [0, 13, 255] {
        let mut list = list.clone();
        list[32] = kind;
        assert_eq!(refused(true, &list), (2, 1));
        assert_eq!(refused(false, &list), (2, 1));
    }
    // The other numbers are the same in both.
    let later = terms(START, 0, 0);
    for is_new in [false, true] {
        assert_eq!(refused(is_new, &list[..63]), (1, 0));
        assert_eq!(refused(is_new, &[later; 3].concat()), (12, 0));
        assert_eq!(refused(is_new, &[month_end(); 1_201].concat()), (11, 0));
    }
    let mut wrong = list;
    wrong[32 + 1] = 16;
    assert_eq!(refused(true, &wrong), (4, 1));
    assert_eq!(refused(false, &wrong), (2, 1));
}

#[test]
fn the_fourth_byte() {
    let entries = [
        terms(START, 0, 0),
        month_end(),
        confiscated(0, JANUARY, 7),
        close_day(START),
    ];
    for value in 0..=255 {
        // Read by either rule.
        let mut archive = sample();
        archive[3] = value;
        let known = matches!(value, 49 | 50);
        assert_eq!(check(&archive), (if known { 0 } else { 8 }, 0));
        // With an entry that is for new archives only.
        let mut archive = told_archive_of(true, &entries);
        archive[3] = value;
        let expected = match value {
            49 => (2, 2),
            50 => (0, 0),
            _ => (8, 0),
        };
        assert_eq!(check(&archive), expected);
        assert_eq!(replay(&archive).number, expected.0);
        if value != 50 {
            let (number, index) = expected;
            assert_eq!(section(&archive, 0), Err(expected));
            let line = format!("archive {number} {index}");
            assert_eq!(panel_line(&archive), line);
            assert_eq!(year_sheet(&archive, 2026), [[0; 12]; 16]);
        }
        // 8 comes before 9, and 9 before the entries.
        archive.push(0);
        assert_eq!(check(&archive), (if known { 9 } else { 8 }, 0));
    }
}

#[test]
fn entries_of_a_new_archive() {
    let entries = [month_end(), close_day(START), confiscated(0, JANUARY, 7)];
    let archive = told_archive_of(true, &entries);
    // The kind, the date, A, the flags, w2 and w1 of the last entry.
    for (place, value, number) in [
        (0, 10, 0),
        (0, 13, 2),
        (7, 32, 3),
        (1, 16, 4),
        (3, 1, 5),
        (12, 1, 5),
        (11, 60, 6),
    ] {
        let mut archive = archive.clone();
        archive[24 + 64 + place] = value;
        let index = if number == 0 { 0 } else { 2 };
        assert_eq!(check(&archive), (number, index));
    }
    // A section but the last that CONFISCATED ends.
    let mut archive = archive;
    archive[24..56].copy_from_slice(&confiscated(0, JANUARY, 7));
    assert_eq!(check(&archive), (10, 0));
}

/// A replay that is refused by this number, to a fresh ledger.
fn refused(archive: &[u8], number: u64, is_new: bool) {
    let all = replay(archive);
    assert_eq!((all.number, all.accepted, all.refused), (number, 0, 0));
    assert_eq!(all.ledger, Ledger::fresh(is_new), "{archive:?}");
}

#[test]
fn replays_of_refused_archives() {
    for is_new in [false, true] {
        let archive = told_archive_of(is_new, &[terms(START, 0, 0), close_day(START)]);
        // Shorter than four bytes it is not told apart.
        for length in 0..4 {
            refused(&archive[..length], 8, false);
        }
        for length in 4..16 {
            refused(&archive[..length], 8, is_new);
        }
        for length in 16..archive.len() {
            refused(&archive[..length], 9, is_new);
        }
        let mut unknown = archive.clone();
        unknown[16 + 32] = 13;
        refused(&unknown, 2, is_new);
        assert_eq!(replay(&unknown).index, 1);
        for value in [0, 48, 51, 255] {
            let mut other = archive.clone();
            other[3] = value;
            refused(&other, 8, false);
        }
        for place in 0..3 {
            let mut other = archive.clone();
            other[place] += 1;
            refused(&other, 8, false);
        }
    }
    // By 2, as CONFISCATED and HOLIDAY are in an old archive.
    for bytes in [confiscated(0, JANUARY, 7), holiday(START, JANUARY)] {
        let mut archive = told_archive_of(true, &[bytes]);
        archive[3] = 49;
        refused(&archive, 2, false);
    }
}

#[test]
fn replays_of_short_lists() {
    for is_new in [false, true] {
        let archive = told_archive_of(is_new, &[terms(START, 0, 0), close_day(START)]);
        let all = replay(&archive);
        assert_eq!((all.number, all.accepted), (0, 2));
        assert_eq!(all.ledger.is_new, is_new);
        let none = replay(&told_archive_of(is_new, &[]));
        assert_eq!((none.number, none.accepted), (0, 0));
        assert_eq!(none.ledger, Ledger::fresh(is_new));
    }
}

/// A list from April of a year on, for some months: each day an injection.
fn months(count: usize) -> Vec<Bytes> {
    let mut ledger = Ledger::fresh(false);
    let mut list = Vec::new();
    let mut say = |ledger: &mut Ledger, bytes: Bytes| {
        accept(ledger, &bytes);
        list.push(bytes);
    };
    say(&mut ledger, terms(START, 0, 0));
    say(&mut ledger, enrol(0, 2, START, 4_200, 1_000));
    say(&mut ledger, enrol(5, 0, START, 6_000, 0));
    let mut left = count;
    while left > 0 {
        let day = (ledger.year as u16, ledger.month as u8, ledger.day as u8);
        let date = ledger.date().unwrap();
        for a in [0, 5] {
            say(&mut ledger, deliver(a, day, 200, 100));
            if ledger.holidays.is_measurement_day(date) {
                say(&mut ledger, measure(a, day, 4_200));
            }
            if date.is_month_end() {
                say(&mut ledger, usage(a, day, 10));
            }
        }
        if date.is_month_end() {
            say(&mut ledger, close_month(day, [1, 2, 3, 4]));
            left -= 1;
        } else {
            say(&mut ledger, close_day(day));
        }
    }
    list
}

#[test]
fn the_year_sheet() {
    let archive = archive_of(&months(14));
    assert_eq!(archive[4], 14);
    let sheet = year_sheet(&archive, 2026);
    // 98 units a day, from 1,000 and from 0, far below every limit.
    let days = [30, 31, 30, 31, 31, 30, 31, 30, 31, 31, 28, 31];
    let mut total = 0;
    for (month, days) in days.iter().enumerate() {
        total += 98 * days;
        assert_eq!(sheet[0][month], 1_000 + total);
        assert_eq!(sheet[5][month], total);
        assert_eq!(sheet[1][month], 0);
    }
    let next = year_sheet(&archive, 2027);
    assert_eq!(next[0][0], 1_000 + total + 98 * 30);
    assert_eq!(next[0][1], 1_000 + total + 98 * 61);
    assert_eq!(next[0][2..], [0; 10]);
    for year in [0, 2025, 2028, u64::MAX] {
        assert_eq!(year_sheet(&archive, year), [[0; 12]; 16]);
    }
    assert_eq!(year_sheet(&archive[1..], 2026), [[0; 12]; 16]);
    let all = replay(&archive);
    assert_eq!((all.number, all.index, all.refused), (0, 0, 0));
    assert_eq!(all.ledger.accounts[0].bank, next[0][1]);
}

#[test]
fn old_and_new_replays() {
    // 98 units on each of 306 days, from 1,000 and from 0; with these sales
    // both banks are 9 above 4,062,825 on January 31.
    let day = (2027, 1, 31);
    let mut list = months(10);
    let closing = list.pop().unwrap();
    list.push(trade(0, 0, day, 4_031_846));
    list.push(trade(5, 0, day, 4_032_846));
    let before = list.clone();
    list.push(closing);
    let count = list.len();
    let seen = |archive: &[u8]| {
        let sheet = year_sheet(archive, 2026);
        let banks = replay(archive).ledger.accounts.map(|account| account.bank);
        assert_eq!((sheet[0][9], sheet[5][9]), (banks[0], banks[5]));
        (banks[0], banks[5], panel_line(archive))
    };
    // The same list by both rules.
    let line = format!("{count} 0 8125650");
    assert_eq!(seen(&archive_of(&list)), (4_062_825, 4_062_825, line));
    let line = format!("{count} 0 8125668");
    let new = told_archive_of(true, &list);
    assert_eq!(seen(&new), (4_062_834, 4_062_834, line));

    // 5 of the 9 confiscated from account 0; the second posting is refused.
    let mut list = before;
    let index = list.len();
    list.push(confiscated(0, day, 5));
    list.push(confiscated(0, day, 5));
    list.push(closing);
    let line = format!("{} 1 8125663", count + 1);
    let mut archive = told_archive_of(true, &list);
    assert_eq!(seen(&archive), (4_062_829, 4_062_834, line));
    archive[3] = 49;
    assert_eq!(check(&archive), (2, index));
    assert_eq!(panel_line(&archive), format!("archive 2 {index}"));
}

#[test]
fn the_replay() {
    let list = [
        terms(START, 0, 0),
        enrol(0, 2, START, 4_200, 1_000),
        enrol(0, 2, START, 4_200, 1_000),
        deliver(0, START, 0, 2_000),
        month_end(),
    ];
    let all = replay(&archive_of(&list));
    assert_eq!((all.accepted, all.refused), (3, 2));
    assert_eq!(panel_line(&archive_of(&list)), "3 2 -970");

    let refused = replay(&sample()[..9]);
    assert_eq!((refused.number, refused.index), (8, 0));
    assert_eq!((refused.accepted, refused.refused), (0, 0));
    assert_eq!(refused.ledger, Ledger::fresh(false));
}

#[test]
fn the_panel_line() {
    assert_eq!(panel_line(&[]), "archive 8 0");
    assert_eq!(panel_line(b"EFB1\0\0\0\0"), "0 0 0");
    assert_eq!(panel_line(b"EFB1\0\0\0\0\0"), "archive 9 0");
    assert_eq!(panel_line(&spoilt(24 + 64, 0)), "archive 2 2");
    assert_eq!(panel_line(&vec![0; 65_536]), "archive 8 0");
    assert_eq!(panel_line(&vec![0; 65_537]), "too long");
    let mut long = sample();
    long.resize(65_537, 0);
    assert_eq!(panel_line(&long), "too long");
    // 2,047 entries and 65,520 bytes.
    let list = vec![close_day(START); 2_047];
    assert_eq!(panel_line(&archive_of(&list)), "0 2047 0");
}
