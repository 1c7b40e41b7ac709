//! The lent posting against the one by value, and the archive's functions, through the static library.
use nedrulov::*;

const SAMPLE: &[u8] = include_bytes!("../../../crates/sheets/stdin");

/// The entries of the sample, without its header and directory.
fn list() -> &'static [u8] {
    let count = u16::from_le_bytes([SAMPLE[4], SAMPLE[5]]) as usize;
    &SAMPLE[8 + 8 * count..]
}

/// A small generator of numbers, for bytes that nobody chose.
struct Numbers(u64);

impl Numbers {
    fn next(&mut self) -> u64 {
        self.0 ^= self.0 << 13;
        self.0 ^= self.0 >> 7;
        self.0 ^= self.0 << 17;
        self.0
    }

    fn coin(&mut self) -> bool {
        self.next().is_multiple_of(2)
    }
}

/// Posts to both doors; the lent ledger must be the returned one, and the answers the same.
fn post_both(lent: &mut Ledger, entry: &[u8]) -> Answer {
    let before = *lent;
    let posted = post_by_value(before, entry);
    let answer = post(lent, entry);
    assert_eq!(answer, posted.answer);
    assert_eq!(*lent, posted.ledger);
    if answer.number != 0 {
        assert_eq!(*lent, before, "a refusal leaves the ledger as it was");
        assert_eq!(answer.reports, [Report::default(); ACCOUNTS]);
    }
    answer
}

#[test]
fn sample_year() {
    let mut ledger = fresh(false);
    let mut refused = Vec::new();
    for (index, entry) in list().chunks(ENTRY_BYTES).enumerate() {
        let answer = post_both(&mut ledger, entry);
        if answer.number != 0 {
            refused.push((index, answer.number));
        }
    }
    assert_eq!(refused, [(75, 28), (588, 26), (1374, 28)]);
    assert_eq!(panel(ledger), Panel { number: 0, figure: 6_288_886 });
    assert_eq!(figures(SAMPLE), Figures { number: 0, index: 0, accepted: 1937, refused: 3, figure: 6_288_886 });
}

#[test]
fn damaged_entries() {
    for is_new in [false, true] {
        let mut numbers = Numbers(20_260_401);
        let mut ledger = fresh(is_new);
        let mut seen = [0u32; 37];
        for entry in list().chunks(ENTRY_BYTES) {
            let mut damaged = entry.to_vec();
            let bit = numbers.next() as usize % 256;
            damaged[bit / 8] ^= 1 << (bit % 8);
            seen[post_both(&mut ledger, &damaged).number as usize] += 1;
            seen[post_both(&mut ledger, &damaged[..numbers.next() as usize % 32]).number as usize] += 1;
            seen[post_both(&mut ledger, entry).number as usize] += 1;
        }
        for number in [0, 1, 2, 3, 4, 5, 6, 7, 22] {
            assert_ne!(seen[number], 0, "number {number} was not reached");
        }
        assert_eq!(ledger.is_new, is_new);
    }
}

#[test]
fn hostile_ledgers() {
    let mut numbers = Numbers(7);
    let terms = &list()[..ENTRY_BYTES];
    for _ in 0..2_000 {
        let mut ledger = fresh(numbers.coin());
        ledger.begun = numbers.coin();
        ledger.touched = numbers.coin();
        ledger.date = Date { year: numbers.next(), month: numbers.next() % 14, day: numbers.next() % 33 };
        let account = &mut ledger.accounts[numbers.next() as usize % ACCOUNTS];
        account.opened = numbers.coin();
        account.today.confiscated = numbers.coin();
        account.today.confiscation = numbers.next() >> (numbers.next() % 64);
        account.today.notice = Notice {
            stands: numbers.coin(),
            takes: numbers.coin(),
            other: (numbers.next() >> (numbers.next() % 64)) as usize,
            units: numbers.next() >> (numbers.next() % 64),
        };
        account.bank = numbers.next() as i64 >> (numbers.next() % 64);
        account.owed = numbers.next() as i64 >> (numbers.next() % 64);
        account.step.k = numbers.next() >> (numbers.next() % 64);
        account.violation_days = numbers.next() >> (numbers.next() % 64);
        ledger.holidays.count = numbers.next() >> (numbers.next() % 64);
        for date in &mut ledger.holidays.dates {
            *date = Date { year: 2000 + numbers.next() % 101, month: numbers.next() % 14, day: numbers.next() % 33 };
        }
        post_both(&mut ledger, terms);
        let shown = panel(ledger);
        assert!(shown.number == 0 || shown == Panel { number: 20, figure: 0 });
    }
}

#[test]
fn archive_functions() {
    assert_eq!(check(SAMPLE), Checked { number: 0, index: 0 });
    assert_eq!(check(&SAMPLE[1..]), Checked { number: 8, index: 0 });
    assert_eq!(check(&[]), Checked { number: 8, index: 0 });

    let mut joined = Vec::new();
    for i in 0..12 {
        joined.extend_from_slice(section(SAMPLE, i).expect("twelve months"));
    }
    assert_eq!(joined, list());
    assert_eq!(section(SAMPLE, 12), Err(Checked { number: 13, index: 0 }));

    let mut out = vec![0xAA; SAMPLE.len() + 5];
    let written = write(false, list(), &mut out);
    assert_eq!(written, Written { number: 0, index: 0, length: SAMPLE.len() });
    assert_eq!(&out[..SAMPLE.len()], SAMPLE);
    assert_eq!(&out[SAMPLE.len()..], [0xAA; 5]);

    let mut short = vec![0xAA; SAMPLE.len() - 1];
    assert_eq!(write(false, list(), &mut short), Written { number: 12, index: 0, length: 0 });
    assert!(short.iter().all(|&b| b == 0xAA), "a refused write leaves the output");
    assert_eq!(write(false, &list()[1..], &mut out).number, 1);
    assert_eq!(entry_number(false, &list()[..32]), 0);
    assert_eq!(entry_number(false, &list()[..31]), 1);
}

/// CONFISCATED of account 0, 12.00 Dth.
fn confiscated(year: u16, month: u8, day: u8) -> [u8; ENTRY_BYTES] {
    let mut entry = [0; ENTRY_BYTES];
    entry[0] = 10;
    entry[4..6].copy_from_slice(&year.to_le_bytes());
    entry[6..8].copy_from_slice(&[month, day]);
    entry[8..12].copy_from_slice(&1_200u32.to_le_bytes());
    entry
}

#[test]
fn new_archives() {
    let longer = [list(), &confiscated(2027, 4, 1)].concat();
    let mut out = vec![0xAA; longer.len() + 8 + 8 * 13];
    let refused = Written { number: 2, index: longer.len() / ENTRY_BYTES - 1, length: 0 };
    assert_eq!(write(false, &longer, &mut out), refused);
    assert!(out.iter().all(|&b| b == 0xAA));
    assert_eq!(write(true, &longer, &mut out), Written { number: 0, index: 0, length: out.len() });
    assert_eq!(out[..4], *b"EFB2");
    assert_eq!(check(&out), Checked { number: 0, index: 0 });
    assert_eq!(section(&out, 12), Ok(&longer[list().len()..]));
    // The last one is not for a day in April; an old archive has no such kind at all.
    assert_eq!(figures(&out).refused, figures(SAMPLE).refused + 1);
    assert!(is_new(&out) && is_new(&out[..4]) && !is_new(&out[..3]) && !is_new(SAMPLE) && !is_new(&[]));
    out[3] = b'1';
    assert_eq!(check(&out), Checked { number: 2, index: refused.index });
    for other in [b'0', b'3'] {
        out[3] = other;
        assert_eq!(check(&out), Checked { number: 8, index: 0 });
        assert!(!is_new(&out));
    }
}

#[test]
fn confiscations_are_for_two_days_of_new_ledgers() {
    for (is_new, month, day, number) in [
        (true, 1, 30, 23),
        (true, 1, 31, 0),
        (true, 3, 31, 0),
        (true, 4, 30, 23),
        (false, 1, 31, 2),
    ] {
        let mut ledger = fresh(is_new);
        for entry in list().chunks(ENTRY_BYTES).take(2) {
            assert_eq!(post_both(&mut ledger, entry).number, 0);
        }
        ledger.date = Date { year: 2027, month: month.into(), day: day.into() };
        let entry = confiscated(2027, month, day);
        assert_eq!(entry_number(is_new, &entry), if is_new { 0 } else { 2 });
        assert_eq!(post_both(&mut ledger, &entry).number, number, "{is_new}, {month}, {day}");
        let today = ledger.accounts[0].today;
        assert_eq!((today.confiscated, today.confiscation), if number == 0 { (true, 1_200) } else { (false, 0) });
        if number == 0 {
            assert_eq!(post_both(&mut ledger, &entry).number, 26);
            ledger.accounts[0].today.confiscation = 1_000_000_001;
            assert_eq!(post_both(&mut ledger, &entry).number, 20);
        }
    }
}

#[test]
fn year_sheets() {
    let expected = include_str!("../../../crates/sheets/stdout");
    let rows: Vec<Vec<i64>> =
        expected.lines().map(|line| line.split(' ').map(|cell| cell.parse().unwrap()).collect()).collect();
    for (at, year) in [2025, 2026, 2027].into_iter().enumerate() {
        let sheet = year_sheet(SAMPLE, year);
        for (account, row) in sheet.iter().enumerate() {
            assert_eq!(row[..], rows[ACCOUNTS * at + account][..], "year {year}, account {account}");
        }
    }
    assert_eq!(year_sheet(SAMPLE, u64::MAX), [[0; MONTHS]; ACCOUNTS]);
    assert_eq!(year_sheet(&SAMPLE[1..], 2026), [[0; MONTHS]; ACCOUNTS]);
}
