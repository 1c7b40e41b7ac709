//! What numbers mean, in words.

use crate::rules::Rules;

/// The meaning of a refusal's number.
pub fn refusal(number: u64, rules: Rules) -> &'static str {
    match of_new_rules(number) {
        Some(words) if rules.is_new() => words,
        _ => of_either_rules(number),
    }
}

/// Where the later kinds have a part in it.
fn of_new_rules(number: u64) -> Option<&'static str> {
    Some(match number {
        2 => "the kind is none of the twelve",
        7 => "the transfer is to its giver, or notified with two different amounts, or the notice is to its writer",
        26 => "a second delivery or confiscation that day, measurement or usage that month, or notice while the first stands",
        28 => "the opening, transfer, trade or gas of two notices would pass its limit",
        _ => return None,
    })
}

fn of_either_rules(number: u64) -> &'static str {
    match number {
        1 => "the entry is not 32 bytes long",
        2 => "the kind is none of the nine",
        3 => "there is no such date in 2000 to 2099",
        4 => "an account is above 15",
        5 => "a byte or flag that this kind does not use is set",
        6 => "a value is outside its range",
        7 => "the transfer is to its giver, or notified with two different amounts",
        8 => "the file's size, opening bytes or section count is not that of an archive",
        9 => "the archive's directory or the end of the file is wrong",
        10 => "a month's closing is not at the end of its section, or a section lacks it",
        11 => "more than 1,200 sections or 4,294,967,295 bytes",
        12 => "the room for the output is too short",
        13 => "there is no such section",
        20 => "a number in the ledger is outside its range",
        21 => "the ledger has not begun: the first entry must be terms",
        22 => "not the ledger's date",
        23 => "not the day for an entry of this kind",
        24 => "the account is not open, or is to be enrolled and is open already",
        25 => "the supplier stays on FBS",
        26 => "a second delivery that day, or measurement or usage that month",
        27 => "an open account still lacks its delivery, measurement or usage",
        28 => "the opening, transfer or trade would pass its limit",
        29 => "a number in the ledger would leave its range",
        31 => "a number of the load curve, or the temperature, is not finite",
        32 => "the load is no number from 0 to 10,000,000.00 Dth",
        33 => "the holiday is no date of 2000 to 2099, or not after the ledger's date",
        34 => "sixteen holidays are held already, or this one is",
        35 => "the month would have no business day left from its 25th on",
        36 => "new rules have no transfer from 1 April 2027 on, but a notice of each party",
        _ => "no number of this ledger",
    }
}

/// Short name of V1 to V8, v from 1 to 8.
pub fn violation(v: usize) -> &'static str {
    match v {
        1 => "day's injection too large",
        2 => "day's withdrawal too large",
        3 => "month's net injection too large",
        4 => "month's withdrawal too large",
        5 => "month's withdrawal too small",
        6 => "bank too large on June 30 or August 31",
        7 => "bank below zero",
        8 => "bank above 102 percent",
        _ => "no such violation",
    }
}

/// "V7 bank below zero".
pub fn numbered_violation(v: usize) -> String {
    format!("V{v} {}", violation(v))
}

/// The v in a mask, in order: V1 is 1, V2 is 2, up to V8 128.
pub fn violation_list(mask: u64) -> Vec<usize> {
    (1..=8).filter(|v| mask >> (v - 1) & 1 == 1).collect()
}

/// The name of a month from 1 to 12.
pub fn month_name(month: u8) -> &'static str {
    const NAMES: [&str; 12] = [
        "January",
        "February",
        "March",
        "April",
        "May",
        "June",
        "July",
        "August",
        "September",
        "October",
        "November",
        "December",
    ];
    let name = usize::from(month)
        .checked_sub(1)
        .and_then(|place| NAMES.get(place));
    name.unwrap_or(&"no month")
}

#[cfg(test)]
mod tests {
    use super::*;
    use std::collections::HashSet;

    /// 1 and 13 come of no command: lists are made of whole entries, and no section is asked for by its number. 12 comes
    /// where memory is short, 20 of no list of postings. Their words are held here.
    #[test]
    fn every_number_has_words_of_its_own() {
        for rules in Rules::ALL {
            let refusal = |number| refusal(number, rules);
            let numbers = (1..=13).chain(20..=29).chain(31..=36);
            let words: Vec<_> = numbers.map(refusal).collect();
            let different: HashSet<_> = words.iter().collect();
            assert_eq!(different.len(), 29);
            for number in [0, 14, 19, 30, 37, u64::MAX] {
                assert!(!words.contains(&refusal(number)), "{number}");
            }
            assert!(refusal(1).contains("32 bytes"));
            assert!(refusal(12).contains("output"));
            assert!(refusal(13).contains("section"));
            assert!(refusal(20).contains("range"));
        }
    }

    #[test]
    fn masks() {
        assert_eq!(violation_list(0), []);
        assert_eq!(violation_list(1 + 64), [1, 7]);
        assert_eq!(violation_list(255), [1, 2, 3, 4, 5, 6, 7, 8]);
    }

    #[test]
    fn violations_have_different_names() {
        let different: HashSet<_> = (0..=8).map(violation).collect();
        assert_eq!(different.len(), 9);
    }

    #[test]
    fn months() {
        assert_eq!(month_name(1), "January");
        assert_eq!(month_name(12), "December");
        assert_eq!((month_name(0), month_name(13)), ("no month", "no month"));
    }
}
