//! Named counters: what is rare enough to be missed. Each has columns that are counted apart.

use std::collections::BTreeMap;

type Columns = &'static [&'static str];
type Rows = &'static [(&'static str, Columns)];

const AGES: Columns = &["old", "new"];
const MONTHS: Columns = &["January", "March"];

/// The column of a ledger or an archive.
pub fn age(is_new: bool) -> &'static str {
    AGES[usize::from(is_new)]
}

/// The column of a day on which gas is forfeited.
pub fn month(number: u64) -> &'static str {
    MONTHS[usize::from(number != 1)]
}

const NUMBERS: Columns = &["0", "31", "32"];

/// What can be wrong with the dates that a ledger holds.
const FAULTS: Columns = &["17 or more", "no date", "no business day"];
/// Days on which a month can be measured.
const DAYS: Columns = &["25", "26", "27", "28", "29", "30", "31"];

/// What can be wrong with a letter that stands.
const LETTER_FAULTS: Columns = &["other party", "no units", "too many units"];

const GROUPS: [(&str, Rows); 10] = [
    (
        "in accepted closings and elsewhere",
        &[
            ("V1", AGES),
            ("V2", AGES),
            ("V3", AGES),
            ("V4", AGES),
            ("V5", AGES),
            ("V6", AGES),
            ("V7", AGES),
            ("V8", AGES),
            ("cash-in", AGES),
            ("cash-out", AGES),
            ("forfeit in January", AGES),
            ("forfeit in March", AGES),
            ("carry not 0", AGES),
            ("step up", AGES),
            ("step down", AGES),
            ("excuse set", AGES),
            ("excuse ended", AGES),
            ("29 February closed", AGES),
            ("31 December 2099 not closed", AGES),
            ("bill below 0", AGES),
        ],
    ),
    (
        "amounts confiscated",
        &[
            ("CONFISCATED of 0 accepted", MONTHS),
            ("CONFISCATED of 10^9 accepted", MONTHS),
            ("CONFISCATED over an amount without its mark", MONTHS),
            ("26 after a CONFISCATED of 0", MONTHS),
            ("26 after a CONFISCATED of more", MONTHS),
            (
                "20 to CONFISCATED by an amount alone",
                &["open", "not open"],
            ),
            ("20 to another kind by an amount alone", AGES),
            ("20 of the panel by an amount alone", AGES),
            ("amount cleared by CLOSE DAY", AGES),
            ("amount cleared by CLOSE MONTH", AGES),
            ("mark with an amount of 0 cleared", AGES),
            ("amount kept at a refused CLOSE DAY", AGES),
            ("amount kept at a refused CLOSE MONTH", AGES),
            ("amount kept by an account not open", AGES),
            ("amount forgotten by ENROL", AGES),
        ],
    ),
    (
        "forfeits of accepted closings",
        &[
            ("new: amount, below the excess", MONTHS),
            ("new: amount, 1 below the excess", MONTHS),
            ("new: amount and excess, equal", MONTHS),
            ("new: excess, 1 below the amount", MONTHS),
            ("new: excess, below the amount", MONTHS),
            ("new: amount without its mark, below the excess", MONTHS),
            ("new: 0 with an excess, none posted", MONTHS),
            ("new: 0 with an excess, 0 posted", MONTHS),
            ("new: 0 with an amount, no excess", MONTHS),
            ("old: excess, a recorded amount below it", MONTHS),
            ("old: excess, a recorded amount above it", MONTHS),
        ],
    ),
    (
        "HOLIDAY",
        &[
            (
                "HOLIDAY accepted",
                &[
                    "first",
                    "sixteenth",
                    "tomorrow",
                    "weekend",
                    "before a 25th",
                    "moves a day",
                    "last day of all",
                    "litter cleared",
                ],
            ),
            (
                "33 to HOLIDAY",
                &["no date", "today", "earlier", "a date if cut off"],
            ),
            ("34 to HOLIDAY", &["seventeenth", "repeated", "both"]),
            ("35 to HOLIDAY", &["in this month", "in a later month"]),
            ("date past the count named", &["accepted"]),
            (
                "a refusal of HOLIDAY that hides another",
                &[
                    "20 over 33",
                    "21 over 33",
                    "22 over 33",
                    "33 over 34",
                    "33 over 35",
                    "34 over 35",
                ],
            ),
            ("20 to HOLIDAY by the list alone", FAULTS),
            ("20 to another kind by the list alone, old", FAULTS),
            ("20 to another kind by the list alone, new", FAULTS),
            ("20 by the list alone, not begun", FAULTS),
            ("20 of the panel by the list alone", FAULTS),
            ("20 of a partner list by the list alone", FAULTS),
        ],
    ),
    (
        "held dates",
        &[
            ("MEASURE accepted on the", DAYS),
            ("MEASURE accepted on a moved day", AGES),
            ("MEASURE refused on the plain day", AGES),
            ("27 for MEASURE on a moved day", AGES),
            ("27 for MEASURE at a month's end", AGES),
            ("closed unmeasured on the plain day", AGES),
            ("measurement day", DAYS),
            ("0 by the", &["month", "huge month", "year", "huge year"]),
            (
                "0 by a fault",
                &["other", "17 or more", "no date", "no business day"],
            ),
            (
                "moved in a ledger",
                &["old", "new", "not begun", "of another month"],
            ),
            ("date dropped by CLOSE MONTH", AGES),
            ("day before the new date dropped", AGES),
            ("date kept by CLOSE MONTH", AGES),
            ("date equal to the new date kept", AGES),
            ("date kept in another place", AGES),
            ("all sixteen dropped", AGES),
            ("all sixteen kept", AGES),
            ("litter cleared by CLOSE MONTH", AGES),
            ("past date left by CLOSE DAY", AGES),
            (
                "litter past the count left by",
                &[
                    "TERMS",
                    "ENROL",
                    "DELIVER",
                    "TRANSFER",
                    "TRADE",
                    "MEASURE",
                    "USAGE",
                    "CLOSE DAY",
                    "CONFISCATED",
                    "NOTICE",
                ],
            ),
        ],
    ),
    (
        "NOTICE, and TRANSFER beside it",
        &[
            ("letter stands, its writer", &["gives", "takes"]),
            (
                "letter stands, as the other party's",
                &[
                    "is none",
                    "is none but would fit",
                    "names a third",
                    "has the same side",
                    "is 1 unit off",
                    "is further off",
                ],
            ),
            ("letter stands, though a third's would fit", &["new"]),
            ("gas moves by the letter of", &["the giver", "the taker"]),
            (
                "gas moves to the",
                &["giver's minimum", "taker's maximum", "both", "10^9 moved"],
            ),
            ("gas moves on a day", &["with TRANSFER", "without TRANSFER"]),
            ("gas moves, members of none left", &["new"]),
            (
                "24 to NOTICE, not open is the",
                &["writer", "other party", "both"],
            ),
            (
                "26 to a letter that",
                &[
                    "would match",
                    "would match none",
                    "is the one that stands",
                    "names another party",
                ],
            ),
            ("28 to the letter of", &["the giver", "the taker"]),
            (
                "28 to a second letter by",
                &[
                    "1 unit at the minimum",
                    "1 unit at the maximum",
                    "both limits",
                ],
            ),
            (
                "after 28 to a second letter",
                &[
                    "another stands",
                    "one to a third stands",
                    "other party: 26",
                    "the same moves",
                ],
            ),
            (
                "a refusal of NOTICE that hides another",
                &[
                    "20 over 24",
                    "21 over 24",
                    "22 over 24",
                    "22 over 26",
                    "24 over 26",
                    "26 over 28",
                ],
            ),
            ("36 to TRANSFER", &["1 April 2027", "later"]),
            (
                "TRANSFER accepted",
                &[
                    "new, 31 March 2027",
                    "new, earlier",
                    "old, 1 April 2027",
                    "old, later",
                ],
            ),
            (
                "numbers around 36",
                &[
                    "20 over 36",
                    "21 over 36",
                    "22 over 36",
                    "36 over 24",
                    "36 over 28",
                    "36 alone",
                ],
            ),
            ("TRANSFER of gas for which a letter waits", &["accepted"]),
            (
                "gas moved twice, a TRANSFER between letters",
                &["giver's first", "taker's first"],
            ),
        ],
    ),
    (
        "letters that stand",
        &[
            ("20 to NOTICE by a letter alone", LETTER_FAULTS),
            ("20 to another kind by a letter alone", AGES),
            ("20 by a letter alone, not begun", LETTER_FAULTS),
            ("20 by the letter of an account", &["open", "not open"]),
            ("20 of the panel by a letter alone", LETTER_FAULTS),
            ("20 of a partner list by a letter alone", LETTER_FAULTS),
            ("not 20 by members of none that stands", LETTER_FAULTS),
            ("letter cleared by CLOSE DAY", AGES),
            ("letter cleared by CLOSE MONTH", AGES),
            ("members of none cleared by a closing", AGES),
            ("letter kept at a refused closing", AGES),
            ("letter kept by an account not open", AGES),
            ("letter forgotten by ENROL", AGES),
            ("members of none forgotten by ENROL", AGES),
            ("letter to the one that ENROL opens", AGES),
            (
                "letter left by",
                &[
                    "TERMS",
                    "ENROL",
                    "DELIVER",
                    "TRANSFER",
                    "TRADE",
                    "MEASURE",
                    "USAGE",
                    "CONFISCATED",
                    "HOLIDAY",
                    "NOTICE",
                ],
            ),
        ],
    ),
    (
        "archives",
        &[
            ("kind 10 in an archive", &["old, 2", "new, accepted"]),
            ("kind 10 in a list to write", &["old, 2", "new, accepted"]),
            ("kind 11 in an archive", &["old, 2", "new, accepted"]),
            ("kind 11 in a list to write", &["old, 2", "new, accepted"]),
            ("kind 12 in an archive", &["old, 2", "new, accepted"]),
            ("kind 12 in a list to write", &["old, 2", "new, accepted"]),
            ("8 by the fourth byte, else accepted", AGES),
            ("refused, but opens as new", &["4 to 7 bytes", "longer"]),
            ("year sheet not all 0", AGES),
            ("CONFISCATED accepted in a year's archive", &["new"]),
            ("HOLIDAY accepted in a year's archive", &["new"]),
            ("NOTICE accepted in a year's archive", &["new"]),
            ("MEASURE moved in a year's archive", &["new"]),
            ("one list in both", &["other figures", "other sheet"]),
        ],
    ),
    (
        "back-casts",
        &[
            ("any bits", NUMBERS),
            ("numbers and others", &["0", "31"]),
            ("at an edge", NUMBERS),
            ("sums that round", &["0", "32"]),
            ("whole numbers", &["0", "32"]),
            (
                "31 by one alone",
                &["base", "slope", "turning", "temperature"],
            ),
            (
                "load",
                &[
                    "-0",
                    "just below 0",
                    "-0.5",
                    "just below 1",
                    "10^9",
                    "just above 10^9",
                    "infinite",
                    "no number",
                ],
            ),
            ("temperature", &["at turning", "just below", "just above"]),
            (
                "another rounding would differ, or did",
                &["fused", "to nearest", "subnormal product"],
            ),
        ],
    ),
    (
        "partner lists",
        &[
            (
                "asked of",
                &[
                    "banks at the limits",
                    "the same, spoilt",
                    "any ledger",
                    "gas years",
                ],
            ),
            ("4 by a seller of", &["16", "more"]),
            ("6 by a quantity of", &["0", "10^9 + 1", "more"]),
            (
                "a refusal that hides another",
                &["4 over 6", "6 over 20", "20 over 21", "21 over 24"],
            ),
            (
                "listed",
                &[
                    "none, seller's minimum",
                    "none, nobody fits",
                    "none, nobody else open",
                    "one",
                    "several",
                    "all fifteen",
                ],
            ),
            (
                "listed some in",
                &[
                    "Jan", "Feb", "Mar", "Apr", "May", "Jun", "Jul", "Aug", "Sep", "Oct", "Nov",
                    "Dec",
                ],
            ),
            ("listed some for", &["1 unit", "10^9"]),
            ("seller ends", &["at its minimum", "1 below"]),
            ("receiver ends", &["at its maximum", "1 above"]),
            (
                "listed account",
                &[
                    "from below 0",
                    "from below its minimum",
                    "still below its minimum",
                    "with a BCQ of 0",
                ],
            ),
            ("not listed, but would fit", &["not open", "seller"]),
            (
                "listed, and the letters move it",
                &[
                    "giver's first",
                    "taker's first",
                    "with TRANSFER",
                    "without TRANSFER",
                ],
            ),
            (
                "not asked, as a letter stands of",
                &["the seller", "the other"],
            ),
            (
                "headroom of two listed",
                &[
                    "equal",
                    "equal, larger MDDQ second",
                    "1 apart, lower number first",
                    "1 apart, lower number second",
                    "larger bank first",
                ],
            ),
        ],
    ),
];

#[derive(Default)]
pub struct Events(BTreeMap<(&'static str, &'static str), u64>);

impl Events {
    pub fn count(&mut self, name: &'static str, column: &'static str, happened: bool) {
        if happened {
            *self.0.entry((name, column)).or_default() += 1;
        }
    }

    /// Prints the groups, and tells how many counters are 0.
    pub fn print(&self) -> usize {
        let mut known = 0;
        let mut zeros = 0;
        for (group, rows) in GROUPS {
            println!("\n{group}");
            for &(name, columns) in rows {
                let counts = columns.iter().map(|column| self.0.get(&(name, column)));
                let cells = columns.iter().zip(counts).map(|(column, count)| {
                    known += usize::from(count.is_some());
                    zeros += usize::from(count.is_none());
                    format!("{column}: {}", count.unwrap_or(&0))
                });
                let cells: Vec<String> = cells.collect();
                println!("  {name:<47} {}", cells.join("  "));
            }
        }
        // A name that is in no group would be counted in vain.
        assert_eq!(known, self.0.len(), "every counter is in a group");
        zeros
    }
}
