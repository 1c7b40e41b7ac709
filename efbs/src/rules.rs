//! Old and new rules: what a ledger and an archive are, from the first entry to the last.

use nedrulov::Ledger;

/// What efbs help tells of them, and under which name.
pub const TOPIC: &str = "rules";
pub const HELP: &str = "\
An archive is old or new, by the rule that its forfeits go by. Forfeits are taken as January and March close.

  old   A supplier loses all gas above 65 percent of its BCQ in January, above 25 percent in March.
        The archive begins with EFB1.
  new   It loses the smaller of that excess and what the storage provider confiscated.
        The archive begins with EFB2.

A text says which it is before its first entry, by the line \"rules old\" or \"rules new\"; one that says nothing is old.
unpack always writes the line, and pack makes the archive by it. A new text has three more kinds of entry:

  2027-01-31 confiscated account=3 gas=1200.00
  2026-11-02 holiday on=2026-12-25
  2027-04-12 notice account=3 other=0 gives gas=100.00

The first is for January 31 and March 31, once for each account and day, and moves no gas: the close-month of that day
reports the forfeit. Where none is posted, nothing is forfeited. The second names a day on which no meter is read. It may
be posted on any day before that one. A month is measured on the first Monday to Friday from its 25th on that is not
named, so a holiday there moves its measuring day: to 28 December in the example. At most 16 holidays are held at a time;
those that have passed go as a month closes. The third is a supplier's own letter on gas that it gives to another or
takes from it. It stands until the other's letter on the same gas comes, takes in the place of gives or the reverse, and
then the gas moves as by a transfer; without that it goes as the day closes (efbs help letters). From 1 April 2027 on a
new archive has two notices in the place of a transfer, which is refused with 36. Old texts and archives have none of the
three kinds; there they are refused with 2. What is posted stays with its rule: an old archive does not become new.
";

#[derive(Clone, Copy, Debug, PartialEq, Eq)]
pub enum Rules {
    /// At the ends of January and March a supplier forfeits all gas above a share of its BCQ.
    Old,
    /// It forfeits no more of it than the storage provider confiscated, as entries tell; there are holidays, and two letters
    /// for a transfer.
    New,
}

impl Rules {
    pub const ALL: [Rules; 2] = [Rules::Old, Rules::New];

    pub fn of_archive(archive: &[u8]) -> Rules {
        Rules::told(nedrulov::is_new(archive))
    }

    pub fn of_ledger(ledger: &Ledger) -> Rules {
        Rules::told(ledger.is_new)
    }

    /// As the library tells them.
    fn told(is_new: bool) -> Rules {
        match is_new {
            true => Rules::New,
            false => Rules::Old,
        }
    }

    /// As the library is told.
    pub fn is_new(self) -> bool {
        self == Rules::New
    }

    /// Their name in a text.
    pub fn word(self) -> &'static str {
        match self {
            Rules::Old => "old",
            Rules::New => "new",
        }
    }

    /// What a page says of its forfeits. Pages of old archives are what they were before there were new ones.
    pub fn note(self) -> Option<&'static str> {
        self.is_new().then_some(
            "New rules: a forfeit is the smaller of the excess and what the storage provider confiscated.",
        )
    }
}

#[cfg(test)]
mod tests {
    use super::*;

    #[test]
    fn the_library_keeps_what_it_is_told() {
        for rules in Rules::ALL {
            assert_eq!(Rules::of_ledger(&nedrulov::fresh(rules.is_new())), rules);
        }
    }
}
