//! One ledger in both implementations, and a posting to both.

use crate::convert;
use crate::holiday_counts;
use crate::reached::Function;
use crate::run::{same, Run, Same};
use referee::{Answer, Ledger};

pub struct Both {
    pub referee: Ledger,
    library: nedrulov::Ledger,
}

impl Both {
    pub fn fresh(is_new: bool) -> Both {
        Both {
            referee: Ledger::fresh(is_new),
            library: nedrulov::fresh(is_new),
        }
    }

    pub fn of(ledger: &Ledger) -> Both {
        Both {
            referee: ledger.clone(),
            library: convert::to_library(ledger),
        }
    }

    /// Posts by value, lent and to the referee, and compares all that comes of it.
    pub fn post(&mut self, run: &mut Run, bytes: &[u8]) -> Result<Answer, String> {
        run.holds(Some(&self.referee), bytes);
        let before = self.referee.clone();
        let value = nedrulov::post_by_value(self.library, bytes);
        let lent = nedrulov::post(&mut self.library, bytes);
        let own = referee::post(&mut self.referee, bytes);

        let answer = convert::answer(&own);
        same("answer by value", &value.answer, &answer)?;
        same("answer lent", &lent, &answer)?;
        let ledger = convert::to_library(&self.referee);
        same("ledger by value", &value.ledger, &ledger)?;
        same("ledger lent", &self.library, &ledger)?;
        let back = convert::to_referee(&self.library);
        same("ledger converted back", &back, &self.referee)?;
        if own.number != 0 {
            same("ledger after a refusal", &back, &before)?;
        }
        self.panel(run)?;
        // Where the list has changed, or has decided.
        let kind = bytes.first().copied().unwrap_or(0);
        if matches!((kind, own.number), (6, 0 | 23) | (9 | 11, 0)) {
            self.measurement_day(run, self.referee.year, self.referee.month)?;
        }
        entry_number(run, bytes)?;
        run.reached.posting(bytes, &before, &own, &self.referee);
        Ok(own)
    }

    /// The measurement day of any month, asked by itself.
    pub fn ask(&self, run: &mut Run, year: u64, month: u64) -> Same {
        let numbers = [year, month].map(u64::to_be_bytes);
        run.holds(Some(&self.referee), numbers.as_flattened());
        self.measurement_day(run, year, month)
    }

    pub fn measurement_day(&self, run: &mut Run, year: u64, month: u64) -> Same {
        let day = nedrulov::measurement_day(self.library, year, month);
        let own = referee::measurement_day(&self.referee, year, month);
        same("measurement day", &day, &own)?;
        holiday_counts::asked(run, &self.referee, year, month, day);
        Ok(())
    }

    fn panel(&self, run: &mut Run) -> Same {
        let panel = nedrulov::panel(self.library);
        run.reached.panel(&self.referee, panel.number);
        same(
            "panel",
            &(panel.number, panel.figure),
            &referee::panel(&self.referee),
        )
    }
}

/// Numbers 1 to 7 of any bytes as an entry, old and new.
pub fn entry_number(run: &mut Run, bytes: &[u8]) -> Same {
    for (is_new, what) in [(false, "entry number, old"), (true, "entry number, new")] {
        let number = nedrulov::entry_number(is_new, bytes);
        run.reached.answered(Function::EntryNumber, is_new, number);
        same(what, &number, &referee::entry_number(is_new, bytes))?;
    }
    Ok(())
}
