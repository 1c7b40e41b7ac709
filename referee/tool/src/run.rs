//! What a comparison carries along: the counters, and the input in hand, to be printed if the two differ.

use crate::reached::Reached;
use std::fmt::Debug;

/// Nothing, or a text that tells the difference.
pub type Same = Result<(), String>;

#[derive(Default)]
pub struct Run {
    pub reached: Reached,
    ledger: Option<referee::Ledger>,
    bytes: Vec<u8>,
}

impl Run {
    /// Keeps the input before it is given away, so that a panic can be repeated too.
    pub fn holds(&mut self, ledger: Option<&referee::Ledger>, bytes: &[u8]) {
        self.ledger = ledger.cloned();
        self.bytes.clear();
        self.bytes.extend_from_slice(bytes);
    }

    /// The input in hand, in hexadecimal.
    pub fn input(&self) -> String {
        let mut text = format!("input, {} bytes: ", self.bytes.len());
        for byte in &self.bytes {
            text += &format!("{byte:02x}");
        }
        if let Some(ledger) = &self.ledger {
            text += &format!("\nledger before: {}", short(ledger));
        }
        text
    }
}

/// A ledger without its fresh accounts.
fn short(ledger: &referee::Ledger) -> String {
    let head = format!(
        "new {} begun {} touched {} date {}-{}-{} {:?}",
        ledger.is_new,
        ledger.begun,
        ledger.touched,
        ledger.year,
        ledger.month,
        ledger.day,
        ledger.terms
    );
    let head = format!(
        "{head}\n  holidays: {} of {}",
        ledger.holidays.count,
        dates(ledger)
    );
    let fresh = referee::Account::default();
    let others = (0..).zip(&ledger.accounts);
    let accounts = others.filter(|(_, account)| **account != fresh);
    accounts.fold(head, |text, (place, account)| {
        format!("{text}\n  account {place}: {account:?}")
    })
}

/// All places up to the last that is not zeros.
fn dates(ledger: &referee::Ledger) -> String {
    let places = ledger.holidays.dates;
    let used = places
        .iter()
        .rposition(|place| *place != referee::Named::default());
    let used = &places[..used.map_or(0, |last| last + 1)];
    let texts = used
        .iter()
        .map(|date| format!("{}-{}-{}", date.year, date.month, date.day));
    format!("[{}]", texts.collect::<Vec<_>>().join(" "))
}

/// The same from both, or the lines in which their texts differ.
pub fn same<T: PartialEq + Debug>(what: &str, library: &T, referee: &T) -> Same {
    if library == referee {
        return Ok(());
    }
    let (ours, theirs) = (format!("{library:#?}"), format!("{referee:#?}"));
    let lines = ours.lines().zip(theirs.lines()).enumerate();
    let different = lines.filter(|(_, (a, b))| a != b);
    let text = different
        .take(20)
        .fold(String::new(), |text, (at, (a, b))| {
            format!(
                "{text}\n  line {at}: library {} referee {}",
                a.trim(),
                b.trim()
            )
        });
    Err(format!("{what}{text}"))
}
