//! An archive's entries posted, in file order, to a fresh ledger, old or new as the archive is.

use crate::archive::{entries, Refusal};
use crate::entry::Entry;
use crate::rules::Rules;
use nedrulov::{Answer, Ledger};
use std::convert::Infallible;
use std::ops::ControlFlow;

pub struct Step<'a> {
    pub index: usize,
    pub entry: Entry,
    pub answer: &'a Answer,
    pub before: &'a Ledger,
    pub after: &'a Ledger,
}

impl Step<'_> {
    pub fn accepted(&self) -> bool {
        self.answer.number == 0
    }
}

/// Checks the archive, then posts its entries in file order to a fresh ledger and shows each step; the last ledger.
pub fn replay(archive: &[u8], mut see: impl FnMut(&Step)) -> Result<Ledger, Refusal> {
    let ended = replay_while(archive, |step| {
        see(step);
        ControlFlow::<Infallible>::Continue(())
    })?;
    match ended {
        ControlFlow::Continue(ledger) => Ok(ledger),
        ControlFlow::Break(never) => match never {},
    }
}

/// The same, until whoever sees the steps breaks off.
pub fn replay_while<B>(
    archive: &[u8],
    mut see: impl FnMut(&Step) -> ControlFlow<B>,
) -> Result<ControlFlow<B, Ledger>, Refusal> {
    let mut after = nedrulov::fresh(Rules::of_archive(archive).is_new());
    let mut before = after;
    for (index, bytes) in entries(archive)?.enumerate() {
        let answer = nedrulov::post(&mut after, bytes);
        let step = Step {
            index,
            entry: Entry::from_bytes(bytes).ok_or(Refusal { number: 2, index })?,
            answer: &answer,
            before: &before,
            after: &after,
        };
        if let ControlFlow::Break(value) = see(&step) {
            return Ok(ControlFlow::Break(value));
        }
        // A refusal leaves the ledger as it was.
        if answer.number == 0 {
            before = after;
        }
    }
    Ok(ControlFlow::Continue(after))
}
