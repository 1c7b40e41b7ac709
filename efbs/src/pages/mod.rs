//! What the commands write: most from an archive, back-casts from temperatures.

pub mod backcast;
pub mod journal;
pub mod letters;
pub mod log;
pub mod partners;
pub mod sheet;
pub mod statement;

use crate::failure::Failure;
use crate::replay::{replay_while, Step};
use nedrulov::Ledger;
use std::io;
use std::ops::ControlFlow;

/// Replays an archive while its steps can be written.
fn show(archive: &[u8], mut write: impl FnMut(&Step) -> io::Result<()>) -> Result<Ledger, Failure> {
    let ended = replay_while(archive, |step| match write(step) {
        Ok(()) => ControlFlow::Continue(()),
        Err(error) => ControlFlow::Break(error),
    })?;
    match ended {
        ControlFlow::Continue(ledger) => Ok(ledger),
        ControlFlow::Break(error) => Err(error.into()),
    }
}

fn never_enrolled(account: usize) -> Failure {
    Failure::Told(format!(
        "account {account} is never enrolled in this archive. Without --account every supplier is shown."
    ))
}
