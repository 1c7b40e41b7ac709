//! A second implementation of the rules in docs/RULES.md: a ledger of gas
//! banks under Rider EFBS, and its archive.
//!
//! From the bottom up: dates and the month's percentages, tariff arithmetic,
//! the 32-byte entry, the ledger with its ranges and panel, the postings with
//! the two closings, and the archive above them all. The partner list reads a
//! ledger and posts nothing. The back-cast from the weather stands beside them,
//! on an arithmetic of doubles of its own.
//!
//! Ledgers and archives are old or new. Only the new ones have CONFISCATED,
//! and forfeit no more than it posts, HOLIDAY and NOTICE; one parameter carries
//! that through. The dates that HOLIDAY names stand in the ledger and move the
//! measurement day. A NOTICE stands in its writer's account until the letter
//! that fits it moves the gas or the day is closed.
//!
//! Gas that moves is in units, a hundred to the Dth; MDQ, MDDQ and BCQ are in
//! Dth, consumption is in Mcf and money in mills. A percentage p of a BCQ is
//! therefore p × BCQ in units, without a quotient.

#![forbid(unsafe_code)]

pub mod archive;
pub mod backcast;
pub mod calendar;
mod closing;
mod double;
pub mod entry;
pub mod holidays;
pub mod ledger;
pub mod notices;
pub mod number;
pub mod partners;
pub mod posting;
mod tariff;

pub use archive::{check, panel_line, replay, section, write, year_sheet, Replay, Written};
pub use backcast::{back_cast, BackCast, Curve};
pub use calendar::{Date, Month};
pub use entry::{entry_number, Entry, Posting};
pub use holidays::{measurement_day, Holidays, Named};
pub use ledger::{panel, Account, Ledger, Prices, Terms};
pub use notices::Notice;
pub use partners::{partners, PartnerList};
pub use posting::{post, Answer, Report};
