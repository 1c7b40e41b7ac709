//! Why a command ends without having done its work.

use crate::archive::Refusal;
use crate::diagnosis;
use crate::rules::Rules;
use std::io;

pub enum Failure {
    /// The command was asked for in a way that it does not know.
    Usage(String),
    /// The library refuses the archive, by which rules, and what to do next.
    Refused {
        refusal: Refusal,
        rules: Rules,
        next: String,
    },
    /// What happened and what to do next.
    Told(String),
    /// The output cannot be written.
    Output(io::Error),
}

impl Failure {
    /// With what the archive itself tells of why it is refused.
    pub fn looking_at(self, archive: &[u8]) -> Failure {
        match self {
            Failure::Refused { refusal, .. } => Failure::Refused {
                refusal,
                rules: Rules::of_archive(archive),
                next: diagnosis::of_archive(refusal.number, archive),
            },
            other => other,
        }
    }
}

impl From<Refusal> for Failure {
    fn from(refusal: Refusal) -> Failure {
        Failure::Refused {
            refusal,
            // Where no archive is at hand the number is one that says the same of both.
            rules: Rules::Old,
            next: diagnosis::by_number(refusal.number),
        }
    }
}

impl From<io::Error> for Failure {
    fn from(error: io::Error) -> Failure {
        Failure::Output(error)
    }
}
