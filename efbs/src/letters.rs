//! The letters that stand: notices whose counterpart has not come, told from entries and answers alone.

use crate::entry::{Day, Kind};
use crate::replay::Step;
use crate::shown::whole;

/// A notice as it was accepted.
#[derive(Clone, Copy, Debug, PartialEq, Eq)]
pub struct Letter {
    /// The entry's place in the archive.
    pub index: usize,
    pub date: Day,
    pub writer: usize,
    pub other: usize,
    /// Whether the writer takes the gas; else it gives it.
    pub takes: bool,
    pub units: i64,
}

impl Letter {
    /// That of a step with a notice.
    pub fn of(step: &Step) -> Letter {
        let entry = &step.entry;
        Letter {
            index: step.index,
            date: entry.date,
            writer: entry.a.into(),
            other: entry.b.into(),
            takes: entry.flags == 1,
            units: entry.words[0].into(),
        }
    }

    /// Whether both tell the same of the same gas, each from its side.
    fn answers(&self, earlier: &Letter) -> bool {
        (self.writer, self.other) == (earlier.other, earlier.writer)
            && self.takes != earlier.takes
            && self.units == earlier.units
    }

    pub fn giver(&self) -> usize {
        match self.takes {
            true => self.other,
            false => self.writer,
        }
    }

    pub fn taker(&self) -> usize {
        match self.takes {
            true => self.writer,
            false => self.other,
        }
    }

    /// Its writer's, as the text has it.
    pub fn side(&self) -> &'static str {
        side(self.takes)
    }

    /// The other party's.
    pub fn other_side(&self) -> &'static str {
        side(!self.takes)
    }

    pub fn concerns(&self, account: usize) -> bool {
        [self.writer, self.other].contains(&account)
    }
}

fn side(takes: bool) -> &'static str {
    let mut words = Kind::Notice.form().flags.words(takes.into());
    words.next().unwrap_or_default()
}

/// Those that stand, in the order in which they came.
#[derive(Default)]
pub struct Letters {
    standing: Vec<Letter>,
}

impl Letters {
    /// The letters that the next step ends: the one that it answers, or all that stand as it closes the day. A notice that
    /// answers none comes to stand itself.
    pub fn ended_by(&mut self, step: &Step) -> Vec<Letter> {
        match step.entry.kind {
            _ if !step.accepted() => Vec::new(),
            Kind::Notice => self.take(Letter::of(step)),
            kind if kind.is_closing() => std::mem::take(&mut self.standing),
            _ => Vec::new(),
        }
    }

    fn take(&mut self, letter: Letter) -> Vec<Letter> {
        let counterpart = self
            .standing
            .iter()
            .position(|earlier| letter.answers(earlier));
        match counterpart {
            Some(place) => vec![self.standing.remove(place)],
            None => {
                self.standing.push(letter);
                Vec::new()
            }
        }
    }

    pub fn standing(&self) -> &[Letter] {
        &self.standing
    }
}

/// What became of a letter that came to stand.
#[derive(Clone, Copy, Debug, PartialEq, Eq)]
pub enum Fate {
    Answered,
    /// By the closing of this place in the archive.
    Cleared(usize),
    Stands,
}

impl Fate {
    /// That cleared the letter, if one did.
    pub fn closing(self) -> Option<usize> {
        match self {
            Fate::Cleared(closing) => Some(closing),
            Fate::Answered | Fate::Stands => None,
        }
    }
}

/// Every letter that came to stand, noted step by step.
#[derive(Default)]
pub struct Fates {
    letters: Letters,
    ended: Vec<(Letter, Fate)>,
}

impl Fates {
    pub fn add(&mut self, step: &Step) {
        let fate = match step.entry.kind {
            Kind::Notice => Fate::Answered,
            _ => Fate::Cleared(step.index),
        };
        let ended = self.letters.ended_by(step).into_iter();
        self.ended.extend(ended.map(|letter| (letter, fate)));
    }

    /// In the order in which they came, those that still stand too.
    pub fn list(&self) -> Vec<(Letter, Fate)> {
        let standing = self.letters.standing.iter();
        let standing = standing.map(|letter| (*letter, Fate::Stands));
        let mut list: Vec<_> = self.ended.iter().copied().chain(standing).collect();
        list.sort_by_key(|(letter, _)| letter.index);
        list
    }
}

/// Letters that came to stand, counted by what became of them.
#[derive(Clone, Copy, Debug, PartialEq, Eq)]
pub struct Counts {
    pub answered: usize,
    pub cleared: usize,
    pub standing: usize,
}

impl Counts {
    pub fn of(list: &[(Letter, Fate)]) -> Counts {
        let count = |is: fn(Fate) -> bool| list.iter().filter(|(_, fate)| is(*fate)).count();
        Counts {
            answered: count(|fate| fate == Fate::Answered),
            cleared: count(|fate| fate.closing().is_some()),
            standing: count(|fate| fate == Fate::Stands),
        }
    }

    pub fn all(&self) -> usize {
        self.answered + self.cleared + self.standing
    }

    /// All, and then by what became of them, for readers.
    pub fn shown(&self) -> [String; 4] {
        [self.all(), self.answered, self.cleared, self.standing].map(|number| whole(number as u64))
    }
}

/// Those that no letter answered, so far.
pub fn unanswered(list: &[(Letter, Fate)]) -> impl Iterator<Item = &(Letter, Fate)> {
    list.iter().filter(|(_, fate)| *fate != Fate::Answered)
}
