//! Letters of small archives, and of the sample: those that stand by entries and answers are those in the ledger.

mod common;

use common::{letter_sample, pack};
use efbs::letters::{unanswered, Counts, Fate, Fates, Letter, Letters};
use efbs::movements::{Cause, Movement, Movements};
use efbs::replay::replay;
use nedrulov::{Ledger, Notice};

const BEGINNING: &str = "\
rules new
2027-04-01 terms no-notice=120000 design-day=480000 storage=5000400 retainage=0.00% demand-rate=0.000 commodity-rate=0.000
2027-04-01 enrol account=2 wants-efbs mdq=4200 opening=30.00
2027-04-01 enrol account=5 wants-efbs mdq=4200 opening=20.00
2027-04-01 enrol account=9 wants-efbs mdq=4200 opening=10.00
";
const DELIVERIES: &str = "\
2027-04-01 deliver account=2 delivered=0.00 back-cast=0.00
2027-04-01 deliver account=5 delivered=0.00 back-cast=0.00
2027-04-01 deliver account=9 delivered=0.00 back-cast=0.00
";
const CLOSING: &str = "2027-04-01 close-day\n";
/// Before these there are the terms and three enrolments.
const FIRST: usize = 4;

fn archive(rest: &[&str]) -> Vec<u8> {
    pack(&[BEGINNING, &rest.concat()].concat())
}

/// A notice of the first day.
fn notice(words: &str) -> String {
    format!("2027-04-01 notice {words}\n")
}

fn fates(archive: &[u8]) -> Vec<(Letter, Fate)> {
    let mut fates = Fates::default();
    replay(archive, |step| fates.add(step)).expect("the archive is right");
    fates.list()
}

/// The places of letters with what became of them.
fn places(archive: &[u8]) -> Vec<(usize, Fate)> {
    let places = fates(archive).into_iter();
    places
        .map(|(letter, fate)| (letter.index - FIRST, fate))
        .collect()
}

fn moved(archive: &[u8]) -> Vec<Movement> {
    let mut movements = Movements::default();
    let mut moved = Vec::new();
    replay(archive, |step| {
        moved.extend(
            movements
                .of(step)
                .into_iter()
                .filter(|one| one.cause != Cause::Opening),
        );
    })
    .expect("the archive is right");
    moved
}

/// What each account's notice must be, where these letters stand.
fn notices(standing: &[Letter], ledger: &Ledger) -> Vec<Notice> {
    let accounts = 0..ledger.accounts.len();
    let of_account = |account| {
        let letter = standing.iter().find(|letter| letter.writer == account);
        letter.map_or(Notice::default(), |letter| Notice {
            stands: true,
            takes: letter.takes,
            other: letter.other,
            units: letter.units as u64,
        })
    };
    accounts.map(of_account).collect()
}

/// After every step; how many letters stood at most.
fn stands_as_in_the_ledger(archive: &[u8]) -> usize {
    let (mut letters, mut most) = (Letters::default(), 0);
    replay(archive, |step| {
        letters.ended_by(step);
        let held = step
            .after
            .accounts
            .iter()
            .map(|account| account.today.notice);
        let due = notices(letters.standing(), step.after);
        assert_eq!(held.collect::<Vec<_>>(), due, "entry {}", step.index);
        most = most.max(letters.standing().len());
    })
    .expect("the archive is right");
    most
}

#[test]
fn the_samples_letters_stand_in_its_ledger() {
    assert_eq!(stands_as_in_the_ledger(&letter_sample()), 2);
}

/// Every pair of a few letters, one after the other, and a closing between other two.
#[test]
fn letters_stand_as_in_the_ledger() {
    let mut words = Vec::new();
    for (account, other) in [(2, 5), (5, 2), (2, 9), (9, 5)] {
        for side in ["gives", "takes"] {
            for gas in ["1.00", "25.00"] {
                words.push(notice(&format!(
                    "account={account} other={other} {side} gas={gas}"
                )));
            }
        }
    }
    for first in &words {
        for second in &words {
            let three = [first, second, &words[0]];
            let pair = archive(&[first, second, first, DELIVERIES, CLOSING]);
            assert!(stands_as_in_the_ledger(&pair) > 0, "{first}{second}");
            stands_as_in_the_ledger(&archive(&three.map(String::as_str)));
        }
    }
}

#[test]
fn the_second_letter_moves_the_gas() {
    let given = notice("account=2 other=5 gives gas=7.00");
    let taken = notice("account=5 other=2 takes gas=7.00");
    let due = [
        Movement {
            account: 2,
            cause: Cause::TransferTo(5),
            units: -700,
        },
        Movement {
            account: 5,
            cause: Cause::TransferIn,
            units: 700,
        },
    ];
    for (first, second) in [(&given, &taken), (&taken, &given)] {
        assert_eq!(moved(&archive(&[first])), []);
        let both = archive(&[first, second]);
        assert_eq!(moved(&both), due);
        assert_eq!(places(&both), [(0, Fate::Answered)]);
    }
}

#[test]
fn what_does_not_fit_stands_beside_it() {
    let first = notice("account=2 other=5 gives gas=7.00");
    for words in [
        "account=5 other=2 gives gas=7.00",
        "account=5 other=2 takes gas=7.01",
        "account=5 other=9 takes gas=7.00",
        "account=9 other=2 takes gas=7.00",
    ] {
        let both = archive(&[&first, &notice(words)]);
        assert_eq!(moved(&both), [], "{words}");
        assert_eq!(
            places(&both),
            [(0, Fate::Stands), (1, Fate::Stands)],
            "{words}"
        );
    }
}

/// The second is refused with 28, since account 2 has 30.00 Dth; then a smaller pair goes through.
#[test]
fn a_refused_answer_leaves_the_letter() {
    let first = notice("account=5 other=2 takes gas=30.01");
    let second = notice("account=2 other=5 gives gas=30.01");
    let refused = archive(&[&first, &second]);
    assert_eq!(places(&refused), [(0, Fate::Stands)]);
    assert_eq!(moved(&refused), []);
    let third = notice("account=2 other=9 gives gas=30.00");
    let fourth = notice("account=9 other=2 takes gas=30.00");
    let after = archive(&[&first, &second, &third, &fourth]);
    assert_eq!(places(&after), [(0, Fate::Stands), (2, Fate::Answered)]);
    assert_eq!(moved(&after).len(), 2);
}

#[test]
fn only_an_accepted_closing_clears_letters() {
    let given = notice("account=2 other=5 gives gas=7.00");
    let other = notice("account=9 other=5 gives gas=7.00");
    let taken = "2027-04-02 notice account=5 other=2 takes gas=7.00\n";
    let lacking = archive(&[&given, CLOSING]);
    assert_eq!(places(&lacking), [(0, Fate::Stands)]);
    let closed = archive(&[&given, &other, DELIVERIES, CLOSING, taken]);
    let closing = Fate::Cleared(FIRST + 5);
    assert_eq!(
        places(&closed),
        [(0, closing), (1, closing), (6, Fate::Stands)]
    );
    assert_eq!(
        moved(&closed).iter().filter(|one| one.units != 0).count(),
        0
    );
}

#[test]
fn letters_are_counted_by_what_became_of_them() {
    let list = fates(&letter_sample());
    let counts = Counts::of(&list);
    assert_eq!(
        (counts.answered, counts.cleared, counts.standing),
        (6, 7, 1)
    );
    assert_eq!(counts.all(), list.len());
    assert_eq!(unanswered(&list).count(), 8);
    assert!(list.is_sorted_by_key(|(letter, _)| letter.index));
}
