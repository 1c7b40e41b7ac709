//! The command that races: the same entries through the library, the referee and accounting programs, by size. Ledgers
//! and archives are old here, so that times go on to compare with earlier ones.

use crate::accounting;
use crate::convert;
use crate::gas_year::{make, Plan};
use crate::random::Random;
use referee::Ledger;
use std::hint::black_box;
use std::time::{Duration, Instant};

const SUPPLIERS: [u8; 2] = [4, 16];
const YEARS: [usize; 3] = [1, 10, 30];
const REPETITIONS: usize = 7;

/// The entries of some gas years, and their archive.
pub struct Track {
    pub suppliers: u8,
    pub years: usize,
    list: Vec<u8>,
    pub archive: Vec<u8>,
}

impl Track {
    pub fn entries(&self) -> usize {
        self.list.len() / 32
    }
}

/// The best times of one track.
struct Times {
    by_value: Duration,
    lent: Duration,
    referee: Duration,
    check: [Duration; 2],
    replay: [Duration; 2],
}

pub fn run() {
    let built = if cfg!(debug_assertions) {
        "for debug: the ratios mean nothing"
    } else {
        "for release"
    };
    println!("The library was built for release, the referee {built}");
    println!("(with overflow checks, as its own profile has it).");
    println!(
        "Each archive's buffer was written before its timing started, not cleared in between."
    );
    println!("Each time is the best of {REPETITIONS}, from a fresh ledger each, on one thread.");
    println!("Every posting is accepted. A ratio is the library's time over the referee's.");
    let tracks: Vec<Track> = YEARS
        .iter()
        .flat_map(|&years| SUPPLIERS.map(|suppliers| track(suppliers, years)))
        .collect();
    let times: Vec<Times> = tracks.iter().map(measure).collect();
    print_postings(&tracks, &times);
    print_archives(&tracks, &times);
    accounting::run(&tracks);
}

fn track(suppliers: u8, years: usize) -> Track {
    let plan = Plan {
        first_year: 2026,
        months: 12 * years,
        suppliers,
        is_new: false,
        wild: false,
        refusals: false,
        holidays: false,
        letters: false,
    };
    let planned = make(&mut Random::new(1), plan);
    let list: Vec<u8> = planned.iter().flat_map(|planned| planned.bytes).collect();
    let mut archive = vec![0; 8 + 8 * plan.months + list.len()];
    let written = nedrulov::write(false, &list, &mut archive);
    assert_eq!((written.number, written.length), (0, archive.len()));
    Track {
        suppliers,
        years,
        list,
        archive,
    }
}

/// Takes turns, so that a busy moment of the machine does not fall on one runner alone.
fn measure(track: &Track) -> Times {
    let longest = Duration::MAX;
    let mut best = Times {
        by_value: longest,
        lent: longest,
        referee: longest,
        check: [longest; 2],
        replay: [longest; 2],
    };
    agree(track);
    let (list, archive) = (&track.list, &track.archive);
    for _ in 0..REPETITIONS {
        shorten(&mut best.by_value, || by_value(list).1);
        shorten(&mut best.lent, || lent(list).1);
        shorten(&mut best.referee, || of_referee(list).1);
        shorten(&mut best.check[0], || nedrulov::check(archive));
        shorten(&mut best.check[1], || referee::check(archive));
        shorten(&mut best.replay[0], || nedrulov::figures(archive));
        shorten(&mut best.replay[1], || referee::replay(archive));
    }
    best
}

pub fn shorten<T>(best: &mut Duration, work: impl FnOnce() -> T) {
    let start = Instant::now();
    black_box(work());
    *best = start.elapsed().min(*best);
}

/// All runners accept every entry and come to the same ledger.
fn agree(track: &Track) {
    let entries = track.entries();
    let (value, accepted_by_value) = by_value(&track.list);
    let (lent, accepted_lent) = lent(&track.list);
    let (own, accepted) = of_referee(&track.list);
    assert_eq!([accepted_by_value, accepted_lent, accepted], [entries; 3]);
    assert_eq!(value, convert::to_library(&own));
    assert_eq!(lent, value);
}

fn by_value(list: &[u8]) -> (nedrulov::Ledger, usize) {
    let mut ledger = nedrulov::fresh(false);
    let mut accepted = 0;
    for entry in list.chunks_exact(32) {
        let posted = nedrulov::post_by_value(ledger, black_box(entry));
        ledger = posted.ledger;
        accepted += usize::from(posted.answer.number == 0);
    }
    (ledger, accepted)
}

fn lent(list: &[u8]) -> (nedrulov::Ledger, usize) {
    let mut ledger = nedrulov::fresh(false);
    let mut accepted = 0;
    for entry in list.chunks_exact(32) {
        let answer = nedrulov::post(&mut ledger, black_box(entry));
        accepted += usize::from(answer.number == 0);
    }
    (ledger, accepted)
}

fn of_referee(list: &[u8]) -> (Ledger, usize) {
    let mut ledger = Ledger::fresh(false);
    let mut accepted = 0;
    for entry in list.chunks_exact(32) {
        let answer = referee::post(&mut ledger, black_box(entry));
        accepted += usize::from(answer.number == 0);
    }
    (ledger, accepted)
}

fn print_postings(tracks: &[Track], times: &[Times]) {
    println!("\npostings, entries per second");
    println!("suppliers years  entries     by value         lent      referee   ratio by value  ratio lent");
    for (track, times) in tracks.iter().zip(times) {
        let entries = track.entries();
        let [value, lent, own] =
            [times.by_value, times.lent, times.referee].map(|time| time.as_secs_f64());
        let speed = |time: f64| entries as f64 / time;
        println!(
            "{:>9} {:>5} {entries:>8} {:>12.0} {:>12.0} {:>12.0} {:>16.2} {:>11.2}",
            track.suppliers,
            track.years,
            speed(value),
            speed(lent),
            speed(own),
            value / own,
            lent / own,
        );
    }
}

fn print_archives(tracks: &[Track], times: &[Times]) {
    println!("\narchives, milliseconds");
    println!("suppliers years    bytes  check: library  referee  ratio   whole replay: library   referee  ratio");
    for (track, times) in tracks.iter().zip(times) {
        let [check, own_check] = times.check.map(|time| 1e3 * time.as_secs_f64());
        let [replay, own_replay] = times.replay.map(|time| 1e3 * time.as_secs_f64());
        println!(
            "{:>9} {:>5} {:>8} {check:>15.3} {own_check:>8.3} {:>6.2} {replay:>23.2} {own_replay:>9.2} {:>6.2}",
            track.suppliers,
            track.years,
            track.archive.len(),
            check / own_check,
            replay / own_replay,
        );
    }
}
