//! The command that compares: cases of seven kinds from seeds, up to the first difference.

use crate::random::Random;
use crate::run::{Run, Same};
use crate::{backcasts, boundaries, damage, hostile, noise, partners, years};
use std::panic::{catch_unwind, AssertUnwindSafe};
use std::time::{Duration, Instant};

struct Kind {
    letter: &'static str,
    name: &'static str,
    case: fn(&mut Random, &mut Run) -> Same,
    /// Cases in one round.
    cases: u64,
}

const KINDS: [Kind; 7] = [
    Kind {
        letter: "a",
        name: "valid gas years",
        case: years::case,
        cases: 7,
    },
    Kind {
        letter: "b",
        name: "boundaries",
        case: boundaries::case,
        cases: 12,
    },
    Kind {
        letter: "c",
        name: "hostile ledgers",
        case: hostile::case,
        cases: 120,
    },
    Kind {
        letter: "d",
        name: "damaged archives",
        case: damage::case,
        cases: 200,
    },
    Kind {
        letter: "e",
        name: "random bytes",
        case: noise::case,
        cases: 200,
    },
    Kind {
        letter: "f",
        name: "back-casts",
        case: backcasts::case,
        cases: 50,
    },
    Kind {
        letter: "g",
        name: "partner lists",
        case: partners::case,
        cases: 100,
    },
];

/// Rounds of the run without a time.
const ROUNDS: u64 = 20;

#[derive(Default)]
pub struct Options {
    seconds: Option<u64>,
    seed: Option<u64>,
    kind: Option<String>,
}

impl Options {
    pub fn read(words: &[String]) -> Option<Options> {
        let mut options = Options::default();
        let (pairs, rest) = words.as_chunks::<2>();
        for [name, value] in pairs {
            match name.as_str() {
                "--seconds" => options.seconds = Some(value.parse().ok()?),
                "--seed" => options.seed = Some(value.parse().ok()?),
                "--kind" if KINDS.iter().any(|kind| kind.letter == value) => {
                    options.kind = Some(value.clone())
                }
                _ => return None,
            }
        }
        rest.is_empty().then_some(options)
    }

    /// Fixed seeds without a time, new ones with it.
    fn first_seed(&self) -> u64 {
        let clock = || std::time::SystemTime::now().duration_since(std::time::UNIX_EPOCH);
        match (self.seed, self.seconds) {
            (Some(seed), _) => seed,
            (None, None) => 1,
            (None, Some(_)) => clock().map_or(1, |time| time.as_micros() as u64),
        }
    }
}

/// True if both agree on all cases and every counter is above 0.
pub fn run(options: &Options) -> bool {
    let mut run = Run::default();
    let seed = options.first_seed();
    if let (Some(letter), None) = (&options.kind, options.seconds) {
        return again(letter, seed, &mut run);
    }
    println!("first seed {seed}");
    let start = Instant::now();
    let mut spent = [Duration::ZERO; KINDS.len()];
    let mut rounds = 0;
    while match options.seconds {
        Some(seconds) => rounds == 0 || start.elapsed().as_secs() < seconds,
        None => rounds < ROUNDS,
    } {
        if !round(options, seed, rounds, &mut spent, &mut run) {
            return false;
        }
        rounds += 1;
    }
    print_spent(rounds, &spent);
    let seconds = start.elapsed().as_secs_f64();
    println!("no difference in {rounds} rounds, {seconds:.1} s");
    // A run of one kind cannot reach every counter.
    let whole = options.seconds.is_none();
    run.reached.print(whole) || options.kind.is_some()
}

fn print_spent(rounds: u64, spent: &[Duration]) {
    let ran = KINDS
        .iter()
        .zip(spent)
        .filter(|(_, spent)| !spent.is_zero());
    for (kind, spent) in ran {
        let (cases, seconds) = (kind.cases * rounds, spent.as_secs_f64());
        let Kind { letter, name, .. } = kind;
        println!("({letter}) {name:<17} {cases:>8} cases {seconds:>7.1} s");
    }
}

/// One case, as a difference is printed to be repeated.
fn again(letter: &str, seed: u64, run: &mut Run) -> bool {
    let mut kinds = KINDS.iter().filter(|kind| kind.letter == letter);
    let agree = kinds.all(|kind| one(kind, seed, run));
    if agree {
        println!("no difference in case ({letter}) of seed {seed}");
    }
    agree
}

fn round(options: &Options, seed: u64, round: u64, spent: &mut [Duration], run: &mut Run) -> bool {
    for (kind, spent) in KINDS.iter().zip(spent) {
        if options
            .kind
            .as_ref()
            .is_some_and(|letter| letter != kind.letter)
        {
            continue;
        }
        let start = Instant::now();
        for case in 0..kind.cases {
            if !one(kind, seed.wrapping_add(round * kind.cases + case), run) {
                return false;
            }
        }
        *spent += start.elapsed();
    }
    true
}

/// One case. A panic is a difference too.
fn one(kind: &Kind, seed: u64, run: &mut Run) -> bool {
    let mut random = Random::new(seed);
    let result = catch_unwind(AssertUnwindSafe(|| (kind.case)(&mut random, run)));
    let what = match result {
        Ok(Ok(())) => return true,
        Ok(Err(what)) => what,
        Err(_) => "a panic".to_string(),
    };
    println!("DIFFERENCE: {what}");
    println!("kind ({}) {}, seed {seed}", kind.letter, kind.name);
    println!(
        "to repeat: referee compare --kind {} --seed {seed}",
        kind.letter
    );
    println!("{}", run.input());
    false
}
