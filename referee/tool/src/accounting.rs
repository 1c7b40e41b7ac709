//! The race against programs for plain-text accounting: a track's movements as a journal, added up by ledger and hledger.

use crate::race::{shorten, Track};
use std::fs::{self, File};
use std::io::{BufWriter, Write};
use std::path::PathBuf;
use std::process::{Command, Stdio};
use std::time::{Duration, Instant};

const PROGRAMS: [&str; 2] = ["ledger", "hledger"];
const REPETITIONS: usize = 7;
/// After so long no further repetition begins.
const ENOUGH: Duration = Duration::from_secs(40);
/// A track on which a program would take longer is left out.
const PATIENCE: Duration = Duration::from_secs(60);

/// The best times on one track; none of a program that was left out.
struct Lap {
    entries: f64,
    journal_bytes: u64,
    library: Duration,
    programs: [Option<Duration>; 2],
}

pub fn run(tracks: &[Track]) {
    print_head();
    let mut racing = PROGRAMS.map(is_installed);
    println!("suppliers years  entries    journal, bytes      library     ledger    hledger   ratio ledger  ratio hledger");
    let mut last: Option<Lap> = None;
    for track in tracks {
        if let Some(last) = &last {
            racing = std::array::from_fn(|place| last.is_bearable(place, track));
        }
        let lap = measure(track, racing);
        print_lap(track, &lap);
        last = Some(lap);
    }
}

impl Lap {
    /// Whether a program that took part here would end in time on a further track.
    fn is_bearable(&self, program: usize, track: &Track) -> bool {
        let growth = track.entries() as f64 / self.entries;
        self.programs[program].is_some_and(|time| time.mul_f64(growth) <= PATIENCE)
    }
}

/// Says of a program what it says of itself, or that it is not there.
fn is_installed(program: &str) -> bool {
    let told = Command::new(program).arg("--version").output();
    let text = told.map(|told| String::from_utf8_lossy(&told.stdout).into_owned());
    match &text {
        Ok(text) => println!("{program}: {}", text.lines().next().unwrap_or("")),
        Err(_) => println!("{program} is not installed and left out"),
    }
    text.is_ok()
}

/// Takes turns, so that a busy moment of the machine does not fall on one runner alone.
fn measure(track: &Track, racing: [bool; 2]) -> Lap {
    let journal = Journal::of(track);
    let mut lap = Lap {
        entries: track.entries() as f64,
        journal_bytes: journal.bytes(),
        library: Duration::MAX,
        programs: racing.map(|races| races.then_some(Duration::MAX)),
    };
    let start = Instant::now();
    for _ in 0..REPETITIONS {
        if start.elapsed() >= ENOUGH {
            break;
        }
        shorten(&mut lap.library, || nedrulov::figures(&track.archive));
        for (program, best) in PROGRAMS.iter().zip(&mut lap.programs) {
            if let Some(best) = best {
                shorten(best, || journal.balance(program));
            }
        }
    }
    lap
}

/// A temporary file with the journal of a track.
struct Journal(PathBuf);

impl Journal {
    fn of(track: &Track) -> Journal {
        let name = format!("referee-race-{}.journal", std::process::id());
        let journal = Journal(std::env::temp_dir().join(name));
        let file = File::create(&journal.0).expect("a temporary file can be made");
        let mut out = BufWriter::new(file);
        let written = efbs::pages::journal::write(&track.archive, &mut out);
        assert!(
            written.is_ok() && out.flush().is_ok(),
            "the journal is written"
        );
        journal
    }

    fn bytes(&self) -> u64 {
        fs::metadata(&self.0).map_or(0, |about| about.len())
    }

    /// Adds the journal up, from the program's start to its end.
    fn balance(&self, program: &str) {
        let mut command = Command::new(program);
        command.arg("-f").arg(&self.0).arg("balance");
        let ended = command.stdout(Stdio::null()).status();
        assert!(
            ended.is_ok_and(|status| status.success()),
            "{program} accepts the journal"
        );
    }
}

impl Drop for Journal {
    fn drop(&mut self) {
        // A file that stays behind is in the folder for such files.
        let _ = fs::remove_file(&self.0);
    }
}

fn print_head() {
    println!(
        "
journals, entries per second
Compared are unlike works on the same movements. The library replays the archive's bytes in this process and checks
every rule. ledger and hledger are started, parse a journal (efbs journal), check its balance assertions, two of each
supplier and month, and print balances; they know no rule. A ratio is a program's time over the library's. Best of
{REPETITIONS}, of fewer where all take more than {} seconds.",
        ENOUGH.as_secs()
    );
}

fn print_lap(track: &Track, lap: &Lap) {
    let shown = |number: Option<f64>, places: usize| match number {
        Some(number) => format!("{number:.places$}"),
        None => "left out".to_string(),
    };
    let library = lap.library.as_secs_f64();
    let seconds = lap.programs.map(|time| time.map(|time| time.as_secs_f64()));
    let [ledger, hledger] = seconds.map(|time| shown(time.map(|time| lap.entries / time), 0));
    let [to_ledger, to_hledger] = seconds.map(|time| shown(time.map(|time| time / library), 1));
    println!(
        "{:>9} {:>5} {:>8} {:>17} {:>12.0} {ledger:>10} {hledger:>10} {to_ledger:>14} {to_hledger:>14}",
        track.suppliers,
        track.years,
        lap.entries,
        lap.journal_bytes,
        lap.entries / library
    );
}
