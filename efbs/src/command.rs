//! The commands: their names, what they take, what they do.

use crate::archive::{self, entries, Refusal};
use crate::arguments::{Arguments, Operands, Opt};
use crate::curve::Curve;
use crate::failure::Failure;
use crate::files::{self, read_archive};
use crate::lines;
use crate::pages;
use crate::readings::Readings;
use crate::report::report;
use crate::rules::Rules;
use crate::text;
use std::io::{BufReader, Write};
use std::path::Path;

pub struct Command {
    pub name: &'static str,
    pub operands: Operands,
    pub options: &'static [Opt],
    /// The file that it reads, if it reads one.
    pub input: fn(&Arguments) -> Option<&Path>,
    /// One line for the list of commands.
    pub about: &'static str,
    /// More, for the command's own help.
    pub help: &'static str,
    pub run: fn(&Arguments, &mut dyn Write) -> Result<(), Failure>,
}

const ARCHIVE: Operands = Operands::each(&["A.efb"]);
const ARCHIVE_AND_YEAR: Operands = Operands::each(&["A.efb", "YEAR"]);

const ACCOUNT: Opt = Opt {
    name: "--account",
    value: Some("N"),
    required: false,
};

const BASE: &str = "--base";
const SLOPE: &str = "--slope";
const TURNING: &str = "--turning";
const TEMPERATURES: &str = "--temperatures";
const CSV: &str = "--csv";
const SELLER: &str = "--seller";
const QUANTITY: &str = "--quantity";
const JSON: &str = "--json";

const fn flag(name: &'static str) -> Opt {
    Opt {
        name,
        value: None,
        required: false,
    }
}

const fn needed(name: &'static str, value: &'static str) -> Opt {
    Opt {
        name,
        value: Some(value),
        required: true,
    }
}

const fn output(file: &'static str, required: bool) -> Opt {
    Opt {
        name: "-o",
        value: Some(file),
        required,
    }
}

pub const COMMANDS: [Command; 11] = [
    PACK, UNPACK, PANEL, LOG, STATEMENT, JOURNAL, SHEET, REPORT, PARTNERS, LETTERS, BACKCAST,
];

const PACK: Command = Command {
    name: "pack",
    operands: Operands::each(&["FILE.txt"]),
    options: &[output("A.efb", true)],
    input: first_operand,
    about: "make an archive of entries written as text",
    help: "\
The text has one entry a line; docs/TEXT-FORMAT.md describes it, and unpack shows it.
A line \"rules new\" before the first entry makes a new archive, \"rules old\" or none an old one: efbs help rules.
An entry that the ledger would refuse is archived all the same; one that is no entry is an error.",
    run: pack,
};

const UNPACK: Command = Command {
    name: "unpack",
    operands: ARCHIVE,
    options: &[output("FILE.txt", false)],
    input: first_operand,
    about: "write an archive's entries as text",
    help: "Packed again, the text gives the same archive, byte for byte.",
    run: unpack,
};

const PANEL: Command = Command {
    name: "panel",
    operands: ARCHIVE,
    options: &[],
    input: first_operand,
    about: "the panel's line: entries accepted, entries refused, total gas in bank",
    help: "\
The gas is in hundredths of a Dth. Of a refused archive the line is the word archive, the number of the refusal and the
index of the entry at fault.",
    run: panel,
};

const LOG: Command = Command {
    name: "log",
    operands: ARCHIVE,
    options: &[ACCOUNT, flag("--refused")],
    input: first_operand,
    about: "each entry in words with its answer",
    help: "\
A line has the entry's index in the archive, counted from 0, its date, the answer and the entry; a closing is followed
by what it reported of each account concerned. A holiday tells where it moves the measuring day of its month; a notice
whom it awaits, or which entry it answers, and then the gas moves.
  --account N   entries that use account N, and its part of the closings; no other account's bank
  --refused     refused entries only",
    run: log,
};

const STATEMENT: Command = Command {
    name: "statement",
    operands: ARCHIVE,
    options: &[
        ACCOUNT,
        Opt {
            name: "--until",
            value: Some("DATE"),
            required: false,
        },
    ],
    input: first_operand,
    about: "each supplier's bank, bills and violation days, added up",
    help: "\
The sums are made of accepted entries and reported closings alone and stand beside the ledger's own figures. Exit
status 1 if any of them differ.
  --account N    account N alone
  --until DATE   entries dated up to and with that day, as 2026-09-30",
    run: statement,
};

const JOURNAL: Command = Command {
    name: "journal",
    operands: ARCHIVE,
    options: &[],
    input: first_operand,
    about: "the movements as a journal for hledger or ledger",
    help: "\
One transaction for each movement of gas and each bill, and after each month the ledger's balances as assertions. The gas
of two notices moves at the second of them.
Try: efbs journal A.efb > a.journal; hledger -f a.journal balance supplier; ledger -f a.journal balance supplier",
    run: journal,
};

const SHEET: Command = Command {
    name: "sheet",
    operands: ARCHIVE_AND_YEAR,
    options: &[flag(CSV)],
    input: first_operand,
    about: "banks after each month of the gas year that begins in April of YEAR, and its measuring days",
    help: "\
In Dth, a row for every account that the archive ever enrolls. A dash stands where a month is not closed or an account
not yet enrolled. Below stands the measuring day of each month, with a star where holidays moved it: that of a closed
month by the holidays held as it closed, that of a later one by those held after the last entry.
  --csv   plain numbers separated by commas, below a line of names; an empty cell where the page has a dash. The last
          line has the measuring days",
    run: sheet,
};

const REPORT: Command = Command {
    name: "report",
    operands: ARCHIVE_AND_YEAR,
    options: &[output("report.html", false)],
    input: first_operand,
    about: "a page with the gas year that begins in April of YEAR",
    help: "\
The page is one file and needs no other; any browser shows it. It has the panel figure, a chart of each supplier's bank,
the year sheet, the measuring days with the year's holidays, the year's letters without an answer, and the statements.",
    run: write_report,
};

const PARTNERS: Command = Command {
    name: "partners",
    operands: ARCHIVE,
    options: &[needed(SELLER, "N"), needed(QUANTITY, "DTH"), flag(JSON)],
    input: first_operand,
    about: "who can take a supplier's gas, as the ledger stands after the last entry",
    help: "\
Every other open account that could take the quantity on the ledger's day: a transfer of that day and quantity from the
seller to it is accepted, and to any other account refused; in a new archive from 1 April 2027 on the same holds of a
pair of notices where neither of the two has one that stands. Most headroom comes first, which is the month's maximum
less the bank; of equal ones the lower number. Where there is nobody the page says why. It shows what is in other
suppliers' banks. Exit status 1 if the question is refused.
  --seller N       the account that has the gas
  --quantity DTH   how much of it, in Dth with at most two decimals, as 1500 or 1500.25
  --json           one object, all its gas in whole hundredths of a Dth: number, date, month, seller, bank and minimum
                   of the seller, quantity, partners (each with account, bank, maximum and headroom), why; the number
                   is 0 or that of the refusal, and why is null where there are partners
Try: efbs partners target/gas-year.efb --seller 0 --quantity 1500
It lists accounts 2, 1 and 3, with 12,245.80 Dth of headroom and less.",
    run: write_partners,
};

const LETTERS: Command = Command {
    name: "letters",
    operands: ARCHIVE,
    options: &[ACCOUNT, flag(JSON)],
    input: first_operand,
    about: "the notices that stood without an answer as their day closed, and those that still stand",
    help: "\
Each with its entry's index in the archive, counted from 0, its date, the account that wrote it, the other party, the
writer's side, the gas, and the closing that cleared it if one did. The last line counts all that came to stand, answered
ones too. A notice that answers another never stands.
  --account N   letters that account N wrote, or that are to it
  --json        one object, gas in whole hundredths of a Dth: account (null for all), letters (each with entry, date,
                account, other, side, gas, and cleared_by, which is null while it stands), answered, cleared, standing",
    run: letters,
};

const BACKCAST: Command = Command {
    name: "backcast",
    operands: Operands::any("TEMPERATURE"),
    options: &[
        needed(BASE, "DTH"),
        needed(SLOPE, "DTH"),
        needed(TURNING, "DEGREES"),
        Opt {
            name: TEMPERATURES,
            value: Some("FILE"),
            required: false,
        },
        flag(CSV),
    ],
    input: temperatures_file,
    about: "the back-cast of a load curve at each temperature",
    help: "\
In Dth with two decimals, as a deliver line has it after back-cast=; first for the temperatures of the command line,
then for those of the file. At the turning temperature and above the load is the base, below it the base and the slope
times the degrees below. Exit status 1 if a temperature is refused; the others are shown all the same.
  --base DTH            the load at the turning temperature and above
  --slope DTH           how much more it is for each degree below
  --turning DEGREES     the turning temperature; it and the others are on one scale, whichever that is
  --temperatures FILE   a line has a temperature, or a label of one word and a temperature; # begins a comment
  --csv                 values separated by commas, below a line of names; the number is 0, or that of the refusal
                        beside an empty back-cast
The degrees below, their product with the slope and the sum are worked out in double precision and each is rounded by
itself; the load is then cut down to whole hundredths of a Dth. So 10 Dth a degree from 22.4 to 22.2 degrees give
1.99 Dth and not 2.00.
Try: efbs backcast --base 520 --slope 61.75 --turning 65 31.7
It shows 2576.27, for a line such as: 2026-12-01 deliver account=0 delivered=2600.00 back-cast=2576.27",
    run: backcast,
};

fn first_operand(arguments: &Arguments) -> Option<&Path> {
    Some(arguments.path(0))
}

fn temperatures_file(arguments: &Arguments) -> Option<&Path> {
    arguments.file(TEMPERATURES)
}

fn pack(arguments: &Arguments, out: &mut dyn Write) -> Result<(), Failure> {
    let path = arguments.path(0);
    let text = BufReader::new(files::open(path)?);
    let list = text::read(text).map_err(|fault| unpackable(path, fault))?;
    let archive = archive::of_list(list.rules(), list.bytes())?;
    Ok(out.write_all(&archive)?)
}

/// Why a text makes no archive, and what to do next.
fn unpackable(path: &Path, fault: text::Fault) -> Failure {
    let mend = "Mend the line; docs/TEXT-FORMAT.md has the kinds and their ranges.";
    let next = match fault {
        text::Fault::Text(fault) => {
            let archive = "already: pack makes one of a text, and unpack a text of it";
            return unreadable_text(path, fault, archive, mend);
        }
        text::Fault::Entry { number: 11, .. } => "Begin another archive.",
        // The text format knows no kind that new rules do not.
        text::Fault::Entry { number: 2, .. } => {
            "It is a kind of the new rules: the text would have to begin with the line rules new; \
             efbs help rules tells of both."
        }
        text::Fault::Entry { .. } => mend,
    };
    Failure::Told(format!("{}, {fault}. {next}", files::name(path)))
}

/// Why a text cannot be read. What to say of an archive, and how to mend a line, is the command's.
fn unreadable_text(path: &Path, fault: lines::Fault, archive: &str, mend: &str) -> Failure {
    let name = files::name(path);
    match fault {
        lines::Fault::Unreadable(error) => files::unreadable(path, error),
        lines::Fault::Archive => Failure::Told(format!("{name} is an archive {archive}.")),
        wrong => Failure::Told(format!("{name}, {wrong}. {mend}")),
    }
}

/// Reads the archive that a command is about and shows it; a refusal is told with what the archive looks like.
fn of_archive(
    arguments: &Arguments,
    show: impl FnOnce(&[u8]) -> Result<(), Failure>,
) -> Result<(), Failure> {
    let archive = read_archive(arguments.path(0))?;
    show(&archive).map_err(|failure| failure.looking_at(&archive))
}

fn unpack(arguments: &Arguments, out: &mut dyn Write) -> Result<(), Failure> {
    of_archive(arguments, |archive| {
        let list = entries(archive)?;
        Ok(text::write(Rules::of_archive(archive), list, out)?)
    })
}

fn panel(arguments: &Arguments, out: &mut dyn Write) -> Result<(), Failure> {
    of_archive(arguments, |archive| {
        let figures = nedrulov::figures(archive);
        let (number, index) = (figures.number, figures.index);
        if number != 0 {
            writeln!(out, "archive {number} {index}")?;
            return Err(Refusal { number, index }.into());
        }
        let (accepted, refused) = (figures.accepted, figures.refused);
        Ok(writeln!(out, "{accepted} {refused} {}", figures.figure)?)
    })
}

fn log(arguments: &Arguments, out: &mut dyn Write) -> Result<(), Failure> {
    let choice = pages::log::Choice {
        account: arguments.account()?,
        refused: arguments.has("--refused"),
    };
    of_archive(arguments, |archive| pages::log::write(archive, choice, out))
}

fn statement(arguments: &Arguments, out: &mut dyn Write) -> Result<(), Failure> {
    let (account, until) = (arguments.account()?, arguments.until()?);
    of_archive(arguments, |archive| {
        pages::statement::write(archive, account, until, out)
    })
}

fn journal(arguments: &Arguments, out: &mut dyn Write) -> Result<(), Failure> {
    of_archive(arguments, |archive| pages::journal::write(archive, out))
}

fn sheet(arguments: &Arguments, out: &mut dyn Write) -> Result<(), Failure> {
    let (year, csv) = (arguments.year(1)?, arguments.has(CSV));
    of_archive(arguments, |archive| {
        pages::sheet::write(archive, year, csv, out)
    })
}

fn write_report(arguments: &Arguments, out: &mut dyn Write) -> Result<(), Failure> {
    let year = arguments.year(1)?;
    of_archive(arguments, |archive| {
        Ok(out.write_all(report(archive, year)?.as_bytes())?)
    })
}

fn write_partners(arguments: &Arguments, out: &mut dyn Write) -> Result<(), Failure> {
    let (seller, quantity) = (arguments.any_account(SELLER)?, arguments.units(QUANTITY)?);
    let json = arguments.has(JSON);
    of_archive(arguments, |archive| {
        pages::partners::write(archive, seller, quantity, json, out)
    })
}

fn letters(arguments: &Arguments, out: &mut dyn Write) -> Result<(), Failure> {
    let (account, json) = (arguments.account()?, arguments.has(JSON));
    of_archive(arguments, |archive| {
        pages::letters::write(archive, account, json, out)
    })
}

fn backcast(arguments: &Arguments, out: &mut dyn Write) -> Result<(), Failure> {
    let curve = Curve {
        base: arguments.dth(BASE)?,
        slope: arguments.dth(SLOPE)?,
        turning: arguments.degrees(TURNING)?,
    };
    let readings = readings(arguments)?;
    pages::backcast::write(&curve, &readings, arguments.has(CSV), out)
}

fn readings(arguments: &Arguments) -> Result<Readings, Failure> {
    let mut readings = Readings::of(&arguments.temperatures()?);
    let file = temperatures_file(arguments);
    if let Some(path) = file {
        let text = BufReader::new(files::open(path)?);
        let read = readings.read(text);
        read.map_err(|fault| no_readings(path, fault))?;
    }
    match (readings.is_empty(), file) {
        (false, _) => Ok(readings),
        (true, Some(path)) => Err(Failure::Usage(format!(
            "there is no temperature in {}, and none beside it",
            files::name(path)
        ))),
        (true, None) => Err(Failure::Usage(format!(
            "TEMPERATURE or {TEMPERATURES} is missing"
        ))),
    }
}

fn no_readings(path: &Path, fault: lines::Fault) -> Failure {
    let archive = "and has no temperatures: name a text with one a line";
    let mend = "Mend the line; it has a temperature, or a label of one word and a temperature.";
    unreadable_text(path, fault, archive, mend)
}
