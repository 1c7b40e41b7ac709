//! From the words of the command line to an exit status: 0 done, 1 refused or failed, 2 asked for in a wrong way.

use crate::archive::Refusal;
use crate::arguments::{Arguments, Operands, Opt};
use crate::command::{Command, COMMANDS};
use crate::echo;
use crate::failure::Failure;
use crate::files;
use crate::rules::{self, Rules};
use crate::words::refusal;
use std::ffi::{OsStr, OsString};
use std::io::{self, ErrorKind, Write};

const DONE: u8 = 0;
const FAILED: u8 = 1;
const WRONG_USE: u8 = 2;

pub fn run(words: &[OsString]) -> u8 {
    let Some((first, rest)) = words.split_first() else {
        return wrong_use("a command is missing", "efbs help");
    };
    let asks_help = |word: &OsString| word == "--help" || word == "-h";
    if first == "help" || asks_help(first) {
        return match rest.first() {
            None => say(&overview()),
            Some(name) => help_on(name),
        };
    }
    match named(first) {
        None => no_command(first),
        Some(command) if rest.iter().any(asks_help) => say(&help(command)),
        Some(command) => run_command(command, rest),
    }
}

fn named(name: &OsStr) -> Option<&'static Command> {
    COMMANDS.iter().find(|command| name == command.name)
}

fn help_on(name: &OsStr) -> u8 {
    match named(name) {
        Some(command) => say(&help(command)),
        None if name == rules::TOPIC => say(rules::HELP),
        None => no_command(name),
    }
}

fn run_command(command: &Command, words: &[OsString]) -> u8 {
    let arguments = match Arguments::parse(words, &command.operands, command.options) {
        Ok(arguments) => arguments,
        Err(failure) => return tell(command, "", failure),
    };
    let (input, output) = ((command.input)(&arguments), arguments.output());
    let write = |out: files::Writer| (command.run)(&arguments, out);
    let done = files::refuse_same(input, output).and_then(|()| files::write(output, write));
    match done {
        Ok(()) => DONE,
        Err(failure) => {
            let name = input.map(files::name).unwrap_or_default();
            tell(command, &name, failure)
        }
    }
}

/// Says why a command failed on a file, if it reads one.
fn tell(command: &Command, file: &str, failure: Failure) -> u8 {
    match failure {
        Failure::Usage(message) => wrong_use(&message, &format!("efbs {} --help", command.name)),
        Failure::Refused {
            refusal,
            rules,
            next,
        } => fail(&refused(file, refusal, rules, &next)),
        Failure::Told(message) => fail(&message),
        Failure::Output(error) => unwritten(error),
    }
}

fn unwritten(error: io::Error) -> u8 {
    match error.kind() {
        // Whoever reads has seen enough.
        ErrorKind::BrokenPipe => DONE,
        ErrorKind::NotConnected => fail(&format!("{error}, so nothing can be written to it.")),
        _ => fail(&format!(
            "the output cannot be written: {error}. Check that there is room."
        )),
    }
}

/// A refusal in words, and what to do next.
fn refused(name: &str, Refusal { number, index }: Refusal, rules: Rules, next: &str) -> String {
    let place = match number {
        8 | 9 | 11 => String::new(),
        _ => format!(" at entry {index}"),
    };
    format!(
        "{name} is refused with {number}{place}: {}. {next}",
        refusal(number, rules)
    )
}

fn no_command(name: &OsStr) -> u8 {
    let message = format!("there is no command {}", echo::word(name));
    wrong_use(&message, "efbs help")
}

fn wrong_use(message: &str, help: &str) -> u8 {
    complain(&format!("{message}. Try: {help}"));
    WRONG_USE
}

fn fail(message: &str) -> u8 {
    complain(message);
    FAILED
}

fn complain(message: &str) {
    // Where nobody can be told, the exit status still tells.
    let _ = writeln!(io::stderr(), "efbs: {message}");
}

/// Help goes to standard output.
fn say(text: &str) -> u8 {
    let said = files::standard::output().and_then(|mut out| {
        out.write_all(text.as_bytes())?;
        out.flush()
    });
    said.map_or_else(unwritten, |()| DONE)
}

fn overview() -> String {
    let mut text = String::from(
        "efbs reads, shows and converts archives of the bank recorder, and works out back-casts for them.\n\n",
    );
    for command in &COMMANDS {
        text += &format!("  {}\n      {}\n", usage(command), command.about);
    }
    text + "
Gas is in Dth and money in dollars unless said otherwise. A.efb is an archive, N an account from 0 to 15.
As a file - is standard input, and after -o standard output. A file after -o is replaced whole or not at all.
Exit status: 0 done; 1 refused, not readable or not in agreement; 2 asked for in a wrong way.
efbs COMMAND --help tells more of a command, efbs help rules of old and new archives.
"
}

fn help(command: &Command) -> String {
    let (first, rest) = command.about.split_at(1);
    let about = first.to_uppercase() + rest;
    format!("{}\n\n{about}.\n{}\n", usage(command), command.help)
}

/// What must be there, then what may be.
fn usage(command: &Command) -> String {
    let Operands { each, more } = &command.operands;
    let (must, may): (Vec<&Opt>, Vec<&Opt>) =
        command.options.iter().partition(|option| option.required);
    let mut words = vec!["efbs".to_string(), command.name.to_string()];
    words.extend(each.iter().map(|operand| operand.to_string()));
    words.extend(must.into_iter().map(spelt));
    words.extend(more.map(|operand| format!("[{operand}...]")));
    words.extend(may.into_iter().map(|option| format!("[{}]", spelt(option))));
    words.join(" ")
}

fn spelt(option: &Opt) -> String {
    match option.value {
        Some(value) => format!("{} {value}", option.name),
        None => option.name.to_string(),
    }
}
