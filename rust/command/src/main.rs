//! `bsm`: audit trails as people read them. Each subcommand is a file in
//! `commands`; docs/COMMAND.md describes them.

mod args;
mod choice;
mod commands;
mod each;
mod escape;
mod fields;
mod followed;
mod form;
mod json;
mod mistyped;
mod numbers;
mod output;
mod reading;
mod spoilt;
mod status;
mod system;
mod tail;
mod text;
mod time;
mod two_subjects;
mod whole;
mod write;

use args::Halt;
use commands::{Subcommand, SUBCOMMANDS};
use escape::shown;
use output::{output, reason, say};
use status::Status;
use std::env;
use std::ffi::{OsStr, OsString};
use std::io::{self, ErrorKind, Write};
use std::process::ExitCode;

const HEAD: &str = "\
usage: bsm SUBCOMMAND [OPTION..] [FILE..]

Shows BSM audit trails: files, or standard input for - or without a FILE.
";

const TAIL: &str = "
Status: 0 every trail was read to its end, 1 one was refused or has no record of a number
asked for, 2 wrong usage or something that the system would not do, 3 one is short, that
is, still being written or cut off, 4 a followed trail shrank or was replaced,
130 interrupted before all was shown, 141 standard output was closed. Of several, 2 comes
before 1, and 1 before 3. A refusal is said on standard error with its number, place and
need; README.md has what each number means.
";

fn main() -> ExitCode {
    let mut words = env::args_os().skip(1);
    let Some(first) = words.next() else {
        say("no subcommand; see 'bsm help'");
        return Status::Failed.into();
    };
    let status = match find(&first) {
        Some(subcommand) => run(subcommand, words.collect()),
        None if is_help(&first) => match words.next() {
            None => written(write_general()),
            Some(word) => match find(&word) {
                Some(subcommand) => written(write_help(subcommand)),
                None if is_help(&word) => written(write_general()),
                None => unknown(&word),
            },
        },
        None => unknown(&first),
    };
    status.into()
}

fn find(word: &OsStr) -> Option<&'static Subcommand> {
    SUBCOMMANDS
        .iter()
        .find(|subcommand| word == subcommand.name)
}

fn is_help(word: &OsStr) -> bool {
    word == "help" || word == "-h" || word == "--help"
}

fn unknown(word: &OsStr) -> Status {
    say(format_args!(
        "{}: no such subcommand; see 'bsm help'",
        shown(word)
    ));
    Status::Failed
}

fn run(subcommand: &Subcommand, words: Vec<OsString>) -> Status {
    match (subcommand.run)(words) {
        Ok(status) => status,
        Err(Halt::Help) => written(write_help(subcommand)),
        Err(Halt::Usage(line)) => {
            say(format_args!("{line}; see 'bsm help {}'", subcommand.name));
            Status::Failed
        }
        Err(Halt::Output(error)) => unwritten(&error),
    }
}

fn write_general() -> io::Result<()> {
    let mut out = output()?;
    writeln!(out, "{HEAD}")?;
    for Subcommand { name, summary, .. } in &SUBCOMMANDS {
        writeln!(out, "  {name:8} {summary}")?;
    }
    writeln!(
        out,
        "  help     this; 'bsm help SUBCOMMAND' for the options of one"
    )?;
    out.write_all(TAIL.as_bytes())?;
    out.flush()
}

fn write_help(subcommand: &Subcommand) -> io::Result<()> {
    let mut out = output()?;
    for part in subcommand.help {
        out.write_all(part.as_bytes())?;
    }
    out.flush()
}

fn written(result: io::Result<()>) -> Status {
    match result {
        Ok(()) => Status::Ended,
        Err(error) => unwritten(&error),
    }
}

/// The status for output that could not be written. A reader that has seen
/// enough is told nothing.
fn unwritten(error: &io::Error) -> Status {
    if error.kind() == ErrorKind::BrokenPipe {
        return Status::Closed;
    }
    say(format_args!("standard output: {}", reason(error)));
    Status::Failed
}
