//! The words behind a subcommand's name.

use crate::escape::shown;
use crate::output::say;
use crate::status::Status;
use std::ffi::{OsStr, OsString};
use std::io;
use std::vec::IntoIter;

/// Why a subcommand stops before its work is done.
#[derive(Debug)]
pub enum Halt {
    /// Help was asked for.
    Help,
    /// The words make no sense, for this reason.
    Usage(String),
    /// Standard output cannot be written.
    Output(io::Error),
}

impl From<String> for Halt {
    fn from(reason: String) -> Self {
        Halt::Usage(reason)
    }
}

impl From<io::Error> for Halt {
    fn from(error: io::Error) -> Self {
        Halt::Output(error)
    }
}

/// The value that is given with an option: behind its `=`, or the next word.
pub struct Given<'a> {
    option: &'a str,
    attached: Option<String>,
    words: &'a mut IntoIter<OsString>,
}

impl Given<'_> {
    /// Takes it.
    pub fn value(&mut self) -> Result<String, String> {
        let value = match self.attached.take() {
            Some(value) => Some(value),
            None => self.words.next().map(|word| shown(&word)),
        };
        value.ok_or_else(|| format!("{} needs a value", self.option))
    }
}

/// The files that were named, and how the words were.
#[derive(Debug)]
pub struct Files {
    /// What was named, in order; `-` is standard input.
    pub names: Vec<OsString>,
    /// [`Status::Failed`] where an option was unknown.
    pub status: Status,
}

impl Files {
    /// Standard input where no name was given, unless an option was unknown.
    fn or_input(mut self) -> Self {
        if self.names.is_empty() && self.status == Status::Ended {
            self.names.push("-".into());
        }
        self
    }
}

/// Reads the words behind a subcommand's name. `take` takes an option that
/// the subcommand knows, and answers whether it does. An option that it does
/// not know is said and passed over, like a file that is not there; then
/// standard input is read only where it is named.
pub fn read(
    words: Vec<OsString>,
    take: impl FnMut(&str, &mut Given<'_>) -> Result<bool, String>,
) -> Result<Files, Halt> {
    Ok(named(words, take)?.or_input())
}

/// The same where the first word that is no option names no file, but what
/// the help calls `what`.
pub fn read_behind(
    what: &str,
    words: Vec<OsString>,
    take: impl FnMut(&str, &mut Given<'_>) -> Result<bool, String>,
) -> Result<(OsString, Files), Halt> {
    let mut files = named(words, take)?;
    if files.names.is_empty() {
        return Err(Halt::Usage(format!("no {what}")));
    }
    let first = files.names.remove(0);
    Ok((first, files.or_input()))
}

/// The words that are no options.
fn named(
    words: Vec<OsString>,
    mut take: impl FnMut(&str, &mut Given<'_>) -> Result<bool, String>,
) -> Result<Files, Halt> {
    let mut names = Vec::new();
    let mut status = Status::Ended;
    let mut words = words.into_iter();
    while let Some(word) = words.next() {
        if word == "--" {
            names.extend(words.by_ref());
        } else if !is_option(&word) {
            names.push(word);
        } else if !take_option(&shown(&word), &mut words, &mut take)? {
            say(format_args!("{}: unknown option", shown(&word)));
            status = Status::Failed;
        }
    }
    Ok(Files { names, status })
}

fn is_option(word: &OsStr) -> bool {
    word != "-" && word.as_encoded_bytes().starts_with(b"-")
}

/// Gives a word to `take`, and answers whether it was known.
fn take_option(
    word: &str,
    words: &mut IntoIter<OsString>,
    take: &mut impl FnMut(&str, &mut Given<'_>) -> Result<bool, String>,
) -> Result<bool, Halt> {
    let (option, attached) = match word.split_once('=') {
        Some((option, value)) => (option, Some(value.to_string())),
        None => (word, None),
    };
    if option == "-h" || option == "--help" {
        return Err(Halt::Help);
    }
    let mut given = Given {
        option,
        attached,
        words,
    };
    let known = take(option, &mut given)?;
    if known && given.attached.is_some() {
        return Err(Halt::Usage(format!("{option} takes no value")));
    }
    Ok(known)
}
