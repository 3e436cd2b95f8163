//! `bsm print`: each item with all its tokens, for people or as JSON.

use super::Subcommand;
use crate::args::{read, Halt};
use crate::choice::{Choice, HELP};
use crate::form::Form;
use crate::reading::View;
use crate::status::Status;
use crate::whole::show;
use std::ffi::OsString;

/// The subcommand.
pub const PRINT: Subcommand = Subcommand {
    name: "print",
    summary: "each item with all its tokens, for people or as JSON",
    help: &[
        "\
usage: bsm print [--json] [OPTION..] [FILE..]

Prints each FILE, or standard input for - or without a FILE: a line for each item, and
below it one for each token of a record. Texts are quoted, and what is not printable
ASCII in them is escaped. Times are UTC.
  --json         one object a line for each item; docs/COMMAND.md lists the names

",
        HELP,
    ],
    run,
};

fn run(words: Vec<OsString>) -> Result<Status, Halt> {
    let mut choice = Choice::default();
    let mut form = Form::Text;
    let files = read(words, |option, given| {
        match option {
            "--json" => form = Form::Json,
            _ => return choice.take(option, given),
        }
        Ok(true)
    })?;
    show(&files, &View { choice, form })
}
