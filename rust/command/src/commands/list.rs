//! `bsm list`: the listing of paper 01.

use super::Subcommand;
use crate::args::{read, Halt};
use crate::choice::{Choice, HELP};
use crate::form::Form;
use crate::reading::View;
use crate::status::Status;
use crate::whole::show;
use std::ffi::OsString;

/// The subcommand.
pub const LIST: Subcommand = Subcommand {
    name: "list",
    summary: "the listing: a line for each item, and how the trail ended",
    help: &[
        "\
usage: bsm list [OPTION..] [FILE..]

Lists each FILE, or standard input for - or without a FILE. The fields of a line are
parted by tabs, its numbers decimal:
  bsmlist 1                                                       the first line
  F PLACE SIZE SECONDS MICROSECONDS                               a file token
  R PLACE SIZE EVENT MODIFIER SECONDS NANOSECONDS TOKENS          a record
  E RECORDS FILES                                                 last: the trail ended
  X NUMBER PLACE NEED                                             last: a refusal
The last line speaks of the whole trail, whatever was chosen.

",
        HELP,
    ],
    run,
};

fn run(words: Vec<OsString>) -> Result<Status, Halt> {
    let mut choice = Choice::default();
    let files = read(words, |option, given| choice.take(option, given))?;
    let form = Form::Listing;
    show(&files, &View { choice, form })
}
