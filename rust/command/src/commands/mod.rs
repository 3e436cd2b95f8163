//! The subcommands, a file each.

use crate::args::Halt;
use crate::status::Status;
use std::ffi::OsString;

mod follow;
mod list;
mod newest;
mod print;
mod record;

/// A subcommand.
pub struct Subcommand {
    /// Its name.
    pub name: &'static str,
    /// What it does, in a line.
    pub summary: &'static str,
    /// Its help: parts that follow each other.
    pub help: &'static [&'static str],
    /// Does it, given the words behind its name.
    pub run: fn(Vec<OsString>) -> Result<Status, Halt>,
}

/// All of them, in the order of the help.
pub static SUBCOMMANDS: [Subcommand; 5] = [
    list::LIST,
    print::PRINT,
    newest::NEWEST,
    record::RECORD,
    follow::FOLLOW,
];
