//! `bsm record`: records by their numbers.

use super::Subcommand;
use crate::args::{read_behind, Given, Halt};
use crate::choice::Choice;
use crate::each::show_each;
use crate::escape::shown;
use crate::fields::Shown;
use crate::form::Form;
use crate::numbers::{ranges_in, Range};
use crate::output::{say, title, Output};
use crate::reading::{say_stop, Stop};
use crate::status::Status;
use crate::whole;
use bsm::{fill_index, Index, Item, Items, State};
use std::ffi::{OsStr, OsString};
use std::io::{self, Write};

/// The subcommand.
pub const RECORD: Subcommand = Subcommand {
    name: "record",
    summary: "records by their numbers",
    help: &["\
usage: bsm record NUMBERS [--json] [FILE..]

Prints records of each FILE, or of standard input for - or without a FILE, as print
does, in the order asked. NUMBERS is one word, numbers and ranges with commas between
them: 40000, or 3,64-70. The first record of a trail is 0, and file tokens are not
counted. A number is decimal, or hexadecimal behind 0x. Where a record is not there, a
line says so, and the status is 1, or 3 where the trail is short.
  --json         lines as print --json has them
"],
    run,
};

fn run(words: Vec<OsString>) -> Result<Status, Halt> {
    let mut form = Form::Text;
    let (word, files) = read_behind("NUMBERS", words, |option, given| {
        if option == "--json" {
            form = Form::Json;
            return Ok(true);
        }
        refuse_choice(option, given)
    })?;
    let numbers = ranges_in(&shown(&word))?;
    show_each(&files, form, whole::read, |out, name, trail| {
        Indexed::new(name, &trail).show(out, form, &numbers)
    })
}

/// An option that chooses items has a value. Passed over as unknown, it would
/// leave that to be taken for the numbers.
fn refuse_choice(option: &str, given: &mut Given<'_>) -> Result<bool, String> {
    match Choice::default().take(option, given) {
        Ok(false) => Ok(false),
        Ok(true) | Err(_) => Err(format!("{option} does not go with record")),
    }
}

/// A trail with an index of its records.
struct Indexed<'a> {
    name: &'a OsStr,
    trail: &'a [u8],
    index: Index<Vec<u64>>,
    stop: Stop,
}

impl<'a> Indexed<'a> {
    fn new(name: &'a OsStr, trail: &'a [u8]) -> Self {
        // Whatever the table, the count is told.
        let count = fill_index(trail, State::default(), &mut []).count;
        let mut index = Index::new(vec![0; count]);
        let refusal = index.read(trail).run.refusal;
        Indexed {
            name,
            trail,
            index,
            stop: refusal.map_or(Stop::End, Stop::Refused),
        }
    }

    /// Shows the records with these numbers, and says which are not there and
    /// then why the trail has no more.
    fn show(&self, out: &mut Output, form: Form, numbers: &[Range]) -> io::Result<Status> {
        let state = self.index.state();
        let mut all = true;
        for range in numbers {
            self.show_range(out, form, range)?;
            if *range.end() >= state.records {
                all = false;
                // Before what is said on standard error.
                out.flush()?;
                self.say_missing(range);
            }
        }
        if all {
            return Ok(Status::Ended);
        }
        out.flush()?;
        match say_stop(self.name, self.trail, state, self.stop) {
            Status::Ended => Ok(Status::Refused),
            status => Ok(status),
        }
    }

    /// Shows the records of a range that are there.
    fn show_range(&self, out: &mut Output, form: Form, range: &Range) -> io::Result<()> {
        let records = self.records_from(*range.start());
        for (_, (at, item)) in range.clone().zip(records) {
            let shown = Shown {
                bytes: self.trail,
                base: 0,
                at,
                item,
            };
            form.write_item(out, self.name.as_encoded_bytes(), &shown)?;
        }
        Ok(())
    }

    /// The records from this number on, with their places. The first is found
    /// by the index, and the others are read on from there.
    fn records_from(&self, number: usize) -> impl Iterator<Item = (usize, Item<'a>)> {
        let found = self.index.find(self.trail, number).ok().flatten();
        let stop = self.index.state().place;
        let place = found.map_or(stop, |(place, _)| place);
        Items::new(self.trail, State::new(place, 0, 0))
            .map_while(Result::ok)
            .filter(|(_, item)| matches!(item, Item::Record { .. }))
    }

    /// Says which records of a range are not there.
    fn say_missing(&self, range: &Range) {
        let State { records, place, .. } = self.index.state();
        let (first, last) = (records.max(*range.start()), *range.end());
        let missing = if first == last {
            format!("no record {first}")
        } else {
            format!("no records {first} to {last}")
        };
        let plural = if records == 1 { "" } else { "s" };
        let up_to = match self.stop {
            Stop::End => String::new(),
            Stop::Refused(_) | Stop::Told => format!(" up to place {place}"),
        };
        let name = title(self.name);
        say(format_args!(
            "{name}: {missing}: the trail has {records} record{plural}{up_to}"
        ));
    }
}
