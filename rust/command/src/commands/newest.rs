//! `bsm newest`: the records from the end of a trail on.

use super::Subcommand;
use crate::args::{read, Halt};
use crate::choice::{number, number_in, Choice, HELP};
use crate::each::show_each;
use crate::fields::Shown;
use crate::form::Form;
use crate::output::{say, say_unread, title, Output};
use crate::reading::{say_stop, Stop, View};
use crate::status::Status;
use crate::tail::Tail;
use bsm::{record_before, run as run_over, Before, State};
use std::ffi::{OsStr, OsString};
use std::io::{self, Write};

/// The subcommand.
pub const NEWEST: Subcommand = Subcommand {
    name: "newest",
    summary: "the records from a trail's end on, newest first",
    help: &[
        "\
usage: bsm newest [-n N] [--json] [OPTION..] [FILE..]

Prints the records of each FILE, or of standard input for - or without a FILE, newest
first, back to the last file token or the start, and ends with status 1 where it meets
anything else. Of a file only as much of its end is read as that takes, so only list,
print and follow tell that a trail is accepted as a whole. A trail that does not end
with an item is read from its start.
  -n N           at most N records
  --json         lines as print --json has them

",
        HELP,
    ],
    run,
};

fn run(words: Vec<OsString>) -> Result<Status, Halt> {
    let mut choice = Choice::default();
    let mut form = Form::Text;
    let mut most = usize::MAX;
    let files = read(words, |option, given| {
        match option {
            "-n" => most = number(option, given, usize::MAX)?,
            "--json" => form = Form::Json,
            _ => match option.strip_prefix("-n") {
                Some(digits) => most = number_in("-n", digits, usize::MAX)?,
                None => return choice.take(option, given),
            },
        }
        Ok(true)
    })?;
    let view = View { choice, form };
    show_each(&files, form, Tail::open, |out, name, tail| {
        let mut newest = Newest {
            view: &view,
            out,
            name,
            tail,
            left: most,
        };
        match newest.show() {
            Ok(status) => Ok(status),
            Err(Failure::Output(error)) => Err(error),
            Err(Failure::Input(error)) => {
                newest.out.flush()?;
                say_unread(name, &error);
                Ok(Status::Failed)
            }
        }
    })
}

/// What the system would not do.
enum Failure {
    Input(io::Error),
    Output(io::Error),
}

/// A trail whose records are shown from the end on.
struct Newest<'a> {
    view: &'a View,
    out: &'a mut Output,
    name: &'a OsStr,
    tail: Tail,
    /// How many more are to be shown.
    left: usize,
}

impl Newest<'_> {
    /// Shows the records, and says why it stopped where that is not at a file
    /// token or at the start.
    fn show(&mut self) -> Result<Status, Failure> {
        let Some(at) = self.walk(self.tail.bytes().len())? else {
            return Ok(Status::Ended);
        };
        let place = self.tail.base() + at;
        if place == 0 || self.tail.file_before(at).map_err(Failure::Input)? {
            return Ok(Status::Ended);
        }
        if place == self.tail.length() {
            return self.show_forward();
        }
        self.out.flush().map_err(Failure::Output)?;
        say(format_args!(
            "{}: neither a record nor a file token ends at place {place}; \
             'bsm list' reads what stands before",
            title(self.name)
        ));
        Ok(Status::Refused)
    }

    /// For a trail that does not end with an item: reads it from its start,
    /// shows the records from where that stops, and says why.
    fn show_forward(&mut self) -> Result<Status, Failure> {
        self.tail.take_whole().map_err(Failure::Input)?;
        let run = run_over(self.tail.bytes(), State::default());
        self.walk(run.state.place)?;
        self.out.flush().map_err(Failure::Output)?;
        let stop = run.refusal.map_or(Stop::End, Stop::Refused);
        Ok(say_stop(self.name, self.tail.bytes(), run.state, stop))
    }

    /// Shows records from a place of the part on. Answers where in the part
    /// none ends, or nothing where enough were shown.
    fn walk(&mut self, mut at: usize) -> Result<Option<usize>, Failure> {
        while self.left > 0 {
            let (bytes, base) = (self.tail.bytes(), self.tail.base());
            match record_before(bytes, at).expect("the place is one of the part") {
                Before::Record { place, item } => {
                    at = place;
                    if self.view.choice.takes(&item) {
                        self.left -= 1;
                        let name = self.name.as_encoded_bytes();
                        let shown = Shown {
                            bytes,
                            base,
                            at,
                            item,
                        };
                        let form = self.view.form;
                        form.write_item(self.out, name, &shown)
                            .map_err(Failure::Output)?;
                    }
                }
                Before::Boundary { need } if need > 0 && base > 0 => {
                    at = self.tail.step_back(at).map_err(Failure::Input)?;
                }
                Before::Boundary { .. } => return Ok(Some(at)),
            }
        }
        Ok(None)
    }
}
