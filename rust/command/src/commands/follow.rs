//! `bsm follow`: what is there, then what comes.

use super::Subcommand;
use crate::args::{read, Given, Halt};
use crate::choice::{Choice, HELP};
use crate::followed::{Followed, News};
use crate::form::Form;
use crate::output::{output, say, say_unread, title, Output};
use crate::reading::{say_stop, Stop, View};
use crate::status::Status;
use crate::system::{catch_interrupts, interrupted, wait, Woken};
use bsm::{Reason, State};
use std::ffi::{OsStr, OsString};
use std::io::{self, ErrorKind, Write};
use std::mem::take;
use std::os::fd::AsFd;
use std::time::{Duration, Instant};

/// How long an interrupt may go unseen.
const MOMENT: Duration = Duration::from_millis(100);

/// The subcommand.
pub const FOLLOW: Subcommand = Subcommand {
    name: "follow",
    summary: "what is there, then what comes, as soon as an item is whole",
    help: &[
        "\
usage: bsm follow [--list | --json] [--interval SECONDS] [OPTION..] [FILE]

Prints FILE, or standard input for - or without a FILE, and goes on with what is written
to it, until it is interrupted. An item that is not whole yet is waited for. Ends with
status 1 at any other refusal, and with 4 where the file shrinks, is written over,
replaced or removed.
  --list         lines as list has them; the last one when it ends
  --json         lines as print --json has them
  --interval S   looks for more every S seconds, 0.1 without it

",
        HELP,
    ],
    run,
};

fn run(words: Vec<OsString>) -> Result<Status, Halt> {
    let mut choice = Choice::default();
    let mut form = None;
    let mut interval = Duration::from_millis(100);
    let files = read(words, |option, given| {
        match option {
            "--list" => choose(&mut form, Form::Listing)?,
            "--json" => choose(&mut form, Form::Json)?,
            "--interval" => interval = seconds(given)?,
            _ => return choice.take(option, given),
        }
        Ok(true)
    })?;
    let name = match &files.names[..] {
        [] => return Ok(files.status),
        [name] => name,
        _ => return Err(Halt::Usage("one FILE can be followed at a time".into())),
    };
    let followed = match Followed::open(name) {
        Ok(followed) => followed,
        Err(error) => {
            say_unread(name, &error);
            return Ok(Status::Failed);
        }
    };
    let form = form.unwrap_or(Form::Text);
    catch_interrupts();
    let mut follow = Follow {
        name,
        view: View { choice, form },
        interval,
        out: output()?,
        followed,
        state: State::default(),
        stop: Stop::End,
    };
    Ok(follow.run()?.max(files.status))
}

/// Sets the form, unless another was asked for.
fn choose(form: &mut Option<Form>, wanted: Form) -> Result<(), String> {
    match form.replace(wanted) {
        Some(other) if other != wanted => Err("either --list or --json".into()),
        _ => Ok(()),
    }
}

/// A time to wait, of at least a millisecond.
fn seconds(given: &mut Given<'_>) -> Result<Duration, String> {
    let text = given.value()?;
    let seconds = text.parse().ok();
    seconds
        .and_then(|seconds| Duration::try_from_secs_f64(seconds).ok())
        .filter(|time| (1..=86_400_000).contains(&time.as_millis()))
        .ok_or_else(|| format!("--interval {text}: not a time of 0.001 to 86400 seconds"))
}

/// A trail that is followed, and how far it has come.
struct Follow<'a> {
    name: &'a OsStr,
    view: View,
    interval: Duration,
    out: Output,
    followed: Followed,
    /// Where the reading stands.
    state: State,
    /// Why it does not go on, for now or for good.
    stop: Stop,
}

impl Follow<'_> {
    fn run(&mut self) -> io::Result<Status> {
        self.view.form.write_first(&mut self.out)?;
        let mut readable = false;
        loop {
            let news = match self.followed.look(take(&mut readable)) {
                Ok(news) => news,
                Err(error) => {
                    self.out.flush()?;
                    say_unread(self.name, &error);
                    return Ok(Status::Failed);
                }
            };
            match news {
                News::More => self.write_more()?,
                News::Same => readable = self.wait()?,
                News::End => break,
                News::Elsewhere(what) => {
                    self.finish()?;
                    return self.changed(what);
                }
                News::Lost(what) => return self.changed(what),
            }
            if self.is_refused() || interrupted() {
                break;
            }
        }
        self.finish()
    }

    /// Writes the items that have become whole.
    fn write_more(&mut self) -> io::Result<()> {
        self.stop = self.view.write_items(
            &mut self.out,
            self.name,
            self.followed.trail(),
            &mut self.state,
            || !interrupted(),
        )?;
        Ok(())
    }

    /// Whether no longer trail is answered otherwise.
    fn is_refused(&self) -> bool {
        matches!(self.stop, Stop::Refused(refusal) if refusal.reason != Reason::Short)
    }

    /// Hands on all that was written, and waits for more to come. Answers
    /// whether a stream can be read.
    fn wait(&mut self) -> io::Result<bool> {
        self.out.flush()?;
        let output = self.out.get_ref().as_fd();
        let start = Instant::now();
        while !interrupted() {
            // An interrupt may come just before a wait, so none is long.
            let left = self.interval.saturating_sub(start.elapsed());
            match wait(output, self.followed.descriptor(), left.min(MOMENT)) {
                Woken::Readable => return Ok(true),
                Woken::Closed => return Err(ErrorKind::BrokenPipe.into()),
                Woken::Nothing if left <= MOMENT => break,
                Woken::Nothing => {}
            }
        }
        Ok(false)
    }

    /// Writes what stands behind all items, and says how the trail ended.
    fn finish(&mut self) -> io::Result<Status> {
        let trail = self.followed.trail();
        let form = self.view.form;
        if self.stop != Stop::Told {
            form.write_last(&mut self.out, trail, self.state)?;
        }
        self.out.flush()?;
        Ok(say_stop(self.name, trail, self.state, self.stop))
    }

    /// Says what has become of the file.
    fn changed(&mut self, what: &str) -> io::Result<Status> {
        self.out.flush()?;
        say(format_args!("{}: {what}", title(self.name)));
        Ok(Status::Changed)
    }
}
