//! Reading a trail's items and writing those that are chosen.

use crate::choice::Choice;
use crate::fields::{Shown, ShownToken};
use crate::form::Form;
use crate::mistyped::Mistyped;
use crate::output::{say, title};
use crate::spoilt::Spoilt;
use crate::status::Status;
use crate::two_subjects::TwoSubjects;
use bsm::{tokens, Item, Items, Reason, Refusal, State};
use std::ffi::OsStr;
use std::io::{self, Write};
use std::iter;

/// Where a reading stopped.
#[derive(Clone, Copy, Debug, PartialEq, Eq)]
pub enum Stop {
    /// At the trail's end.
    End,
    /// At an item that is refused, or short.
    Refused(Refusal),
    /// Somewhere before: it was told to.
    Told,
}

/// What is shown, and how.
#[derive(Debug)]
pub struct View {
    /// Which items.
    pub choice: Choice,
    /// In which form.
    pub form: Form,
}

impl View {
    /// Writes the chosen items of the trail with this name, from a state on
    /// and as long as `goes_on` says so. The state moves to the first item
    /// that was not read.
    pub fn write_items(
        &self,
        out: &mut impl Write,
        name: &OsStr,
        trail: &[u8],
        state: &mut State,
        goes_on: impl Fn() -> bool,
    ) -> io::Result<Stop> {
        let mut items = Items::new(trail, *state);
        let stop = loop {
            if !goes_on() {
                break Stop::Told;
            }
            match items.next() {
                None => break Stop::End,
                Some(Err(refusal)) => break Stop::Refused(refusal),
                Some(Ok((place, item))) if self.choice.takes(&item) => {
                    let name = name.as_encoded_bytes();
                    let shown = Shown {
                        bytes: trail,
                        base: 0,
                        at: place,
                        item,
                    };
                    self.form.write_item(out, name, &shown)?;
                }
                Some(Ok(_)) => {}
            }
        };
        *state = items.state();
        Ok(stop)
    }
}

/// The tokens of a record; a file token has none.
pub fn tokens_of<'a>(item: &Item<'a>) -> impl Iterator<Item = ShownToken<'a>> {
    let body = match *item {
        Item::File { .. } => &[],
        Item::Record { body, .. } => body,
    };
    let mut tokens = tokens(body);
    iter::from_fn(move || {
        let at = tokens.place();
        let token = tokens.next()?;
        let token = token.expect("the body of an accepted record has no other tokens");
        Some(ShownToken { body, at, token })
    })
}

/// Says why a reading stopped at a state, a refusal with its number, place
/// and need, and answers the status that it comes to.
pub fn say_stop(name: &OsStr, trail: &[u8], state: State, stop: Stop) -> Status {
    let refusal = match stop {
        Stop::End => return Status::Ended,
        Stop::Told => return Status::Interrupted,
        Stop::Refused(refusal) => refusal,
    };
    let Refusal {
        reason,
        place,
        need,
    } = refusal;
    let numbers = format!("refusal {}, place {place}, need {need}", reason.number());
    let name = title(name);
    if reason != Reason::Short {
        let why = why_refused(trail, state, &refusal);
        say(format_args!("{name}: refused: {why} ({numbers})"));
        return Status::Refused;
    }
    let there = trail.len() - place;
    say(format_args!(
        "{name}: short: {there} of at least {need} bytes of an item are there, \
         it is still being written or was cut off ({numbers})"
    ));
    Status::Short
}

/// Why the item at a state is refused, as closely as it can be said.
fn why_refused(trail: &[u8], state: State, refusal: &Refusal) -> String {
    if let Some(spoilt) = Spoilt::find(trail, state.place, refusal) {
        return spoilt.to_string();
    }
    if let Some(two) = TwoSubjects::find(trail, state.place, refusal) {
        return two.to_string();
    }
    match Mistyped::find(trail, refusal) {
        Some(mistyped) => mistyped.to_string(),
        None => refusal.reason.to_string(),
    }
}
