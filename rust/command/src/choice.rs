//! Choosing items, by the options that all subcommands but record share.

use crate::args::Given;
use crate::fields::time_of;
use crate::reading::tokens_of;
use crate::time::{Time, FORMS};
use bsm::{Item, Party, Token};
use std::fmt::Display;

/// What must hold of an item so that it is shown: all of it.
#[derive(Debug, Default)]
pub struct Choice {
    event: Option<u16>,
    sessions: Vec<u32>,
    users: Vec<u32>,
    since: Option<Time>,
    until: Option<Time>,
}

/// The lines on these options in the help of a subcommand.
pub const HELP: &str = "\
Choosing: an item is shown where all that is asked for holds.
  --event N      records of event N
  --session N    records with a subject or process token of session N
  --user N       records with a subject or process token in which N is the audit,
                 the effective or the real user
  --since T      items written at T or later
  --until T      items written before T
N is decimal, or hexadecimal behind 0x. T is UTC: 2026-11-16T09:30:00, 2026-11-16,
20261116093000 or @ and seconds since 1970. --session and --user may be repeated.
A file token has a time, but no event, session or user.
";

impl Choice {
    /// Takes an option if it is one of these.
    pub fn take(&mut self, option: &str, given: &mut Given<'_>) -> Result<bool, String> {
        match option {
            "--event" => once(&mut self.event, option, number(option, given, u16::MAX)?)?,
            "--session" => self.sessions.push(number(option, given, u32::MAX)?),
            "--user" => self.users.push(number(option, given, u32::MAX)?),
            "--since" => once(&mut self.since, option, time(option, given)?)?,
            "--until" => once(&mut self.until, option, time(option, given)?)?,
            _ => return Ok(false),
        }
        Ok(true)
    }

    /// Whether an item is chosen.
    pub fn takes(&self, item: &Item<'_>) -> bool {
        let time = time_of(item);
        self.since.is_none_or(|since| since <= time)
            && self.until.is_none_or(|until| time < until)
            && self.takes_event(item)
            && self.takes_parties(item)
    }

    fn takes_event(&self, item: &Item<'_>) -> bool {
        match (self.event, item) {
            (None, _) => true,
            (Some(event), Item::Record { header, .. }) => header.event == event,
            (Some(_), Item::File { .. }) => false,
        }
    }

    /// Whether the item's parties have each session and each user asked for.
    fn takes_parties(&self, item: &Item<'_>) -> bool {
        if self.sessions.is_empty() && self.users.is_empty() {
            return true;
        }
        let parties = tokens_of(item).filter_map(|shown| named(&shown.token));
        let parties: Vec<Named> = parties.collect();
        let has_session = |&session| parties.iter().any(|party| party.session == session);
        let has_user = |user| parties.iter().any(|party| party.users.contains(user));
        self.sessions.iter().all(has_session) && self.users.iter().all(has_user)
    }
}

/// The session and the users that a subject or process token names.
#[derive(Clone, Copy, Debug, PartialEq, Eq)]
pub struct Named {
    /// The session.
    pub session: u32,
    /// The audit, the effective and the real user.
    pub users: [u32; 3],
}

/// Whom a token names, if it is a subject or a process.
pub fn named(token: &Token<'_>) -> Option<Named> {
    match token {
        Token::Subject32(party) | Token::Process32(party) => Some(named_in(party)),
        Token::Subject64(party) | Token::Process64(party) => Some(named_in(party)),
        Token::Subject32Ex(party) | Token::Process32Ex(party) => Some(named_in(party)),
        Token::Subject64Ex(party) | Token::Process64Ex(party) => Some(named_in(party)),
        _ => None,
    }
}

fn named_in<P, A>(party: &Party<P, A>) -> Named {
    Named {
        session: party.session,
        users: [party.audit, party.effective_user, party.real_user],
    }
}

/// Sets what may be given only once: two would leave nothing to show.
fn once<T>(slot: &mut Option<T>, option: &str, value: T) -> Result<(), String> {
    match slot.replace(value) {
        None => Ok(()),
        Some(_) => Err(format!("{option} is given twice")),
    }
}

/// A number that its field can hold, decimal or hexadecimal behind `0x`.
pub fn number<T>(option: &str, given: &mut Given<'_>, most: T) -> Result<T, String>
where
    T: TryFrom<u64> + Display,
{
    number_in(option, &given.value()?, most)
}

/// The number that a text is.
pub fn number_in<T>(option: &str, text: &str, most: T) -> Result<T, String>
where
    T: TryFrom<u64> + Display,
{
    let (digits, radix) = match text.strip_prefix("0x") {
        Some(digits) => (digits, 16),
        None => (text, 10),
    };
    // Without signs, which the standard library would take.
    let unsigned = digits.chars().all(|digit| digit.is_digit(radix));
    let read = unsigned.then(|| u64::from_str_radix(digits, radix).ok());
    read.flatten()
        .and_then(|number| T::try_from(number).ok())
        .ok_or_else(|| format!("{option} {text}: not a number from 0 to {most}"))
}

fn time(option: &str, given: &mut Given<'_>) -> Result<Time, String> {
    let text = given.value()?;
    Time::parse(&text).ok_or_else(|| format!("{option} {text}: not a time; write {FORMS}"))
}
