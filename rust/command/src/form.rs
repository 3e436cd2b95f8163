//! The forms in which items are shown.

use crate::fields::Shown;
use crate::{json, text};
use bsm::{first_line, item_line, last_line, Refusal, State, LINE_MAX};
use std::io::{self, Write};

/// How items are written.
#[derive(Clone, Copy, Debug, PartialEq, Eq)]
pub enum Form {
    /// The listing of paper 01, whose lines the library makes.
    Listing,
    /// Lines for people.
    Text,
    /// An object for each item.
    Json,
}

impl Form {
    /// Writes what stands before all items.
    pub fn write_first(self, out: &mut impl Write) -> io::Result<()> {
        match self {
            Form::Listing => write_line(out, first_line),
            Form::Text | Form::Json => Ok(()),
        }
    }

    /// Writes an item of the trail with this name. A listing is one of a whole
    /// trail.
    pub fn write_item(
        self,
        out: &mut impl Write,
        name: &[u8],
        shown: &Shown<'_>,
    ) -> io::Result<()> {
        match self {
            Form::Listing => write_line(out, |line| item_line(line, shown.bytes, shown.at)),
            Form::Text => text::write_item(out, shown),
            Form::Json => json::write_item(out, name, shown),
        }
    }

    /// Writes what stands behind all items, for a reading that has come to
    /// this state.
    pub fn write_last(self, out: &mut impl Write, trail: &[u8], state: State) -> io::Result<()> {
        match self {
            Form::Listing => write_line(out, |line| last_line(line, trail, state)),
            Form::Text | Form::Json => Ok(()),
        }
    }
}

/// Writes a line that the library makes.
fn write_line(
    out: &mut impl Write,
    make: impl FnOnce(&mut [u8]) -> Result<usize, Refusal>,
) -> io::Result<()> {
    let mut line = [0; LINE_MAX];
    let size = make(&mut line).expect("any line has room, and an item stands there");
    out.write_all(&line[..size])
}
