//! Files that are read whole, and showing them, for list and print.

use crate::args::{Files, Halt};
use crate::each::show_each;
use crate::output::Output;
use crate::reading::{say_stop, View};
use crate::status::Status;
use bsm::State;
use std::ffi::OsStr;
use std::fs;
use std::io::{self, stdin, Read, Write};

/// Shows each file as a whole.
pub fn show(files: &Files, view: &View) -> Result<Status, Halt> {
    show_each(files, view.form, read, |out, name, trail| {
        show_one(out, name, &trail, view)
    })
}

/// Shows one trail.
fn show_one(out: &mut Output, name: &OsStr, trail: &[u8], view: &View) -> io::Result<Status> {
    let mut state = State::default();
    view.form.write_first(out)?;
    let stop = view.write_items(out, name, trail, &mut state, || true)?;
    view.form.write_last(out, trail, state)?;
    // Before what is said of it on standard error.
    out.flush()?;
    Ok(say_stop(name, trail, state, stop))
}

/// The bytes of a file, or of standard input for `-`.
pub fn read(name: &OsStr) -> io::Result<Vec<u8>> {
    if name != "-" {
        return fs::read(name);
    }
    let mut bytes = Vec::new();
    stdin().lock().read_to_end(&mut bytes)?;
    Ok(bytes)
}
