//! Showing files one after the other.

use crate::args::{Files, Halt};
use crate::form::Form;
use crate::output::{output, say_unread, title, Output};
use crate::status::Status;
use std::ffi::OsStr;
use std::io::{self, Write};

/// Opens and shows each file, and answers the worst of their statuses. One
/// that cannot be opened is said and passed over.
pub fn show_each<T>(
    files: &Files,
    form: Form,
    open: impl Fn(&OsStr) -> io::Result<T>,
    show: impl Fn(&mut Output, &OsStr, T) -> io::Result<Status>,
) -> Result<Status, Halt> {
    let mut out = output()?;
    let mut status = files.status;
    let headed = files.names.len() > 1 && form != Form::Json;
    let mut before = "";
    for name in &files.names {
        let opened = match open(name) {
            Ok(opened) => opened,
            Err(error) => {
                say_unread(name, &error);
                status = status.max(Status::Failed);
                continue;
            }
        };
        if headed {
            writeln!(out, "{before}==> {} <==", title(name))?;
            before = "\n";
        }
        status = status.max(show(&mut out, name, opened)?);
        // Before what is said of the next file on standard error.
        out.flush()?;
    }
    Ok(status)
}
