//! Standard output, and what is said on standard error.

use crate::escape::shown;
use std::ffi::OsStr;
use std::fmt::Display;
use std::fs::File;
use std::io::{self, stderr, stdout, BufWriter, Write};
use std::os::fd::AsFd;

/// Standard output behind a buffer, without the flush at each line feed that
/// [`stdout`] has.
pub type Output = BufWriter<File>;

/// Opens standard output.
pub fn output() -> io::Result<Output> {
    let descriptor = stdout().as_fd().try_clone_to_owned()?;
    Ok(BufWriter::with_capacity(1 << 16, File::from(descriptor)))
}

/// Says something in one line. That standard error cannot be written is
/// nothing that could be said.
pub fn say(line: impl Display) {
    let _ = writeln!(stderr(), "bsm: {line}");
}

/// The system's own words for an error.
pub fn reason(error: &io::Error) -> String {
    let text = error.to_string();
    match text.rfind(" (os error ") {
        Some(end) if error.raw_os_error().is_some() => text[..end].to_string(),
        _ => text,
    }
}

/// Says why a file could not be read.
pub fn say_unread(name: &OsStr, error: &io::Error) {
    say(format_args!("{}: {}", title(name), reason(error)));
}

/// What a file is called in headings and messages.
pub fn title(name: &OsStr) -> String {
    if name == "-" {
        "standard input".into()
    } else {
        shown(name)
    }
}
