//! What a run of the command comes to.

use std::process::ExitCode;

/// The exit statuses, from the best to the worst: over several files the
/// worst counts.
#[derive(Clone, Copy, Debug, PartialEq, Eq, PartialOrd, Ord)]
pub enum Status {
    /// Each trail was read to its end.
    Ended,
    /// A trail ends inside an item: it is still being written.
    Short,
    /// A trail was refused, or has no record of a number asked for.
    Refused,
    /// A followed trail shrank or is no longer the one that was opened.
    Changed,
    /// Wrong usage, or something that the system would not do.
    Failed,
    /// An interrupt came before all that is there was shown.
    Interrupted,
    /// Whoever read standard output has closed it.
    Closed,
}

impl Status {
    /// The number that a shell sees.
    pub const fn code(self) -> u8 {
        match self {
            Status::Ended => 0,
            Status::Refused => 1,
            Status::Failed => 2,
            Status::Short => 3,
            Status::Changed => 4,
            // What a shell shows for a program that a signal ended.
            Status::Interrupted => 130,
            Status::Closed => 141,
        }
    }
}

impl From<Status> for ExitCode {
    fn from(status: Status) -> Self {
        ExitCode::from(status.code())
    }
}
