//! How the command ends.

use std::process::ExitCode;

/// The exit status, the worse the later: over several files the worst one counts.
#[derive(Debug, Clone, Copy, PartialEq, Eq, PartialOrd, Ord)]
pub enum Status {
    /// All that was asked for is done; of two files, that nothing differs.
    Done,
    /// Two files differ.
    Differs,
    /// A file is refused, or a tag that was asked for is not there.
    Refused,
    /// The command was not understood, a file cannot be read, or two files cannot be compared.
    Failed,
}

impl From<Status> for ExitCode {
    fn from(status: Status) -> ExitCode {
        ExitCode::from(match status {
            Status::Done => 0,
            Status::Differs | Status::Refused => 1,
            Status::Failed => 2,
        })
    }
}
