//! How a stream, or all streams of a call, stand; the worst one is told.

use std::process::ExitCode;

/// From best to worst.
#[derive(Clone, Copy, Debug, PartialEq, Eq, PartialOrd, Ord)]
pub enum Standing {
    /// Every byte lies in an accepted item.
    Passed,
    /// An item is refused, or a remainder is left.
    Failed,
    /// There is no byte to judge.
    Empty,
    /// The call was refused, or something could not be read or written.
    Error,
}

impl Standing {
    /// The word that opens a stream's line, and the outcome for machines.
    pub fn word(self) -> &'static str {
        match self {
            Standing::Passed => "passed",
            Standing::Failed => "failed",
            Standing::Empty => "empty",
            Standing::Error => "error",
        }
    }

    /// 0 only for passed.
    pub fn exit(self) -> ExitCode {
        ExitCode::from(self.status())
    }

    pub fn status(self) -> u8 {
        match self {
            Standing::Passed => 0,
            Standing::Failed => 1,
            Standing::Empty | Standing::Error => 2,
        }
    }
}
