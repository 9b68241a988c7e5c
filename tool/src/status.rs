//! Exit statuses beside the answers 0 to 5, and failures that come with one.
//!
//! A failure is never a verdict: it says that a verdict could not be asked for, or could not be handed over.

/// The command line is not as the help says.
pub const USAGE: u8 = 64;
/// A file can't be opened.
pub const CANNOT_OPEN: u8 = 66;
/// A fault of our own.
pub const FAULT: u8 = 70;
/// Reading or writing fails.
pub const IO_FAILS: u8 = 74;

/// Why there is no answer: an exit status, and a message that names the file, the place and what was expected.
#[derive(Debug, Clone, PartialEq, Eq)]
pub struct Failure {
    pub status: u8,
    pub message: String,
}

impl Failure {
    pub fn new(status: u8, message: impl Into<String>) -> Failure {
        Failure { status, message: message.into() }
    }

    pub fn usage(message: impl Into<String>) -> Failure {
        Failure::new(USAGE, message)
    }
}

/// The status in plain words, for tables.
pub fn words(status: u8) -> &'static str {
    match status {
        0 => "verified",
        1 => "unreadable formula",
        2 => "unreadable step",
        3 => "refused",
        4 => "unfinished",
        5 => "store too short",
        USAGE => "no pair",
        CANNOT_OPEN => "not opened",
        IO_FAILS => "not read",
        _ => "fault of the tool",
    }
}
