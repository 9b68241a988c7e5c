//! Standard output. A reader that went away is no error of ours: what is left is not written, and the exit status says the
//! rest. Every other failure, as a full disk, is one, since somebody relies on what stands there.

use crate::status::{Failure, IO_FAILS};
use std::io::{self, Write};

/// What became of a text: it is out, or nobody wants it any more.
#[derive(Debug, Clone, Copy, PartialEq, Eq)]
pub enum Delivered {
    Whole,
    ReaderGone,
}

/// Writes the bytes to standard output, all of them.
pub fn deliver(bytes: &[u8]) -> Result<Delivered, Failure> {
    let mut out = io::stdout().lock();
    match out.write_all(bytes).and_then(|()| out.flush()) {
        Ok(()) => Ok(Delivered::Whole),
        Err(e) if e.kind() == io::ErrorKind::BrokenPipe => Ok(Delivered::ReaderGone),
        Err(e) => Err(Failure::new(IO_FAILS, format!("standard output can't be written: {e}"))),
    }
}

/// A line for people to standard error. Where that fails there is nobody left to be told.
pub fn complain(message: &str) {
    let _ = writeln!(io::stderr().lock(), "proofscale: {message}");
}
