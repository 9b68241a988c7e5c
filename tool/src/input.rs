//! Reading the files, and standard input for `-`: whole, into memory, once.
//!
//! What was read is what is checked and what is hashed; the file is not looked at again, so it does not matter if somebody
//! changes it meanwhile. Nothing is decided here of what the bytes say.

use crate::status::{Failure, CANNOT_OPEN, IO_FAILS};
use crate::store::zeroed;
use crate::words;
use std::ffi::{OsStr, OsString};
use std::fs::File;
use std::io::{self, Read, Seek, SeekFrom};
use std::num::NonZero;
use std::os::unix::fs::FileExt;
use std::thread;

/// A part of a file for each thread that reads; a file of less than two of them is read by one thread.
const PART: usize = 8 << 20;

/// More threads than this read no faster: they wait for memory.
const MOST_THREADS: usize = 8;

/// A file as it was named and what it held.
#[derive(Debug)]
pub struct Input {
    pub name: OsString,
    pub bytes: Vec<u8>,
}

/// Reads the file of this name, or standard input for `-`.
pub fn read(name: &OsStr) -> Result<Input, Failure> {
    if name == "-" {
        return all_of(io::stdin().lock(), name, 0);
    }
    read_file(name)
}

/// Reads the file of this name, whatever the name is.
pub fn read_file(name: &OsStr) -> Result<Input, Failure> {
    let file = File::open(name).map_err(|e| {
        Failure::new(CANNOT_OPEN, format!("{} can't be opened: {e}; expected a file to read", words::path(name)))
    })?;
    // The file's length is only a hint for how much memory to ask for at once; it is read to its end, wherever that is.
    let length = file.metadata().map_or(0, |m| if m.is_file() { m.len() } else { 0 });
    let length = usize::try_from(length).unwrap_or(0);
    let threads = thread::available_parallelism().map_or(1, NonZero::get).min(MOST_THREADS).min(length / PART);
    match in_parts(&file, length, threads) {
        Some(bytes) => behind(file, name, bytes),
        None => all_of(file, name, length),
    }
}

/// The first bytes of a file, read by several threads, each its own part; or none if there is nothing to gain, or it did not work
/// and has to be tried in the plain way, which says why.
fn in_parts(file: &File, length: usize, threads: usize) -> Option<Vec<u8>> {
    if threads < 2 {
        return None;
    }
    // One byte more lets the reading of what is behind notice the end without growing.
    let mut bytes = zeroed::<u8>(length.checked_add(1)?)?;
    bytes.truncate(length);
    let part = length.div_ceil(threads);
    let whole = thread::scope(|scope| {
        let readers: Vec<_> = bytes
            .chunks_mut(part)
            .enumerate()
            .map(|(i, room)| {
                let read = move || file.read_exact_at(room, (i * part) as u64).is_ok();
                thread::Builder::new().spawn_scoped(scope, read)
            })
            .collect();
        // All are waited for, whatever the others came to.
        readers.into_iter().fold(true, |good, reader| good & reader.is_ok_and(|r| r.join().unwrap_or(false)))
    });
    whole.then_some(bytes)
}

/// What is left of the file behind its first bytes, which is nothing unless it grew.
fn behind(mut file: File, name: &OsStr, bytes: Vec<u8>) -> Result<Input, Failure> {
    match file.seek(SeekFrom::Start(bytes.len() as u64)) {
        Ok(_) => to_end(file, name, bytes),
        Err(e) => Err(unread(name, bytes.len(), &e)),
    }
}

/// Reads to the end, into memory for so many bytes at first if there is that much.
fn all_of(from: impl Read, name: &OsStr, length: usize) -> Result<Input, Failure> {
    let mut bytes = Vec::new();
    // One byte more lets the reading notice the end without growing. Where there is no such memory, it grows as it goes.
    let _ = bytes.try_reserve_exact(length.saturating_add(1));
    to_end(from, name, bytes)
}

/// Reads to the end, behind what was read before.
fn to_end(mut from: impl Read, name: &OsStr, mut bytes: Vec<u8>) -> Result<Input, Failure> {
    match from.read_to_end(&mut bytes) {
        Ok(_) => Ok(Input { name: name.to_os_string(), bytes }),
        Err(e) => Err(unread(name, bytes.len(), &e)),
    }
}

/// Reading failed behind so many bytes.
fn unread(name: &OsStr, read: usize, e: &io::Error) -> Failure {
    let name = words::path(name);
    if e.kind() == io::ErrorKind::IsADirectory {
        return Failure::new(IO_FAILS, format!("{name} can't be read: it is a directory; expected a file"));
    }
    Failure::new(IO_FAILS, format!("{name} can't be read behind byte {read}: {e}; expected to read it to its end"))
}

#[cfg(test)]
mod tests {
    use super::*;
    use std::fs;

    /// Bytes by which it would be seen if parts stood in each other's place.
    fn text(length: usize) -> Vec<u8> {
        (0..length).map(|i| (i ^ (i >> 8) ^ (i >> 16) ^ (i >> 21)) as u8).collect()
    }

    #[test]
    fn parts_make_up_the_file() {
        let path = std::env::temp_dir().join(format!("proofscale-parts-{}", std::process::id()));
        for length in [2, 3, 1000, 4095, 1 << 20, (1 << 20) + 7] {
            fs::write(&path, text(length)).expect("the file can be written");
            let file = File::open(&path).expect("it can be opened");
            for threads in 2..5 {
                assert_eq!(in_parts(&file, length, threads), Some(text(length)), "{length}, {threads}");
            }
            // A file that is shorter than it was said to be is left to the plain way; one that is longer is read to its end.
            assert_eq!(in_parts(&file, length + 1, 2), None);
            assert_eq!(in_parts(&file, length, 1), None);
            let first = in_parts(&file, length - 1, 2).expect("the parts can be read");
            assert_eq!(behind(file, path.as_os_str(), first).expect("the rest can be read").bytes, text(length));
        }
        let large = text(2 * PART + 12_345);
        fs::write(&path, &large).expect("the file can be written");
        assert!(read_file(path.as_os_str()).expect("it can be read").bytes == large);
        fs::remove_file(&path).expect("the file can be removed");
    }
}
