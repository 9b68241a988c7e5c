//! `proofscale write`: a formula as the library read it, written out.
//!
//! OUT is either as it was or whole: the text goes to a file beside it, which is brought to the disk and then takes OUT's
//! name. (If the machine stops in between, or the tool is killed, that file, `.proofscale-...tmp`, may be left behind.) A
//! device or a pipe can't be replaced and is written to directly, and so is standard output: there nothing like that can be promised.

use crate::check::{in_formula, FileReport, Limit, Trouble};
use crate::input::{self, Input};
use crate::json::{path_members, Json};
use crate::library::{self, Written};
use crate::output::{self, Delivered};
use crate::report;
use crate::sha256;
use crate::status::{Failure, CANNOT_OPEN, IO_FAILS};
use crate::store::{self, Announced, Plan, Sizes};
use crate::usage::Options;
use crate::words;
use std::ffi::OsStr;
use std::fs::{self, File, OpenOptions, Permissions};
use std::io::{self, Write};
use std::os::unix::ffi::OsStrExt;
use std::path::{Path, PathBuf};
use std::time::Instant;

/// What the library made of a formula.
enum Made {
    Text { text: Vec<u8>, sizes: Sizes },
    Unreadable { trouble: Trouble },
    TooShort { sizes: Sizes, limit: Limit, enough: Sizes },
}

/// The command: reads the formula, writes it out, reports. Returns the exit status.
pub fn run(formula: &OsStr, out: Option<&OsStr>, options: &Options) -> Result<u8, Failure> {
    let out = out.filter(|name| *name != "-");
    let start = Instant::now();
    let input = input::read(formula)?;
    match make(&input.bytes, Limit::now(options.store, 1)) {
        Made::Text { text, sizes } => {
            let Some(out) = out else { return to_standard_output(&text) };
            replace(Path::new(out), &text)?;
            tell_written(&input, out, &text, sizes, start, options)?;
            Ok(0)
        }
        Made::Unreadable { trouble } => {
            let sentence = report::unreadable_formula(&input.name, &trouble);
            tell_refused(&input, library::UNREADABLE_FORMULA, &sentence, &trouble, options)
        }
        Made::TooShort { sizes, limit, enough } => {
            let sentence = report::store_too_short(sizes, limit, enough);
            tell_refused(&input, library::TOO_SHORT, &sentence, &Trouble::None, options)
        }
    }
}

/// Asks the library for the text, with more room as long as it says that there is too little.
fn make(formula: &[u8], limit: Limit) -> Made {
    let most = store::enough_to_write(formula.len());
    let mut plan = Plan::new(store::first_to_write(formula.len(), Announced::of(formula)), most, limit.bytes);
    // The text is at most one byte longer than the original, by a line feed at its end: numbers have one spelling, and one blank
    // behind each is the least that there can be. Should that ever be wrong, the library says so, and there is a larger room.
    let mut room = formula.len().saturating_add(2);
    let mut store = plan.next_store().expect("a plan has a first attempt");
    loop {
        let sizes = store.sizes();
        let too_short = Made::TooShort { sizes, limit, enough: most };
        let Some(mut out) = store::zeroed::<u8>(room) else { return too_short };
        match library::write(formula, &mut store, &mut out) {
            Written::Whole { length } => {
                out.truncate(length);
                return Made::Text { text: out, sizes };
            }
            Written::Unreadable { at } => return Made::Unreadable { trouble: in_formula(formula, at) },
            Written::OutputTooShort => room = room.saturating_mul(2),
            Written::StoreTooShort => {
                drop(store);
                match plan.next_store() {
                    Some(larger) => store = larger,
                    None => return too_short,
                }
            }
        }
    }
}

/// The text goes to standard output. If the reader went away, the formula did not arrive whole; that is told by the status
/// alone, since whoever closes a pipe does not want to hear of it.
fn to_standard_output(text: &[u8]) -> Result<u8, Failure> {
    match output::deliver(text)? {
        Delivered::Whole => Ok(0),
        Delivered::ReaderGone => Ok(IO_FAILS),
    }
}

/// Says that OUT was written.
fn tell_written(
    input: &Input,
    out: &OsStr,
    text: &[u8],
    sizes: Sizes,
    start: Instant,
    options: &Options,
) -> Result<(), Failure> {
    if options.json {
        let mut written = path_members(out);
        written.push(("bytes", Json::Number(text.len() as u64)));
        written.push(("sha256", sum(out, text)));
        let members = vec![
            ("answer", Json::Number(0)),
            ("formula", formula_json(input)),
            ("out", Json::Object(written)),
            ("seconds", Json::Seconds(start.elapsed().as_secs_f64())),
            ("store", report::store_json(sizes)),
        ];
        deliver_json(members)
    } else if options.quiet {
        Ok(())
    } else {
        let sentence =
            format!("Wrote the formula of {} to {}: {} bytes.\n", words::path(&input.name), words::path(out), text.len());
        output::deliver(sentence.as_bytes()).map(|_| ())
    }
}

/// Says why nothing was written, on standard error, since standard output may be where the formula was to go.
fn tell_refused(input: &Input, answer: u8, sentence: &str, trouble: &Trouble, options: &Options) -> Result<u8, Failure> {
    output::complain(sentence);
    if options.json {
        deliver_json(vec![
            ("answer", Json::Number(u64::from(answer))),
            ("sentence", Json::text(sentence)),
            ("formula", formula_json(input)),
            ("place", report::place_json(trouble)),
        ])?;
    }
    Ok(answer)
}

fn deliver_json(members: Vec<(&'static str, Json)>) -> Result<(), Failure> {
    let text = report::command_json("write", members).written() + "\n";
    output::deliver(text.as_bytes()).map(|_| ())
}

fn formula_json(input: &Input) -> Json {
    let sha256 = match sum(&input.name, &input.bytes) {
        Json::Text(sum) => Some(sum),
        _ => None,
    };
    report::file_json(&FileReport { name: input.name.clone(), bytes: input.bytes.len() as u64, sha256 })
}

/// The SHA-256, or null and a line on standard error that says why.
fn sum(name: &OsStr, bytes: &[u8]) -> Json {
    match sha256::of(bytes) {
        Ok(sum) => Json::Text(sum),
        Err(why) => {
            output::complain(&format!("{}: no SHA-256: {why}", words::path(name)));
            Json::Null
        }
    }
}

/// Puts the text in the place of OUT, whole or not at all.
fn replace(out: &Path, text: &[u8]) -> Result<(), Failure> {
    if out.as_os_str().is_empty() {
        return Err(cannot_open(out, "expected a name"));
    }
    if out.as_os_str().as_bytes().ends_with(b"/") {
        return Err(cannot_open(out, "its name is that of a directory; expected a file"));
    }
    match fs::metadata(out) {
        Ok(there) if there.is_dir() => Err(cannot_open(out, "it is a directory; expected a file")),
        Ok(there) if there.is_file() => {
            let real = fs::canonicalize(out).map_err(|e| cannot_open(out, &e.to_string()))?;
            // A file that may not be written to is not replaced either, though its folder would allow that.
            OpenOptions::new().write(true).open(&real).map_err(|e| cannot_open(out, &e.to_string()))?;
            replace_file(out, &real, Some(there.permissions()), text)
        }
        Ok(_) => write_into(out, text),
        Err(e) if e.kind() == io::ErrorKind::NotFound => {
            if fs::symlink_metadata(out).is_ok() {
                return Err(cannot_open(out, "it is a symbolic link to nothing; expected a file or no such name"));
            }
            replace_file(out, out, None, text)
        }
        Err(e) => Err(cannot_open(out, &e.to_string())),
    }
}

fn cannot_open(out: &Path, why: &str) -> Failure {
    Failure::new(CANNOT_OPEN, format!("{} can't be opened for writing: {why}", words::path(out.as_os_str())))
}

fn cannot_write(out: &Path, why: &io::Error, left: &str) -> Failure {
    Failure::new(IO_FAILS, format!("{} can't be written: {why}; {left}", words::path(out.as_os_str())))
}

/// A device or a pipe takes the text as it comes.
fn write_into(out: &Path, text: &[u8]) -> Result<(), Failure> {
    let mut file = OpenOptions::new().write(true).open(out).map_err(|e| cannot_open(out, &e.to_string()))?;
    file.write_all(text).map_err(|e| cannot_write(out, &e, "it is no file that could be left as it was"))
}

/// The text goes to a new file in the folder of `real`, which then takes its name; `out` is the name that the user knows.
fn replace_file(out: &Path, real: &Path, permissions: Option<Permissions>, text: &[u8]) -> Result<(), Failure> {
    let folder = match real.parent() {
        Some(parent) if parent != Path::new("") => parent,
        _ => Path::new("."),
    };
    let (file, beside) = new_file_in(folder).map_err(|e| cannot_open(out, &format!("no file can be made beside it: {e}")))?;
    let done = fill(file, permissions, text).and_then(|()| fs::rename(&beside, real));
    if let Err(e) = done {
        let _ = fs::remove_file(&beside);
        return Err(cannot_write(out, &e, "it is as it was before"));
    }
    // The new name, too, should survive the machine's stopping; where the file system can't do that there is no more to be done.
    let _ = File::open(folder).and_then(|f| f.sync_all());
    Ok(())
}

/// Writes all of the text and waits until it is on the disk.
fn fill(mut file: File, permissions: Option<Permissions>, text: &[u8]) -> io::Result<()> {
    if let Some(permissions) = permissions {
        file.set_permissions(permissions)?;
    }
    file.write_all(text)?;
    file.sync_all()
}

/// A file that was not there before, and its path.
fn new_file_in(folder: &Path) -> io::Result<(File, PathBuf)> {
    let mut number = 0;
    loop {
        let path = folder.join(format!(".proofscale-{}-{number}.tmp", std::process::id()));
        match OpenOptions::new().write(true).create_new(true).open(&path) {
            Err(e) if e.kind() == io::ErrorKind::AlreadyExists && number < 1000 => number += 1,
            other => return other.map(|file| (file, path)),
        }
    }
}
