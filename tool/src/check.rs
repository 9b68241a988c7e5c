//! `proofscale check`: a pair of files goes to the library, with a larger store each time that it says "too short", up to the
//! limit; then the place of a fault is looked for.
//!
//! The answer that comes out is the library's last one, unchanged. Seconds and turns are told as they are, for comparison;
//! nothing rests on them.

use crate::input::{self, Input};
use crate::library::{self, Answer, Written};
use crate::locate::{self, Fault, Place};
use crate::memory;
use crate::output;
use crate::progress::Progress;
use crate::report;
use crate::sha256;
use crate::status::Failure;
use crate::store::{self, Announced, Plan, Sizes, Store};
use crate::usage::Options;
use crate::words;
use std::ffi::{OsStr, OsString};
use std::time::Instant;

/// How much memory a store may take, and why.
#[derive(Debug, Clone, Copy, PartialEq, Eq)]
pub struct Limit {
    pub bytes: u64,
    pub reason: Reason,
}

/// Where a limit comes from.
#[derive(Debug, Clone, Copy, PartialEq, Eq)]
pub enum Reason {
    Asked,
    Free,
    Unknown,
}

impl Limit {
    /// The limit of one of so many runs at a time: a share of what was asked for, or of what is free if that is less.
    pub fn now(asked: Option<u64>, runs: usize) -> Limit {
        let share = |bytes: u64| bytes / runs.max(1) as u64;
        match (asked, memory::free()) {
            (Some(asked), free) if asked <= free.unwrap_or(u64::MAX) => Limit { bytes: share(asked), reason: Reason::Asked },
            (_, Some(free)) => Limit { bytes: share(free), reason: Reason::Free },
            (_, None) => Limit { bytes: u64::MAX, reason: Reason::Unknown },
        }
    }
}

/// Where a file is at fault, for answers 1, 2 and 3.
#[derive(Debug, Clone, PartialEq, Eq)]
pub enum Trouble {
    None,
    InFormula { place: Place, fault: Fault },
    InStep { begins: Place, fault: Option<(Place, Fault)> },
}

/// What checking a pair came to: the answer; the store of the run that gave it; how many runs there were; the seconds of all
/// of them; the limit of the store, and what would always do; where the trouble is.
#[derive(Debug, Clone, PartialEq)]
pub struct Outcome {
    pub answer: Answer,
    pub sizes: Sizes,
    pub runs: u64,
    pub seconds: f64,
    pub limit: Limit,
    pub enough: Sizes,
    pub trouble: Trouble,
}

/// A file as a report names it.
#[derive(Debug, Clone, PartialEq, Eq)]
pub struct FileReport {
    pub name: OsString,
    pub bytes: u64,
    pub sha256: Option<String>,
}

/// All that is told of a pair.
#[derive(Debug, Clone, PartialEq)]
pub struct Report {
    pub formula: FileReport,
    pub proof: FileReport,
    pub outcome: Outcome,
}

/// The command: reads both files, checks, reports. Returns the exit status.
pub fn run(formula: &OsStr, proof: &OsStr, options: &Options) -> Result<u8, Failure> {
    let report = {
        let progress = Progress::start(!options.quiet);
        progress.phase(format!("reading {}", words::path(formula)));
        let formula = input::read(formula)?;
        progress.phase(format!("reading {}", words::path(proof)));
        let proof = input::read(proof)?;
        pair(&formula, &proof, Limit::now(options.store, 1), options.json, &progress)
    };
    if options.json {
        output::deliver((report::check_json(&report).written() + "\n").as_bytes())?;
    } else if !options.quiet {
        output::deliver(report::check_text(&report).as_bytes())?;
    }
    Ok(report.outcome.answer.answer)
}

/// Checks two files that were read, and hashes them if that is asked for.
pub fn pair(formula: &Input, proof: &Input, limit: Limit, hashed: bool, progress: &Progress) -> Report {
    let outcome = judge(&formula.bytes, &proof.bytes, limit, progress);
    if hashed {
        progress.phase("hashing the files");
    }
    Report { formula: file_report(formula, hashed), proof: file_report(proof, hashed), outcome }
}

/// Name, size and hash of a file. A hash that can't be had is missing in the report, and a line on standard error says why.
fn file_report(file: &Input, hashed: bool) -> FileReport {
    let sum = hashed.then(|| sha256::of(&file.bytes));
    if let Some(Err(why)) = &sum {
        output::complain(&format!("{}: no SHA-256: {why}", words::path(&file.name)));
    }
    FileReport { name: file.name.clone(), bytes: file.bytes.len() as u64, sha256: sum.and_then(Result::ok) }
}

/// Asks the library, again with more room for as long as it says "too short" and the limit allows more.
pub fn judge(formula: &[u8], proof: &[u8], limit: Limit, progress: &Progress) -> Outcome {
    let start = Instant::now();
    let most = store::enough_to_check(formula.len(), proof.len());
    let mut plan = Plan::new(first_sizes(formula, proof, limit), most, limit.bytes);
    let mut store = plan.next_store().expect("a plan has a first attempt");
    let mut runs = 1;
    loop {
        progress.phase(phase(formula.len(), proof.len(), store.sizes(), runs));
        let answer = library::check(formula, proof, &mut store);
        let sizes = store.sizes();
        let seconds = start.elapsed().as_secs_f64();
        let done = |trouble| Outcome { answer, sizes, runs, seconds, limit, enough: most, trouble };
        if answer.answer != library::TOO_SHORT {
            progress.phase("looking for the place");
            return done(trouble(answer, formula, proof, &mut store));
        }
        // The room of this run goes back before that of the next one is asked for.
        drop(store);
        match plan.next_store() {
            Some(larger) => store = larger,
            None => return done(Trouble::None),
        }
        runs += 1;
    }
}

/// What a check is tried with first.
fn first_sizes(formula: &[u8], proof: &[u8], limit: Limit) -> Sizes {
    let announced = Announced::of(formula);
    let first = store::first_to_check(formula.len(), proof.len(), announced);
    if first.bytes() <= limit.bytes {
        return first;
    }
    store::lean_to_check(formula, proof.len(), announced, limit.bytes).unwrap_or(first)
}

/// What the line of progress says during a run.
fn phase(formula: usize, proof: usize, sizes: Sizes, run: u64) -> String {
    let again = if run > 1 { format!(" (run {run}, with a larger store)") } else { String::new() };
    format!("checking: formula {formula} bytes, proof {proof} bytes, store {} bytes{again}", sizes.bytes())
}

/// Finds the place that an answer speaks of. The store is the one that the answer was given with: the same heads and literals
/// lead the library to the same place in the formula.
fn trouble(answer: Answer, formula: &[u8], proof: &[u8], store: &mut Store) -> Trouble {
    match answer.answer {
        library::UNREADABLE_FORMULA => match library::write(formula, store, &mut []) {
            Written::Unreadable { at } => in_formula(formula, at),
            _ => Trouble::None,
        },
        library::UNREADABLE_STEP => locate::in_step(proof, answer.step).map_or(Trouble::None, |step| Trouble::InStep {
            begins: Place::of(proof, step.begins),
            fault: step.fault.map(|fault| (Place::of(proof, fault.at), fault)),
        }),
        library::REFUSED => locate::step_start(proof, answer.step)
            .map_or(Trouble::None, |at| Trouble::InStep { begins: Place::of(proof, at), fault: None }),
        _ => Trouble::None,
    }
}

/// The place of a fault in a formula that was read up to a byte.
pub fn in_formula(formula: &[u8], read_to: usize) -> Trouble {
    let fault = locate::in_formula(formula, read_to);
    Trouble::InFormula { place: Place::of(formula, fault.at), fault }
}
