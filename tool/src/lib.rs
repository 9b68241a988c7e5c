//! The tool `proofscale` over the proved library: everything that is not proved, and that decides nothing.
//!
//! The way of the data: `usage` reads the command line; `input` reads files; `check`, `write` and `batch` are the commands, which
//! call the library through `library`, with the memory of `store` (limited by `memory`); `locate` finds the places of
//! faults, `report` and `json` say what came out, `output` and `progress` hand it over. An answer always is the library's.

pub mod batch;
pub mod check;
pub mod input;
pub mod json;
pub mod library;
pub mod locate;
pub mod memory;
pub mod output;
pub mod progress;
pub mod report;
pub mod sha256;
pub mod status;
pub mod store;
pub mod usage;
pub mod words;
pub mod write;

use crate::status::{Failure, FAULT, USAGE};
use crate::usage::{Command, Options};
use std::ffi::OsString;
use std::panic;

/// Does what the command line asks for, and returns the exit status.
pub fn run(args: Vec<OsString>) -> u8 {
    panic::set_hook(Box::new(|fault| {
        let payload = fault.payload();
        let owned = payload.downcast_ref::<String>().map(String::as_str);
        let what = owned.or(payload.downcast_ref::<&str>().copied()).unwrap_or("no reason is known");
        let place = fault.location().map_or(String::new(), |at| format!(" ({at})"));
        output::complain(&format!("a fault of the tool itself, which is no answer: {what}{place}"));
    }));
    panic::catch_unwind(|| run_parsed(args)).unwrap_or(FAULT)
}

fn run_parsed(args: Vec<OsString>) -> u8 {
    match usage::parse(args) {
        Ok((command, options)) => match run_command(&command, &options) {
            Ok(status) => status,
            Err(failure) => tell_failure(&command, &options, &failure),
        },
        Err(failure) => {
            output::complain(&failure.message);
            USAGE
        }
    }
}

fn run_command(command: &Command, options: &Options) -> Result<u8, Failure> {
    match command {
        Command::Check { formula, proof } => check::run(formula, proof, options),
        Command::Write { formula, out } => write::run(formula, out.as_deref(), options),
        Command::Batch { list } => batch::run(list, options),
        Command::Help => output::deliver(usage::HELP.as_bytes()).map(|_| 0),
        Command::Version => output::deliver(report::versions_text().as_bytes()).map(|_| 0),
    }
}

/// Says why there is no answer: to people always, and as JSON to those who asked for it.
fn tell_failure(command: &Command, options: &Options, failure: &Failure) -> u8 {
    output::complain(&failure.message);
    if options.json {
        let report = report::command_json(command.name(), vec![report::failure_member(failure)]);
        // If this can't be written either, the message above and the status say it.
        let _ = output::deliver((report.written() + "\n").as_bytes());
    }
    failure.status
}
