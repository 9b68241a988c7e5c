//! `proofscale batch`: a list of pairs, checked by several threads; a table in the order of the list, then what is to be said
//! of the pairs that are not verified, then a summary.
//!
//! Each pair is checked by itself: a file that can't be read, a line that names no pair, even a fault of the tool is a row of
//! the table and stops nothing. The exit status is 0 only if there is a pair and all are verified.

use crate::check::{self, Limit, Report};
use crate::input;
use crate::json::{path_members, Json};
use crate::library;
use crate::output::{self, Delivered};
use crate::progress::Progress;
use crate::report;
use crate::status::{self, Failure, FAULT};
use crate::usage::Options;
use crate::words;
use std::ffi::{OsStr, OsString};
use std::io::{self, IsTerminal};
use std::os::unix::ffi::{OsStrExt, OsStringExt};
use std::panic::{catch_unwind, AssertUnwindSafe};
use std::path::Path;
use std::sync::atomic::{AtomicUsize, Ordering};
use std::sync::mpsc;
use std::thread;
use std::time::Instant;

/// The exit status if a pair is not verified.
const NOT_ALL: u8 = 1;

/// A line of the list: its number, and the two names, or that it does not have two.
#[derive(Debug, Clone, PartialEq, Eq)]
struct Line {
    number: u64,
    names: Result<(OsString, OsString), Failure>,
}

/// A line and what came of it.
struct Row<'a> {
    line: &'a Line,
    result: Result<Report, Failure>,
    seconds: f64,
}

impl Row<'_> {
    /// The answer, or the status of the failure.
    fn status(&self) -> u8 {
        match &self.result {
            Ok(report) => report.outcome.answer.answer,
            Err(failure) => failure.status,
        }
    }
}

/// The command. Returns the exit status.
pub fn run(list: &OsStr, options: &Options) -> Result<u8, Failure> {
    let start = Instant::now();
    let text = input::read(list)?;
    let lines = lines_of(&text.bytes);
    if lines.is_empty() {
        return Err(Failure::usage(format!("{} names no pair; expected lines `FORMULA PROOF`", words::path(list))));
    }
    let folder = if list == "-" { None } else { Path::new(list).parent() };
    let rows = check_all(&lines, folder.unwrap_or(Path::new("")), options)?;
    let seconds = start.elapsed().as_secs_f64();
    tell_end(list, &rows, seconds, options)?;
    Ok(if rows.iter().all(|row| row.status() == library::VERIFIED) { 0 } else { NOT_ALL })
}

/// The lines that name something: all but empty ones and those that begin with `#`.
fn lines_of(text: &[u8]) -> Vec<Line> {
    let numbered = text.split(|&b| b == b'\n').zip(1..);
    let trimmed = numbered.map(|(line, number)| (line.trim_ascii(), number));
    let wanted = trimmed.filter(|(line, _)| !line.is_empty() && line[0] != b'#');
    wanted.map(|(line, number)| Line { number, names: names_in(line, number) }).collect()
}

/// The two names of a line: around its tab, if it has one, so that names may hold spaces; else around its spaces.
fn names_in(line: &[u8], number: u64) -> Result<(OsString, OsString), Failure> {
    let separator = if line.contains(&b'\t') { b'\t' } else { b' ' };
    let names: Vec<&[u8]> = line.split(|&b| b == separator).map(<[u8]>::trim_ascii).filter(|n| !n.is_empty()).collect();
    match names[..] {
        [formula, proof] => Ok((OsString::from_vec(formula.to_vec()), OsString::from_vec(proof.to_vec()))),
        _ => Err(Failure::usage(format!(
            "line {number} of the list has {}; expected `FORMULA PROOF`, with a tab between them if a name has spaces",
            words::counted(names.len() as u64, "name", "names")
        ))),
    }
}

/// Checks all lines, several at a time, and prints each row as soon as those before it are there.
fn check_all<'a>(lines: &'a [Line], folder: &Path, options: &Options) -> Result<Vec<Row<'a>>, Failure> {
    let jobs = jobs_for(lines.len(), options);
    let next = AtomicUsize::new(0);
    let (sender, receiver) = mpsc::channel();
    let table = !options.json && !options.quiet;
    // A table that appears on a terminal shows the progress by itself, and the line would only get in its way.
    let progress = Progress::start(!(options.quiet || table && io::stdout().is_terminal()));
    progress.phase("checking pairs");
    let mut printer = Printer { wanted: table };
    printer.print(&head())?;
    thread::scope(|scope| {
        for _ in 0..jobs {
            let sender = sender.clone();
            let next = &next;
            scope.spawn(move || {
                while let Some(line) = lines.get(next.fetch_add(1, Ordering::Relaxed)) {
                    // If nobody receives any more, standard output failed, and the rest is of no use.
                    if sender.send((line.number, row(line, folder, jobs, options))).is_err() {
                        break;
                    }
                }
            });
        }
        drop(sender);
        in_order(lines, receiver, &progress, &mut printer)
    })
}

/// As many threads as asked for, or as the machine runs at a time; no more than there are pairs.
fn jobs_for(pairs: usize, options: &Options) -> usize {
    let machine = || thread::available_parallelism().map_or(1, usize::from);
    options.jobs.unwrap_or_else(machine).clamp(1, pairs.max(1))
}

/// Takes the rows as they come and prints them in the order of the list.
fn in_order<'a>(
    lines: &[Line],
    receiver: mpsc::Receiver<(u64, Row<'a>)>,
    progress: &Progress,
    printer: &mut Printer,
) -> Result<Vec<Row<'a>>, Failure> {
    let mut waiting = std::collections::BTreeMap::new();
    let mut rows: Vec<Row> = Vec::new();
    for (done, (number, row)) in receiver.iter().enumerate() {
        progress.advance(done as u64 + 1, lines.len() as u64);
        waiting.insert(number, row);
        while let Some(row) = lines.get(rows.len()).and_then(|line| waiting.remove(&line.number)) {
            printer.print(&table_row(&row))?;
            rows.push(row);
        }
    }
    Ok(rows)
}

/// Prints the table for as long as somebody reads it.
struct Printer {
    wanted: bool,
}

impl Printer {
    fn print(&mut self, text: &str) -> Result<(), Failure> {
        if self.wanted && output::deliver(text.as_bytes())? == Delivered::ReaderGone {
            self.wanted = false;
        }
        Ok(())
    }
}

/// Checks one line; whatever happens, there is a row for it.
fn row<'a>(line: &'a Line, folder: &Path, jobs: usize, options: &Options) -> Row<'a> {
    let start = Instant::now();
    let checked = catch_unwind(AssertUnwindSafe(|| check_line(line, folder, jobs, options)));
    let fault = |_| Err(Failure::new(FAULT, format!("line {} of the list: a fault of the tool itself", line.number)));
    Row { line, result: checked.unwrap_or_else(fault), seconds: start.elapsed().as_secs_f64() }
}

/// Reads and checks the pair of a line.
fn check_line(line: &Line, folder: &Path, jobs: usize, options: &Options) -> Result<Report, Failure> {
    let (formula, proof) = line.names.as_ref().map_err(Clone::clone)?;
    let formula = input::read_file(&path_in(folder, formula))?;
    let proof = input::read_file(&path_in(folder, proof))?;
    let silent = Progress::start(false);
    Ok(check::pair(&formula, &proof, Limit::now(options.store, jobs), options.json, &silent))
}

/// The path of a name in the list. Standard input can't be in a list: there `-` is a name like any other.
fn path_in(folder: &Path, name: &OsStr) -> OsString {
    let folder = if folder.as_os_str().is_empty() && name == "-" { Path::new(".") } else { folder };
    folder.join(name).into_os_string()
}

/// The names of the table's columns.
fn head() -> String {
    format!("{:>6}  {:>6}  {:>9}  {:>9}  {:<18}  {}\n", "line", "answer", "step", "seconds", "meaning", "formula and proof")
}

/// A row of the table. In the place of an answer a failure has `-`.
fn table_row(row: &Row) -> String {
    let (answer, step) = match &row.result {
        Ok(report) => (Some(report.outcome.answer.answer.to_string()), report.outcome.answer.step_if_any()),
        Err(_) => (None, None),
    };
    let names = match &row.line.names {
        Ok((formula, proof)) => format!("{} {}", words::bytes(formula.as_bytes()), words::bytes(proof.as_bytes())),
        Err(_) => "-".to_string(),
    };
    format!(
        "{:>6}  {:>6}  {:>9}  {:>9.3}  {:<18}  {names}\n",
        row.line.number,
        answer.as_deref().unwrap_or("-"),
        step.map_or("-".to_string(), |step| step.to_string()),
        row.seconds,
        status::words(row.status())
    )
}

/// What comes behind the table; or all of it, as JSON.
fn tell_end(list: &OsStr, rows: &[Row], seconds: f64, options: &Options) -> Result<(), Failure> {
    if options.json {
        let text = json(list, rows, seconds).written() + "\n";
        return output::deliver(text.as_bytes()).map(|_| ());
    }
    if options.quiet {
        return Ok(());
    }
    let mut text = String::new();
    for row in rows.iter().filter(|row| row.status() != library::VERIFIED) {
        text.push_str(&format!("line {}: {}\n", row.line.number, sentence(row)));
    }
    text.push_str(&summary(rows, seconds));
    text.push_str(&report::origin_line());
    output::deliver(text.as_bytes()).map(|_| ())
}

/// What is to be said of a row.
fn sentence(row: &Row) -> String {
    match &row.result {
        Ok(report) => report::sentence(report),
        Err(failure) => failure.message.clone(),
    }
}

/// How many rows there are of each status that occurs, in the order of statuses.
fn counts(rows: &[Row]) -> Vec<(u8, u64)> {
    let mut counts = std::collections::BTreeMap::new();
    rows.iter().for_each(|row| *counts.entry(row.status()).or_insert(0) += 1);
    counts.into_iter().collect()
}

/// The last line.
fn summary(rows: &[Row], seconds: f64) -> String {
    let parts: Vec<String> = counts(rows).iter().map(|(s, n)| format!("{n} {}", status::words(*s))).collect();
    let all = rows.iter().all(|row| row.status() == library::VERIFIED);
    let verdict = if all { "all are verified" } else { "not all are verified" };
    let pairs = words::counted(rows.len() as u64, "pair", "pairs");
    format!("{pairs} in {seconds:.3} s: {}; {verdict}.\n", parts.join(", "))
}

/// The report as JSON.
fn json(list: &OsStr, rows: &[Row], seconds: f64) -> Json {
    let counts = counts(rows);
    let verified = counts.iter().find(|(s, _)| *s == library::VERIFIED).map_or(0, |(_, n)| *n);
    let by_status = counts.iter().map(|(s, n)| {
        Json::Object(vec![
            ("status", Json::Number(u64::from(*s))),
            ("meaning", Json::text(status::words(*s))),
            ("pairs", Json::Number(*n)),
        ])
    });
    let summary = Json::Object(vec![
        ("pairs", Json::Number(rows.len() as u64)),
        ("verified", Json::Number(verified)),
        ("by_status", Json::Array(by_status.collect())),
    ]);
    report::command_json(
        "batch",
        vec![
            ("list", Json::Object(path_members(list))),
            ("pairs", Json::Array(rows.iter().map(row_json).collect())),
            ("summary", summary),
            ("seconds", Json::Seconds(seconds)),
            ("peak_bytes", Json::number(crate::memory::peak())),
        ],
    )
}

/// A pair as JSON: as a check has it, or with the failure in its place.
fn row_json(row: &Row) -> Json {
    let mut members = vec![("line", Json::Number(row.line.number))];
    match &row.result {
        Ok(report) => members.extend(report::pair_members(report)),
        Err(failure) => {
            if let Ok((formula, proof)) = &row.line.names {
                members.push(("formula", Json::Object(path_members(formula))));
                members.push(("proof", Json::Object(path_members(proof))));
            }
            members.push(report::failure_member(failure));
        }
    }
    Json::Object(members)
}

#[cfg(test)]
mod tests {
    use super::*;

    fn names(text: &str) -> Vec<(u64, Option<(String, String)>)> {
        let text_of = |name: OsString| name.into_string().expect("the tests use plain names");
        let pair = |line: Line| (line.number, line.names.ok().map(|(f, p)| (text_of(f), text_of(p))));
        lines_of(text.as_bytes()).into_iter().map(pair).collect()
    }

    #[test]
    fn a_list_is_split_into_pairs() {
        let pair = |f: &str, p: &str| Some((f.to_string(), p.to_string()));
        assert_eq!(
            names("a b\n\n# no\n  c   d \r\ne f\tg h\nonly\nx y z\n"),
            vec![(1, pair("a", "b")), (4, pair("c", "d")), (5, pair("e f", "g h")), (6, None), (7, None),]
        );
        assert_eq!(names("\n \n"), vec![]);
    }
}
