//! What is told of a run: two lines in plain words, or JSON.
//!
//! The first line of a check is made for scripts and does not change; the sentence behind it is made for people and may.

use crate::check::{FileReport, Limit, Outcome, Reason, Report, Trouble};
use crate::json::{path_members, Json};
use crate::library::{self, Answer};
use crate::locate::{Fault, Place};
use crate::status::{self, Failure};
use crate::store::Sizes;
use crate::words;
use std::ffi::OsStr;

/// The version of the tool; the kit that proved the library; the library's SHA-256, and whether it is that of the repository's dist/
/// or one from PROOFSCALE_LIB; and the commit, if it was known when the tool was built.
pub const TOOL: &str = env!("CARGO_PKG_VERSION");
pub const KIT: &str = env!("PROOFSCALE_KIT");
pub const LIBRARY: &str = env!("PROOFSCALE_LIBRARY");
pub const ORIGIN: &str = env!("PROOFSCALE_ORIGIN");
pub const COMMIT: &str = env!("PROOFSCALE_COMMIT");

/// The versions, in words.
pub fn versions_text() -> String {
    let commit = if COMMIT.is_empty() { "unknown" } else { COMMIT };
    format!("proofscale {TOOL}, kit {KIT}\nlibrary {LIBRARY} from {ORIGIN}\ncommit {commit}\n")
}

/// A line that names a library which is not the repository's own; nothing if it is.
pub fn origin_line() -> String {
    if ORIGIN == "dist" {
        return String::new();
    }
    format!("The library is from {ORIGIN}, not the one that is handed out with the tool: SHA-256 {LIBRARY}.\n")
}

/// The line `answer A` or `answer A step N`.
pub fn first_line(answer: Answer) -> String {
    match answer.step_if_any() {
        Some(step) => format!("answer {} step {step}", answer.answer),
        None => format!("answer {}", answer.answer),
    }
}

/// The two lines of a check, and a third if the library is from elsewhere.
pub fn check_text(report: &Report) -> String {
    format!("{}\n{}\n{}", first_line(report.outcome.answer), sentence(report), origin_line())
}

/// The answer in one sentence.
pub fn sentence(report: &Report) -> String {
    let step = report.outcome.answer.step;
    match report.outcome.answer.answer {
        library::VERIFIED => {
            format!("Verified: the formula has no solution, since step {step} of the proof adds the empty clause.")
        }
        library::UNREADABLE_FORMULA => unreadable_formula(&report.formula.name, &report.outcome.trouble),
        library::UNREADABLE_STEP => {
            format!("Step {step} of the proof is unreadable{}.", in_step(&report.proof.name, &report.outcome.trouble))
        }
        library::REFUSED => format!(
            "Step {step} of the proof is refused, since the rules do not allow it{}.",
            in_step(&report.proof.name, &report.outcome.trouble)
        ),
        library::UNFINISHED => format!(
            "The proof {} ends behind {} and none adds the empty clause, so it shows nothing.",
            words::path(&report.proof.name),
            words::counted(step, "step", "steps")
        ),
        _ => too_short(&report.outcome),
    }
}

/// The sentence for a formula that can't be read.
pub fn unreadable_formula(name: &OsStr, trouble: &Trouble) -> String {
    match trouble {
        Trouble::InFormula { place, fault } => {
            format!("The formula is unreadable: {}, {place}: {}.", words::path(name), found_and_expected(fault))
        }
        _ => format!("The formula {} is unreadable.", words::path(name)),
    }
}

fn found_and_expected(fault: &Fault) -> String {
    format!("found {}, expected {}", fault.found, fault.expected)
}

/// Where a step begins, and where it went wrong.
fn in_step(name: &OsStr, trouble: &Trouble) -> String {
    let name = words::path(name);
    match trouble {
        Trouble::InStep { begins, fault: Some((place, fault)) } => {
            format!(": {name}, {place}: {}; the step begins at {begins}", found_and_expected(fault))
        }
        Trouble::InStep { begins, fault: None } => format!(": {name}, where it begins at {begins}"),
        _ => format!(": {name}"),
    }
}

/// The sentence for a store that is too short, with its sizes.
fn too_short(outcome: &Outcome) -> String {
    store_too_short(outcome.sizes, outcome.limit, outcome.enough)
}

/// The same, by the sizes, the limit and what would always do.
pub fn store_too_short(sizes: Sizes, limit: Limit, enough: Sizes) -> String {
    let parts: Vec<String> =
        sizes.parts().iter().filter(|p| p.length > 0).map(|p| format!("{} {}", p.name, p.bytes())).collect();
    let parts = if parts.is_empty() { String::new() } else { format!(" ({})", parts.join(", ")) };
    let limit = match limit.reason {
        Reason::Asked => format!("--store allows {}", limit.bytes),
        Reason::Free => format!("{} are free", limit.bytes),
        Reason::Unknown => "the system hands out no more".to_string(),
    };
    format!(
        "The work store is too short: {} bytes{parts} did not do and {limit}; {} always do for files of these sizes.",
        sizes.bytes(),
        always(enough)
    )
}

/// The bytes that always do. Those of the marks go by the greatest variable that occurs, which nobody has looked for, and the
/// guesses are not needed.
fn always(enough: Sizes) -> String {
    let rest = Sizes { marks: 0, guess: 0, ..enough }.bytes();
    if enough.marks == 0 {
        return rest.to_string();
    }
    format!("{} and 2 for each variable up to the greatest that occurs", rest + 2)
}

/// The versions, as JSON.
fn versions() -> Json {
    let commit = if COMMIT.is_empty() { Json::Null } else { Json::text(COMMIT) };
    Json::Object(vec![
        ("tool", Json::text(TOOL)),
        ("kit", Json::text(KIT)),
        ("library_sha256", Json::text(LIBRARY)),
        ("library_from", Json::text(ORIGIN)),
        ("commit", commit),
    ])
}

/// A report of a command: what it is, then its members, then the versions.
pub fn command_json(command: &'static str, members: Vec<(&'static str, Json)>) -> Json {
    let mut all = vec![("command", Json::text(command))];
    all.extend(members);
    all.push(("versions", versions()));
    Json::Object(all)
}

/// The report of a check.
pub fn check_json(report: &Report) -> Json {
    let mut members = pair_members(report);
    members.push(("peak_bytes", Json::number(crate::memory::peak())));
    command_json("check", members)
}

/// What is told of a pair.
pub fn pair_members(report: &Report) -> Vec<(&'static str, Json)> {
    let outcome = &report.outcome;
    vec![
        ("answer", Json::Number(u64::from(outcome.answer.answer))),
        ("step", Json::number(outcome.answer.step_if_any())),
        ("meaning", Json::text(status::words(outcome.answer.answer))),
        ("sentence", Json::text(sentence(report))),
        ("formula", file_json(&report.formula)),
        ("proof", file_json(&report.proof)),
        ("turns", Json::Number(outcome.answer.turns)),
        ("seconds", Json::Seconds(outcome.seconds)),
        ("runs", Json::Number(outcome.runs)),
        ("store", store_json(outcome.sizes)),
        ("place", place_json(&outcome.trouble)),
    ]
}

/// A file with its size and its sum.
pub fn file_json(file: &FileReport) -> Json {
    let mut members = path_members(&file.name);
    members.push(("bytes", Json::Number(file.bytes)));
    members.push(("sha256", file.sha256.clone().map_or(Json::Null, Json::Text)));
    Json::Object(members)
}

/// The store that was used, in bytes: all of it, and each part.
pub fn store_json(sizes: Sizes) -> Json {
    let mut members = vec![("bytes", Json::Number(sizes.bytes()))];
    members.extend(sizes.parts().iter().map(|part| (part.name, Json::Number(part.bytes()))));
    Json::Object(members)
}

/// The place of a fault, or null.
pub fn place_json(trouble: &Trouble) -> Json {
    match trouble {
        Trouble::None => Json::Null,
        Trouble::InFormula { place, fault } => {
            let mut members = vec![("file", Json::text("formula"))];
            members.extend(fault_members(place, fault));
            Json::Object(members)
        }
        Trouble::InStep { begins, fault } => {
            let mut members = vec![("file", Json::text("proof")), ("step_begins", Json::Object(members_of(begins)))];
            if let Some((place, fault)) = fault {
                members.extend(fault_members(place, fault));
            }
            Json::Object(members)
        }
    }
}

fn members_of(place: &Place) -> Vec<(&'static str, Json)> {
    vec![
        ("line", Json::Number(place.line as u64)),
        ("column", Json::Number(place.column as u64)),
        ("byte", Json::Number(place.byte as u64)),
    ]
}

fn fault_members(place: &Place, fault: &Fault) -> Vec<(&'static str, Json)> {
    let mut members = members_of(place);
    members.push(("found", Json::text(fault.found.as_str())));
    members.push(("expected", Json::text(fault.expected.as_str())));
    members
}

/// A failure, as a member of a report.
pub fn failure_member(failure: &Failure) -> (&'static str, Json) {
    let members = vec![("status", Json::Number(u64::from(failure.status))), ("message", Json::text(failure.message.as_str()))];
    ("error", Json::Object(members))
}
