//! The command line: commands, options, and the help.
//!
//! What is not as the help says is refused (status 64) and never guessed at.

use crate::status::Failure;
use crate::words;
use std::ffi::OsString;
use std::os::unix::ffi::OsStrExt;

pub const HELP: &str = "\
usage: proofscale check FORMULA PROOF    does the proof show that the formula has no solution?
       proofscale write FORMULA [OUT]    writes the formula as it was read
       proofscale batch LIST             checks many pairs, a line FORMULA PROOF for each

FORMULA is in the DIMACS format, PROOF in the text form of LRAT. `-` stands for standard input (one file at most).
`check` prints `answer A` or `answer A step N` and one sentence, and exits with the status A:
  0  verified: the formula has no solution     3  a step is refused
  1  the formula is unreadable                 4  the proof ends without the empty clause
  2  a step is unreadable                      5  the work store is too short
`write` exits with 0, 1 or 5; without OUT, or with `-`, the formula goes to standard output.
`batch` exits with 0 if all pairs are verified, else with 1. Paths are relative to the list's folder; empty lines and lines
that begin with # are passed over.
Other statuses: 64 wrong usage, 66 a file can't be opened, 74 reading or writing fails, 70 a fault of the tool.

options:
  --json        reports as JSON (`write` needs OUT then)
  --store SIZE  most memory for the work store, in bytes or with K, M or G; default and upper limit: what is free
  --jobs N      of batch: how many pairs at a time; they share the store's SIZE
  --quiet       no report and no progress, only the exit status (and what --json or `write` has to say)
  --help        this text
  --version     the versions of the tool and of the kit that proved the library, the library's SHA-256, and the commit

In the repository, the script ./proofscale has two commands more: prove (proves the library anew, and compares) and install PREFIX.
";

/// What is to be done.
#[derive(Debug, Clone, PartialEq, Eq)]
pub enum Command {
    Check { formula: OsString, proof: OsString },
    Write { formula: OsString, out: Option<OsString> },
    Batch { list: OsString },
    Help,
    Version,
}

impl Command {
    pub fn name(&self) -> &'static str {
        match self {
            Command::Check { .. } => "check",
            Command::Write { .. } => "write",
            Command::Batch { .. } => "batch",
            Command::Help => "help",
            Command::Version => "version",
        }
    }
}

/// How it is to be done.
#[derive(Debug, Clone, Default, PartialEq, Eq)]
pub struct Options {
    pub json: bool,
    pub quiet: bool,
    pub store: Option<u64>,
    pub jobs: Option<usize>,
}

/// What a word of the command line asks for on its own.
enum Word {
    Plain(OsString),
    Store(OsString),
    Jobs(OsString),
    Json,
    Quiet,
    Help,
    Version,
}

/// Reads the command line.
pub fn parse(args: Vec<OsString>) -> Result<(Command, Options), Failure> {
    let mut options = Options::default();
    let mut plain = Vec::new();
    let mut only = None;
    for word in words_of(args)? {
        match word {
            Word::Plain(name) => plain.push(name),
            Word::Store(size) => options.store = Some(size_of(&size)?),
            Word::Jobs(number) => options.jobs = Some(jobs_of(&number)?),
            Word::Json => options.json = true,
            Word::Quiet => options.quiet = true,
            Word::Help => only = only.or(Some(Command::Help)),
            Word::Version => only = only.or(Some(Command::Version)),
        }
    }
    if let Some(command) = only {
        return Ok((command, options));
    }
    let command = command_of(plain)?;
    fits(&command, &options)?;
    Ok((command, options))
}

/// The words, each with its value if it is an option that has one. Behind `--` all are plain.
fn words_of(args: Vec<OsString>) -> Result<Vec<Word>, Failure> {
    let mut found = Vec::new();
    let mut args = args.into_iter();
    while let Some(arg) = args.next() {
        let (name, value) = match arg.to_str().and_then(|text| text.split_once('=')) {
            Some((name, value)) if name.starts_with("--") => (OsString::from(name), Some(OsString::from(value))),
            _ => (arg.clone(), None),
        };
        let has_value = value.is_some();
        let mut value_of = |what: &str| {
            let value = value.clone().or_else(|| args.next());
            value.ok_or_else(|| Failure::usage(format!("{} has no value; expected {what}", words::path(&name))))
        };
        let word = match name.to_str() {
            Some("--store") => Word::Store(value_of("a size in bytes, or with K, M or G")?),
            Some("--jobs") => Word::Jobs(value_of("a number from 1 on")?),
            Some("--json") if !has_value => Word::Json,
            Some("--quiet") if !has_value => Word::Quiet,
            Some("--help" | "-h") if !has_value => Word::Help,
            Some("--version") if !has_value => Word::Version,
            Some("--") => {
                found.extend(args.map(Word::Plain));
                return Ok(found);
            }
            _ if arg.as_bytes().starts_with(b"-") && arg != "-" => {
                return Err(Failure::usage(format!("{} is no option; see proofscale --help", words::bytes(arg.as_bytes()))));
            }
            _ => Word::Plain(arg),
        };
        found.push(word);
    }
    Ok(found)
}

/// The command and its operands.
fn command_of(plain: Vec<OsString>) -> Result<Command, Failure> {
    let mut plain = plain.into_iter();
    let Some(name) = plain.next() else {
        return Err(Failure::usage("no command; expected check, write or batch, see proofscale --help"));
    };
    let operands: Vec<OsString> = plain.collect();
    let count = operands.len();
    let mut operands = operands.into_iter();
    let mut operand = || operands.next().unwrap_or_default();
    match (name.to_str(), count) {
        (Some("check"), 2) => Ok(Command::Check { formula: operand(), proof: operand() }),
        (Some("write"), 1) => Ok(Command::Write { formula: operand(), out: None }),
        (Some("write"), 2) => Ok(Command::Write { formula: operand(), out: Some(operand()) }),
        (Some("batch"), 1) => Ok(Command::Batch { list: operand() }),
        (Some("check"), n) => Err(operands_wrong("check", n, "two, FORMULA and PROOF")),
        (Some("write"), n) => Err(operands_wrong("write", n, "one or two, FORMULA and OUT")),
        (Some("batch"), n) => Err(operands_wrong("batch", n, "one, LIST")),
        _ => Err(Failure::usage(format!(
            "{} is no command; expected check, write or batch, see proofscale --help",
            words::bytes(name.as_bytes())
        ))),
    }
}

fn operands_wrong(command: &str, count: usize, expected: &str) -> Failure {
    let files = words::counted(count as u64, "file", "files");
    Failure::usage(format!("{command} was given {files}; expected {expected}"))
}

/// Refuses options and operands that make no sense together.
fn fits(command: &Command, options: &Options) -> Result<(), Failure> {
    match command {
        Command::Check { formula, proof } if formula == "-" && proof == "-" => {
            Err(Failure::usage("both files are standard input; expected `-` for one of them at most"))
        }
        Command::Write { out, .. } if options.json && out.as_ref().is_none_or(|name| name == "-") => {
            Err(Failure::usage("--json would mix with the formula on standard output; expected write FORMULA OUT"))
        }
        Command::Check { .. } | Command::Write { .. } if options.jobs.is_some() => {
            Err(Failure::usage(format!("--jobs is an option of batch; expected none with {}", command.name())))
        }
        _ => Ok(()),
    }
}

/// A size: digits, and K, M or G for 1024, its square or its cube.
fn size_of(text: &OsString) -> Result<u64, Failure> {
    let wrong = || {
        let text = words::bytes(text.as_bytes());
        Failure::usage(format!("--store {text} is no size; expected a number of bytes, or one with K, M or G"))
    };
    let text = text.to_str().ok_or_else(wrong)?;
    let (digits, unit) = match text.bytes().last() {
        Some(b'K' | b'k') => (&text[..text.len() - 1], 1 << 10),
        Some(b'M' | b'm') => (&text[..text.len() - 1], 1 << 20),
        Some(b'G' | b'g') => (&text[..text.len() - 1], 1 << 30),
        _ => (text, 1),
    };
    if digits.is_empty() || !digits.bytes().all(|b| b.is_ascii_digit()) {
        return Err(wrong());
    }
    digits.parse::<u64>().ok().and_then(|n| n.checked_mul(unit)).ok_or_else(wrong)
}

/// A number of jobs.
fn jobs_of(text: &OsString) -> Result<usize, Failure> {
    let number = text.to_str().filter(|t| t.bytes().all(|b| b.is_ascii_digit())).and_then(|t| t.parse().ok());
    number.filter(|n| (1..=4096).contains(n)).ok_or_else(|| {
        let text = words::bytes(text.as_bytes());
        Failure::usage(format!("--jobs {text} is no number of jobs; expected one from 1 to 4096"))
    })
}

#[cfg(test)]
mod tests {
    use super::*;

    fn parsed(line: &str) -> Result<(Command, Options), Failure> {
        parse(line.split(' ').filter(|w| !w.is_empty()).map(OsString::from).collect())
    }

    #[test]
    fn options_may_stand_anywhere() {
        let (command, options) = parsed("--json check f --store 2K p --quiet").expect("this is right");
        assert_eq!(command, Command::Check { formula: "f".into(), proof: "p".into() });
        assert_eq!(options, Options { json: true, quiet: true, store: Some(2048), jobs: None });
        assert!(parsed("batch l --jobs=3").is_ok_and(|(_, o)| o.jobs == Some(3)));
        assert!(parsed("check -- --json -").is_ok_and(|(c, o)| !o.json && c.name() == "check"));
    }

    #[test]
    fn sizes() {
        let size = |text: &str| size_of(&OsString::from(text)).ok();
        assert_eq!(size("0"), Some(0));
        assert_eq!(size("3m"), Some(3 << 20));
        assert_eq!(size("24G"), Some(24 << 30));
        for wrong in ["", "K", "1KB", "-1", "+1", "1.5G", "18446744073709551616", "99999999999G", "1 K"] {
            assert_eq!(size(wrong), None, "{wrong}");
        }
    }

    #[test]
    fn what_is_refused() {
        for wrong in [
            "",
            "frob",
            "check",
            "check a",
            "check a b c",
            "write",
            "write a b c",
            "batch",
            "batch a b",
            "check a b --frob",
            "check a b --jobs 2",
            "check - -",
            "write f --json",
            "write f - --json",
            "batch l --jobs 0",
            "batch l --jobs x",
            "batch l --jobs",
            "check a b --store",
            "check a b --json=1",
            "check a b -x",
        ] {
            assert_eq!(parsed(wrong).map_err(|f| f.status), Err(64), "{wrong}");
        }
    }
}
