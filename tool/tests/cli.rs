//! The real program, run as a user runs it: answers and exit statuses, usage errors, files that can't be had, standard input,
//! closed pipes, full disks, JSON, lists, small stores.
//!
//! Which answer is right for a pair is decided by document 01; its vectors are used here, but the answers as such are tested
//! elsewhere. Every test has a folder of its own, which is removed at the end.

use std::collections::BTreeMap;
use std::ffi::{OsStr, OsString};
use std::fs;
use std::io::{Read, Write};
use std::os::unix::ffi::OsStringExt;
use std::os::unix::fs::{symlink, PermissionsExt};
use std::path::{Path, PathBuf};
use std::process::{Command, Output, Stdio};
use std::sync::atomic::{AtomicUsize, Ordering};

/// Formula R of document 01, section 6, and proofs of it.
const R: &str = "p cnf 4 8\n1 2 -3 0\n-1 -2 3 0\n2 3 -4 0\n-2 -3 4 0\n-1 -3 -4 0\n1 3 4 0\n-1 2 4 0\n1 -2 -4 0\n";
const GOOD: &str = "9 1 2 0 1 3 6 0\n10 1 0 9 8 4 6 0\n11 2 0 9 7 3 5 0\n12 0 10 11 2 4 5 0\n";
const REFUSED: &str = "9 1 2 0 1 3 6 0\n10 1 0 9 99 4 6 0\n";
const UNREADABLE: &str = "9 1 2 0 1 3 6 0\n10 1 0 9 8 x 6 0\n";
const UNFINISHED: &str = "9 1 2 0 1 3 6 0\n";

/// A folder that goes away with the test.
struct Folder {
    path: PathBuf,
}

impl Folder {
    fn new() -> Folder {
        static COUNT: AtomicUsize = AtomicUsize::new(0);
        let name = format!("proofscale-cli-{}-{}", std::process::id(), COUNT.fetch_add(1, Ordering::Relaxed));
        let path = std::env::temp_dir().join(name);
        fs::create_dir(&path).expect("the tests need a folder for their files");
        let folder = Folder { path };
        folder.file("r.cnf", R);
        folder.file("good.lrat", GOOD);
        folder.file("refused.lrat", REFUSED);
        folder.file("unreadable.lrat", UNREADABLE);
        folder.file("unfinished.lrat", UNFINISHED);
        folder
    }

    fn file(&self, name: impl AsRef<OsStr>, text: impl AsRef<[u8]>) -> PathBuf {
        let path = self.path.join(Path::new(name.as_ref()));
        fs::write(&path, text).expect("the tests' folder can be written to");
        path
    }

    fn names(&self) -> Vec<OsString> {
        let entries = fs::read_dir(&self.path).expect("the tests' folder can be read");
        let mut names: Vec<OsString> = entries.map(|e| e.expect("an entry can be read").file_name()).collect();
        names.sort();
        names
    }

    fn command(&self, words: &[&str]) -> Command {
        let mut command = Command::new(env!("CARGO_BIN_EXE_proofscale"));
        command.args(words).current_dir(&self.path).stdin(Stdio::null());
        command
    }

    fn run(&self, words: &[&str]) -> Ran {
        Ran::of(self.command(words).output().expect("the program can be run"))
    }

    fn run_with(&self, words: &[&str], input: &[u8]) -> Ran {
        let mut command = self.command(words);
        let mut child = command
            .stdin(Stdio::piped())
            .stdout(Stdio::piped())
            .stderr(Stdio::piped())
            .spawn()
            .expect("the program can be run");
        // A program that ends without reading all is judged by what it prints, not here.
        let _ = child.stdin.take().expect("the pipe was asked for").write_all(input);
        Ran::of(child.wait_with_output().expect("the program ends"))
    }
}

impl Drop for Folder {
    fn drop(&mut self) {
        let _ = fs::remove_dir_all(&self.path);
    }
}

/// What a run came to.
#[derive(Debug)]
struct Ran {
    status: i32,
    out: String,
    err: String,
}

impl Ran {
    fn of(output: Output) -> Ran {
        Ran {
            status: output.status.code().expect("the program ends by itself and not by a signal"),
            out: String::from_utf8(output.stdout).expect("what is printed is UTF-8"),
            err: String::from_utf8(output.stderr).expect("what is printed is UTF-8"),
        }
    }

    fn first(&self) -> &str {
        self.out.lines().next().unwrap_or_default()
    }

    /// An answer: two lines on standard output, nothing on standard error, and the status of the first line.
    fn answers(&self, line: &str) -> &Ran {
        assert_eq!(self.first(), line, "{self:?}");
        assert_eq!(self.out.lines().count(), 2, "{self:?}");
        assert!(self.out.ends_with(".\n"), "{self:?}");
        assert_eq!(self.err, "", "{self:?}");
        assert_eq!(format!("{}", self.status), line.split(' ').nth(1).unwrap_or_default(), "{self:?}");
        self
    }

    /// A failure: nothing on standard output, and a message that holds all of the words.
    fn fails(&self, status: i32, words: &[&str]) -> &Ran {
        assert_eq!(self.status, status, "{self:?}");
        assert_eq!(self.out, "", "{self:?}");
        assert!(self.err.starts_with("proofscale: "), "{self:?}");
        self.mentions(words)
    }

    fn mentions(&self, words: &[&str]) -> &Ran {
        for word in words {
            assert!(self.out.contains(word) || self.err.contains(word), "no word of {word}: {self:?}");
        }
        self
    }
}

/// A JSON value, as the small parser below reads it.
#[derive(Debug, Clone, PartialEq)]
enum Json {
    Null,
    Bool(bool),
    Number(f64),
    Text(String),
    Array(Vec<Json>),
    Object(BTreeMap<String, Json>),
}

impl Json {
    fn of(text: &str) -> Json {
        let mut parser = Parser { rest: text };
        let value = parser.value();
        parser.blanks();
        assert_eq!(parser.rest, "", "there is something behind the value");
        value
    }

    /// The member at the end of a path `a.b.0.c`.
    fn at(&self, path: &str) -> &Json {
        path.split('.').fold(self, |value, name| match value {
            Json::Object(members) => members.get(name).unwrap_or_else(|| panic!("no member {name} of {path}: {value:?}")),
            Json::Array(values) => &values[name.parse::<usize>().expect("a place in an array is a number")],
            _ => panic!("{name} of {path} is asked of {value:?}"),
        })
    }

    fn number(&self, path: &str) -> f64 {
        match self.at(path) {
            Json::Number(n) => *n,
            other => panic!("{path} is {other:?}"),
        }
    }

    fn text(&self, path: &str) -> &str {
        match self.at(path) {
            Json::Text(text) => text,
            other => panic!("{path} is {other:?}"),
        }
    }
}

/// A parser by RFC 8259 that accepts nothing else, and no member twice.
struct Parser<'a> {
    rest: &'a str,
}

impl Parser<'_> {
    fn blanks(&mut self) {
        self.rest = self.rest.trim_start_matches([' ', '\t', '\r', '\n']);
    }

    fn next(&mut self) -> char {
        let c = self.rest.chars().next().expect("the text ends inside a value");
        self.rest = &self.rest[c.len_utf8()..];
        c
    }

    fn takes(&mut self, word: &str) -> bool {
        self.blanks();
        match self.rest.strip_prefix(word) {
            Some(rest) => {
                self.rest = rest;
                true
            }
            None => false,
        }
    }

    fn expect(&mut self, word: &str) {
        assert!(self.takes(word), "expected {word} at {}", self.rest);
    }

    fn value(&mut self) -> Json {
        if self.takes("null") {
            return Json::Null;
        }
        if self.takes("true") {
            return Json::Bool(true);
        }
        if self.takes("false") {
            return Json::Bool(false);
        }
        if self.takes("[") {
            return self.array();
        }
        if self.takes("{") {
            return self.object();
        }
        if self.takes("\"") {
            return Json::Text(self.string());
        }
        self.number()
    }

    fn array(&mut self) -> Json {
        let mut values = Vec::new();
        if self.takes("]") {
            return Json::Array(values);
        }
        loop {
            values.push(self.value());
            if self.takes("]") {
                return Json::Array(values);
            }
            self.expect(",");
        }
    }

    fn object(&mut self) -> Json {
        let mut members = BTreeMap::new();
        if self.takes("}") {
            return Json::Object(members);
        }
        loop {
            self.expect("\"");
            let name = self.string();
            self.expect(":");
            let value = self.value();
            assert!(members.insert(name.clone(), value).is_none(), "the member {name} stands there twice");
            if self.takes("}") {
                return Json::Object(members);
            }
            self.expect(",");
        }
    }

    /// A string, behind its first quote.
    fn string(&mut self) -> String {
        let mut text = String::new();
        loop {
            match self.next() {
                '"' => return text,
                '\\' => text.push(self.escaped()),
                c => {
                    assert!(c >= ' ', "a control character stands in a string");
                    text.push(c);
                }
            }
        }
    }

    fn escaped(&mut self) -> char {
        match self.next() {
            'n' => '\n',
            'r' => '\r',
            't' => '\t',
            'b' => '\u{8}',
            'f' => '\u{c}',
            c @ ('"' | '\\' | '/') => c,
            'u' => {
                let hex: String = (0..4).map(|_| self.next()).collect();
                let code = u32::from_str_radix(&hex, 16).expect("an escape has four hexadecimal digits");
                char::from_u32(code).expect("an escape is no half of a pair")
            }
            c => panic!("\\{c} is no escape"),
        }
    }

    fn number(&mut self) -> Json {
        let end = self.rest.find(|c: char| !"+-.eE0123456789".contains(c)).unwrap_or(self.rest.len());
        let (number, rest) = self.rest.split_at(end);
        self.rest = rest;
        assert!(number.len() == 1 || !number.starts_with('0') || number.starts_with("0."), "{number} has a leading zero");
        Json::Number(number.parse().unwrap_or_else(|_| panic!("{number:?} is no number")))
    }
}

// The answers

#[test]
fn every_answer_is_the_exit_status() {
    let folder = Folder::new();
    folder.file("bad.cnf", "p cnf 1 1\n1 2 0\n");
    folder.run(&["check", "r.cnf", "good.lrat"]).answers("answer 0 step 4").mentions(&["no solution", "step 4"]);
    folder.run(&["check", "bad.cnf", "good.lrat"]).answers("answer 1").mentions(&[
        "bad.cnf",
        "line 2, column 3 (byte 12)",
        "`2`",
        "up to 1",
    ]);
    folder.run(&["check", "r.cnf", "unreadable.lrat"]).answers("answer 2 step 2").mentions(&[
        "unreadable.lrat",
        "line 2, column 12 (byte 27)",
        "`x`",
        "a hint",
        "begins at line 2, column 1 (byte 16)",
    ]);
    folder
        .run(&["check", "r.cnf", "refused.lrat"])
        .answers("answer 3 step 2")
        .mentions(&["refused.lrat", "line 2, column 1 (byte 16)"]);
    folder.run(&["check", "r.cnf", "unfinished.lrat"]).answers("answer 4 step 1").mentions(&["behind 1 step "]);
    folder.run(&["check", "r.cnf", "good.lrat", "--store", "64"]).answers("answer 5").mentions(&["--store allows 64", "heads"]);
}

#[test]
fn empty_files_have_answers() {
    let folder = Folder::new();
    folder.file("empty", "");
    folder.file("nothing.cnf", "p cnf 0 0");
    folder.run(&["check", "empty", "empty"]).answers("answer 1").mentions(&["line 1, column 1 (byte 0)", "p cnf V C"]);
    folder.run(&["check", "r.cnf", "empty"]).answers("answer 4 step 0");
    folder.run(&["check", "nothing.cnf", "empty"]).answers("answer 4 step 0");
    folder.file("void.cnf", "p cnf 0 1\n0\n");
    folder.file("void.lrat", "2 0 1 0");
    folder.run(&["check", "void.cnf", "void.lrat"]).answers("answer 0 step 1");
}

#[test]
fn the_place_in_a_formula_is_told() {
    let folder = Folder::new();
    for (text, words) in [
        ("p cnf 2 1\n1 2", ["line 2, column 4 (byte 13)", "found the end of the file", "clause 1 of 1"]),
        ("p cnf 2 1\n1 2 0\n%\n0\n", ["line 3, column 1 (byte 16)", "found `%`", "behind the 1 clause"]),
        ("c x\np cnf  2 1\n1 0\n", ["line 2, column 7 (byte 10)", "found ` `", "number of variables"]),
        ("p cnf 2 1\r\n1 0\r\n", ["line 1, column 10 (byte 9)", "found `\\x0d`", "end of the line"]),
        ("p cnf 2 2\n1 0\nc no\n2 0\n", ["line 3, column 1 (byte 14)", "found `c`", "clause 2 of 2"]),
        ("c never ends", ["line 1, column 13 (byte 12)", "found the end of the line", "p cnf V C"]),
    ] {
        folder.file("f.cnf", text);
        folder.run(&["check", "f.cnf", "good.lrat"]).answers("answer 1").mentions(&words).mentions(&["f.cnf"]);
    }
}

#[test]
fn a_proof_that_ends_inside_a_step_is_told_so() {
    let folder = Folder::new();
    folder.file("cut.lrat", "9 1 2 0 1 3 6");
    folder
        .run(&["check", "r.cnf", "cut.lrat"])
        .answers("answer 2 step 1")
        .mentions(&["(byte 13)", "found the end of the file"]);
    folder.file("d.lrat", "9 d 1 0\n9 d -2 0\n");
    folder
        .run(&["check", "r.cnf", "d.lrat"])
        .answers("answer 2 step 2")
        .mentions(&["line 2, column 5 (byte 12)", "id of a clause to delete"]);
}

// Usage

#[test]
fn wrong_usage_is_64() {
    let folder = Folder::new();
    for words in [
        &[][..],
        &["frobnicate"],
        &["check"],
        &["check", "r.cnf"],
        &["check", "r.cnf", "good.lrat", "more"],
        &["check", "r.cnf", "good.lrat", "--frob"],
        &["check", "-", "-"],
        &["check", "r.cnf", "good.lrat", "--store", "much"],
        &["check", "r.cnf", "good.lrat", "--store"],
        &["check", "r.cnf", "good.lrat", "--jobs", "2"],
        &["write"],
        &["write", "r.cnf", "--json"],
        &["batch"],
        &["batch", "list", "--jobs", "0"],
    ] {
        folder.run(words).fails(64, &[]);
    }
}

/// The SHA-256 of the library that is handed out, which the tool has to be linked with.
fn library_sum() -> String {
    let archive = concat!(env!("CARGO_MANIFEST_DIR"), "/../dist/libproofscale.a");
    let output = std::process::Command::new("sha256sum").arg(archive).output().expect("sha256sum runs");
    String::from_utf8_lossy(&output.stdout)[..64].to_string()
}

#[test]
fn help_and_version_are_for_standard_output() {
    let folder = Folder::new();
    let help = folder.run(&["--help"]);
    assert_eq!((help.status, help.err.as_str()), (0, ""));
    help.mentions(&["check FORMULA PROOF", "--store", "--json", "--jobs", "--quiet", "64", "66", "74", "70"]);
    let version = folder.run(&["--version"]);
    assert_eq!(version.status, 0);
    assert!(version.out.starts_with(concat!("proofscale ", env!("CARGO_PKG_VERSION"), ", kit rattle-kit-")), "{version:?}");
    version.mentions(&[&format!("library {} from dist", library_sum()), "commit "]);
    assert_eq!(folder.run(&["check", "--help"]).status, 0);
}

#[test]
fn quiet_says_all_by_the_status() {
    let folder = Folder::new();
    for (proof, status) in [("good.lrat", 0), ("unreadable.lrat", 2), ("refused.lrat", 3), ("unfinished.lrat", 4)] {
        let ran = folder.run(&["check", "--quiet", "r.cnf", proof]);
        assert_eq!((ran.status, ran.out.as_str(), ran.err.as_str()), (status, "", ""));
    }
    folder.run(&["check", "--quiet", "r.cnf", "missing"]).fails(66, &["missing"]);
}

#[test]
fn a_name_that_looks_like_an_option_goes_behind_two_dashes() {
    let folder = Folder::new();
    folder.file("--json", GOOD);
    folder.run(&["check", "--", "r.cnf", "--json"]).answers("answer 0 step 4");
}

// Files that can't be had

#[test]
fn a_file_that_cannot_be_opened_is_66() {
    let folder = Folder::new();
    folder.run(&["check", "missing.cnf", "good.lrat"]).fails(66, &["missing.cnf", "expected a file"]);
    folder.run(&["check", "r.cnf", "missing.lrat"]).fails(66, &["missing.lrat"]);
    folder.run(&["check", "r.cnf", "r.cnf/below"]).fails(66, &["r.cnf/below"]);
    folder.run(&["check", "r.cnf", ""]).fails(66, &["empty name"]);
    folder.run(&["check", "r.cnf", &"x".repeat(300)]).fails(66, &["xxx"]);
    symlink("loop", folder.path.join("loop")).expect("a link can be made");
    folder.run(&["check", "loop", "good.lrat"]).fails(66, &["loop"]);
    folder.run(&["write", "missing.cnf"]).fails(66, &["missing.cnf"]);
    folder.run(&["batch", "missing.list"]).fails(66, &["missing.list"]);
}

#[test]
fn a_file_without_permission_is_66() {
    let folder = Folder::new();
    let path = folder.file("secret.cnf", R);
    fs::set_permissions(&path, fs::Permissions::from_mode(0o000)).expect("the mode can be set");
    let ran = folder.run(&["check", "secret.cnf", "good.lrat"]);
    // Root may read all the same; the other reasons for 66 above hold for root, too.
    if fs::File::open(&path).is_ok() {
        ran.answers("answer 0 step 4");
    } else {
        ran.fails(66, &["secret.cnf"]);
    }
}

#[test]
fn a_directory_is_74() {
    let folder = Folder::new();
    folder.run(&["check", ".", "good.lrat"]).fails(74, &["directory", "expected a file"]);
    folder.run(&["check", "r.cnf", "/"]).fails(74, &["/", "directory"]);
    folder.run(&["write", "."]).fails(74, &["directory"]);
    folder.run(&["batch", "."]).fails(74, &["directory"]);
}

#[test]
fn reading_that_fails_is_74() {
    // The memory of a process can be opened, but nothing lies at its place 0.
    Folder::new().run(&["check", "/proc/self/mem", "/dev/null"]).fails(74, &["/proc/self/mem", "behind byte 0"]);
}

// Standard input and output

#[test]
fn a_dash_is_standard_input() {
    let folder = Folder::new();
    folder.run_with(&["check", "r.cnf", "-"], GOOD.as_bytes()).answers("answer 0 step 4");
    folder.run_with(&["check", "-", "good.lrat"], R.as_bytes()).answers("answer 0 step 4");
    folder.run_with(&["check", "-", "good.lrat"], b"p cnf").answers("answer 1").mentions(&["standard input"]);
    let written = folder.run_with(&["write", "-"], b"c x\np cnf 2 1\n 1\n-2  0");
    assert_eq!((written.status, written.out.as_str()), (0, "p cnf 2 1\n1 -2 0\n"));
    folder.run(&["check", "r.cnf", "-"]).answers("answer 4 step 0");
}

#[test]
fn many_bytes_come_through_a_pipe() {
    let folder = Folder::new();
    let mut proof = "9 d 0\n".repeat(200_000);
    proof.push_str(GOOD);
    folder.run_with(&["check", "r.cnf", "-"], proof.as_bytes()).answers("answer 0 step 200004");
}

/// Runs with a standard output that nobody reads.
fn with_closed_pipe(folder: &Folder, words: &[&str]) -> Ran {
    let (reader, writer) = std::io::pipe().expect("a pipe can be had");
    drop(reader);
    let mut child = folder.command(words).stdout(writer).stderr(Stdio::piped()).spawn().expect("the program can be run");
    let mut err = String::new();
    child.stderr.take().expect("the pipe was asked for").read_to_string(&mut err).expect("messages are UTF-8");
    let status = child.wait().expect("the program ends").code().expect("the program ends by itself and not by a signal");
    Ran { status, out: String::new(), err }
}

#[test]
fn a_closed_pipe_is_no_crash() {
    let folder = Folder::new();
    folder.file("list", "r.cnf good.lrat\nr.cnf refused.lrat\n");
    folder.file("good.list", "r.cnf good.lrat\n");
    for (words, status) in [
        (&["check", "r.cnf", "good.lrat"][..], 0),
        (&["check", "r.cnf", "refused.lrat"], 3),
        (&["check", "r.cnf", "good.lrat", "--json"], 0),
        (&["batch", "list"], 1),
        (&["batch", "good.list"], 0),
        (&["write", "r.cnf"], 74),
        (&["--help"], 0),
    ] {
        let ran = with_closed_pipe(&folder, words);
        assert_eq!((ran.status, ran.err.as_str()), (status, ""), "{words:?}");
    }
}

#[test]
fn a_full_disk_is_74() {
    let folder = Folder::new();
    folder.file("list", "r.cnf good.lrat\n");
    for words in [
        &["check", "r.cnf", "good.lrat"][..],
        &["check", "r.cnf", "good.lrat", "--json"],
        &["write", "r.cnf"],
        &["batch", "list"],
        &["batch", "list", "--json"],
        &["--help"],
    ] {
        let full = fs::OpenOptions::new().write(true).open("/dev/full").expect("the system has /dev/full");
        let output = folder.command(words).stdout(full).output().expect("the program can be run");
        Ran::of(output).fails(74, &["standard output", "No space left"]);
    }
    folder.run(&["write", "r.cnf", "/dev/full"]).fails(74, &["/dev/full", "No space left"]);
    let kind = fs::metadata("/dev/full").expect("/dev/full is still there").file_type();
    assert!(!kind.is_file(), "a device must not be replaced by a file");
}

// Writing

#[test]
fn a_formula_is_written_as_it_was_read() {
    let folder = Folder::new();
    folder.file("f.cnf", "c comment\np cnf 3 4\n 1  2\t0\n-3 0 0\n\n3 3 -3 0  \n");
    let canonical = "p cnf 3 4\n1 2 0\n-3 0\n0\n3 3 -3 0\n";
    let ran = folder.run(&["write", "f.cnf"]);
    assert_eq!((ran.status, ran.out.as_str(), ran.err.as_str()), (0, canonical, ""));
    assert_eq!(folder.run(&["write", "f.cnf", "-"]).out, canonical);
    let ran = folder.run(&["write", "f.cnf", "out.cnf"]);
    assert_eq!(ran.status, 0);
    ran.mentions(&["out.cnf", "32 bytes"]);
    assert_eq!(fs::read_to_string(folder.path.join("out.cnf")).expect("it was written"), canonical);
    // What is canonical stays as it is, also in place.
    assert_eq!(folder.run(&["write", "out.cnf", "out.cnf", "--quiet"]).out, "");
    assert_eq!(fs::read_to_string(folder.path.join("out.cnf")).expect("it was written"), canonical);
    folder.file("bare.cnf", "p cnf 0 0");
    assert_eq!(folder.run(&["write", "bare.cnf"]).out, "p cnf 0 0\n");
}

#[test]
fn out_is_left_alone_where_nothing_can_be_written() {
    let folder = Folder::new();
    folder.file("bad.cnf", "p cnf 1 1\n2 0\n");
    folder.file("out.cnf", "as it was");
    let before = folder.names();
    folder.run(&["write", "bad.cnf", "out.cnf"]).fails(1, &["bad.cnf", "line 2, column 1 (byte 10)", "`2`"]);
    folder.run(&["write", "r.cnf", "out.cnf", "--store", "50"]).fails(5, &["too short", "--store allows 50"]);
    folder.run(&["write", "bad.cnf"]).fails(1, &["unreadable"]);
    folder.run(&["write", "r.cnf", "."]).fails(66, &["directory"]);
    folder.run(&["write", "r.cnf", "none/out.cnf"]).fails(66, &["none/out.cnf"]);
    folder.run(&["write", "r.cnf", "none/"]).fails(66, &["directory"]);
    folder.run(&["write", "r.cnf", ""]).fails(66, &["empty name"]);
    symlink("nowhere", folder.path.join("dangling")).expect("a link can be made");
    folder.run(&["write", "r.cnf", "dangling"]).fails(66, &["symbolic link"]);
    fs::remove_file(folder.path.join("dangling")).expect("the link can be removed");
    assert_eq!(fs::read_to_string(folder.path.join("out.cnf")).expect("it is there"), "as it was");
    assert_eq!(folder.names(), before, "nothing is left behind");
}

#[test]
fn out_keeps_its_mode_and_a_link_its_target() {
    let folder = Folder::new();
    let real = folder.file("real.cnf", "before");
    fs::set_permissions(&real, fs::Permissions::from_mode(0o640)).expect("the mode can be set");
    symlink("real.cnf", folder.path.join("link.cnf")).expect("a link can be made");
    assert_eq!(folder.run(&["write", "r.cnf", "link.cnf"]).status, 0);
    assert_eq!(fs::read_to_string(&real).expect("it was written"), R);
    assert_eq!(fs::metadata(&real).expect("it is there").permissions().mode() & 0o777, 0o640);
    let link = fs::symlink_metadata(folder.path.join("link.cnf")).expect("it is there");
    assert!(link.file_type().is_symlink());
}

#[test]
fn a_limit_of_file_sizes_leaves_out_as_it_was() {
    // A disk that gets full while OUT is written, by the shell's limit: the signal for it is ignored, so that writing fails.
    let folder = Folder::new();
    let clause = "1 -2 3 -4 0\n".repeat(20_000);
    folder.file("large.cnf", format!("p cnf 4 20000\n{clause}"));
    folder.file("out.cnf", "as it was");
    let before = folder.names();
    let script = "trap '' XFSZ; ulimit -f 8; exec \"$0\" write large.cnf out.cnf";
    let output = Command::new("sh").args(["-c", script, env!("CARGO_BIN_EXE_proofscale")]).current_dir(&folder.path).output();
    Ran::of(output.expect("the shell can be run")).fails(74, &["out.cnf", "as it was before"]);
    assert_eq!(fs::read_to_string(folder.path.join("out.cnf")).expect("it is there"), "as it was");
    assert_eq!(folder.names(), before, "nothing is left behind");
}

// JSON

#[test]
fn json_of_a_check() {
    let folder = Folder::new();
    let ran = folder.run(&["check", "--json", "r.cnf", "good.lrat"]);
    assert_eq!((ran.status, ran.err.as_str()), (0, ""));
    let json = Json::of(&ran.out);
    assert_eq!(json.text("command"), "check");
    assert_eq!((json.number("answer"), json.number("step")), (0.0, 4.0));
    assert_eq!(json.text("formula.path"), "r.cnf");
    assert_eq!(json.number("formula.bytes"), R.len() as f64);
    assert_eq!(json.text("formula.sha256"), "54bf7f0f0d4c31d53b1922d3d3e8b34c55e0594915e5ab0df4669e56453f8cf4");
    assert_eq!(json.text("proof.sha256"), "8140aa9c368106f7011f9c6f29db52e3147dd0ae335311f4db9367a6a1db5dae");
    assert!(json.number("turns") > 0.0 && json.number("seconds") >= 0.0 && json.number("runs") >= 1.0);
    assert!(json.number("store.bytes") > 0.0 && json.number("store.heads") > 0.0);
    assert_eq!(json.text("versions.tool"), env!("CARGO_PKG_VERSION"));
    assert!(json.text("versions.kit").starts_with("rattle-kit-"));
    assert_eq!((json.text("versions.library_sha256"), json.text("versions.library_from")), (library_sum().as_str(), "dist"));
    assert_eq!(json.at("place"), &Json::Null);
}

#[test]
fn json_has_places_and_failures() {
    let folder = Folder::new();
    let json = Json::of(&folder.run(&["check", "--json", "r.cnf", "unreadable.lrat"]).out);
    assert_eq!((json.number("answer"), json.number("step")), (2.0, 2.0));
    assert_eq!((json.number("place.line"), json.number("place.column"), json.number("place.byte")), (2.0, 12.0, 27.0));
    assert_eq!((json.text("place.found"), json.number("place.step_begins.byte")), ("`x`", 16.0));
    let json = Json::of(&folder.run(&["check", "--json", "good.lrat", "good.lrat"]).out);
    assert_eq!((json.number("answer"), json.at("step")), (1.0, &Json::Null));
    assert_eq!((json.text("place.file"), json.number("place.byte")), ("formula", 0.0));
    let ran = folder.run(&["check", "--json", "missing", "good.lrat"]);
    assert_eq!(ran.status, 66);
    let json = Json::of(&ran.out);
    assert_eq!(json.number("error.status"), 66.0);
    assert!(json.text("error.message").contains("missing"));
    let json = Json::of(&folder.run(&["check", "--json", "--store", "0", "r.cnf", "good.lrat"]).out);
    assert_eq!((json.number("answer"), json.number("store.bytes")), (5.0, 0.0));
}

#[test]
fn json_of_a_write() {
    let folder = Folder::new();
    let ran = folder.run(&["write", "--json", "r.cnf", "out.cnf"]);
    assert_eq!(ran.status, 0);
    let json = Json::of(&ran.out);
    assert_eq!((json.text("command"), json.text("out.path")), ("write", "out.cnf"));
    assert_eq!(json.text("out.sha256"), json.text("formula.sha256"));
    let ran = folder.run(&["write", "--json", "good.lrat", "out.cnf"]);
    assert_eq!(ran.status, 1);
    assert_eq!(Json::of(&ran.out).number("answer"), 1.0);
}

#[test]
fn names_of_any_bytes_are_told_rightly() {
    let folder = Folder::new();
    let odd: [&[u8]; 5] =
        [b"sp ace.lrat", b"quo\"te\\.lrat", b"line\nfeed\x1b[1m", "\u{e4}\u{2028}\u{1f600}".as_bytes(), b"\xff\xfe.lrat"];
    for name in odd {
        let name = OsString::from_vec(name.to_vec());
        folder.file(&name, REFUSED);
        let mut command = folder.command(&["check", "--json", "r.cnf"]);
        let ran = Ran::of(command.arg(&name).output().expect("the program can be run"));
        assert_eq!(ran.status, 3, "{ran:?}");
        assert_eq!(ran.out.lines().count(), 1, "{ran:?}");
        let json = Json::of(&ran.out);
        assert_eq!(json.text("proof.path"), name.to_string_lossy());
        match name.to_str() {
            Some(_) => assert!(!ran.out.contains("path_hex")),
            None => assert_eq!(json.text("proof.path_hex"), "fffe2e6c726174"),
        }
        let mut command = folder.command(&["check", "r.cnf"]);
        let ran = Ran::of(command.arg(&name).output().expect("the program can be run"));
        ran.answers("answer 3 step 2");
        assert!(!ran.out.contains('\u{1b}'), "{ran:?}");
    }
}

// Lists

#[test]
fn a_batch_goes_on_behind_bad_pairs() {
    let folder = Folder::new();
    fs::create_dir(folder.path.join("sub")).expect("a folder can be made");
    folder.file("sub/in.cnf", R);
    folder.file("sub/in put.lrat", GOOD);
    let lines = [
        "# a comment, then an empty line",
        "",
        "in.cnf\tin put.lrat",
        "../r.cnf ../good.lrat",
        "../r.cnf ../missing.lrat",
        "../r.cnf",
        "../r.cnf ../refused.lrat",
        "../r.cnf .",
        "../good.lrat ../good.lrat",
        "../r.cnf ../unreadable.lrat",
        "../r.cnf ../unfinished.lrat",
        "../r.cnf ../good.lrat ",
    ];
    folder.file("sub/list", lines.join("\n"));
    for jobs in ["1", "2", "7"] {
        let ran = folder.run(&["batch", "sub/list", "--jobs", jobs]);
        assert_eq!((ran.status, ran.err.as_str()), (1, ""), "{ran:?}");
        let rows: Vec<Vec<&str>> = ran.out.lines().skip(1).take(10).map(|l| l.split_whitespace().take(3).collect()).collect();
        let expected = [
            ["3", "0", "4"],
            ["4", "0", "4"],
            ["5", "-", "-"],
            ["6", "-", "-"],
            ["7", "3", "2"],
            ["8", "-", "-"],
            ["9", "1", "-"],
            ["10", "2", "2"],
            ["11", "4", "1"],
            ["12", "0", "4"],
        ];
        assert_eq!(rows, expected.map(|row| row.to_vec()), "{ran:?}");
        ran.mentions(&["sub/../missing.lrat can't be opened", "line 6 of the list has 1 name", "directory"]);
        let last = ran.out.lines().last().unwrap_or_default();
        assert!(
            last.starts_with("10 pairs in ") && last.contains("3 verified") && last.ends_with("not all are verified."),
            "{last}"
        );
    }
}

#[test]
fn a_batch_of_good_pairs_is_0() {
    let folder = Folder::new();
    folder.file("list", "r.cnf good.lrat\n".repeat(50));
    let ran = folder.run(&["batch", "list"]);
    assert_eq!((ran.status, ran.out.lines().count()), (0, 52), "{ran:?}");
    ran.mentions(&["50 pairs", "50 verified; all are verified."]);
    let absolute = format!("{0}/r.cnf {0}/good.lrat", folder.path.display());
    assert_eq!(folder.run_with(&["batch", "-", "--quiet"], absolute.as_bytes()).status, 0);
    let ran = folder.run_with(&["batch", "-", "--quiet"], b"r.cnf refused.lrat\n");
    assert_eq!((ran.status, ran.out.as_str()), (1, ""));
}

#[test]
fn a_dash_in_a_list_is_a_name() {
    let folder = Folder::new();
    folder.file("list", "r.cnf -\n");
    assert_eq!(folder.run_with(&["batch", "list"], GOOD.as_bytes()).mentions(&["./- can't be opened"]).status, 1);
    folder.file("-", GOOD);
    assert_eq!(folder.run(&["batch", "list"]).status, 0);
    folder.run(&["check", "r.cnf", "./-"]).answers("answer 0 step 4");
}

#[test]
fn a_list_without_a_pair_is_no_success() {
    let folder = Folder::new();
    folder.file("list", "\n# nothing\n");
    folder.run(&["batch", "list"]).fails(64, &["list", "names no pair"]);
}

#[test]
fn json_of_a_batch() {
    let folder = Folder::new();
    let mut list = b"r.cnf good.lrat\nr.cnf missing\nr.cnf refused.lrat\nalone\nr.cnf \xff\n".to_vec();
    list.extend_from_slice(b"r.cnf good.lrat");
    folder.file("list", list);
    let ran = folder.run(&["batch", "list", "--json"]);
    assert_eq!((ran.status, ran.err.as_str()), (1, ""), "{ran:?}");
    let json = Json::of(&ran.out);
    assert_eq!((json.number("summary.pairs"), json.number("summary.verified")), (6.0, 2.0));
    assert_eq!((json.number("pairs.0.answer"), json.number("pairs.0.line")), (0.0, 1.0));
    assert_eq!(json.text("pairs.0.proof.sha256").len(), 64);
    assert_eq!(json.number("pairs.1.error.status"), 66.0);
    assert_eq!((json.number("pairs.2.answer"), json.number("pairs.2.step")), (3.0, 2.0));
    assert_eq!(json.number("pairs.3.error.status"), 64.0);
    assert_eq!(json.text("pairs.4.proof.path_hex"), "ff");
    assert_eq!(json.number("summary.by_status.0.pairs"), 2.0);
}

// The store

#[test]
fn a_store_of_the_bytes_of_document_01_always_does() {
    let folder = Folder::new();
    let bytes = 16 * (R.len() + GOOD.len()) + 8 * 4 + 4096;
    folder.run(&["check", "r.cnf", "good.lrat", "--store", &bytes.to_string()]).answers("answer 0 step 4");
    // What the header announces is no variable that occurs, and has no effect on what always does.
    let vast = R.replace("p cnf 4 8", "p cnf 16777215 8");
    folder.file("vast.cnf", &vast);
    let bytes = 16 * (vast.len() + GOOD.len()) + 8 * 4 + 4096;
    folder.run(&["check", "vast.cnf", "good.lrat", "--store", &bytes.to_string()]).answers("answer 0 step 4");
}

#[test]
fn a_store_of_any_size_gives_the_answer_or_5() {
    let folder = Folder::new();
    let mut enough = 0;
    for bytes in (0..4000).step_by(61) {
        let ran = folder.run(&["check", "r.cnf", "good.lrat", "--store", &bytes.to_string()]);
        match ran.status {
            5 => ran.answers("answer 5").mentions(&[&format!("--store allows {bytes};")]),
            _ => ran.answers("answer 0 step 4"),
        };
        enough += usize::from(ran.status == 0);
    }
    assert!(enough > 10, "some of these sizes do");
}

#[test]
fn the_store_grows_until_it_does() {
    // Variables far above those of the header, which the first store has no marks for.
    let folder = Folder::new();
    folder.file(
        "new.lrat",
        format!(
            "9 16777215 0 0\n{}",
            GOOD.replace("9 1 2", "90 1 2")
                .replace("10 1 0 9 ", "100 1 0 90 ")
                .replace("11 2 0 9 ", "110 2 0 90 ")
                .replace("12 0 10 11", "120 0 100 110")
        ),
    );
    let ran = folder.run(&["check", "r.cnf", "new.lrat", "--json"]);
    let json = Json::of(&ran.out);
    assert_eq!((json.number("answer"), json.number("step")), (0.0, 5.0), "{ran:?}");
    assert!(json.number("runs") > 1.0 && json.number("store.marks") == 33_554_432.0, "{ran:?}");
    folder.run(&["check", "r.cnf", "new.lrat", "--store", "1M"]).answers("answer 5").mentions(&["--store allows 1048576"]);
}

#[test]
fn the_store_grows_with_the_clauses_that_are_alive() {
    // As many clauses as there can be for the bytes of a proof, and none of them deleted.
    let folder = Folder::new();
    folder.file("one.cnf", "p cnf 1 2\n1 0\n-1 0\n");
    let steps: String = (10_000..30_000).map(|id| format!("{id} 1 0 1 0\n")).collect();
    folder.file("short.lrat", format!("{steps}30000 0 29999 2 0\n"));
    let ran = folder.run(&["check", "one.cnf", "short.lrat", "--json"]);
    let json = Json::of(&ran.out);
    assert_eq!((json.number("answer"), json.number("step")), (0.0, 20_001.0), "{ran:?}");
    assert!(json.number("runs") > 1.0 && json.number("store.heads") >= 240_000.0, "{ran:?}");
    folder.run(&["check", "one.cnf", "short.lrat", "--store", "300K"]).answers("answer 5");
    folder.run(&["check", "one.cnf", "short.lrat", "--store", "600K"]).answers("answer 0 step 20001");
}

#[test]
fn a_system_that_hands_out_little_memory_is_no_crash() {
    let folder = Folder::new();
    let clauses = "1 -2 3 -4 0\n".repeat(400_000);
    folder.file("large.cnf", format!("p cnf 4 400000\n{clauses}"));
    let mut statuses = Vec::new();
    for kilobytes in (6_000..40_000).step_by(2_000) {
        let script = format!("ulimit -v {kilobytes}; exec \"$0\" check large.cnf good.lrat");
        let output =
            Command::new("sh").args(["-c", &script, env!("CARGO_BIN_EXE_proofscale")]).current_dir(&folder.path).output();
        let ran = Ran::of(output.expect("the shell can be run"));
        assert!([3, 5, 74].contains(&ran.status), "{kilobytes}: {ran:?}");
        statuses.push(ran.status);
    }
    assert!(statuses.contains(&5) && statuses.ends_with(&[3]), "{statuses:?}");
}
