//! Where a file went wrong: line, column and byte of the place, what stands there and what was expected.
//!
//! The verdict is the library's, and nothing here can change it. For a formula the library gives the place up to which it
//! read; for a proof it gives the number of the step, and a second pass over the tokens finds where that step begins and which
//! token is at fault. Should this pass find no fault where the library found one, only the place of the step is told.
//! Lines end with a line feed and count from 1, as do columns, which are bytes; bytes count from 0.

use crate::store::{Announced, GREATEST_VARIABLE};
use crate::words;

/// Clauses of a formula go up to this number, and ids in a proof up to the other (document 01, sections 2 and 3).
const MOST_CLAUSES: u64 = 16_777_215;
const GREATEST_ID: u64 = 268_435_455;

/// A place in a file.
#[derive(Debug, Clone, Copy, PartialEq, Eq)]
pub struct Place {
    pub byte: usize,
    pub line: usize,
    pub column: usize,
}

impl Place {
    /// The line and the column of a byte, by counting line feeds.
    pub fn of(bytes: &[u8], byte: usize) -> Place {
        let before = &bytes[..byte];
        let line = 1 + before.iter().filter(|&&b| b == b'\n').count();
        let start = before.iter().rposition(|&b| b == b'\n').map_or(0, |feed| feed + 1);
        Place { byte, line, column: byte - start + 1 }
    }
}

impl std::fmt::Display for Place {
    fn fmt(&self, f: &mut std::fmt::Formatter) -> std::fmt::Result {
        write!(f, "line {}, column {} (byte {})", self.line, self.column, self.byte)
    }
}

/// What is wrong at a place: what stands there, and what was expected.
#[derive(Debug, Clone, PartialEq, Eq)]
pub struct Fault {
    pub at: usize,
    pub found: String,
    pub expected: String,
}

/// Where a step begins, and the token in it that is at fault if one was found.
#[derive(Debug, Clone, PartialEq, Eq)]
pub struct StepPlace {
    pub begins: usize,
    pub fault: Option<Fault>,
}

fn is_blank(b: u8) -> bool {
    matches!(b, b' ' | b'\t' | b'\r' | b'\n')
}

/// The first token from `from` on, as a span; an empty one at the end of the text.
fn token_from(text: &[u8], from: usize) -> (usize, usize) {
    let start = text[from..].iter().position(|&b| !is_blank(b)).map_or(text.len(), |n| from + n);
    let end = text[start..].iter().position(|&b| is_blank(b)).map_or(text.len(), |n| start + n);
    (start, end)
}

/// What stands in a span, for the message.
fn found(text: &[u8], span: (usize, usize)) -> String {
    if span.0 == text.len() {
        return "the end of the file".to_string();
    }
    words::token(&text[span.0..span.1])
}

/// A number of document 01, section 2, with its sign, if the token is one.
fn number(token: &[u8]) -> Option<(bool, u64)> {
    let (negative, digits) = match token {
        [b'-', rest @ ..] => (true, rest),
        all => (false, all),
    };
    let canonical = match digits {
        [b'0'] => !negative,
        [b'1'..=b'9', rest @ ..] => rest.iter().all(u8::is_ascii_digit),
        _ => false,
    };
    // A number that does not fit is beyond every limit, which is all that matters of it.
    let value = digits.iter().fold(0u64, |v, &d| v.saturating_mul(10).saturating_add(u64::from(d.wrapping_sub(b'0'))));
    canonical.then_some((negative, value))
}

/// Where a formula became unreadable, by the place up to which the library read it.
pub fn in_formula(formula: &[u8], read_to: usize) -> Fault {
    let header = header_start(formula);
    if read_to <= header {
        return in_header(formula, header);
    }
    let span = token_from(formula, read_to);
    Fault { at: span.0, found: found(formula, span), expected: expected_in_body(formula, header, read_to) }
}

/// The place behind the comment lines.
fn header_start(formula: &[u8]) -> usize {
    let mut at = 0;
    while formula.get(at) == Some(&b'c') {
        at = formula[at..].iter().position(|&b| b == b'\n').map_or(formula.len(), |n| at + n + 1);
    }
    at
}

/// What may stand behind the header at a place: one of the clauses that it announces, or nothing any more.
fn expected_in_body(formula: &[u8], header: usize, read_to: usize) -> String {
    let announced = Announced::of(formula);
    let body = formula[header..read_to].iter().position(|&b| b == b'\n').map_or(read_to, |n| header + n + 1);
    let closed = formula[body..read_to].split(|&b| is_blank(b)).filter(|&token| token == b"0").count();
    if closed >= announced.clauses {
        let clauses = words::counted(announced.clauses as u64, "clause", "clauses");
        return format!("the end of the file behind the {clauses} that the header announces");
    }
    format!(
        "a literal with a variable up to {} or the 0 that ends clause {} of {}",
        announced.variables,
        closed + 1,
        announced.clauses
    )
}

/// The first byte at which the line `p cnf V C` went wrong.
fn in_header(formula: &[u8], start: usize) -> Fault {
    let line = formula[start..].split(|&b| b == b'\n').next().unwrap_or_default();
    let fault = |at: usize, expected: String| Fault { at: start + at, found: found_in_line(line, at), expected };
    let same = line.iter().zip(b"p cnf ").take_while(|(a, b)| a == b).count();
    if same < 6 {
        return fault(same, "the line `p cnf V C` behind the comment lines".to_string());
    }
    let space = line[6..].iter().position(|&b| b == b' ').map_or(line.len(), |n| 6 + n);
    if !is_count(&line[6..space], GREATEST_VARIABLE as u64) {
        return fault(6, format!("the number of variables, from 0 to {GREATEST_VARIABLE}"));
    }
    if space == line.len() {
        return fault(space, "a space and the number of clauses".to_string());
    }
    let clauses = &line[space + 1..];
    let digits = clauses.iter().take_while(|b| b.is_ascii_digit()).count();
    if digits < clauses.len() && is_count(&clauses[..digits], MOST_CLAUSES) {
        return fault(space + 1 + digits, "the end of the line behind the number of clauses".to_string());
    }
    fault(space + 1, format!("the number of clauses, from 0 to {MOST_CLAUSES}"))
}

/// Whether the bytes are a number from 0 to the limit.
fn is_count(token: &[u8], limit: u64) -> bool {
    matches!(number(token), Some((false, value)) if value <= limit)
}

/// What stands in the header line from a place on: up to the next blank, or that blank itself, or the line's end.
fn found_in_line(line: &[u8], at: usize) -> String {
    let rest = &line[at..];
    match rest.iter().position(|&b| is_blank(b)) {
        _ if rest.is_empty() => "the end of the line".to_string(),
        Some(0) => words::token(&rest[..1]),
        Some(n) => words::token(&rest[..n]),
        None => words::token(rest),
    }
}

/// Where the step of this number begins, which the library read or tried to read; or that the proof has no such step.
pub fn step_start(proof: &[u8], step: u64) -> Option<usize> {
    let mut at = 0;
    for _ in 1..step {
        at = after_step(proof, at)?;
    }
    let (start, end) = token_from(proof, at);
    (start < end).then_some(start)
}

/// The place behind the step that begins at `at`, taking it for a readable one.
fn after_step(proof: &[u8], at: usize) -> Option<usize> {
    let (_, id) = token_from(proof, at);
    let (start, end) = token_from(proof, id);
    if &proof[start..end] == b"d" {
        return after_nought(proof, end);
    }
    after_nought(proof, after_nought(proof, id)?)
}

/// The place behind the next token `0`.
fn after_nought(proof: &[u8], from: usize) -> Option<usize> {
    let mut at = from;
    loop {
        let (start, end) = token_from(proof, at);
        match &proof[start..end] {
            b"" => return None,
            b"0" => return Some(end),
            _ => at = end,
        }
    }
}

/// Where an unreadable step begins, and which of its tokens is at fault.
pub fn in_step(proof: &[u8], step: u64) -> Option<StepPlace> {
    let begins = step_start(proof, step)?;
    Some(StepPlace { begins, fault: fault_in_step(proof, begins) })
}

/// The parts of a step, by what may stand there.
#[derive(Clone, Copy)]
enum Part {
    Id,
    Body,
    Literals,
    Hints,
    Ids,
}

impl Part {
    fn expected(self) -> String {
        match self {
            Part::Id => format!("the id of a step, from 1 to {GREATEST_ID}"),
            Part::Body => format!("the letter d, a literal with a variable up to {GREATEST_VARIABLE}, or 0"),
            Part::Literals => format!("a literal with a variable up to {GREATEST_VARIABLE}, or the 0 behind the literals"),
            Part::Hints => format!("a hint with an id up to {GREATEST_ID}, or the 0 behind the hints"),
            Part::Ids => format!("the id of a clause to delete, from 1 to {GREATEST_ID}, or the 0 behind the ids"),
        }
    }

    /// Whether the token may stand here, and the part that goes on behind it; `None` for the end of the step.
    fn after(self, token: &[u8]) -> Result<Option<Part>, ()> {
        let literal = |n| matches!(n, Some((_, 1..=16_777_215)));
        let hint = |n| matches!(n, Some((_, 1..=GREATEST_ID)));
        let id = |n| matches!(n, Some((false, 1..=GREATEST_ID)));
        match (self, token, number(token)) {
            (Part::Id, _, n) if id(n) => Ok(Some(Part::Body)),
            (Part::Body, b"d", _) => Ok(Some(Part::Ids)),
            (Part::Body | Part::Literals, b"0", _) => Ok(Some(Part::Hints)),
            (Part::Body | Part::Literals, _, n) if literal(n) => Ok(Some(Part::Literals)),
            (Part::Hints | Part::Ids, b"0", _) => Ok(None),
            (Part::Hints, _, n) if hint(n) => Ok(Some(Part::Hints)),
            (Part::Ids, _, n) if id(n) => Ok(Some(Part::Ids)),
            _ => Err(()),
        }
    }
}

/// The first token of the step at `begins` that may not stand where it does.
fn fault_in_step(proof: &[u8], begins: usize) -> Option<Fault> {
    let mut at = begins;
    let mut part = Part::Id;
    loop {
        let span = token_from(proof, at);
        match part.after(&proof[span.0..span.1]) {
            Ok(Some(next)) => part = next,
            Ok(None) => return None,
            Err(()) => return Some(Fault { at: span.0, found: found(proof, span), expected: part.expected() }),
        }
        at = span.1;
    }
}

#[cfg(test)]
mod tests {
    use super::*;

    fn header(text: &str) -> (usize, String) {
        let fault = in_formula(text.as_bytes(), header_start(text.as_bytes()));
        (fault.at, fault.found)
    }

    #[test]
    fn the_first_wrong_byte_of_a_header() {
        assert_eq!(header("p cnf  1 1\n"), (6, "` `".to_string()));
        assert_eq!(header("p dnf 1 1\n"), (2, "`dnf`".to_string()));
        assert_eq!(header("p cnf 01 1\n"), (6, "`01`".to_string()));
        assert_eq!(header("p cnf 1\n"), (7, "the end of the line".to_string()));
        assert_eq!(header("p cnf 1 1 \n"), (9, "` `".to_string()));
        assert_eq!(header("p cnf 1 1\r\n"), (9, "`\\x0d`".to_string()));
        assert_eq!(header("p cnf 1 -1\n"), (8, "`-1`".to_string()));
        assert_eq!(header("c only\n"), (7, "the end of the line".to_string()));
        assert_eq!(header(""), (0, "the end of the line".to_string()));
    }

    #[test]
    fn clauses_are_counted_up_to_the_fault() {
        let fault = in_formula(b"p cnf 2 2\n1 0\n2 x 0\n", 15);
        assert_eq!((fault.at, fault.found.as_str()), (16, "`x`"));
        assert!(fault.expected.ends_with("clause 2 of 2"), "{}", fault.expected);
        let fault = in_formula(b"p cnf 2 1\n1 0\n%\n", 13);
        assert_eq!(fault.at, 14);
        assert!(fault.expected.starts_with("the end of the file behind the 1 clause "), "{}", fault.expected);
        let fault = in_formula(b"p cnf 1 1\n1", 11);
        assert_eq!((fault.at, fault.found.as_str()), (11, "the end of the file"));
    }

    #[test]
    fn steps_are_found_and_their_faults() {
        let proof = b"9 1 2 0 1 3 6 0\n9 d 2 5 0\n 10 2 0 9 1 x 6 0\n";
        assert_eq!(step_start(proof, 1), Some(0));
        assert_eq!(step_start(proof, 2), Some(16));
        assert_eq!(step_start(proof, 3), Some(27));
        assert_eq!(step_start(proof, 4), None);
        let place = in_step(proof, 3).expect("there is a third step");
        let fault = place.fault.expect("x is no hint");
        assert_eq!((fault.at, fault.found.as_str()), (38, "`x`"));
        assert_eq!(in_step(proof, 2).and_then(|p| p.fault), None);
    }

    #[test]
    fn what_may_stand_in_a_step() {
        let fault_at = |text: &str| fault_in_step(text.as_bytes(), 0).map(|f| f.at);
        assert_eq!(fault_at("0 0 0"), Some(0));
        assert_eq!(fault_at("268435456 0 0"), Some(0));
        assert_eq!(fault_at("1 16777216 0 0"), Some(2));
        assert_eq!(fault_at("1 16777215 -0 0"), Some(11));
        assert_eq!(fault_at("1 d -2 0"), Some(4));
        assert_eq!(fault_at("1 2 d 0"), Some(4));
        assert_eq!(fault_at("1 0 -2 4294967297 0"), Some(7));
        assert_eq!(fault_at("1 0 2"), Some(5));
        assert_eq!(fault_at("1 d 0"), None);
    }

    #[test]
    fn lines_and_columns_count_from_one() {
        assert_eq!(Place::of(b"ab\nc", 0), Place { byte: 0, line: 1, column: 1 });
        assert_eq!(Place::of(b"ab\nc", 2), Place { byte: 2, line: 1, column: 3 });
        assert_eq!(Place::of(b"ab\nc", 4), Place { byte: 4, line: 2, column: 2 });
    }
}
