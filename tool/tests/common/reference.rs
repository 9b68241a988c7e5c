//! A reference checker, written from docs/01-formulas-and-proofs.md alone, section by section, clear before fast.
//!
//! It shares no code with the proved library and no idea of how to store things: clauses live in a map, an assignment is
//! a set of literals, and numbers are 64 bits wide. What document 01 leaves open goes by docs/DECISIONS.md.

use std::collections::{BTreeMap, HashSet};

/// The greatest variable that may be written (section 2).
pub const GREATEST_VARIABLE: i64 = 16_777_215;
/// The greatest clause id that may be written (section 2).
pub const GREATEST_ID: i64 = 268_435_455;
/// The greatest V and the greatest C of a header (section 3).
pub const GREATEST_COUNT: i64 = 16_777_215;

/// Why an answer is not "verified". The document asks for the answer and the step only; the grounds let the tests see that
/// every way to fail occurs.
#[derive(Clone, Copy, Debug, PartialEq, Eq, Hash, PartialOrd, Ord)]
pub enum Ground {
    // Answer 1, section 3.
    CommentNotEnded,
    HeaderNotRight,
    CountTooLarge,
    NoLiteral,
    LiteralBeyondV,
    ClauseMissing,
    BehindLastClause,
    // Answer 2, section 4.
    NoStepId,
    NoStepLiteral,
    NoHint,
    NoIdToDelete,
    EndsInsideStep,
    // Answer 3, section 5: a deletion, then rules 1, 3 and 4.
    DeletedNotLive,
    IdNotFresh,
    OppositeLiterals,
    HintNotLive,
    HintTrue,
    HintTwoOpen,
    NoConflictAndEmpty,
    GroupsDiffer,
    GroupHintNotLive,
    GroupHintTrue,
    GroupHintTwoOpen,
    GroupNoConflict,
    // Answer 4.
    ProofEnds,
}

/// Every ground, so that a test can ask for each.
pub const GROUNDS: [Ground; 25] = [
    Ground::CommentNotEnded,
    Ground::HeaderNotRight,
    Ground::CountTooLarge,
    Ground::NoLiteral,
    Ground::LiteralBeyondV,
    Ground::ClauseMissing,
    Ground::BehindLastClause,
    Ground::NoStepId,
    Ground::NoStepLiteral,
    Ground::NoHint,
    Ground::NoIdToDelete,
    Ground::EndsInsideStep,
    Ground::DeletedNotLive,
    Ground::IdNotFresh,
    Ground::OppositeLiterals,
    Ground::HintNotLive,
    Ground::HintTrue,
    Ground::HintTwoOpen,
    Ground::NoConflictAndEmpty,
    Ground::GroupsDiffer,
    Ground::GroupHintNotLive,
    Ground::GroupHintTrue,
    Ground::GroupHintTwoOpen,
    Ground::GroupNoConflict,
    Ground::ProofEnds,
];

/// How often each way to accept something was taken, for the distribution.
#[derive(Clone, Copy, Debug, Default, PartialEq, Eq)]
pub struct Accepted {
    /// Additions that reached a conflict by rule 3.
    pub by_conflict: u64,
    /// Additions that reached rule 5 with at least one group.
    pub by_groups: u64,
    /// Additions that reached rule 5 because no live clause contains the opposite of the first literal.
    pub by_no_groups: u64,
    /// Groups that are done because a literal of their clause is true.
    pub groups_true: u64,
    /// Groups that are done because two literals of their clause are opposites.
    pub groups_opposite: u64,
    /// Groups whose hints reach a conflict.
    pub groups_conflict: u64,
    /// Deletions, and the clauses that they delete.
    pub deletions: u64,
    pub deleted: u64,
}

/// The answer of section 1, and what else the tests want to know.
#[derive(Clone, Copy, Debug, PartialEq, Eq)]
pub struct Verdict {
    pub answer: u64,
    /// The number that comes with the answers 0, 2, 3 and 4; 0 with 1, which has none.
    pub step: u64,
    /// None if and only if the answer is 0.
    pub ground: Option<Ground>,
    /// The greatest variable that occurs, by which the store is measured: in the clauses of the formula, if that is readable,
    /// and in the steps that were come to, the last one as far as it could be read.
    pub greatest_variable: u64,
    /// The most that the live clauses ever came to, in clauses and literals together.
    pub greatest_weight: usize,
    /// The most literals and hints, or ids to delete, of a step that was come to.
    pub greatest_step: usize,
    pub accepted: Accepted,
}

/// A formula as section 3 has it; clause k has the id k + 1.
#[derive(Clone, Debug, PartialEq, Eq)]
pub struct Formula {
    pub variables: i64,
    pub clauses: Vec<Vec<i64>>,
}

// Section 2.

fn is_blank(byte: u8) -> bool {
    byte == b' ' || byte == b'\t' || byte == b'\r' || byte == b'\n'
}

/// The tokens of a text: the longest runs of bytes that are not blanks.
struct Tokens<'a> {
    rest: &'a [u8],
}

impl<'a> Iterator for Tokens<'a> {
    type Item = &'a [u8];

    fn next(&mut self) -> Option<&'a [u8]> {
        let start = self.rest.iter().position(|&byte| !is_blank(byte))?;
        let behind = &self.rest[start..];
        let length = behind.iter().position(|&byte| is_blank(byte)).unwrap_or(behind.len());
        let (token, rest) = behind.split_at(length);
        self.rest = rest;
        Some(token)
    }
}

/// The number that a token is, if it is one. Numbers that do not fit are as large as can be, which is beyond every limit.
fn number(token: &[u8]) -> Option<i64> {
    if token == b"0" {
        return Some(0);
    }
    let (sign, digits) = match token {
        [b'-', digits @ ..] => (-1, digits),
        digits => (1, digits),
    };
    let first = *digits.first()?;
    if first == b'0' || !digits.iter().all(u8::is_ascii_digit) {
        return None;
    }
    let size = digits.iter().fold(0i64, |size, &digit| size.saturating_mul(10).saturating_add(i64::from(digit - b'0')));
    Some(sign * size)
}

// Section 3.

/// Reads a formula, or says why it is unreadable.
pub fn read_formula(bytes: &[u8]) -> Result<Formula, Ground> {
    let mut rest = bytes;
    while rest.first() == Some(&b'c') {
        let end = rest.iter().position(|&byte| byte == b'\n').ok_or(Ground::CommentNotEnded)?;
        rest = &rest[end + 1..];
    }
    let end = rest.iter().position(|&byte| byte == b'\n').unwrap_or(rest.len());
    let (line, behind) = rest.split_at(end);
    let words: Vec<&[u8]> = line.split(|&byte| byte == b' ').collect();
    if words.len() != 4 || words[0] != b"p" || words[1] != b"cnf" {
        return Err(Ground::HeaderNotRight);
    }
    let variables = read_count(words[2])?;
    let count = read_count(words[3])?;

    let mut clauses = Vec::new();
    let mut tokens = Tokens { rest: behind };
    while (clauses.len() as i64) < count {
        let mut clause = Vec::new();
        loop {
            let token = tokens.next().ok_or(Ground::ClauseMissing)?;
            let literal = number(token).ok_or(Ground::NoLiteral)?;
            if literal == 0 {
                break;
            }
            if literal.abs() > variables {
                return Err(Ground::LiteralBeyondV);
            }
            clause.push(literal);
        }
        clauses.push(clause);
    }
    match tokens.next() {
        None => Ok(Formula { variables, clauses }),
        Some(_) => Err(Ground::BehindLastClause),
    }
}

fn read_count(word: &[u8]) -> Result<i64, Ground> {
    match number(word) {
        Some(count) if count > GREATEST_COUNT => Err(Ground::CountTooLarge),
        Some(count) if count >= 0 => Ok(count),
        _ => Err(Ground::HeaderNotRight),
    }
}

/// A formula as bytes: the header, then one clause to a line, no comments, single spaces.
pub fn write_formula(formula: &Formula) -> Vec<u8> {
    let mut text = format!("p cnf {} {}\n", formula.variables, formula.clauses.len());
    for clause in &formula.clauses {
        for literal in clause {
            text += &format!("{literal} ");
        }
        text += "0\n";
    }
    text.into_bytes()
}

/// Whether some assignment satisfies every clause, found by trying them all. Variables that stand in no clause do not matter.
pub fn has_solution(formula: &Formula) -> bool {
    let mut variables: Vec<i64> = formula.clauses.iter().flatten().map(|literal| literal.abs()).collect();
    variables.sort_unstable();
    variables.dedup();
    assert!(variables.len() <= 20, "too many variables to try every assignment: {}", variables.len());
    let bit = |literal: i64| 1u32 << variables.binary_search(&literal.abs()).expect("the variable is in the list");
    // For each clause, which variables satisfy it when they are true, and which when they are false.
    let masks: Vec<(u32, u32)> = formula
        .clauses
        .iter()
        .map(|clause| {
            let positive = clause.iter().filter(|&&l| l > 0).fold(0, |mask, &l| mask | bit(l));
            let negative = clause.iter().filter(|&&l| l < 0).fold(0, |mask, &l| mask | bit(l));
            (positive, negative)
        })
        .collect();
    (0..1u32 << variables.len())
        .any(|trues| masks.iter().all(|&(positive, negative)| trues & positive != 0 || !trues & negative != 0))
}

// Section 4.

/// A step, as far as it was read; what was read counts also where the step turns out to be unreadable.
#[derive(Default)]
struct Step {
    id: i64,
    is_deletion: bool,
    clause: Vec<i64>,
    /// The hints of an addition, or the ids that a deletion lists.
    hints: Vec<i64>,
}

/// Reads the next step; false where only blanks are left.
fn read_step(tokens: &mut Tokens, step: &mut Step) -> Result<bool, Ground> {
    let Some(first) = tokens.next() else {
        return Ok(false);
    };
    step.id = match number(first) {
        Some(id) if (1..=GREATEST_ID).contains(&id) => id,
        _ => return Err(Ground::NoStepId),
    };
    // Whether it is a deletion shows at the second token, which is otherwise the first of the literals.
    let mut behind = Tokens { rest: tokens.rest };
    if behind.next() == Some(b"d") {
        *tokens = behind;
        step.is_deletion = true;
        read_list(tokens, &mut step.hints, Ground::NoIdToDelete, |id| (1..=GREATEST_ID).contains(&id))?;
    } else {
        read_list(tokens, &mut step.clause, Ground::NoStepLiteral, |literal| literal.abs() <= GREATEST_VARIABLE)?;
        read_list(tokens, &mut step.hints, Ground::NoHint, |hint| hint.abs() <= GREATEST_ID)?;
    }
    Ok(true)
}

/// Reads numbers up to the next 0. Each of them must be allowed, else the step is unreadable on the given ground.
fn read_list(tokens: &mut Tokens, list: &mut Vec<i64>, otherwise: Ground, allowed: fn(i64) -> bool) -> Result<(), Ground> {
    loop {
        let token = tokens.next().ok_or(Ground::EndsInsideStep)?;
        match number(token) {
            Some(0) => return Ok(()),
            Some(value) if allowed(value) => list.push(value),
            _ => return Err(otherwise),
        }
    }
}

// Section 5.

type Live = BTreeMap<i64, Vec<i64>>;

/// The literals that are true; a literal is false if its opposite is true.
#[derive(Clone, Default)]
struct Assignment {
    trues: HashSet<i64>,
}

impl Assignment {
    fn is_true(&self, literal: i64) -> bool {
        self.trues.contains(&literal)
    }

    fn is_false(&self, literal: i64) -> bool {
        self.trues.contains(&-literal)
    }

    fn make_true(&mut self, literal: i64) {
        self.trues.insert(literal);
    }

    fn make_false(&mut self, literal: i64) {
        self.trues.insert(-literal);
    }
}

/// What is wrong with a hint.
enum BadHint {
    NotLive,
    True,
    TwoOpen,
}

/// Rule 3: takes hints in order, and says whether they reach a conflict.
fn take_hints(live: &Live, assignment: &mut Assignment, hints: &[i64]) -> Result<bool, BadHint> {
    for hint in hints {
        let clause = live.get(hint).ok_or(BadHint::NotLive)?;
        let mut not_false: Vec<i64> = clause.iter().copied().filter(|&literal| !assignment.is_false(literal)).collect();
        not_false.sort_unstable();
        not_false.dedup();
        if not_false.is_empty() {
            return Ok(true);
        }
        if not_false.iter().any(|&literal| assignment.is_true(literal)) {
            return Err(BadHint::True);
        }
        if not_false.len() > 1 {
            return Err(BadHint::TwoOpen);
        }
        assignment.make_true(not_false[0]);
    }
    Ok(false)
}

fn holds_opposites(literals: &[i64]) -> bool {
    let all: HashSet<i64> = literals.iter().copied().collect();
    literals.iter().any(|&literal| all.contains(&-literal))
}

/// Rules 2 to 5, for a clause without opposite literals: whether it may be added.
fn judge_clause(live: &Live, clause: &[i64], hints: &[i64], accepted: &mut Accepted) -> Result<(), Ground> {
    // Rule 2.
    let mut assignment = Assignment::default();
    for &literal in clause {
        assignment.make_false(literal);
    }
    // Rule 3.
    let first_negative = hints.iter().position(|&hint| hint < 0).unwrap_or(hints.len());
    let (plain, rest) = hints.split_at(first_negative);
    let conflict = take_hints(live, &mut assignment, plain).map_err(|bad| match bad {
        BadHint::NotLive => Ground::HintNotLive,
        BadHint::True => Ground::HintTrue,
        BadHint::TwoOpen => Ground::HintTwoOpen,
    })?;
    if conflict {
        accepted.by_conflict += 1;
        return Ok(());
    }
    // Rule 4.
    let Some(&pivot) = clause.first() else {
        return Err(Ground::NoConflictAndEmpty);
    };
    let mut groups: Vec<(i64, Vec<i64>)> = Vec::new();
    for &hint in rest {
        if hint < 0 {
            groups.push((-hint, Vec::new()));
        } else {
            groups.last_mut().expect("the rest begins with a negative hint").1.push(hint);
        }
    }
    let candidates = live.iter().filter(|(_, clause)| clause.contains(&-pivot)).map(|(id, _)| id);
    if !candidates.eq(groups.iter().map(|(id, _)| id)) {
        return Err(Ground::GroupsDiffer);
    }
    for (id, hints) in &groups {
        let others: Vec<i64> = live[id].iter().copied().filter(|&literal| literal != -pivot).collect();
        if others.iter().any(|&literal| assignment.is_true(literal)) {
            accepted.groups_true += 1;
            continue;
        }
        if holds_opposites(&others) {
            accepted.groups_opposite += 1;
            continue;
        }
        let mut here = assignment.clone();
        for &literal in &others {
            here.make_false(literal);
        }
        let conflict = take_hints(live, &mut here, hints).map_err(|bad| match bad {
            BadHint::NotLive => Ground::GroupHintNotLive,
            BadHint::True => Ground::GroupHintTrue,
            BadHint::TwoOpen => Ground::GroupHintTwoOpen,
        })?;
        if !conflict {
            return Err(Ground::GroupNoConflict);
        }
        accepted.groups_conflict += 1;
    }
    // Rule 5.
    if groups.is_empty() {
        accepted.by_no_groups += 1;
    } else {
        accepted.by_groups += 1;
    }
    Ok(())
}

// Section 1.

/// The answer to a formula and a proof.
pub fn check(formula: &[u8], proof: &[u8]) -> Verdict {
    let mut verdict = Verdict {
        answer: 1,
        step: 0,
        ground: None,
        greatest_variable: 0,
        greatest_weight: 0,
        greatest_step: 0,
        accepted: Accepted::default(),
    };
    let formula = match read_formula(formula) {
        Ok(formula) => formula,
        Err(ground) => return Verdict { ground: Some(ground), ..verdict },
    };
    let greatest = |literals: &[i64]| literals.iter().map(|literal| literal.unsigned_abs()).max().unwrap_or(0);
    verdict.greatest_variable = formula.clauses.iter().map(|clause| greatest(clause)).max().unwrap_or(0);
    // The greatest id that was ever in use, deleted or not (rule 1).
    let mut greatest_id = formula.clauses.len() as i64;
    let mut live: Live = (1..).zip(formula.clauses).collect();
    let mut tokens = Tokens { rest: proof };
    for count in 1.. {
        let weight = live.values().map(|clause| 1 + clause.len()).sum();
        verdict.greatest_weight = verdict.greatest_weight.max(weight);
        let mut step = Step::default();
        let read = read_step(&mut tokens, &mut step);
        verdict.greatest_variable = verdict.greatest_variable.max(greatest(&step.clause));
        verdict.greatest_step = verdict.greatest_step.max(step.clause.len() + step.hints.len());
        match read {
            Err(ground) => return Verdict { answer: 2, step: count, ground: Some(ground), ..verdict },
            Ok(false) => return Verdict { answer: 4, step: count - 1, ground: Some(Ground::ProofEnds), ..verdict },
            Ok(true) => {}
        }
        let refused = |ground: Ground, verdict: Verdict| Verdict { answer: 3, step: count, ground: Some(ground), ..verdict };
        if step.is_deletion {
            for id in step.hints {
                if live.remove(&id).is_none() {
                    return refused(Ground::DeletedNotLive, verdict);
                }
                verdict.accepted.deleted += 1;
            }
            verdict.accepted.deletions += 1;
            continue;
        }
        // Rule 1.
        if step.id <= greatest_id {
            return refused(Ground::IdNotFresh, verdict);
        }
        if holds_opposites(&step.clause) {
            return refused(Ground::OppositeLiterals, verdict);
        }
        if let Err(ground) = judge_clause(&live, &step.clause, &step.hints, &mut verdict.accepted) {
            return refused(ground, verdict);
        }
        if step.clause.is_empty() {
            return Verdict { answer: 0, step: count, ..verdict };
        }
        greatest_id = step.id;
        live.insert(step.id, step.clause);
    }
    unreachable!("steps are counted without end")
}
