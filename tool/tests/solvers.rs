//! The library against the reference on proofs of real solvers, which are kept under data/; its README.md says how they were made.

mod common;

use common::generate::{self, Random};
use common::library::{to_write, Fill, Lengths, Library};
use common::reference::{self, Formula, Verdict};
use common::{families, tracecheck};
use std::collections::BTreeMap;
use std::io::Write;

/// Prints even where the test passes, so that the figures stand in the log of every run.
fn say(text: &str) {
    let mut out = std::io::stdout().lock();
    writeln!(out, "{text}").expect("standard output can be written to");
}

macro_rules! data {
    ($name:literal) => {
        include_bytes!(concat!("data/", $name)).as_slice()
    };
}

/// A formula as it is kept, and what made it.
fn formulas() -> Vec<(&'static str, &'static [u8], Formula)> {
    vec![
        ("pigeons-4-3", data!("pigeons-4-3.cnf"), families::pigeons(3)),
        ("pigeons-5-4", data!("pigeons-5-4.cnf"), families::pigeons(4)),
        ("pigeons-6-5", data!("pigeons-6-5.cnf"), families::pigeons(5)),
        ("threes-40-3", data!("threes-40-3.cnf"), families::threes(40, 171, 3)),
        ("threes-60-26", data!("threes-60-26.cnf"), families::threes(60, 256, 26)),
        ("threes-100-1", data!("threes-100-1.cnf"), families::threes(100, 427, 1)),
        ("threes-100-3", data!("threes-100-3.cnf"), families::threes(100, 427, 3)),
        ("parity-8", data!("parity-8.cnf"), families::parity(8, 1)),
        ("parity-12", data!("parity-12.cnf"), families::parity(12, 1)),
        ("parity-16", data!("parity-16.cnf"), families::parity(16, 1)),
    ]
}

fn formula(name: &str) -> &'static [u8] {
    formulas().into_iter().find(|(other, ..)| *other == name).expect("each proof has its formula").1
}

/// The proofs that CaDiCaL wrote, by the names of their formulas.
const CADICAL: [(&str, &[u8]); 13] = [
    ("pigeons-4-3", data!("pigeons-4-3.lrat")),
    ("pigeons-4-3", data!("pigeons-4-3.p3.lrat")),
    ("pigeons-5-4", data!("pigeons-5-4.lrat")),
    ("pigeons-6-5", data!("pigeons-6-5.lrat")),
    ("threes-40-3", data!("threes-40-3.lrat")),
    ("threes-60-26", data!("threes-60-26.lrat")),
    ("threes-60-26", data!("threes-60-26.p3.lrat")),
    ("threes-100-1", data!("threes-100-1.lrat")),
    ("threes-100-3", data!("threes-100-3.lrat")),
    ("parity-8", data!("parity-8.lrat")),
    ("parity-12", data!("parity-12.lrat")),
    ("parity-12", data!("parity-12.p3.lrat")),
    ("parity-16", data!("parity-16.lrat")),
];

/// The traces that PicoSAT wrote.
const PICOSAT: [(&str, &[u8]); 8] = [
    ("pigeons-4-3", data!("pigeons-4-3.trace")),
    ("pigeons-5-4", data!("pigeons-5-4.trace")),
    ("pigeons-6-5", data!("pigeons-6-5.trace")),
    ("threes-40-3", data!("threes-40-3.trace")),
    ("threes-60-26", data!("threes-60-26.trace")),
    ("threes-100-3", data!("threes-100-3.trace")),
    ("parity-8", data!("parity-8.trace")),
    ("parity-12", data!("parity-12.trace")),
];

/// Every proof of the two solvers, those of PicoSAT as LRAT.
fn proofs() -> Vec<(&'static str, Vec<u8>)> {
    let mut proofs: Vec<(&'static str, Vec<u8>)> = CADICAL.iter().map(|&(name, proof)| (name, proof.to_vec())).collect();
    for (name, trace) in PICOSAT {
        let read = reference::read_formula(formula(name)).expect("a kept formula is readable");
        let trace = std::str::from_utf8(trace).expect("a trace is text");
        proofs.push((name, tracecheck::to_lrat(&read, trace).into_bytes()));
    }
    proofs
}

fn compare(library: &mut Library, name: &str, formula: &[u8], proof: &[u8]) -> Verdict {
    let verdict = reference::check(formula, proof);
    let lengths = Lengths::stated(formula.len(), proof.len(), verdict.greatest_variable);
    let answer = library.check(formula, proof, lengths, Fill::Byte(0xff));
    if answer != (verdict.answer, verdict.step) {
        // These files are too long to be printed; they are kept beside the other files of the build.
        let folder = std::path::Path::new(env!("CARGO_TARGET_TMPDIR"));
        std::fs::write(folder.join("differs.cnf"), formula).expect("the formula can be kept");
        std::fs::write(folder.join("differs.lrat"), proof).expect("the proof can be kept");
        panic!(
            "{name}: the library answers {answer:?}, the reference {verdict:?}; see differs.cnf and differs.lrat in {folder:?}"
        );
    }
    verdict
}

#[test]
fn formulas_are_what_their_generators_make() {
    let mut library = Library::default();
    for (name, kept, made) in formulas() {
        let text = reference::write_formula(&made);
        assert!(kept == text, "{name}.cnf is not what its generator makes");
        // Written by the library, it stays the same, since it is written that way already.
        let (heads, lits) = to_write(kept.len());
        let written = library.write(kept, heads, lits, kept.len(), 0);
        assert_eq!((written.answer, written.length), (0, kept.len() as u64), "{name}");
        assert!(written.out == kept, "{name}.cnf is written in another way");
    }
}

#[test]
fn the_smallest_formulas_have_no_solution() {
    for name in ["pigeons-4-3", "pigeons-5-4"] {
        let read = reference::read_formula(formula(name)).expect("a kept formula is readable");
        assert!(!reference::has_solution(&read), "{name} has a solution");
    }
}

#[test]
fn proofs_are_verified_at_their_last_step() {
    let mut library = Library::default();
    let mut deletions = 0;
    for (name, proof) in proofs() {
        let verdict = compare(&mut library, name, formula(name), &proof);
        // Both solvers write one step to a line and stop at the empty clause.
        let lines = proof.iter().filter(|&&byte| byte == b'\n').count() as u64;
        assert_eq!((verdict.answer, verdict.step), (0, lines), "{name}: {verdict:?}");
        deletions += verdict.accepted.deletions;
        say(&format!(
            "{name}: {} bytes, verified at step {}, {} clauses deleted",
            proof.len(),
            verdict.step,
            verdict.accepted.deleted
        ));
    }
    assert!(deletions > 1000, "the proofs have {deletions} deletions only");
}

#[test]
fn stores_by_the_live_clauses_do() {
    let mut library = Library::default();
    let mut random = Random::new(12);
    let mut answers: BTreeMap<u64, u64> = BTreeMap::new();
    for (name, proof) in proofs() {
        let formula = formula(name);
        let verdict = reference::check(formula, &proof);
        let expected = (verdict.answer, verdict.step);
        let enough = Lengths::by_live_clauses(formula.len(), &verdict);
        for fill in [Fill::Byte(0), Fill::Byte(0xff), Fill::Any(1), Fill::Small(2, 300)] {
            assert_eq!(library.check(formula, &proof, enough, fill), expected, "{name}: {enough:?}, {fill:?}");
        }
        // With less, it is too short or does all the same.
        for _ in 0..200 {
            let mut lengths = enough;
            match random.below(5) {
                0 => lengths.heads = random.below(enough.heads),
                1 => lengths.lits = random.below(enough.lits),
                2 => lengths.hints = random.below(enough.hints),
                3 => lengths.marks = random.below(enough.marks),
                _ => lengths.tape = random.below(enough.tape),
            }
            let answer = library.check(formula, &proof, lengths, Fill::Small(random.next(), 300));
            assert!(answer == (5, 0) || answer == expected, "{name}: {answer:?} with {lengths:?}");
            *answers.entry(answer.0).or_default() += 1;
        }
    }
    say(&format!("proofs of solvers, with less of a store than their live clauses ask for: answers {answers:?}"));
    assert!(answers.contains_key(&0) && answers.contains_key(&5), "{answers:?}");
}

#[test]
fn a_proof_of_another_formula_is_refused() {
    let mut library = Library::default();
    for (name, proof) in proofs() {
        let (other, text, _) = formulas().into_iter().find(|(other, ..)| *other != name).expect("there are several formulas");
        let verdict = compare(&mut library, name, text, &proof);
        assert_eq!(verdict.answer, 3, "the proof of {name} for {other}: {verdict:?}");
    }
}

/// Up to `most` places of a text, spread evenly; all of them where there are no more.
fn places(length: usize, most: usize) -> Vec<usize> {
    if length <= most {
        (0..length).collect()
    } else {
        (0..most).map(|k| k * length / most).collect()
    }
}

#[test]
fn cut_proofs_and_formulas() {
    let mut library = Library::default();
    let mut answers: BTreeMap<u64, u64> = BTreeMap::new();
    for (name, proof) in proofs() {
        let formula = formula(name);
        // Every byte of the shorter ones; of the longer ones as many places as take about the same time.
        for length in places(proof.len(), 8_000_000_000 / proof.len().pow(2) + 40) {
            let verdict = compare(&mut library, name, formula, &proof[..length]);
            let whole = proof[length..].iter().all(u8::is_ascii_whitespace);
            assert!(
                whole == (verdict.answer == 0) && [0, 2, 4].contains(&verdict.answer),
                "{name}, cut at {length}: {verdict:?}"
            );
            *answers.entry(verdict.answer).or_default() += 1;
        }
        for length in places(formula.len(), 600) {
            let verdict = compare(&mut library, name, &formula[..length], &proof);
            let whole = formula[length..].iter().all(u8::is_ascii_whitespace);
            assert_eq!(verdict.answer, if whole { 0 } else { 1 }, "{name}, formula cut at {length}");
            *answers.entry(verdict.answer).or_default() += 1;
        }
    }
    say(&format!("proofs of solvers, cut: answers {answers:?}"));
    for answer in [1, 2, 4] {
        assert!(answers.get(&answer).is_some_and(|&count| count > 100), "the answer {answer} is rare: {answers:?}");
    }
}

#[test]
fn changed_proofs_and_formulas() {
    let mut library = Library::default();
    let mut random = Random::new(11);
    let mut answers: BTreeMap<u64, u64> = BTreeMap::new();
    for (name, proof) in proofs() {
        let formula = formula(name);
        for _ in 0..3_000_000 / proof.len().max(4000) {
            let mut changed = proof.clone();
            if random.percent(70) {
                generate::mutate_text(&mut random, &mut changed);
            } else {
                generate::mutate_bytes(&mut random, &mut changed);
            }
            let verdict = compare(&mut library, name, formula, &changed);
            *answers.entry(verdict.answer).or_default() += 1;
            let mut changed = formula.to_vec();
            if random.percent(70) {
                generate::mutate_text(&mut random, &mut changed);
            } else {
                generate::mutate_bytes(&mut random, &mut changed);
            }
            let verdict = compare(&mut library, name, &changed, &proof);
            *answers.entry(verdict.answer).or_default() += 1;
        }
    }
    say(&format!("proofs of solvers, changed: answers {answers:?}"));
    for answer in 0..=4 {
        assert!(answers.get(&answer).is_some_and(|&count| count >= 36), "the answer {answer} is rare: {answers:?}");
    }
}
