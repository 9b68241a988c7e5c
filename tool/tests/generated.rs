//! The library against the reference, on formulas and proofs that are generated: at random from fixed seeds, and all of a kind.

mod common;

use common::families;
use common::generate::{self, Draft, Pair, Random};
use common::library::{to_write, Fill, Lengths, Library};
use common::reference::{self, Accepted, Ground, Verdict, GROUNDS};
use std::collections::BTreeMap;
use std::io::Write;

/// Prints even where the test passes, so that the figures stand in the log of every run.
fn say(text: &str) {
    let mut out = std::io::stdout().lock();
    writeln!(out, "{text}").expect("standard output can be written to");
}

fn show(formula: &[u8], proof: &[u8]) -> String {
    format!("formula \"{}\"\nproof \"{}\"", formula.escape_ascii(), proof.escape_ascii())
}

/// Asks both, with a store of the stated lengths, and holds the library to what the reference answers.
fn compare(library: &mut Library, formula: &[u8], proof: &[u8], fill: Fill) -> Verdict {
    let verdict = reference::check(formula, proof);
    let lengths = Lengths::stated(formula.len(), proof.len(), verdict.greatest_variable);
    let answer = library.check(formula, proof, lengths, fill);
    assert_eq!(answer, (verdict.answer, verdict.step), "library and reference ({verdict:?}) differ\n{}", show(formula, proof));
    verdict
}

/// What a store may hold before a call, of one kind or another.
fn some_fill(random: &mut Random) -> Fill {
    match random.below(3) {
        0 => Fill::Byte(random.next() as u8),
        1 => Fill::Any(random.next()),
        _ => Fill::Small(random.next(), 1 << random.below(9)),
    }
}

/// Fails if a formula that was verified has a solution.
fn assert_unsolvable(formula: &[u8], proof: &[u8]) {
    let read = reference::read_formula(formula).expect("a formula that was verified is readable");
    assert!(!reference::has_solution(&read), "verified, but it has a solution\n{}", show(formula, proof));
}

/// What was seen in many pairs.
#[derive(Default)]
struct Distribution {
    answers: BTreeMap<u64, u64>,
    grounds: BTreeMap<Ground, u64>,
    /// What the accepted steps of verified proofs rested on: in how many proofs it occurs.
    verified_with: BTreeMap<&'static str, u64>,
    /// How often each way to accept a step was taken, in all proofs.
    accepted: Accepted,
}

impl Distribution {
    fn add(&mut self, verdict: &Verdict) {
        *self.answers.entry(verdict.answer).or_default() += 1;
        if let Some(ground) = verdict.ground {
            *self.grounds.entry(ground).or_default() += 1;
        }
        let a = &verdict.accepted;
        let sum = &mut self.accepted;
        sum.by_conflict += a.by_conflict;
        sum.by_groups += a.by_groups;
        sum.by_no_groups += a.by_no_groups;
        sum.groups_true += a.groups_true;
        sum.groups_opposite += a.groups_opposite;
        sum.groups_conflict += a.groups_conflict;
        sum.deletions += a.deletions;
        sum.deleted += a.deleted;
        if verdict.answer == 0 {
            let features = [
                ("groups", a.by_groups),
                ("no groups", a.by_no_groups),
                ("groups done by a true literal", a.groups_true),
                ("groups done by opposite literals", a.groups_opposite),
                ("groups with a conflict", a.groups_conflict),
                ("deletions", a.deletions),
                ("deleted clauses", a.deleted),
            ];
            for (name, count) in features {
                *self.verified_with.entry(name).or_default() += u64::from(count > 0);
            }
        }
    }

    fn print(&self, title: &str) {
        let mut text = format!("{title}: {} pairs\n", self.answers.values().sum::<u64>());
        for (answer, count) in &self.answers {
            text += &format!("  answer {answer}: {count}\n");
        }
        for (ground, count) in &self.grounds {
            text += &format!("  ground {ground:?}: {count}\n");
        }
        for (name, count) in &self.verified_with {
            text += &format!("  verified with {name}: {count}\n");
        }
        say(&format!("{text}  accepted in all: {:?}", self.accepted));
    }
}

/// Drafts in order, each with the random numbers that go on from it.
fn drafts(first_seed: u64, count: u64) -> impl Iterator<Item = (Draft, Random)> {
    (first_seed..first_seed + count).map(|seed| {
        let mut random = Random::new(seed);
        (generate::draft(&mut random), random)
    })
}

fn written(random: &mut Random, draft: &Draft) -> Pair {
    generate::write(random, &generate::tokens(draft))
}

/// Valid pairs and their mutations. They are tested in two parts, so that two processors share the work.
fn generated(first_seed: u64, count: u64) {
    let mut library = Library::default();
    let (mut valid, mut mutated) = (Distribution::default(), Distribution::default());
    for (draft, mut random) in drafts(first_seed, count) {
        // What the prover calls valid has to be verified at its last step, or unfinished behind its last step.
        let pair = written(&mut random, &draft);
        let fill = some_fill(&mut random);
        let verdict = compare(&mut library, &pair.formula, &pair.proof, fill);
        let expected = (if draft.finished { 0 } else { 4 }, draft.steps.len() as u64);
        assert_eq!(
            (verdict.answer, verdict.step),
            expected,
            "{verdict:?} of a valid draft\n{}",
            show(&pair.formula, &pair.proof)
        );
        valid.add(&verdict);
        if verdict.answer == 0 {
            assert_unsolvable(&pair.formula, &pair.proof);
        }
        let mut pairs: Vec<Pair> = Vec::new();
        for _ in 0..6 {
            let mut changed = draft.clone();
            for _ in 0..random.between(1, 2) {
                generate::mutate_steps(&mut random, &mut changed);
            }
            pairs.push(written(&mut random, &changed));
        }
        for _ in 0..4 {
            let mut tokens = generate::tokens(&draft);
            for _ in 0..random.between(1, 2) {
                generate::mutate_proof_tokens(&mut random, &mut tokens);
            }
            pairs.push(generate::write(&mut random, &tokens));
        }
        for _ in 0..3 {
            let mut tokens = generate::tokens(&draft);
            for _ in 0..random.between(1, 2) {
                generate::mutate_formula_tokens(&mut random, &mut tokens);
            }
            pairs.push(generate::write(&mut random, &tokens));
        }
        for _ in 0..2 {
            let mut changed = pair.clone();
            generate::mutate_bytes(&mut random, &mut changed.formula);
            pairs.push(changed);
            let mut changed = pair.clone();
            generate::mutate_bytes(&mut random, &mut changed.proof);
            pairs.push(changed);
        }
        // Something behind the empty clause, which nobody looks at.
        if draft.finished && pair.proof.last().is_some_and(u8::is_ascii_whitespace) {
            let mut changed = pair.clone();
            for _ in 0..random.between(1, 5) {
                changed.proof.push(random.next() as u8);
            }
            let verdict = reference::check(&changed.formula, &changed.proof);
            assert_eq!(
                (verdict.answer, verdict.step),
                expected,
                "with more behind it\n{}",
                show(&changed.formula, &changed.proof)
            );
            pairs.push(changed);
        }
        for pair in pairs {
            let fill = some_fill(&mut random);
            let verdict = compare(&mut library, &pair.formula, &pair.proof, fill);
            mutated.add(&verdict);
            if verdict.answer == 0 {
                assert_unsolvable(&pair.formula, &pair.proof);
            }
        }
    }
    valid.print(&format!("valid pairs of seeds {first_seed} to {}", first_seed + count - 1));
    mutated.print(&format!("mutated pairs of seeds {first_seed} to {}", first_seed + count - 1));
    for answer in 0..=4 {
        let seen = mutated.answers.get(&answer).copied().unwrap_or(0);
        assert!(seen >= 100, "answer {answer} occurs {seen} times only");
    }
    for ground in GROUNDS {
        let seen = mutated.grounds.get(&ground).copied().unwrap_or(0);
        assert!(seen >= 36, "the ground {ground:?} occurs {seen} times only");
    }
    assert_eq!(valid.verified_with.len(), 7);
    for (name, &seen) in &valid.verified_with {
        assert!(seen >= 100, "{seen} valid proofs only are verified with {name}");
    }
}

#[test]
fn generated_pairs_of_the_first_seeds() {
    generated(1, 6000);
}

#[test]
fn generated_pairs_of_the_next_seeds() {
    generated(1_000_001, 6000);
}

// Section 6 and 7 of the document: the reference has to give the answers that are printed there, and so has the library.

const R: &str = "p cnf 4 8\n1 2 -3 0\n-1 -2 3 0\n2 3 -4 0\n-2 -3 4 0\n-1 -3 -4 0\n1 3 4 0\n-1 2 4 0\n1 -2 -4 0\n";
const PIGEONS: &str = "p cnf 6 9\n1 2 0 3 4 0 5 6 0 -1 -3 0 -1 -5 0 -3 -5 0 -2 -4 0 -2 -6 0 -4 -6 0\n";

#[test]
fn vectors_of_the_document() {
    let vectors: &[(&str, &str, u64, u64)] = &[
        (R, "9 1 2 0 1 3 6 0 10 1 0 9 8 4 6 0 11 2 0 9 7 3 5 0 12 0 10 11 2 4 5 0", 0, 4),
        (R, "900 1 2 0 1 3 6 0 901 1 0 900 8 4 6 0 902 2 0 900 7 3 5 0 950 0 901 902 2 4 5 0", 0, 4),
        (R, "9 1 2 0 1 3 6 777 0 10 1 0 9 8 4 6 0 11 2 0 9 7 3 5 0 12 0 10 11 2 4 5 0", 0, 4),
        (R, "9 1 2 0 1 3 6 0 10 1 0 9 8 4 6 0 11 2 0 9 7 3 5 0 12 0 10 11 2 4 5 0 xyz", 0, 4),
        (R, "9 -1 0 -1 5 7 -6 2 7 -8 2 5 0 9 d 2 5 7 0 10 2 0 9 1 3 6 0 11 0 9 10 8 4 6 0", 0, 4),
        (R, "9 -1 0 -1 5 7 -6 2 7 0", 3, 1),
        (R, "9 -1 0 -6 2 7 -1 5 7 -8 2 5 0", 3, 1),
        (R, "9 1 2 0 1 3 6 0", 4, 1),
        (R, "", 4, 0),
        (R, "8 1 2 0 1 3 6 0", 3, 1),
        (R, "9 1 2 0 1 3 99 0", 3, 1),
        (R, "9 1 2 0 3 1 6 0", 3, 1),
        (R, "9 d 1 0 9 d 1 0", 3, 2),
        (R, "9 1 2 0 1 3 6", 2, 1),
        (R, "9 1 -1 0 0", 3, 1),
        (R, "9 5 -1 -2 0 0 10 -5 1 0 -9 0 11 -5 2 0 -9 0", 4, 3),
        (PIGEONS, "10 -1 0 4 2 5 3 9 0 11 0 10 1 7 2 6 3 8 0", 0, 2),
        ("p cnf 1 2\n1 1 0 -1 -1 -1 0", "3 0 1 2 0", 0, 1),
        ("p cnf 1 1\n1 0", "2 -1 0 0 3 0 1 2 0", 3, 1),
        ("p cnf 1 1\n1 0", "2 -1 0 -1 0 3 0 1 2 0", 3, 1),
        ("p cnf 0 1\n0", "", 4, 0),
        ("p cnf 0 1\n0", "2 0 1 0", 0, 1),
        // Section 7.
        ("p cnf 3 4\n1 2 0 2 0 1 3 0 -3 0", "5 -1 0 -1 2 -3 2 0 6 0 5 3 4 0", 3, 1),
        ("p cnf 2 2\n1 2 0 -1 0", "3 0 1 2 0", 3, 1),
        ("p cnf 1 1\n1 0", "1 d 1 0 2 -1 0 0 3 0 1 2 0", 3, 3),
        // Section 3, and what docs/DECISIONS.md adds to it.
        ("p cnf 0 0", "", 4, 0),
        ("p cnf 0 0\n", "", 4, 0),
        ("p cnf 1 1\n4294967297 0\n", "", 1, 0),
        ("p cnf 16777215 1\n16777215 0\n", "", 4, 0),
        ("p cnf 16777216 1\n1 0\n", "", 1, 0),
        ("p cnf 1 1\n1", "", 1, 0),
        ("p cnf 1 2\n1 0\n", "", 1, 0),
        ("p cnf 1 1\n1 0\n1 0\n", "", 1, 0),
        ("p cnf 1 1\n2 0\n", "", 1, 0),
        ("p cnf 1 2\n1 0\nc x\n-1 0\n", "", 1, 0),
        ("p cnf  1 1\n1 0\n", "", 1, 0),
        ("p cnf 1 1\n1 0\n%\n0\n", "", 1, 0),
        ("p cnf 1 1\r\n1 0\r\n", "", 1, 0),
        ("c x", "", 1, 0),
        ("p cnf 0 1\n0", "5 d 0", 4, 1),
        ("p cnf 0 1\n0", "0 d 1 0", 2, 1),
        ("p cnf 0 1\n0", "2 0 1 0xyz", 2, 1),
        ("p cnf 0 1\n0", "268435455 0 1 0", 0, 1),
        ("p cnf 0 1\n0", "268435456 0 1 0", 2, 1),
    ];
    let mut library = Library::default();
    for &(formula, proof, answer, step) in vectors {
        let verdict = compare(&mut library, formula.as_bytes(), proof.as_bytes(), Fill::Byte(0xff));
        assert_eq!((verdict.answer, verdict.step), (answer, step), "{}", show(formula.as_bytes(), proof.as_bytes()));
    }
}

// All texts of a kind.

/// Calls `each` with every list of up to `most` elements.
fn every_list<T: Copy>(elements: &[T], most: usize, each: &mut dyn FnMut(&[T])) {
    fn go<T: Copy>(elements: &[T], most: usize, list: &mut Vec<T>, each: &mut dyn FnMut(&[T])) {
        each(list);
        if list.len() < most {
            for &element in elements {
                list.push(element);
                go(elements, most, list, each);
                list.pop();
            }
        }
    }
    go(elements, most, &mut Vec::new(), each);
}

/// Bytes that mean something to a reader, and some that come close.
const TELLING: [u8; 16] = *b"0123-d \n\r\tpc+%\x0b\xff";

/// Around these texts every short text is tried.
const AROUND_FORMULA: [(&str, &str); 14] = [
    ("", ""),
    ("", "p cnf 0 0\n"),
    ("c", "p cnf 0 0\n"),
    ("p", "cnf 0 0\n"),
    ("p cnf", "1 1\n1 0\n"),
    ("p cnf ", "\n1 0\n"),
    ("p cnf 1", "1\n1 0\n"),
    ("p cnf 0 0", ""),
    ("p cnf 1 1", "1 0\n"),
    ("p cnf 1 1\n", ""),
    ("p cnf 2 2\n", " 0\n-2 0\n"),
    ("p cnf 2 2\n2", "0\n-2 0\n"),
    ("p cnf 2 2\n2 0\n-2", ""),
    ("p cnf 2 2\n2 0\n-2 0", ""),
];

const AROUND_PROOF: [(&str, &str); 12] = [
    ("", ""),
    ("", " 0 1 0"),
    ("2 ", ""),
    ("2", "0 1 0"),
    ("2 ", " 0 1 0"),
    ("2 0", "1 0"),
    ("2 0 ", " 0"),
    ("2 0 1", ""),
    ("2 0 1 0", ""),
    ("2 d", "0 3 0 1 0"),
    ("2 d ", ""),
    ("2 1 0 0", "0 2 0"),
];

fn around(before: &str, middle: &[u8], behind: &str) -> Vec<u8> {
    [before.as_bytes(), middle, behind.as_bytes()].concat()
}

/// Every short text as a formula, or in the middle of one. Where it is readable, a proof can be tried on it.
fn formulas_around(library: &mut Library, middle: &[u8], seen: &mut Distribution) {
    for (before, behind) in AROUND_FORMULA {
        let formula = around(before, middle, behind);
        for proof in ["", "2 0 1 0", "3 0 1 2 0"] {
            let verdict = compare(library, &formula, proof.as_bytes(), Fill::Byte(0xff));
            seen.add(&verdict);
            if verdict.answer == 0 {
                assert_unsolvable(&formula, proof.as_bytes());
            }
            // The formula is read first, whole, so another proof gets the same answer.
            if verdict.answer == 1 {
                break;
            }
        }
    }
}

fn proofs_around(library: &mut Library, middle: &[u8], seen: &mut Distribution) {
    for (before, behind) in AROUND_PROOF {
        let proof = around(before, middle, behind);
        seen.add(&compare(library, b"p cnf 0 1\n0", &proof, Fill::Byte(0xff)));
        let verdict = compare(library, b"p cnf 1 1\n1 0\n", &proof, Fill::Byte(0));
        seen.add(&verdict);
        assert!(verdict.answer != 0, "(1) has a solution\n{}", show(b"(1)", &proof));
    }
}

fn assert_all_answers(seen: &Distribution, answers: &[u64]) {
    for answer in answers {
        assert!(seen.answers.contains_key(answer), "the answer {answer} does not occur");
    }
}

#[test]
fn every_text_of_up_to_two_bytes() {
    let bytes: Vec<u8> = (0..=255).collect();
    let mut library = Library::default();
    let (mut formulas, mut proofs) = (Distribution::default(), Distribution::default());
    every_list(&bytes, 2, &mut |middle| {
        formulas_around(&mut library, middle, &mut formulas);
        proofs_around(&mut library, middle, &mut proofs);
    });
    formulas.print("every text of up to 2 bytes in a formula");
    proofs.print("every text of up to 2 bytes in a proof");
    assert_all_answers(&formulas, &[0, 1, 3, 4]);
    assert_all_answers(&proofs, &[0, 2, 3, 4]);
}

#[test]
fn every_text_of_up_to_four_telling_bytes() {
    let mut library = Library::default();
    let (mut formulas, mut proofs) = (Distribution::default(), Distribution::default());
    every_list(&TELLING, 4, &mut |middle| {
        // Shorter ones are among those of up to two bytes.
        if middle.len() > 2 {
            formulas_around(&mut library, middle, &mut formulas);
            proofs_around(&mut library, middle, &mut proofs);
        }
    });
    formulas.print("every text of 3 or 4 telling bytes in a formula");
    proofs.print("every text of 3 or 4 telling bytes in a proof");
    assert_all_answers(&formulas, &[0, 1, 3, 4]);
    assert_all_answers(&proofs, &[0, 2, 3, 4]);
}

#[test]
fn every_proof_of_up_to_seven_bytes_of_six() {
    // The shortest proof that is verified has seven bytes: 2 0 1 0 for the formula with the empty clause alone.
    let mut library = Library::default();
    let mut seen = Distribution::default();
    every_list(b"012 -d", 7, &mut |proof| seen.add(&compare(&mut library, b"p cnf 0 1\n0\n", proof, Fill::Byte(0xff))));
    seen.print("every proof of up to 7 bytes out of 6");
    assert_all_answers(&seen, &[0, 2, 3, 4]);
}

#[test]
fn every_short_proof_as_tokens() {
    // Behind each of these beginnings, every list of up to six tokens.
    let beginnings = [
        ("p cnf 1 2\n1 0\n-1 0\n", ""),
        ("p cnf 1 2\n1 1 0\n-1 1 0\n", ""),
        ("p cnf 2 2\n1 2 0\n-1 0\n", ""),
        ("p cnf 1 1\n1 0\n", "2 -1 0 "),
        ("p cnf 2 3\n1 2 0\n1 -2 0\n-1 0\n", "4 "),
        ("p cnf 2 2\n1 2 0\n-1 2 0\n", "3 2 0 "),
        ("p cnf 2 3\n1 2 0\n-1 2 0\n-2 -2 0\n", "4 1 0 "),
    ];
    let mut library = Library::default();
    let mut seen = Distribution::default();
    for (formula, before) in beginnings {
        every_list(&["0", "1", "2", "3", "4", "-1", "-2", "d"], 6, &mut |tokens| {
            let proof = format!("{before}{}", tokens.join(" "));
            let verdict = compare(&mut library, formula.as_bytes(), proof.as_bytes(), Fill::Byte(0xff));
            seen.add(&verdict);
            if verdict.answer == 0 {
                assert_unsolvable(formula.as_bytes(), proof.as_bytes());
            }
        });
    }
    seen.print("every short proof as tokens");
    assert_all_answers(&seen, &[0, 2, 3, 4]);
}

// Stores of every length.

/// Small pairs, one for each ground and some that are verified, so that every way to an answer is tried with short stores.
fn small_pairs() -> Vec<(Pair, Verdict)> {
    let mut wanted: BTreeMap<Option<Ground>, u64> = GROUNDS.iter().map(|&ground| (Some(ground), 2)).collect();
    wanted.insert(None, 12);
    let mut pairs = Vec::new();
    for (draft, mut random) in drafts(2_000_001, 20_000) {
        if draft.steps.len() < 2 || draft.clauses.len() < 2 {
            continue;
        }
        let mut changed = draft.clone();
        generate::mutate_steps(&mut random, &mut changed);
        let mut tokens = generate::tokens(&draft);
        generate::mutate_formula_tokens(&mut random, &mut tokens);
        let mut torn = generate::tokens(&draft);
        generate::mutate_proof_tokens(&mut random, &mut torn);
        let mut cut = written(&mut random, &draft);
        generate::mutate_bytes(&mut random, &mut cut.formula);
        let candidates = [
            written(&mut random, &draft),
            written(&mut random, &changed),
            generate::write(&mut random, &tokens),
            generate::write(&mut random, &torn),
            cut,
        ];
        for pair in candidates {
            let verdict = reference::check(&pair.formula, &pair.proof);
            let size = pair.formula.len() + pair.proof.len();
            // Pairs with the greatest variables would need millions of lengths to go through.
            let left = wanted.get_mut(&verdict.ground).expect("every ground has an entry");
            if *left > 0 && (60..400).contains(&size) && verdict.greatest_variable < 100 {
                *left -= 1;
                pairs.push((pair, verdict));
            }
        }
        if wanted.values().all(|&left| left == 0) {
            return pairs;
        }
    }
    panic!("no small pair was found for some of {wanted:?}");
}

/// A part of the store, by its name and where its length stands.
type PartOf = (&'static str, fn(&mut Lengths) -> &mut usize);

const PARTS: [PartOf; 6] = [
    ("heads", |lengths| &mut lengths.heads),
    ("lits", |lengths| &mut lengths.lits),
    ("hints", |lengths| &mut lengths.hints),
    ("guess", |lengths| &mut lengths.guess),
    ("marks", |lengths| &mut lengths.marks),
    ("tape", |lengths| &mut lengths.tape),
];

#[test]
fn stores_of_every_length() {
    let pairs = small_pairs();
    let mut library = Library::default();
    let mut too_short: BTreeMap<&str, u64> = BTreeMap::new();
    let mut right: BTreeMap<&str, u64> = BTreeMap::new();
    let mut random = Random::new(7);
    for (Pair { formula, proof }, verdict) in &pairs {
        let expected = (verdict.answer, verdict.step);
        let stated = Lengths::stated(formula.len(), proof.len(), verdict.greatest_variable);
        for (name, part) in PARTS {
            let enough = *part(&mut stated.clone());
            for length in 0..enough + 4 {
                let mut lengths = stated;
                *part(&mut lengths) = length;
                for fill in [Fill::Byte(0), Fill::Byte(0xff), some_fill(&mut random)] {
                    let answer = library.check(formula, proof, lengths, fill);
                    // Any table of guesses does, also none; the other parts do from the stated length on.
                    if answer == (5, 0) && length < enough && name != "guess" {
                        *too_short.entry(name).or_default() += 1;
                        continue;
                    }
                    assert_eq!(answer, expected, "{lengths:?}, {fill:?}\n{}", show(formula, proof));
                    if length < enough {
                        *right.entry(name).or_default() += 1;
                    }
                }
            }
        }
        // Several parts too short, or too long, at a time.
        for _ in 0..500 {
            let mut lengths = stated;
            for (_, part) in PARTS {
                let length = part(&mut lengths);
                *length = random.below(*length + 9);
            }
            let answer = library.check(formula, proof, lengths, some_fill(&mut random));
            if answer == (5, 0) {
                *too_short.entry("several parts").or_default() += 1;
            } else {
                assert_eq!(answer, expected, "{lengths:?}\n{}", show(formula, proof));
                *right.entry("several parts").or_default() += 1;
            }
        }
    }
    say(&format!(
        "stores of {} pairs, shorter than stated: too short {too_short:?}, right all the same {right:?}",
        pairs.len()
    ));
    for name in ["heads", "lits", "hints", "marks", "tape", "several parts"] {
        assert!(too_short.get(name).is_some_and(|&count| count > 0), "a short store was never too short in {name}");
        assert!(right.get(name).is_some_and(|&count| count > 0), "a shorter store never did in {name}");
    }
}

#[test]
fn long_proofs_need_no_more_than_their_live_clauses() {
    let mut library = Library::default();
    let mut seen = Distribution::default();
    let (mut shorter, mut too_short, mut right) = (0, 0, 0);
    for seed in 6_000_001..6_000_301 {
        let mut random = Random::new(seed);
        let draft = generate::long_draft(&mut random);
        let Pair { formula, proof } = written(&mut random, &draft);
        let verdict = compare(&mut library, &formula, &proof, some_fill(&mut random));
        assert_eq!(
            (verdict.answer, verdict.step),
            (if draft.finished { 0 } else { 4 }, draft.steps.len() as u64),
            "{}",
            show(&formula, &proof)
        );
        seen.add(&verdict);
        let expected = (verdict.answer, verdict.step);
        let enough = Lengths::by_live_clauses(formula.len(), &verdict);
        let stated = Lengths::stated(formula.len(), proof.len(), verdict.greatest_variable);
        shorter += u64::from(2 * enough.heads < stated.heads && 2 * enough.lits < stated.lits);
        for _ in 0..4 {
            let answer = library.check(&formula, &proof, enough, some_fill(&mut random));
            assert_eq!(answer, expected, "{enough:?}\n{}", show(&formula, &proof));
        }
        for (_, part) in PARTS {
            let most = *part(&mut enough.clone());
            for _ in 0..40 {
                let mut lengths = enough;
                *part(&mut lengths) = random.below(most + 1);
                let answer = library.check(&formula, &proof, lengths, some_fill(&mut random));
                if answer == (5, 0) {
                    too_short += 1;
                } else {
                    assert_eq!(answer, expected, "{lengths:?}\n{}", show(&formula, &proof));
                    right += 1;
                }
            }
        }
    }
    seen.print("long proofs with many deletions");
    say(&format!("  {shorter} with a store by the live clauses that is less than half of the stated one"));
    say(&format!("  with less than that: {too_short} times too short, {right} times right"));
    assert!(shorter >= 100, "only {shorter} proofs are long beside their live clauses");
    assert!(too_short > 0 && right > 0);
}

#[test]
fn pigeons_by_new_names() {
    let mut library = Library::default();
    let mut random = Random::new(13);
    let mut seen = Distribution::default();
    for holes in 1..=8 {
        let formula = reference::write_formula(&families::pigeons(holes));
        let (proof, steps) = families::pigeons_by_new_names(holes);
        let verdict = compare(&mut library, &formula, proof.as_bytes(), some_fill(&mut random));
        assert_eq!((verdict.answer, verdict.step), (0, steps), "{holes} holes: {verdict:?}");
        say(&format!("{} pigeons by new names: {} bytes, {:?}", holes + 1, proof.len(), verdict.accepted));
        assert_eq!(verdict.accepted.by_groups > 0, holes > 1);
        for _ in 0..400 / holes {
            let mut changed = proof.clone().into_bytes();
            generate::mutate_text(&mut random, &mut changed);
            seen.add(&compare(&mut library, &formula, &changed, Fill::Byte(0xff)));
        }
    }
    seen.print("pigeons by new names, changed");
    assert_all_answers(&seen, &[0, 2, 3, 4]);
}

// Damaged files.

#[test]
fn good_pairs_cut_at_every_byte() {
    let mut library = Library::default();
    let mut seen = Distribution::default();
    let mut pairs = 0;
    for (draft, mut random) in drafts(3_000_001, 1000) {
        if !draft.finished {
            continue;
        }
        pairs += 1;
        let Pair { formula, proof } = written(&mut random, &draft);
        for length in 0..formula.len() {
            let verdict = compare(&mut library, &formula[..length], &proof, Fill::Byte(0xff));
            seen.add(&verdict);
            // A cut may take away blanks at the end; any other leaves no formula that is readable.
            let whole = formula[length..].iter().all(u8::is_ascii_whitespace);
            assert_eq!(verdict.answer, if whole { 0 } else { 1 }, "cut at {length}\n{}", show(&formula, &proof));
        }
        for length in 0..proof.len() {
            let verdict = compare(&mut library, &formula, &proof[..length], Fill::Byte(0xff));
            seen.add(&verdict);
            let whole = proof[length..].iter().all(u8::is_ascii_whitespace);
            assert!(
                whole == (verdict.answer == 0) && [0, 2, 4].contains(&verdict.answer),
                "cut at {length}\n{}",
                show(&formula, &proof)
            );
        }
    }
    seen.print(&format!("{pairs} good pairs cut at every byte"));
    assert_all_answers(&seen, &[0, 1, 2, 4]);
}

// Writing.

/// Holds what the library writes, into an output with some room to spare, to what the reference writes.
fn compare_written(library: &mut Library, formula: &[u8], fill: u8) -> Option<Vec<u8>> {
    let (heads, lits) = to_write(formula.len());
    let wanted = reference::read_formula(formula).ok().map(|read| reference::write_formula(&read));
    let room = wanted.as_ref().map_or(40, Vec::len) + 3;
    let written = library.write(formula, heads, lits, room, fill);
    match &wanted {
        None => {
            assert_eq!(written.answer, 1, "an unreadable formula\n{}", show(formula, b""));
            assert!(written.length <= formula.len() as u64, "a place beyond the formula\n{}", show(formula, b""));
            assert!(written.out.iter().all(|&byte| byte == fill), "an unreadable formula was written\n{}", show(formula, b""));
        }
        Some(text) => {
            assert_eq!((written.answer, written.length), (0, text.len() as u64), "{}", show(formula, b""));
            let (whole, rest) = written.out.split_at(text.len());
            assert!(whole == text, "written as \"{}\"\n{}", whole.escape_ascii(), show(formula, b""));
            assert!(rest.iter().all(|&byte| byte == fill), "more was written than the formula\n{}", show(formula, b""));
        }
    }
    wanted
}

#[test]
fn formulas_are_written_as_they_were_read() {
    let mut library = Library::default();
    let (mut readable, mut unreadable) = (0, 0);
    for (draft, mut random) in drafts(4_000_001, 4000) {
        let mut tokens = generate::tokens(&draft);
        let good = generate::write(&mut random, &tokens).formula;
        generate::mutate_formula_tokens(&mut random, &mut tokens);
        let changed = generate::write(&mut random, &tokens).formula;
        let mut damaged = good.clone();
        generate::mutate_bytes(&mut random, &mut damaged);
        for formula in [good, changed, damaged] {
            let fill = random.next() as u8;
            match compare_written(&mut library, &formula, fill) {
                None => unreadable += 1,
                Some(text) => {
                    readable += 1;
                    // What was written is readable, and is written the same again.
                    assert_eq!(compare_written(&mut library, &text, fill), Some(text));
                }
            }
        }
    }
    every_list(&TELLING, 4, &mut |middle| {
        for (before, behind) in AROUND_FORMULA {
            match compare_written(&mut library, &around(before, middle, behind), 0x55) {
                None => unreadable += 1,
                Some(_) => readable += 1,
            }
        }
    });
    say(&format!("written: {readable} formulas as they were read, {unreadable} unreadable ones not at all"));
    assert!(readable > 1000 && unreadable > 1000);
}

#[test]
fn an_output_or_store_that_is_too_short_leaves_the_output_alone() {
    let mut library = Library::default();
    let (mut tried, mut store_too_short) = (0, 0);
    for (draft, mut random) in drafts(5_000_001, 400) {
        let formula = written(&mut random, &draft).formula;
        let text = reference::write_formula(&reference::read_formula(&formula).expect("a draft is readable"));
        let (heads, lits) = to_write(formula.len());
        let fill = random.next() as u8;
        for length in 0..text.len() {
            let result = library.write(&formula, heads, lits, length, fill);
            assert_eq!(result.answer, 6, "an output of {length} bytes\n{}", show(&formula, b""));
            assert!(
                result.out.iter().all(|&byte| byte == fill),
                "an output of {length} bytes was touched\n{}",
                show(&formula, b"")
            );
            tried += 1;
        }
        let result = library.write(&formula, heads, lits, text.len(), fill);
        assert_eq!((result.answer, result.length, &result.out), (0, text.len() as u64, &text), "{}", show(&formula, b""));
        let shorter = (0..heads).map(|heads| (heads, lits)).chain((0..lits).map(|lits| (heads, lits)));
        for (heads, lits) in shorter {
            let result = library.write(&formula, heads, lits, text.len(), fill);
            if result.answer == 5 {
                store_too_short += 1;
                assert!(
                    result.out.iter().all(|&byte| byte == fill),
                    "with a short store, the output was touched\n{}",
                    show(&formula, b"")
                );
            } else {
                assert_eq!(
                    (result.answer, result.length, &result.out),
                    (0, text.len() as u64, &text),
                    "{}",
                    show(&formula, b"")
                );
            }
        }
    }
    say(&format!("too short to write: {tried} outputs, {store_too_short} stores"));
    assert!(store_too_short > 0, "no store was too short to write");
}
