//! The places that the tool tells, held against the library's answers: wherever the library finds a fault, the second pass finds one
//! too, in the step that the library named; and it finds none in steps that the library could read.
//!
//! The files are those of document 01, cut at every byte and changed at random with fixed seeds.

use proofscale_tool::check::{judge, Limit, Outcome, Reason, Trouble};
use proofscale_tool::library;
use proofscale_tool::locate;
use proofscale_tool::progress::Progress;

const R: &str = "c R\np cnf 4 8\n1 2 -3 0\n-1 -2 3 0\n2 3 -4 0\n-2 -3 4 0\n-1 -3 -4 0\n1 3 4 0\n-1 2 4 0\n1 -2 -4 0\n";
const PROOFS: [&str; 2] = [
    "9 1 2 0 1 3 6 0\n10 1 0 9 8 4 6 0\n11 2 0 9 7 3 5 0\n12 0 10 11 2 4 5 0\n",
    "9 -1 0 -1 5 7 -6 2 7 -8 2 5 0\n9 d 2 5 7 0\n10 2 0 9 1 3 6 0\n11 0 9 10 8 4 6 0\n",
];

/// Numbers at random, by a fixed seed (xorshift).
struct Random(u64);

impl Random {
    fn below(&mut self, limit: usize) -> usize {
        self.0 ^= self.0 << 13;
        self.0 ^= self.0 >> 7;
        self.0 ^= self.0 << 17;
        (self.0 % limit as u64) as usize
    }
}

fn outcome(formula: &[u8], proof: &[u8]) -> Outcome {
    judge(formula, proof, Limit { bytes: u64::MAX, reason: Reason::Unknown }, &Progress::start(false))
}

/// Checks the pair, and that the place fits the answer. Returns the answer.
fn placed(formula: &[u8], proof: &[u8]) -> u8 {
    let outcome = outcome(formula, proof);
    let files = format!("{:?} {:?} {outcome:?}", String::from_utf8_lossy(formula), String::from_utf8_lossy(proof));
    let step = outcome.answer.step;
    match (outcome.answer.answer, &outcome.trouble) {
        (library::UNREADABLE_FORMULA, Trouble::InFormula { place, fault }) => {
            assert!(place.byte == fault.at && fault.at <= formula.len(), "{files}");
        }
        (library::UNREADABLE_STEP, Trouble::InStep { begins, fault: Some((place, _)) }) => {
            assert!(begins.byte <= place.byte && place.byte <= proof.len(), "{files}");
            assert_eq!(locate::step_start(proof, step), Some(begins.byte), "{files}");
        }
        (library::REFUSED, Trouble::InStep { begins, fault: None }) => {
            assert!(begins.byte < proof.len(), "{files}");
            assert!(locate::in_step(proof, step).is_some_and(|place| place.fault.is_none()), "{files}");
        }
        (library::VERIFIED | library::UNFINISHED, Trouble::None) => {}
        _ => panic!("the place does not fit the answer: {files}"),
    }
    let readable = if outcome.answer.answer == library::UNREADABLE_STEP { step.saturating_sub(1) } else { step };
    for step in 1..=readable {
        assert!(locate::in_step(proof, step).is_some_and(|place| place.fault.is_none()), "step {step}: {files}");
    }
    outcome.answer.answer
}

#[test]
fn files_cut_at_every_byte() {
    for proof in PROOFS {
        for end in 0..=proof.len() {
            placed(R.as_bytes(), &proof.as_bytes()[..end]);
        }
        for end in 0..=R.len() {
            placed(&R.as_bytes()[..end], proof.as_bytes());
        }
    }
}

/// Some bytes of the text are replaced, left out or put in.
fn changed(text: &str, random: &mut Random) -> Vec<u8> {
    const BYTES: &[u8] = b"0123456789-- \n\t\rdcp%+x\0\xff";
    let mut bytes = text.as_bytes().to_vec();
    for _ in 0..1 + random.below(3) {
        let at = random.below(bytes.len());
        let byte = BYTES[random.below(BYTES.len())];
        match random.below(3) {
            0 => bytes[at] = byte,
            1 => bytes.insert(at, byte),
            _ => drop(bytes.remove(at)),
        }
    }
    bytes
}

#[test]
fn files_changed_at_random() {
    let mut random = Random(0x9e37_79b9_7f4a_7c15);
    let mut answers = [0; 6];
    for round in 0..40_000 {
        let proof = PROOFS[round % 2];
        let answer = if round % 4 < 2 {
            placed(&changed(R, &mut random), proof.as_bytes())
        } else {
            placed(R.as_bytes(), &changed(proof, &mut random))
        };
        answers[usize::from(answer)] += 1;
    }
    println!("answers 0 to 5: {answers:?}");
    // A proof that only lacks its end is seldom come by at random; the cut ones above are many.
    assert!(answers[..4].iter().all(|&n| n > 100), "{answers:?}");
}
