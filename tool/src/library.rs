//! The boundary to the proved library, as include/proofscale.h has it, and a safe wrapper for each of its two functions.
//!
//! What the boundary needs: pointers that are aligned and not NULL, slices that are initialised, and none that is written to
//! overlapping another. Rust's slices and the borrows of the wrappers' arguments give all of that, so there is nothing left to
//! be checked at run time on the way in. On the way out it is checked that the answer is one that the header knows; if it is
//! not, the tool stops (a fault of our own, status 70). The wrappers make no judgement of their own.

use crate::store::Store;

extern "C" {
    fn proofscale_check(
        formula: *const u8,
        formula_length: usize,
        proof: *const u8,
        proof_length: usize,
        heads: *mut u32,
        heads_length: usize,
        lits: *mut u32,
        lits_length: usize,
        hints: *mut u32,
        hints_length: usize,
        guess: *mut u32,
        guess_length: usize,
        marks: *mut u8,
        marks_length: usize,
        tape: *mut u32,
        tape_length: usize,
        step: *mut u64,
        turns: *mut u64,
    ) -> u64;

    fn proofscale_write(
        formula: *const u8,
        formula_length: usize,
        heads: *mut u32,
        heads_length: usize,
        lits: *mut u32,
        lits_length: usize,
        out: *mut u8,
        out_length: usize,
        length: *mut u64,
    ) -> u64;
}

/// The answers of document 01, section 1, by their numbers.
pub const VERIFIED: u8 = 0;
pub const UNREADABLE_FORMULA: u8 = 1;
pub const UNREADABLE_STEP: u8 = 2;
pub const REFUSED: u8 = 3;
pub const UNFINISHED: u8 = 4;
pub const TOO_SHORT: u8 = 5;

/// What the library answers: the number of document 01, 0 to 5; the step that comes with 0, 2, 3 and 4, else 0; and how many
/// turns its loops made.
#[derive(Debug, Clone, Copy, PartialEq, Eq)]
pub struct Answer {
    pub answer: u8,
    pub step: u64,
    pub turns: u64,
}

impl Answer {
    /// The step, for the answers that come with one.
    pub fn step_if_any(&self) -> Option<u64> {
        match self.answer {
            UNREADABLE_FORMULA | TOO_SHORT => None,
            _ => Some(self.step),
        }
    }
}

/// Checks the bytes of a proof against the bytes of a formula. What the store holds before does not matter.
pub fn check(formula: &[u8], proof: &[u8], store: &mut Store) -> Answer {
    let mut step = 0;
    let mut turns = 0;
    // Safety: each pointer comes with the length of its own slice, the slices are initialised, those that are written to are
    // borrowed mutably and so overlap nothing, and all of them outlive the call.
    let answer = unsafe {
        proofscale_check(
            formula.as_ptr(),
            formula.len(),
            proof.as_ptr(),
            proof.len(),
            store.heads.as_mut_ptr(),
            store.heads.len(),
            store.lits.as_mut_ptr(),
            store.lits.len(),
            store.hints.as_mut_ptr(),
            store.hints.len(),
            store.guess.as_mut_ptr(),
            store.guess.len(),
            store.marks.as_mut_ptr(),
            store.marks.len(),
            store.tape.as_mut_ptr(),
            store.tape.len(),
            &mut step,
            &mut turns,
        )
    };
    assert!(answer <= u64::from(TOO_SHORT), "the library answered {answer}, which the header does not know");
    Answer { answer: answer as u8, step, turns }
}

/// What writing a formula comes to: so many bytes were written; or nothing was, and why.
#[derive(Debug, Clone, Copy, PartialEq, Eq)]
pub enum Written {
    Whole { length: usize },
    Unreadable { at: usize },
    StoreTooShort,
    OutputTooShort,
}

/// Reads a formula and writes it to the start of `out`; on a refusal `out` stays as it was. Of the store only the heads and the
/// literals are used.
pub fn write(formula: &[u8], store: &mut Store, out: &mut [u8]) -> Written {
    let mut length = 0;
    // Safety: as in `check`; `out` is borrowed mutably and overlaps nothing.
    let answer = unsafe {
        proofscale_write(
            formula.as_ptr(),
            formula.len(),
            store.heads.as_mut_ptr(),
            store.heads.len(),
            store.lits.as_mut_ptr(),
            store.lits.len(),
            out.as_mut_ptr(),
            out.len(),
            &mut length,
        )
    };
    match answer {
        0 => Written::Whole { length: place_within(length, out.len()) },
        1 => Written::Unreadable { at: place_within(length, formula.len()) },
        5 => Written::StoreTooShort,
        6 => Written::OutputTooShort,
        other => panic!("the library answered {other} to a formula to write, which the header does not know"),
    }
}

/// A place that the library gave, which has to lie within the slice that it speaks of.
fn place_within(place: u64, length: usize) -> usize {
    assert!(place <= length as u64, "the library gave the place {place} in {length} bytes");
    place as usize
}
