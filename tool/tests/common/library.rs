//! The proved library, called through the C boundary that include/proofscale.h describes.
//!
//! Every call here lends the store with guards on both sides of each part, so that a write beyond what was lent is seen, and
//! fills the store with what the caller wants, since what it holds before must not matter.

use super::generate::Random;
use super::reference::Verdict;

// The package's build script hands the library to the linker for every test, whether or not it uses the rest of the package.
extern "C" {
    fn proofscale_check(
        formula: *const u8,
        formula_length: usize,
        proof: *const u8,
        proof_length: usize,
        heads: *mut u32,
        heads_length: usize,
        lits: *mut u32,
        lits_length: usize,
        hints: *mut u32,
        hints_length: usize,
        guess: *mut u32,
        guess_length: usize,
        marks: *mut u8,
        marks_length: usize,
        tape: *mut u32,
        tape_length: usize,
        step: *mut u64,
        turns: *mut u64,
    ) -> u64;

    fn proofscale_write(
        formula: *const u8,
        formula_length: usize,
        heads: *mut u32,
        heads_length: usize,
        lits: *mut u32,
        lits_length: usize,
        out: *mut u8,
        out_length: usize,
        length: *mut u64,
    ) -> u64;
}

/// How many elements on each side of a part no call may touch, and what their bytes are.
const GUARD: usize = 8;
const GUARD_BYTE: u8 = 0xa5;

/// One part of the store, with its guards.
#[derive(Default)]
struct Part<T> {
    all: Vec<T>,
    length: usize,
}

/// What a part of the store holds before a call.
#[derive(Clone, Copy, Debug)]
pub enum Fill {
    /// The same byte everywhere.
    Byte(u8),
    /// Any numbers.
    Any(u64),
    /// Numbers up to this one, which look like places in the store, or like marks.
    Small(u64, u32),
}

/// An element of a part.
pub trait Element: Copy + PartialEq + Default {
    /// The element that has this byte everywhere.
    fn of_byte(byte: u8) -> Self;
    /// The low bits of a number.
    fn of_number(number: u64) -> Self;
}

impl Element for u8 {
    fn of_byte(byte: u8) -> u8 {
        byte
    }

    fn of_number(number: u64) -> u8 {
        number as u8
    }
}

impl Element for u32 {
    fn of_byte(byte: u8) -> u32 {
        u32::from_ne_bytes([byte; 4])
    }

    fn of_number(number: u64) -> u32 {
        number as u32
    }
}

impl Element for u64 {
    fn of_byte(byte: u8) -> u64 {
        u64::from_ne_bytes([byte; 8])
    }

    fn of_number(number: u64) -> u64 {
        number
    }
}

impl<T: Element> Part<T> {
    /// Makes `length` elements ready, with fresh guards around them.
    fn prepare(&mut self, length: usize, fill: Fill) -> *mut T {
        self.length = length;
        self.all.clear();
        self.all.resize(GUARD, T::of_byte(GUARD_BYTE));
        match fill {
            Fill::Byte(byte) => self.all.resize(GUARD + length, T::of_byte(byte)),
            Fill::Any(seed) => {
                let mut random = Random::new(seed);
                self.all.resize_with(GUARD + length, || T::of_number(random.next()));
            }
            Fill::Small(seed, most) => {
                let mut random = Random::new(seed);
                self.all.resize_with(GUARD + length, || T::of_number(random.next() % (u64::from(most) + 1)));
            }
        }
        self.all.resize(GUARD + length + GUARD, T::of_byte(GUARD_BYTE));
        self.all[GUARD..].as_mut_ptr()
    }

    fn assert_guards(&self, name: &str) {
        let (before, behind) = (&self.all[..GUARD], &self.all[GUARD + self.length..]);
        assert!(
            before.iter().chain(behind).all(|&element| element == T::of_byte(GUARD_BYTE)),
            "the library wrote beyond {name}"
        );
    }

    fn lent(&self) -> &[T] {
        &self.all[GUARD..GUARD + self.length]
    }
}

/// The lengths of the six parts of the work store.
#[derive(Clone, Copy, Debug, PartialEq, Eq)]
pub struct Lengths {
    pub heads: usize,
    pub lits: usize,
    pub hints: usize,
    pub guess: usize,
    pub marks: usize,
    pub tape: usize,
}

impl Lengths {
    /// The lengths that the header says always do, with a table of guesses that has room for some clauses.
    pub fn stated(formula: usize, proof: usize, greatest_variable: u64) -> Lengths {
        Lengths {
            heads: (3 * (formula + proof) + 12) / 2,
            lits: (formula + proof + 3) / 2,
            hints: (proof + 2) / 2,
            guess: (formula + proof) / 8,
            marks: 2 * greatest_variable as usize + 2,
            tape: formula + proof + 2,
        }
    }

    /// The lengths that do for a proof of any length, by the live clauses and the longest step: a store that has room for the
    /// formula as it is read, then for the live clauses and as much again for deleted ones, and for the step at hand.
    pub fn by_live_clauses(formula: usize, verdict: &Verdict) -> Lengths {
        let (kept, step) = (2 * verdict.greatest_weight, verdict.greatest_step);
        Lengths {
            heads: ((3 * formula + 10) / 2).max(3 * kept + 6),
            lits: formula.div_ceil(2).max(kept + step + 1),
            hints: step + 1,
            guess: verdict.greatest_weight / 2,
            marks: 2 * verdict.greatest_variable as usize + 2,
            tape: kept + 2 * step,
        }
    }
}

/// How much of the store always does to write a formula of so many bytes, in `heads` and in `lits`.
pub fn to_write(formula: usize) -> (usize, usize) {
    ((3 * formula + 10) / 2, formula.div_ceil(2))
}

/// The store that the calls use, kept from one to the next only to spare asking for memory.
#[derive(Default)]
pub struct Library {
    heads: Part<u32>,
    lits: Part<u32>,
    hints: Part<u32>,
    guess: Part<u32>,
    marks: Part<u8>,
    tape: Part<u32>,
    out: Part<u8>,
    texts: [Part<u8>; 2],
}

/// What proofscale_write gave back.
#[derive(Clone, Debug, PartialEq, Eq)]
pub struct Written {
    pub answer: u64,
    pub length: u64,
    /// The whole of the output that was lent.
    pub out: Vec<u8>,
}

impl Library {
    /// The answer and the step of proofscale_check, with a store of the given lengths that is filled as said.
    ///
    /// Fails if the formula, the proof or anything around what was lent is not as it was.
    pub fn check(&mut self, formula: &[u8], proof: &[u8], lengths: Lengths, fill: Fill) -> (u64, u64) {
        let (mut step, mut turns) = (u64::MAX, u64::MAX);
        let formula_lent = self.texts[0].lend(formula);
        let proof_lent = self.texts[1].lend(proof);
        // SAFETY: Each pointer is aligned, not null, and followed by as many initialised elements as is said; all of them lie
        // in vectors of their own, which nobody touches before the call is over.
        let answer = unsafe {
            proofscale_check(
                formula_lent,
                formula.len(),
                proof_lent,
                proof.len(),
                self.heads.prepare(lengths.heads, fill),
                lengths.heads,
                self.lits.prepare(lengths.lits, fill),
                lengths.lits,
                self.hints.prepare(lengths.hints, fill),
                lengths.hints,
                self.guess.prepare(lengths.guess, fill),
                lengths.guess,
                self.marks.prepare(lengths.marks, fill),
                lengths.marks,
                self.tape.prepare(lengths.tape, fill),
                lengths.tape,
                &mut step,
                &mut turns,
            )
        };
        self.assert_guards();
        assert!(self.texts[0].lent() == formula, "the library changed the formula");
        assert!(self.texts[1].lent() == proof, "the library changed the proof");
        assert!(step != u64::MAX && turns != u64::MAX, "the library did not say the step or the turns");
        (answer, step)
    }

    /// What proofscale_write, with a store full of the same byte, does with an output of `out_length` bytes that all hold `fill`.
    pub fn write(&mut self, formula: &[u8], heads: usize, lits: usize, out_length: usize, fill: u8) -> Written {
        let mut length = u64::MAX;
        let formula_lent = self.texts[0].lend(formula);
        // SAFETY: The same holds here as in `check`.
        let answer = unsafe {
            proofscale_write(
                formula_lent,
                formula.len(),
                self.heads.prepare(heads, Fill::Byte(fill)),
                heads,
                self.lits.prepare(lits, Fill::Byte(fill)),
                lits,
                self.out.prepare(out_length, Fill::Byte(fill)),
                out_length,
                &mut length,
            )
        };
        self.heads.assert_guards("heads");
        self.lits.assert_guards("lits");
        self.out.assert_guards("the output");
        self.texts[0].assert_guards("the formula");
        assert!(self.texts[0].lent() == formula, "the library changed the formula");
        Written { answer, length, out: self.out.lent().to_vec() }
    }

    fn assert_guards(&self) {
        self.heads.assert_guards("heads");
        self.lits.assert_guards("lits");
        self.hints.assert_guards("hints");
        self.guess.assert_guards("guess");
        self.marks.assert_guards("marks");
        self.tape.assert_guards("tape");
        self.texts[0].assert_guards("the formula");
        self.texts[1].assert_guards("the proof");
    }
}

impl Part<u8> {
    /// Makes a copy of a text ready, with guards around it.
    fn lend(&mut self, text: &[u8]) -> *const u8 {
        self.prepare(text.len(), Fill::Byte(0));
        self.all[GUARD..GUARD + text.len()].copy_from_slice(text);
        self.all[GUARD..].as_ptr()
    }
}
