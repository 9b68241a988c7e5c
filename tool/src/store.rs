//! The work store: its six parts, how long they are made at first, and how they grow when the library says "too short".
//!
//! The first lengths are a guess at what is alive at a time; the last ones are those of include/proofscale.h that always do.
//! Memory is asked for as zeroed pages, which the system hands out only when they are touched, so length alone costs nothing.
//! What the header of the formula announces is used here as a hint for lengths and for nothing else: a wrong hint costs a
//! run, and no answer depends on it.

use std::alloc::{alloc_zeroed, Layout};
use std::mem::size_of;

/// Variables go up to this number (document 01, section 2).
pub const GREATEST_VARIABLE: usize = 16_777_215;

/// The numbers that the library has for each clause, beside those for its literals.
const HEAD: usize = 3;

/// No part is made shorter than this at first, unless a shorter one always does.
const FEW: usize = 256;

/// The lengths of the six parts, in numbers and not in bytes.
#[derive(Debug, Clone, Copy, PartialEq, Eq, Default)]
pub struct Sizes {
    pub heads: usize,
    pub lits: usize,
    pub hints: usize,
    pub guess: usize,
    pub marks: usize,
    pub tape: usize,
}

impl Sizes {
    /// The lengths in bytes, all together.
    pub fn bytes(&self) -> u64 {
        self.parts().iter().map(|part| part.bytes()).sum()
    }

    /// The parts with their names and the size of a number in each.
    pub fn parts(&self) -> [Part; 6] {
        [
            Part { name: "heads", length: self.heads, width: size_of::<u32>() },
            Part { name: "lits", length: self.lits, width: size_of::<u32>() },
            Part { name: "hints", length: self.hints, width: size_of::<u32>() },
            Part { name: "guess", length: self.guess, width: size_of::<u32>() },
            Part { name: "marks", length: self.marks, width: size_of::<u8>() },
            Part { name: "tape", length: self.tape, width: size_of::<u32>() },
        ]
    }

    /// Each length made of the two lengths of one part.
    fn with(self, other: Sizes, f: impl Fn(usize, usize) -> usize) -> Sizes {
        Sizes {
            heads: f(self.heads, other.heads),
            lits: f(self.lits, other.lits),
            hints: f(self.hints, other.hints),
            guess: f(self.guess, other.guess),
            marks: f(self.marks, other.marks),
            tape: f(self.tape, other.tape),
        }
    }

    /// Twice as long, but no part longer than it is of use.
    fn doubled(self, most: Sizes) -> Sizes {
        self.with(most, |now, most| now.saturating_mul(2).max(FEW).min(most))
    }

    /// As far on the way to `goal` as the bytes allow; no part becomes shorter than here.
    fn towards(self, goal: Sizes, bytes: u64) -> Sizes {
        let have = self.bytes();
        let want = goal.bytes().saturating_sub(have).max(1);
        let more = bytes.saturating_sub(have).min(want);
        // Each part goes the same share of its way, rounded down.
        self.with(goal, |now, goal| {
            let way = goal.saturating_sub(now) as u128 * u128::from(more) / u128::from(want);
            now + way as usize
        })
    }
}

/// One part of the store: its name in the header, how many numbers it has, and the bytes of a number.
#[derive(Debug, Clone, Copy, PartialEq, Eq)]
pub struct Part {
    pub name: &'static str,
    pub length: usize,
    pub width: usize,
}

impl Part {
    pub fn bytes(&self) -> u64 {
        (self.length as u64).saturating_mul(self.width as u64)
    }
}

/// What the formula's header announces, as far as it can be read cheaply: V and C.
#[derive(Debug, Clone, Copy, PartialEq, Eq, Default)]
pub struct Announced {
    pub variables: usize,
    pub clauses: usize,
}

impl Announced {
    /// Looks for the line `p cnf V C` behind the comment lines. Anything that is not as expected counts as 0.
    pub fn of(formula: &[u8]) -> Announced {
        let mut lines = formula.split(|&b| b == b'\n');
        let line = lines.find(|line| line.first() != Some(&b'c')).unwrap_or_default();
        let text = std::str::from_utf8(&line[..line.len().min(64)]).unwrap_or_default();
        let mut words = text.split_ascii_whitespace().skip(2);
        let mut number = || words.next().and_then(|w| w.parse::<usize>().ok()).unwrap_or(0);
        Announced { variables: number().min(GREATEST_VARIABLE), clauses: number() }
    }
}

/// The lengths that always do for a check, by include/proofscale.h. The table of guesses may have any length; this one is as
/// long as there can be clauses for all practical purposes.
pub fn enough_to_check(formula: usize, proof: usize) -> Sizes {
    let both = formula + proof;
    Sizes {
        heads: (3 * both + 12) / 2,
        lits: (both + 3) / 2,
        hints: (proof + 2) / 2,
        guess: FEW + both / 8,
        marks: 2 * GREATEST_VARIABLE + 2,
        tape: both + 2,
    }
}

/// With a million guesses, of a solver's proof with two million ids and 44,000 clauses alive, some 2 percent of the hints were not
/// found at once. A table of that length does not grow with the proof, as one with a place for each id does.
const GUESSES: usize = 1 << 20;

/// How many guesses are made room for: one for each clause that may be alive at a time. The library uses a power of 2 of them, and
/// one number more for how many that are; and no more of them than the clauses ask for that are alive.
fn guesses(clauses: usize, proof: usize) -> usize {
    let alive = clauses.max(GUESSES).max(proof / 4096);
    let all = clauses + FEW + proof / 32;
    alive.min(all).next_power_of_two() + 1
}

/// The lengths that a check is tried with first. A step of a proof in use takes some 50 bytes or more, and most of them are
/// deleted again.
pub fn first_to_check(formula: usize, proof: usize, announced: Announced) -> Sizes {
    let clauses = announced.clauses.min(formula / 2 + 1);
    let one_step = FEW + proof / 64;
    let first = Sizes {
        heads: HEAD * (clauses + 1 + FEW + proof / 16),
        lits: formula / 2 + FEW + proof / 8,
        hints: one_step,
        guess: guesses(clauses, proof),
        marks: 2 * announced.variables + 2 + FEW,
        tape: announced.variables + one_step,
    };
    first.with(enough_to_check(formula, proof), usize::min)
}

/// The lengths that a check is tried with first where those above are beyond the limit: the formula is looked through to see how
/// many literals it has, a step is taken to be short, and the clauses and literals that are added have the rest in equal parts.
/// There may be no such lengths within the limit.
pub fn lean_to_check(formula: &[u8], proof: usize, announced: Announced, limit: u64) -> Option<Sizes> {
    let one_step = FEW + proof / 1024;
    let clauses = announced.clauses.min(formula.len() / 2 + 1);
    let least = Sizes {
        heads: HEAD * (clauses + 1),
        lits: words_in(formula).saturating_sub(clauses),
        hints: one_step,
        guess: usize::try_from(limit / 64).unwrap_or(usize::MAX).min(guesses(clauses, proof)),
        marks: 2 * announced.variables + 2,
        tape: announced.variables + one_step,
    };
    let most = enough_to_check(formula.len(), proof);
    let least = least.with(most, usize::min);
    let half = usize::try_from(limit.checked_sub(least.bytes())? / 2).unwrap_or(usize::MAX);
    let lean = Sizes { heads: least.heads + half / size_of::<u32>(), lits: least.lits + half / size_of::<u32>(), ..least };
    Some(lean.with(most, usize::min))
}

/// How many words there are in a text.
fn words_in(text: &[u8]) -> usize {
    let blank = |b: u8| matches!(b, b' ' | b'\t' | b'\r' | b'\n');
    let inner = text.windows(2).filter(|w| blank(w[0]) && !blank(w[1])).count();
    inner + usize::from(text.first().is_some_and(|&b| !blank(b)))
}

/// The lengths that always do for writing a formula out, by include/proofscale.h.
pub fn enough_to_write(formula: usize) -> Sizes {
    Sizes { heads: (3 * formula + 10) / 2, lits: (formula + 2) / 2, ..Sizes::default() }
}

/// The lengths that writing a formula out is tried with first.
pub fn first_to_write(formula: usize, announced: Announced) -> Sizes {
    let first = Sizes { heads: announced.clauses.saturating_add(1).saturating_mul(HEAD), lits: formula, ..Sizes::default() };
    first.with(enough_to_write(formula), usize::min)
}

/// The sizes that are tried one after the other: the first ones, doubled as often as the limit allows, and as a last attempt
/// what the limit allows at most.
pub struct Plan {
    most: Sizes,
    limit: u64,
    next: Option<Sizes>,
    last: bool,
}

impl Plan {
    pub fn new(first: Sizes, most: Sizes, limit: u64) -> Plan {
        let mut plan = Plan { most, limit, next: None, last: false };
        plan.next = plan.bounded(Sizes::default(), first);
        plan
    }

    /// The goal, if it is within the limit; else the last attempt. That is left out if it would hardly be larger than the one
    /// before.
    fn bounded(&mut self, now: Sizes, goal: Sizes) -> Option<Sizes> {
        if goal.bytes() <= self.limit {
            self.last = goal == self.most;
            return Some(goal);
        }
        self.last = true;
        self.full_within_limit().or_else(|| {
            let few = usize::try_from(self.limit / 64).unwrap_or(usize::MAX);
            let goal = Sizes { guess: goal.guess.min(few).max(now.guess), ..goal };
            let larger = now.towards(goal, self.limit);
            (now == Sizes::default() || larger.bytes() - now.bytes() > now.bytes() / 16).then_some(larger)
        })
    }

    /// All parts but the marks at their full lengths, if the limit allows that. The marks have the rest, so that the bytes
    /// which document 01 says always do (8 for each variable that occurs) do here, too. The guesses, which nothing but speed
    /// depends on, have what is left then.
    fn full_within_limit(&self) -> Option<Sizes> {
        let full = Sizes { marks: 0, guess: 0, ..self.most };
        let rest = self.limit.checked_sub(full.bytes())?;
        let marks = self.most.marks.min(usize::try_from(rest).unwrap_or(usize::MAX));
        let rest = (rest - marks as u64) / size_of::<u32>() as u64;
        let guess = self.most.guess.min(usize::try_from(rest).unwrap_or(usize::MAX));
        Some(Sizes { marks, guess, ..full })
    }

    /// The system did not hand these sizes out: the next attempt is the last one, with half of them.
    fn refused(&mut self, sizes: Sizes) -> Sizes {
        self.last = true;
        sizes.with(sizes, |now, _| now / 2)
    }

    /// The store of the next attempt, or that there is none left. The one before has to be dropped first.
    pub fn next_store(&mut self) -> Option<Store> {
        let mut sizes = self.next.take()?;
        let store = loop {
            match Store::new(sizes) {
                Some(store) => break store,
                None => sizes = self.refused(sizes),
            }
        };
        if !self.last {
            let goal = sizes.doubled(self.most);
            self.next = self.bounded(sizes, goal);
        }
        Some(store)
    }
}

/// The six parts. What they hold means nothing to the tool.
#[derive(Debug, Default)]
pub struct Store {
    pub heads: Vec<u32>,
    pub lits: Vec<u32>,
    pub hints: Vec<u32>,
    pub guess: Vec<u32>,
    pub marks: Vec<u8>,
    pub tape: Vec<u32>,
}

impl Store {
    /// A store of these lengths, or none if the system does not hand out so much memory.
    pub fn new(sizes: Sizes) -> Option<Store> {
        Some(Store {
            heads: zeroed(sizes.heads)?,
            lits: zeroed(sizes.lits)?,
            hints: zeroed(sizes.hints)?,
            guess: zeroed(sizes.guess)?,
            marks: zeroed(sizes.marks)?,
            tape: zeroed(sizes.tape)?,
        })
    }

    pub fn sizes(&self) -> Sizes {
        Sizes {
            heads: self.heads.len(),
            lits: self.lits.len(),
            hints: self.hints.len(),
            guess: self.guess.len(),
            marks: self.marks.len(),
            tape: self.tape.len(),
        }
    }
}

/// The types of numbers that a store is made of: all of their bytes being 0 is a number of the type.
pub trait Number: Copy {}
impl Number for u8 {}
impl Number for u32 {}

/// So many zeros, as `vec![0; n]` makes them, but with `None` and not with the end of the process where there is no memory.
pub fn zeroed<T: Number>(length: usize) -> Option<Vec<T>> {
    let layout = Layout::array::<T>(length).ok()?;
    if layout.size() == 0 {
        return Some(Vec::new());
    }
    // Safety: the layout is not of size 0. The memory comes from the allocator that Vec gives it back to, with the layout that
    // a Vec of this capacity has, and zeros are numbers of the type.
    unsafe {
        let start = alloc_zeroed(layout).cast::<T>();
        if start.is_null() {
            return None;
        }
        Some(Vec::from_raw_parts(start, length, length))
    }
}

#[cfg(test)]
mod tests {
    use super::*;

    fn attempts(first: Sizes, most: Sizes, limit: u64) -> Vec<Sizes> {
        let mut plan = Plan::new(first, most, limit);
        let mut tried = Vec::new();
        while let Some(store) = plan.next_store() {
            tried.push(store.sizes());
            assert!(tried.len() < 100, "the plan has to end");
        }
        tried
    }

    #[test]
    fn the_last_attempt_without_a_limit_always_does() {
        for (f, p) in [(0, 0), (1, 0), (100, 7), (100_000, 90_000)] {
            let most = enough_to_check(f, p);
            let tried = attempts(first_to_check(f, p, Announced::default()), most, u64::MAX);
            assert_eq!(tried.last(), Some(&most));
        }
    }

    #[test]
    fn no_attempt_is_beyond_the_limit_and_none_is_smaller_than_the_one_before() {
        for limit in [0, 1, 10, 100, 5_000, 50_000, 500_000, 5_000_000, 50_000_000] {
            let announced = Announced { variables: 3000, clauses: 500 };
            let tried = attempts(first_to_check(9_000, 7_000, announced), enough_to_check(9_000, 7_000), limit);
            assert!(!tried.is_empty());
            assert!(tried.iter().all(|sizes| sizes.bytes() <= limit), "{limit}: {tried:?}");
            assert!(tried.windows(2).all(|w| w[0].heads <= w[1].heads && w[0].lits <= w[1].lits && w[0].tape <= w[1].tape));
        }
    }

    #[test]
    fn the_bytes_of_document_01_always_do() {
        for (f, p, v) in [(0, 0, 0), (20, 10, 3), (5_000, 70_000, 900), (300_000, 2, 100_000)] {
            let limit = 16 * (f + p) as u64 + 8 * v as u64 + 4096;
            let announced = Announced { variables: GREATEST_VARIABLE, clauses: GREATEST_VARIABLE };
            let tried = attempts(first_to_check(f, p, announced), enough_to_check(f, p), limit);
            let last = tried.last().expect("there is an attempt");
            let most = enough_to_check(f, p);
            assert!(last.heads >= most.heads && last.lits >= most.lits && last.hints >= most.hints);
            assert!(last.tape >= most.tape && last.marks >= 2 * v + 2);
        }
    }

    #[test]
    fn lean_sizes_are_within_the_limit_and_hold_the_formula() {
        let formula = b"c x\np cnf 3 4\n1 2 -3 0\n-1 0\n 0 3 0\n";
        assert_eq!(words_in(formula), 15);
        let announced = Announced::of(formula);
        assert_eq!(lean_to_check(formula, 1000, announced, 100), None);
        for limit in [4_000, 10_000, 100_000] {
            let lean = lean_to_check(formula, 1000, announced, limit).expect("there is room enough");
            assert!(lean.bytes() <= limit && lean.heads >= 15 && lean.lits >= 5 && lean.marks >= 8, "{lean:?}");
        }
    }

    #[test]
    fn guesses_do_not_grow_with_the_proof_up_to_gigabytes() {
        assert_eq!(guesses(1000, 1 << 32), GUESSES + 1);
        assert_eq!(guesses(1000, 100 << 20), GUESSES + 1);
        assert_eq!(guesses(8 * GUESSES, 1 << 32), 8 * GUESSES + 1);
        assert!(guesses(1000, 1 << 20) < GUESSES);
    }

    #[test]
    fn the_header_is_only_a_hint() {
        assert_eq!(Announced::of(b"c x\nc\np cnf 7 9\n"), Announced { variables: 7, clauses: 9 });
        assert_eq!(Announced::of(b""), Announced::default());
        assert_eq!(Announced::of(b"p cnf x 99999999999999999999"), Announced::default());
        assert_eq!(Announced::of(b"p cnf 99999999999 1").variables, GREATEST_VARIABLE);
    }
}
