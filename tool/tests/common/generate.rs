//! Random formulas and proofs from fixed seeds, and mutations of them.
//!
//! A draft is a formula with a proof as numbers. Valid drafts are made by a small prover that looks for LRAT steps itself; it is
//! not the reference, so that the tests can ask the reference to agree with it. Then a draft is written out as tokens, which
//! can be mutated, and as bytes, with blanks and comments chosen at random.

use std::collections::{BTreeMap, BTreeSet};

/// A small generator of random numbers (splitmix64): the same numbers on every machine.
pub struct Random(u64);

impl Random {
    pub fn new(seed: u64) -> Random {
        Random(seed.wrapping_mul(0x2545_f491_4f6c_dd1d) ^ 0x1234_5678_9abc_def0)
    }

    pub fn next(&mut self) -> u64 {
        self.0 = self.0.wrapping_add(0x9e37_79b9_7f4a_7c15);
        let mut z = self.0;
        z = (z ^ (z >> 30)).wrapping_mul(0xbf58_476d_1ce4_e5b9);
        z = (z ^ (z >> 27)).wrapping_mul(0x94d0_49bb_1331_11eb);
        z ^ (z >> 31)
    }

    /// A number from 0 to `bound` - 1.
    pub fn below(&mut self, bound: usize) -> usize {
        (self.next() % bound as u64) as usize
    }

    /// A number from `low` to `high`, both included.
    pub fn between(&mut self, low: i64, high: i64) -> i64 {
        low + self.below((high - low + 1) as usize) as i64
    }

    /// True in `part` of 100 cases.
    pub fn percent(&mut self, part: usize) -> bool {
        self.below(100) < part
    }

    pub fn pick<'a, T>(&mut self, list: &'a [T]) -> &'a T {
        &list[self.below(list.len())]
    }

    pub fn shuffle<T>(&mut self, list: &mut [T]) {
        for last in (1..list.len()).rev() {
            let other = self.below(last + 1);
            list.swap(last, other);
        }
    }

    pub fn literal(&mut self, variables: i64) -> i64 {
        let variable = self.between(1, variables);
        if self.percent(50) {
            variable
        } else {
            -variable
        }
    }
}

#[derive(Clone, Debug)]
pub enum Step {
    Addition { id: i64, clause: Vec<i64>, hints: Vec<i64> },
    Deletion { id: i64, ids: Vec<i64> },
}

/// A formula and a proof as numbers.
#[derive(Clone, Debug)]
pub struct Draft {
    pub variables: i64,
    pub clauses: Vec<Vec<i64>>,
    pub steps: Vec<Step>,
    /// Whether the prover finished: then the last step adds the empty clause and every step is valid. Otherwise every step
    /// is valid, too, but none adds the empty clause.
    pub finished: bool,
}

/// A formula and a proof as bytes.
#[derive(Clone, Debug, PartialEq, Eq)]
pub struct Pair {
    pub formula: Vec<u8>,
    pub proof: Vec<u8>,
}

// Formulas.

/// A random formula. Most have no solution, and are small enough to try every assignment.
fn formula(random: &mut Random) -> (i64, Vec<Vec<i64>>) {
    let used = random.between(1, 7);
    let mut clauses: Vec<Vec<i64>> = Vec::new();
    match random.below(10) {
        // All sign patterns over a few variables, which no assignment satisfies, and in a random order.
        0 | 1 => {
            let width = random.between(1, used.min(3));
            let mut variables: Vec<i64> = (1..=used).collect();
            random.shuffle(&mut variables);
            for pattern in 0..1 << width {
                clauses.push(
                    (0..width)
                        .map(|k| if pattern >> k & 1 == 1 { variables[k as usize] } else { -variables[k as usize] })
                        .collect(),
                );
            }
        }
        // Two variables that are said to be equal and to be different, round a ring.
        2 => {
            for variable in 1..=used {
                let next = variable % used + 1;
                let same = variable < used;
                clauses.push(vec![variable, if same { -next } else { next }]);
                clauses.push(vec![-variable, if same { next } else { -next }]);
            }
        }
        // Clauses at random, so many that a solution is rare.
        _ => {
            let count = random.between(used, 7 * used);
            for _ in 0..count {
                let length = *random.pick(&[1, 2, 2, 3, 3, 3, 4]);
                clauses.push((0..length).map(|_| random.literal(used)).collect());
            }
        }
    }
    // What the rules have to get right beside plain clauses: repeated literals, opposite literals, clauses twice, empty ones.
    for clause in clauses.iter_mut() {
        if random.percent(10) && !clause.is_empty() {
            let again = *random.pick(clause);
            let place = random.below(clause.len() + 1);
            clause.insert(place, again);
        }
    }
    if random.percent(25) {
        let literal = random.literal(used);
        let mut clause = vec![literal, -literal];
        if random.percent(50) {
            clause.insert(random.below(3), random.literal(used));
        }
        clauses.push(clause);
    }
    if random.percent(15) && !clauses.is_empty() {
        let again = random.pick(&clauses).clone();
        clauses.push(again);
    }
    if random.percent(3) {
        clauses.push(Vec::new());
    }
    random.shuffle(&mut clauses);
    let variables = if random.percent(30) { used + random.between(1, 5) } else { used };
    (variables, clauses)
}

// The prover.

/// The values of variables while the prover looks for hints: the literals that are true.
type Trues = BTreeSet<i64>;

struct Prover<'a> {
    random: &'a mut Random,
    live: BTreeMap<i64, Vec<i64>>,
    greatest_id: i64,
    greatest_variable: i64,
    steps: Vec<Step>,
}

impl Prover<'_> {
    /// Goes on from `trues` until a clause is in conflict or nothing more is forced. Gives the hints in order with what each
    /// forces (0 for the conflict) and whether there is a conflict.
    fn propagate(&mut self, trues: &mut Trues) -> (Vec<(i64, i64)>, bool) {
        let mut order: Vec<i64> = self.live.keys().copied().collect();
        self.random.shuffle(&mut order);
        let mut hints = Vec::new();
        loop {
            let mut forced = false;
            for &id in &order {
                let open: BTreeSet<i64> = self.live[&id].iter().copied().filter(|literal| !trues.contains(&-literal)).collect();
                if open.is_empty() {
                    hints.push((id, 0));
                    return (hints, true);
                }
                let only = *open.first().expect("it is not empty");
                if open.len() == 1 && !trues.contains(&only) {
                    trues.insert(only);
                    hints.push((id, only));
                    forced = true;
                }
            }
            if !forced {
                return (hints, false);
            }
        }
    }

    /// Hints that reach a conflict from `trues`. Mostly without those that the conflict does not need.
    fn refute(&mut self, trues: &Trues) -> Option<Vec<i64>> {
        let mut now = trues.clone();
        let (hints, conflict) = self.propagate(&mut now);
        if !conflict {
            return None;
        }
        if self.random.percent(20) {
            return Some(hints.into_iter().map(|(id, _)| id).collect());
        }
        let mut needed: BTreeSet<i64> = BTreeSet::new();
        let mut kept = Vec::new();
        for (id, forced) in hints.into_iter().rev() {
            if forced == 0 || needed.contains(&forced) {
                kept.push(id);
                needed.extend(self.live[&id].iter().map(|literal| -literal));
            }
        }
        kept.reverse();
        Some(kept)
    }

    fn fresh_id(&mut self) -> i64 {
        self.greatest_id += match self.random.below(20) {
            0 => self.random.between(2, 9),
            1 => self.random.between(2, 1000),
            _ => 1,
        };
        self.greatest_id
    }

    fn add(&mut self, clause: Vec<i64>, hints: Vec<i64>) {
        let id = self.fresh_id();
        self.live.insert(id, clause.clone());
        self.steps.push(Step::Addition { id, clause, hints });
    }

    fn delete(&mut self, ids: Vec<i64>) {
        for id in &ids {
            self.live.remove(id);
        }
        // The id in front of a deletion is ignored; solvers write the last one that they used.
        let id = if self.random.percent(50) { self.greatest_id.max(1) } else { self.random.between(1, 5000) };
        self.steps.push(Step::Deletion { id, ids });
    }

    fn all_false(clause: &[i64]) -> Trues {
        clause.iter().map(|literal| -literal).collect()
    }

    /// A random clause without opposite literals; its first literal is the pivot.
    fn some_clause(&mut self) -> Vec<i64> {
        let length = *self.random.pick(&[1, 1, 2, 2, 2, 3, 3, 4]);
        let mut clause: Vec<i64> = Vec::new();
        for _ in 0..length {
            let literal = self.random.literal(self.greatest_variable);
            if !clause.contains(&-literal) && (!clause.contains(&literal) || self.random.percent(20)) {
                clause.push(literal);
            }
        }
        clause
    }

    /// Tries to add a clause by rule 3.
    fn try_rup(&mut self, clause: Vec<i64>) -> bool {
        match self.refute(&Self::all_false(&clause)) {
            Some(mut hints) => {
                // Hints behind a conflict are not looked at, whatever they are.
                if self.random.percent(3) {
                    for _ in 0..self.random.between(1, 3) {
                        hints.push(self.random.literal(self.greatest_id + 3));
                    }
                }
                self.add(clause, hints);
                true
            }
            None => false,
        }
    }

    /// Tries to add a clause by rule 4.
    fn try_rat(&mut self, clause: Vec<i64>) -> bool {
        let pivot = clause[0];
        let mut trues = Self::all_false(&clause);
        let mut hints = Vec::new();
        // Some hints before the first group; the groups then go on from what they force.
        if self.random.percent(40) {
            let (forced, conflict) = self.propagate(&mut trues.clone());
            let most = if conflict { forced.len() - 1 } else { forced.len() };
            let taken = self.random.below(most + 1);
            for (id, literal) in forced.into_iter().take(taken) {
                hints.push(id);
                trues.insert(literal);
            }
        }
        let groups: Vec<i64> = self.live.iter().filter(|(_, other)| other.contains(&-pivot)).map(|(&id, _)| id).collect();
        for id in groups {
            hints.push(-id);
            let others: Vec<i64> = self.live[&id].iter().copied().filter(|&literal| literal != -pivot).collect();
            let done = others.iter().any(|literal| trues.contains(literal) || others.contains(&-literal));
            if !done {
                let mut here = trues.clone();
                here.extend(others.iter().map(|literal| -literal));
                match self.refute(&here) {
                    Some(more) => hints.extend(more),
                    None => return false,
                }
            }
            // Neither the hints of a group that is done at once nor those behind its conflict are looked at.
            if self.random.percent(if done { 10 } else { 4 }) {
                let junk = self.random.between(1, self.greatest_id + 5);
                hints.push(junk);
            }
        }
        self.add(clause, hints);
        true
    }

    /// Names "all of these literals" by a variable that occurs nowhere: one clause with the name, then one for each literal.
    fn define(&mut self) {
        let parts: Vec<i64> = {
            let count = self.random.between(1, 3);
            let mut parts: Vec<i64> = Vec::new();
            for _ in 0..count {
                let literal = self.random.literal(self.greatest_variable);
                if !parts.contains(&literal) && !parts.contains(&-literal) {
                    parts.push(literal);
                }
            }
            parts
        };
        self.greatest_variable += if self.random.percent(90) { 1 } else { 2 };
        let name = if self.random.percent(50) { self.greatest_variable } else { -self.greatest_variable };
        let mut clause = vec![name];
        clause.extend(parts.iter().map(|part| -part));
        assert!(self.try_rat(clause), "a name that occurs nowhere has no groups");
        for part in parts {
            if self.random.percent(80) {
                self.try_rat(vec![-name, part]);
            }
        }
    }

    /// Deletes live clauses that follow from the others by rule 3, so that the rest says the same.
    fn delete_some(&mut self, bound: usize) {
        let mut ids: Vec<i64> = self.live.keys().copied().collect();
        self.random.shuffle(&mut ids);
        let most = self.random.below(bound);
        let mut gone = Vec::new();
        for id in ids {
            if gone.len() >= most {
                break;
            }
            let clause = self.live.remove(&id).expect("it is live");
            let always = clause.iter().any(|literal| clause.contains(&-literal));
            if always || self.refute(&Self::all_false(&clause)).is_some() {
                gone.push(id);
            }
            self.live.insert(id, clause);
            if let Some(last) = gone.last() {
                self.live.remove(last);
            }
        }
        self.delete(gone);
    }

    /// Shows that the live clauses cannot hold together with the decisions, by splitting on variables; the clause that says
    /// so is then the last one added. False if there is a solution.
    fn split(&mut self, decisions: &mut Vec<i64>) -> bool {
        let clause: Vec<i64> = decisions.iter().map(|literal| -literal).collect();
        if self.try_rup(clause.clone()) {
            return true;
        }
        let mut trues: Trues = decisions.iter().copied().collect();
        self.propagate(&mut trues);
        let mut open: Vec<i64> = self
            .live
            .values()
            .flatten()
            .copied()
            .filter(|literal| !trues.contains(literal) && !trues.contains(&-literal))
            .collect();
        if open.is_empty() {
            return false;
        }
        open.sort_unstable();
        let literal = *self.random.pick(&open);
        let mut made = Vec::new();
        for branch in [literal, -literal] {
            decisions.push(branch);
            let refuted = self.split(decisions);
            decisions.pop();
            if !refuted {
                return false;
            }
            made.push(self.greatest_id);
        }
        assert!(self.try_rup(clause), "both branches are refuted");
        if !decisions.is_empty() && self.random.percent(40) {
            made.retain(|id| self.live.contains_key(id));
            self.delete(made);
        }
        true
    }
}

/// A random draft in which every step is valid.
pub fn draft(random: &mut Random) -> Draft {
    let rounds = random.below(9);
    draft_of(random, rounds)
}

/// A random draft with many steps beside its live clauses, since what was added is deleted again.
pub fn long_draft(random: &mut Random) -> Draft {
    let rounds = random.between(150, 300) as usize;
    draft_of(random, rounds)
}

fn draft_of(random: &mut Random, rounds: usize) -> Draft {
    let (variables, clauses) = formula(random);
    let greatest_variable =
        if random.percent(50) { variables } else { clauses.iter().flatten().map(|l| l.abs()).max().unwrap_or(1) };
    let live: BTreeMap<i64, Vec<i64>> = (1..).zip(clauses.iter().cloned()).collect();
    let greatest_id = clauses.len() as i64;
    let mut prover = Prover { random, live, greatest_id, greatest_variable: greatest_variable.max(1), steps: Vec::new() };
    for _ in 0..rounds {
        // Before there are too many, clauses are deleted that were added and that follow from the others.
        while prover.live.len() > clauses.len() + 20 {
            let before = prover.live.len();
            prover.delete_some(12);
            if prover.live.len() == before {
                break;
            }
        }
        match prover.random.below(10) {
            0 | 1 if prover.greatest_variable < 10 => prover.define(),
            2 | 3 => prover.delete_some(4),
            4 | 5 => {
                let clause = prover.some_clause();
                prover.try_rup(clause);
            }
            _ => {
                // Most clauses are no RAT clauses; a few tries find one.
                for _ in 0..12 {
                    let clause = prover.some_clause();
                    if prover.try_rat(clause) {
                        break;
                    }
                }
            }
        }
    }
    let mut finished = false;
    if prover.random.percent(90) {
        finished = prover.split(&mut Vec::new());
    }
    let steps = prover.steps;
    Draft { variables, clauses, steps, finished }
}

// Mutations of a proof's numbers.

/// Changes the numbers of a proof in one place, in a way that leaves it readable most of the time.
pub fn mutate_steps(random: &mut Random, draft: &mut Draft) {
    if draft.steps.is_empty() {
        let id = draft.clauses.len() as i64 + random.between(0, 2);
        let hints = (0..random.below(4)).map(|_| random.between(1, id.max(1))).collect();
        draft.steps.push(Step::Addition { id: id.max(1), clause: Vec::new(), hints });
        return;
    }
    let place = random.below(draft.steps.len());
    let other = random.below(draft.steps.len());
    let near = draft.variables + 2;
    match random.below(20) {
        0 => {
            draft.steps.remove(place);
            return;
        }
        1 => {
            let again = draft.steps[place].clone();
            draft.steps.insert(other, again);
            return;
        }
        2 => {
            draft.steps.swap(place, other);
            return;
        }
        // A clause that is used later is deleted, or one that is not there.
        3 | 4 => {
            let id = match random.pick(&draft.steps) {
                Step::Addition { hints, .. } if !hints.is_empty() => random.pick(hints).abs(),
                Step::Addition { id, .. } | Step::Deletion { id, .. } => *id,
            };
            draft.steps.insert(place, Step::Deletion { id: 1, ids: vec![id] });
            return;
        }
        _ => {}
    }
    // Half of the time a step with groups is changed, where there is one, since they are few and have the most to get wrong.
    let place = if random.percent(50) {
        (0..draft.steps.len())
            .map(|k| (place + k) % draft.steps.len())
            .find(|&k| matches!(&draft.steps[k], Step::Addition { hints, .. } if hints.iter().any(|&hint| hint < 0)))
            .unwrap_or(place)
    } else {
        place
    };
    match &mut draft.steps[place] {
        Step::Deletion { id, ids } => {
            if ids.is_empty() || random.percent(20) {
                let far = random.between(1, *id + 9);
                ids.push(far);
            } else {
                let k = random.below(ids.len());
                match random.below(4) {
                    0 => ids[k] += 1,
                    1 => ids[k] = (ids[k] - 1).max(1),
                    2 => ids.push(ids[k]),
                    _ => {
                        ids.remove(k);
                    }
                }
            }
        }
        Step::Addition { id, clause, hints } => match random.below(16) {
            0 => *id = (*id + random.between(-3, 3)).max(1),
            1 => *id = random.between(1, *id),
            2 if !clause.is_empty() => {
                let k = random.below(clause.len());
                clause[k] = -clause[k];
            }
            3 if !clause.is_empty() => {
                let k = random.below(clause.len());
                clause.remove(k);
            }
            4 => clause.insert(random.below(clause.len() + 1), random.literal(near)),
            5 if !clause.is_empty() => {
                let k = random.below(clause.len());
                clause.push(-clause[k]);
            }
            6 if !clause.is_empty() => {
                let k = random.below(clause.len());
                clause.swap(0, k);
            }
            7 if !clause.is_empty() => {
                let k = random.below(clause.len());
                clause.push(clause[k]);
            }
            8 => hints.insert(random.below(hints.len() + 1), random.between(1, *id)),
            _ if !hints.is_empty() => {
                let k = random.below(hints.len());
                let l = random.below(hints.len());
                match random.below(8) {
                    0 => hints[k] += random.between(-2, 2),
                    1 => hints[k] = -hints[k],
                    2 => hints.swap(k, l),
                    3 => hints.insert(l, hints[k]),
                    4 => hints[k] = random.between(1, *id),
                    5 => hints.truncate(k),
                    _ => {
                        hints.remove(k);
                    }
                }
                // 0 would end the list and make another proof of the rest; the mutations of tokens do that.
                hints.retain(|&hint| hint != 0);
            }
            _ => {}
        },
    }
}

// Tokens.

/// The tokens behind the header of the formula, and those of the proof, each with whether a line ends behind it.
pub struct Tokens {
    pub header: Vec<String>,
    pub formula: Vec<(String, bool)>,
    pub proof: Vec<(String, bool)>,
}

fn push_list(tokens: &mut Vec<(String, bool)>, list: &[i64], last: bool) {
    tokens.extend(list.iter().map(|value| (value.to_string(), false)));
    tokens.push(("0".to_string(), last));
}

pub fn tokens(draft: &Draft) -> Tokens {
    let header = vec!["p".to_string(), "cnf".to_string(), draft.variables.to_string(), draft.clauses.len().to_string()];
    let mut formula = Vec::new();
    for clause in &draft.clauses {
        push_list(&mut formula, clause, true);
    }
    let mut proof = Vec::new();
    for step in &draft.steps {
        match step {
            Step::Addition { id, clause, hints } => {
                proof.push((id.to_string(), false));
                push_list(&mut proof, clause, false);
                push_list(&mut proof, hints, true);
            }
            Step::Deletion { id, ids } => {
                proof.push((id.to_string(), false));
                proof.push(("d".to_string(), false));
                push_list(&mut proof, ids, true);
            }
        }
    }
    Tokens { header, formula, proof }
}

/// Tokens at the edges of what section 2 allows.
const EDGES: [&str; 34] = [
    "0",
    "-0",
    "00",
    "01",
    "-01",
    "+1",
    "-",
    "--1",
    "1-",
    "1-2",
    "d",
    "D",
    "dd",
    "d1",
    "p",
    "c",
    "cnf",
    "%",
    "16777215",
    "16777216",
    "-16777215",
    "-16777216",
    "268435455",
    "268435456",
    "-268435455",
    "-268435456",
    "4294967297",
    "18446744073709551617",
    "999999999999999999",
    "1000000000000000000",
    "-9223372036854775808",
    "100000000000000000000000000000000000000000000000001",
    "1e1",
    "0x1",
];

fn changed(random: &mut Random, token: &str) -> String {
    // Wider than any token of the edges, so that none of them overflows when it is changed once more.
    let value = token.parse::<i128>();
    match (random.below(6), value) {
        (0, Ok(value)) => (-value).to_string(),
        (1, Ok(value)) => (value + 1).to_string(),
        (2, Ok(value)) => (value - 1).to_string(),
        (3, _) => random.between(-9, 30).to_string(),
        (4, _) => format!("{token}{}", random.pick(&["0", "1", "-", "x", "\u{b}", "\0"])),
        _ => random.pick(&EDGES).to_string(),
    }
}

/// Changes, drops, repeats, swaps or inserts one token.
fn mutate_list(random: &mut Random, list: &mut Vec<(String, bool)>) {
    if list.is_empty() {
        list.push((random.pick(&EDGES).to_string(), false));
        return;
    }
    let k = random.below(list.len());
    match random.below(8) {
        0 => {
            list.remove(k);
        }
        1 => list.insert(k, list[k].clone()),
        2 => {
            let l = random.below(list.len());
            list.swap(k, l);
        }
        3 if k + 1 < list.len() => list.swap(k, k + 1),
        4 => list.insert(k, (random.pick(&EDGES).to_string(), false)),
        5 => list.truncate(k),
        _ => list[k].0 = changed(random, &list[k].0),
    }
}

/// Changes, drops, repeats, swaps or inserts one token of a text, and leaves its lines.
pub fn mutate_text(random: &mut Random, text: &mut Vec<u8>) {
    let mut list: Vec<(String, bool)> = Vec::new();
    for line in String::from_utf8_lossy(text).lines() {
        list.extend(line.split(' ').map(|token| (token.to_string(), false)));
        list.last_mut().expect("a line has at least an empty token").1 = true;
    }
    mutate_list(random, &mut list);
    text.clear();
    for (token, line) in list {
        text.extend(token.as_bytes());
        text.push(if line { b'\n' } else { b' ' });
    }
}

pub fn mutate_proof_tokens(random: &mut Random, tokens: &mut Tokens) {
    mutate_list(random, &mut tokens.proof);
}

pub fn mutate_formula_tokens(random: &mut Random, tokens: &mut Tokens) {
    if random.percent(25) {
        let k = random.below(tokens.header.len());
        tokens.header[k] = changed(random, &tokens.header[k]);
    } else {
        mutate_list(random, &mut tokens.formula);
    }
}

// Bytes.

fn blanks(random: &mut Random, wild: bool, line: bool) -> Vec<u8> {
    if !wild {
        return if line { b"\n".to_vec() } else { b" ".to_vec() };
    }
    (0..random.between(1, 3)).map(|_| *random.pick(b" \t\r\n  \n")).collect()
}

fn write_list(random: &mut Random, bytes: &mut Vec<u8>, list: &[(String, bool)], wild: bool) {
    if wild && random.percent(20) {
        bytes.extend(blanks(random, true, false));
    }
    for (k, (token, line)) in list.iter().enumerate() {
        bytes.extend(token.as_bytes());
        // Nothing has to stand behind the last token.
        if k + 1 < list.len() || random.percent(70) {
            bytes.extend(blanks(random, wild, *line));
        }
    }
}

/// Writes the tokens out, as solvers do or with any blanks.
pub fn write(random: &mut Random, tokens: &Tokens) -> Pair {
    let wild = random.percent(30);
    let mut formula = Vec::new();
    while random.percent(25) {
        formula.push(b'c');
        for _ in 0..random.below(12) {
            let byte = (random.next() & 0xff) as u8;
            formula.push(if byte == b'\n' { b'p' } else { byte });
        }
        formula.push(b'\n');
    }
    formula.extend(tokens.header.join(" ").as_bytes());
    if !tokens.formula.is_empty() || random.percent(70) {
        formula.push(b'\n');
    }
    write_list(random, &mut formula, &tokens.formula, wild);
    let wild = random.percent(30);
    let mut proof = Vec::new();
    write_list(random, &mut proof, &tokens.proof, wild);
    Pair { formula, proof }
}

/// Changes, drops, repeats, swaps or inserts one byte, or cuts the text there.
pub fn mutate_bytes(random: &mut Random, bytes: &mut Vec<u8>) {
    let any = (random.next() & 0xff) as u8;
    let byte = if random.percent(30) { any } else { *random.pick(b"0123456789-- \t\r\n\ndcp+%") };
    if bytes.is_empty() {
        bytes.push(byte);
        return;
    }
    // The header and the comments before it are short and have the most to get wrong.
    let k = if random.percent(25) { random.below(bytes.len().min(16)) } else { random.below(bytes.len()) };
    match random.below(7) {
        0 => {
            bytes.remove(k);
        }
        1 => bytes.insert(k, bytes[k]),
        2 if k + 1 < bytes.len() => bytes.swap(k, k + 1),
        3 => bytes.insert(k, byte),
        4 => bytes.truncate(k),
        _ => bytes[k] = byte,
    }
}
