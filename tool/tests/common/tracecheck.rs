//! Turns the traces of picosat (option -T) into LRAT proofs. A helper of the tests: what it makes is checked by them.
//!
//! A line of such a trace is: a number, literals, 0, antecedents, 0. A clause of the formula has no antecedents, a derived one
//! has the clauses that it was resolved from, in any order. LRAT wants clauses of the formula by their place, and hints in the
//! order in which they force something.

use super::reference::Formula;
use std::collections::{HashMap, HashSet};

/// The LRAT proof that a trace amounts to, up to the empty clause.
pub fn to_lrat(formula: &Formula, trace: &str) -> String {
    let sorted = |clause: &[i64]| {
        let mut sorted = clause.to_vec();
        sorted.sort_unstable();
        sorted.dedup();
        sorted
    };
    let places: HashMap<Vec<i64>, i64> = formula.clauses.iter().zip(1..).map(|(clause, id)| (sorted(clause), id)).collect();
    let mut ids: HashMap<i64, i64> = HashMap::new();
    let mut clauses: HashMap<i64, Vec<i64>> = HashMap::new();
    let mut proof = String::new();
    let mut next = formula.clauses.len() as i64;
    let mut lines: Vec<Vec<i64>> = trace
        .lines()
        .map(|line| line.split_whitespace().map(|word| word.parse().expect("a trace holds numbers")).collect())
        .collect();
    // Antecedents have smaller numbers than what is derived from them.
    lines.sort();
    for line in lines {
        let (number, rest) = line.split_first().expect("a line begins with its number");
        let end = rest.iter().position(|&value| value == 0).expect("0 ends the literals");
        let clause = rest[..end].to_vec();
        let antecedents = &rest[end + 1..rest.len() - 1];
        if antecedents.is_empty() {
            let place = places[&sorted(&clause)];
            ids.insert(*number, place);
            clauses.insert(place, clause);
            continue;
        }
        let from: Vec<i64> = antecedents.iter().map(|antecedent| ids[antecedent]).collect();
        next += 1;
        ids.insert(*number, next);
        let words: Vec<String> =
            clause.iter().chain([&0]).chain(&order(&clause, &from, &clauses)).map(i64::to_string).collect();
        proof += &format!("{next} {} 0\n", words.join(" "));
        if clause.is_empty() {
            return proof;
        }
        clauses.insert(next, clause);
    }
    panic!("the trace does not reach the empty clause");
}

/// The antecedents in an order in which each forces a literal and the last one is in conflict.
fn order(clause: &[i64], from: &[i64], clauses: &HashMap<i64, Vec<i64>>) -> Vec<i64> {
    let mut trues: HashSet<i64> = clause.iter().map(|literal| -literal).collect();
    let mut left = from.to_vec();
    let mut hints = Vec::new();
    loop {
        let ready = left.iter().position(|id| {
            let open: HashSet<i64> = clauses[id].iter().copied().filter(|literal| !trues.contains(&-literal)).collect();
            open.is_empty() || open.len() == 1 && !open.is_subset(&trues)
        });
        let id = left.remove(ready.expect("the antecedents reach a conflict"));
        hints.push(id);
        match clauses[&id].iter().find(|&&literal| !trues.contains(&-literal)) {
            None => return hints,
            Some(&literal) => trues.insert(literal),
        };
    }
}
