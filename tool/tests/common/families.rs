//! The families of formulas whose proofs by real solvers are kept under data/, so that anyone can see what is in the files.

use super::generate::Random;
use super::reference::Formula;

/// One more pigeon than holes, each in a hole, no two in one: no solution.
pub fn pigeons(holes: i64) -> Formula {
    let pigeons = holes + 1;
    let sits = |pigeon: i64, hole: i64| pigeon * holes + hole + 1;
    let mut clauses: Vec<Vec<i64>> = (0..pigeons).map(|pigeon| (0..holes).map(|hole| sits(pigeon, hole)).collect()).collect();
    for hole in 0..holes {
        for pigeon in 0..pigeons {
            for other in pigeon + 1..pigeons {
                clauses.push(vec![-sits(pigeon, hole), -sits(other, hole)]);
            }
        }
    }
    Formula { variables: pigeons * holes, clauses }
}

/// Clauses of three different variables with random signs.
pub fn threes(variables: i64, count: usize, seed: u64) -> Formula {
    let mut random = Random::new(seed);
    let mut clauses = Vec::new();
    while clauses.len() < count {
        let clause: Vec<i64> = (0..3).map(|_| random.literal(variables)).collect();
        let (a, b, c) = (clause[0].abs(), clause[1].abs(), clause[2].abs());
        if a != b && a != c && b != c {
            clauses.push(clause);
        }
    }
    Formula { variables, clauses }
}

/// The same bits added up without carry in two orders, once said to be even and once odd: no solution.
pub fn parity(bits: i64, seed: u64) -> Formula {
    let mut random = Random::new(seed);
    let mut order: Vec<i64> = (1..=bits).collect();
    let mut clauses = Vec::new();
    let mut variables = bits;
    // The clauses that say: an even number of the three is true.
    let even = |clauses: &mut Vec<Vec<i64>>, a: i64, b: i64, c: i64| {
        clauses.extend([vec![-a, b, c], vec![a, -b, c], vec![a, b, -c], vec![-a, -b, -c]]);
    };
    for sign in [1, -1] {
        let mut sum = order[0];
        for &bit in &order[1..] {
            variables += 1;
            even(&mut clauses, sum, bit, variables);
            sum = variables;
        }
        clauses.push(vec![sign * sum]);
        random.shuffle(&mut order);
    }
    Formula { variables, clauses }
}

/// A short proof that the pigeons find no place, by names for "sits there once the last pigeon and the last hole are gone" (Cook,
/// 1976), with the number of its steps. Its definitions are steps with groups, and it deletes what it is through with.
pub fn pigeons_by_new_names(holes: i64) -> (String, u64) {
    let mut proof = Proof { text: String::new(), id: 0, steps: 0 };
    let formula = pigeons(holes);
    proof.id = formula.clauses.len() as i64;
    let mut variables = formula.variables;
    // Which variable says that a pigeon sits in a hole; the ids of "each pigeon sits somewhere" and "not both there".
    let mut sits: Vec<Vec<i64>> =
        (0..=holes).map(|pigeon| (0..holes).map(|hole| pigeon * holes + hole + 1).collect()).collect();
    let mut somewhere: Vec<i64> = (1..=holes + 1).collect();
    let mut apart = std::collections::BTreeMap::new();
    let mut id = holes + 1;
    for hole in 0..holes {
        for pigeon in 0..=holes {
            for other in pigeon + 1..=holes {
                id += 1;
                apart.insert((pigeon as usize, other as usize, hole as usize), id);
            }
        }
    }
    for last in (1..holes as usize).rev() {
        // There are `last` + 1 holes and `last` + 2 pigeons, numbered from 0; the last of each are to go.
        let gone = last + 1;
        let old: Vec<i64> = somewhere.iter().chain(apart.values()).copied().collect();
        let mut names = vec![vec![0; last]; gone];
        // For each name the clauses: it follows from sitting there; it follows from both others; and it needs one of them.
        let mut from_one = vec![vec![0; last]; gone];
        let mut from_both = from_one.clone();
        let mut needs_own = from_one.clone();
        let mut needs_moved = from_one.clone();
        for pigeon in 0..gone {
            for hole in 0..last {
                variables += 1;
                let name = variables;
                let (there, in_last, moved) = (sits[pigeon][hole], sits[pigeon][last], sits[gone][hole]);
                let one = proof.add(&[name, -there], &[]);
                let both = proof.add(&[name, -in_last, -moved], &[]);
                needs_own[pigeon][hole] = proof.add(&[-name, there, in_last], &[-one, -both]);
                needs_moved[pigeon][hole] = proof.add(&[-name, there, moved], &[-one, -both]);
                (names[pigeon][hole], from_one[pigeon][hole], from_both[pigeon][hole]) = (name, one, both);
            }
        }
        let mut next_somewhere = Vec::new();
        for pigeon in 0..gone {
            let mut hints: Vec<i64> = from_one[pigeon].clone();
            hints.push(somewhere[pigeon]);
            hints.extend(&from_both[pigeon]);
            hints.extend([somewhere[gone], apart[&(pigeon, gone, last)]]);
            next_somewhere.push(proof.add(&names[pigeon], &hints));
        }
        let mut next_apart = std::collections::BTreeMap::new();
        for hole in 0..last {
            for pigeon in 0..gone {
                for other in pigeon + 1..gone {
                    let (name, its) = (names[pigeon][hole], names[other][hole]);
                    let own = proof.add(
                        &[-name, -its, sits[pigeon][hole]],
                        &[
                            needs_own[pigeon][hole],
                            needs_moved[pigeon][hole],
                            apart[&(other, gone, hole)],
                            needs_own[other][hole],
                            apart[&(pigeon, other, last)],
                        ],
                    );
                    let both = proof.add(
                        &[-name, -its],
                        &[own, apart[&(pigeon, other, hole)], apart[&(pigeon, gone, hole)], needs_moved[other][hole]],
                    );
                    proof.delete(&[own]);
                    next_apart.insert((pigeon, other, hole), both);
                }
            }
        }
        proof.delete(&old);
        (sits, somewhere, apart) = (names, next_somewhere, next_apart);
    }
    proof.add(&[], &[somewhere[0], somewhere[1], apart[&(0, 1, 0)]]);
    (proof.text, proof.steps)
}

struct Proof {
    text: String,
    id: i64,
    steps: u64,
}

impl Proof {
    fn add(&mut self, clause: &[i64], hints: &[i64]) -> i64 {
        self.id += 1;
        self.steps += 1;
        let words: Vec<String> = clause.iter().chain(&[0]).chain(hints).chain(&[0]).map(i64::to_string).collect();
        self.text += &format!("{} {}\n", self.id, words.join(" "));
        self.id
    }

    fn delete(&mut self, ids: &[i64]) {
        self.steps += 1;
        let words: Vec<String> = ids.iter().chain(&[0]).map(i64::to_string).collect();
        self.text += &format!("{} d {}\n", self.id, words.join(" "));
    }
}
