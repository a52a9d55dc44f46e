//! Clause sets for the benchmark of the solvers.

use crate::designs::Random;

pub struct Set {
    pub name: String,
    pub choices: u16,
    pub clauses: Vec<Vec<i16>>,
}

fn set(name: String, choices: u16, clauses: Vec<Vec<i16>>) -> Set {
    Set { name, choices, clauses }
}

fn random(choices: u16, tenths: usize, seed: u64) -> Set {
    let mut r = Random::new(seed);
    let clauses = (0..choices as usize * tenths / 10)
        .map(|_| {
            let mut clause: Vec<i16> = vec![];
            while clause.len() < 3 {
                let choice = r.below(choices as u64) as i16 + 1;
                if clause.iter().all(|m| m.abs() != choice) {
                    clause.push(if r.below(2) == 0 { -choice } else { choice });
                }
            }
            clause
        })
        .collect();
    set(format!("random three-mark, {choices} choices, {}.{} a choice, seed {seed}", tenths / 10, tenths % 10), choices, clauses)
}

/// Each of n pigeons sits in one of n - 1 holes, and no two in one.
fn pigeons(n: i16) -> Set {
    let at = |pigeon: i16, hole: i16| pigeon * (n - 1) + hole + 1;
    let mut clauses: Vec<Vec<i16>> = (0..n).map(|p| (0..n - 1).map(|h| at(p, h)).collect()).collect();
    for hole in 0..n - 1 {
        for one in 0..n {
            for other in one + 1..n {
                clauses.push(vec![-at(one, hole), -at(other, hole)]);
            }
        }
    }
    set(format!("{n} pigeons in {} holes", n - 1), (n * (n - 1)) as u16, clauses)
}

/// The first choice is taken, and each brings the next.
fn chain(choices: u16, backward: bool) -> Set {
    let mut clauses: Vec<Vec<i16>> = (1..choices as i16).map(|i| vec![-i, i + 1]).collect();
    clauses.insert(0, vec![1]);
    if backward {
        clauses.reverse();
    }
    set(format!("chain of {choices}{}", if backward { ", written backward" } else { "" }), choices, clauses)
}

pub fn all() -> Vec<Set> {
    let mut list = vec![];
    for choices in [50, 100] {
        for tenths in [30, 43] {
            for seed in 1..=3 {
                list.push(random(choices, tenths, seed));
            }
        }
    }
    list.extend([pigeons(6), pigeons(7), chain(10_000, false), chain(10_000, true)]);
    list
}

/// The sets on which a trial stands as deep as it can.
pub fn deep() -> Vec<Set> {
    vec![
        set("16,383 pairs".into(), 32_767, (0..16_383).map(|i| vec![2 * i + 1, 2 * i + 2]).collect()),
        set("no clauses".into(), 32_767, vec![]),
    ]
}

impl Set {
    /// What the program `decides` reads: the kind, M, the clauses, no assumptions, and how often.
    pub fn bytes(&self, kind: u8, times: u16) -> Vec<u8> {
        let mut bytes = vec![kind];
        bytes.extend(self.choices.to_le_bytes());
        bytes.extend((self.clauses.len() as u16).to_le_bytes());
        for clause in &self.clauses {
            bytes.push(clause.len() as u8);
            bytes.extend(clause.iter().flat_map(|m| m.to_le_bytes()));
        }
        bytes.extend(0u16.to_le_bytes());
        bytes.extend(times.to_le_bytes());
        bytes
    }
}
