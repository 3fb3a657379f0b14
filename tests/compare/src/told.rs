//! What rights told of the three kinds of access, and what they have to have told.

use std::collections::BTreeMap;

use model::call::{FETCH, KINDS, STORE};
use model::entry::{CHANGED, REFERENCED};
use model::words::word_at;

/// What the answers told, by kind.
#[derive(Default)]
pub struct Told {
    /// By kind, result, rule and marks.
    met: BTreeMap<[u32; 4], u64>,
    /// By the rules of fetch, load and store at once; a refused answer counts as 10.
    together: BTreeMap<[u32; 3], u64>,
}

impl Told {
    pub fn note(&mut self, answer: &[u8]) {
        let word = |kind: u32, at: usize| word_at(answer, 48 * kind as usize + at);
        let rule = |kind| if word(kind, 0) == 10 { 10 } else { word(kind, 32) };
        for kind in KINDS {
            let marks = word_at(answer, 144 + 4 * kind as usize);
            *self.met.entry([kind, word(kind, 0), rule(kind), marks]).or_default() += 1;
        }
        *self.together.entry(KINDS.map(rule)).or_default() += 1;
    }

    pub fn add(&mut self, other: &Told) {
        for (&key, count) in &other.met {
            *self.met.entry(key).or_default() += count;
        }
        for (&key, count) in &other.together {
            *self.together.entry(key).or_default() += count;
        }
    }

    /// How many accesses were told with each sum of marks.
    pub fn by_marks(&self) -> BTreeMap<u32, u64> {
        let mut counts = BTreeMap::new();
        for ([.., marks], count) in &self.met {
            *counts.entry(*marks).or_default() += count;
        }
        counts
    }

    /// What was never told of all there is.
    pub fn missing(&self) -> Vec<String> {
        let ends = every_end();
        let unmet = ends.iter().filter(|end| !self.met.contains_key(*end));
        let mut missing: Vec<String> = unmet
            .map(|[kind, result, rule, marks]| {
                format!("kind {kind} was never told {result} by rule {rule} with marks {marks:x}")
            })
            .collect();
        let apart = TOGETHER.iter().filter(|rules| !self.together.contains_key(*rules));
        missing.extend(apart.map(|rules| format!("rules {rules:?} were never told at once")));
        missing
    }
}

/// Kind, result, rule and marks of everything that a kind can be told.
fn every_end() -> Vec<[u32; 4]> {
    let mut ends = Vec::new();
    for kind in KINDS {
        let fault = if kind == FETCH { 65 } else { 64 };
        ends.extend([[kind, 0, 0, 0], [kind, 0, 1, 0], [kind, 10, 10, 0]]);
        ends.extend([1, 3, 5].map(|rule| [kind, fault, rule, 0]));
        ends.extend([0, REFERENCED].map(|marks| [kind, 0, 6, marks]));
    }
    ends.extend([2, 4].map(|rule| [FETCH, 65, rule, 0]));
    ends.extend([CHANGED, CHANGED | REFERENCED].map(|marks| [STORE, 0, 6, marks]));
    ends
}

/// Rules of fetch, load and store that differ, of one address.
const TOGETHER: [[u32; 3]; 14] = [
    [0, 1, 1],
    [0, 6, 6],
    [0, 6, 5],
    [1, 0, 0],
    [6, 0, 0],
    [1, 6, 6],
    [6, 1, 1],
    [1, 3, 3],
    [1, 10, 10],
    [2, 6, 6],
    [2, 10, 10],
    [4, 6, 5],
    [4, 5, 5],
    [6, 6, 5],
];
