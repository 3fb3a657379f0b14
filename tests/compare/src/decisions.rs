//! Which rules decided the compared accesses, and which they have to have met.

use std::collections::BTreeMap;

use model::bytes::End;
use model::call::{FETCH, LOAD, STORE};
use model::record::{self, has_place};
use model::registers::{Layout, Registers, Side};
use model::translation::Outcome;

/// Which part of which operand a record is of.
#[derive(Clone, Copy, Debug, PartialEq, Eq, PartialOrd, Ord)]
enum Shown {
    Whole,
    FirstOfTwo,
    SecondOfTwo,
}

/// Counts of accesses by the record that is shown.
#[derive(Default)]
pub struct Decisions {
    /// By rule, whether it is done, kind and part.
    rules: BTreeMap<(u32, bool, u32, Shown), u64>,
    /// By the page's length, kind, number of the block and whether it is done.
    blocks: BTreeMap<(usize, u32, u32, bool), u64>,
    /// By rule, key × 4 + PP and whether it is the user's.
    keys: BTreeMap<(u32, u32, bool), u64>,
    /// By rule, primary or secondary group, and entry.
    places: BTreeMap<(u32, u32, usize), u64>,
}

impl Decisions {
    pub fn note(&mut self, set: &Registers, ends: &[End]) {
        let outcomes: Vec<Outcome> = ends.iter().map(|end| end.outcome).collect();
        let Some(speaking) = record::speaking(None, &outcomes) else { return };
        let End { part, outcome, ref matches, .. } = ends[speaking];
        let done = outcome.is_done();
        let [rule, detail] = record::rule_and_detail(None, set, part, outcome);
        let shown = match (ends.len(), speaking) {
            (1, _) => Shown::Whole,
            (_, 0) => Shown::FirstOfTwo,
            _ => Shown::SecondOfTwo,
        };
        *self.rules.entry((rule, done, part.kind, shown)).or_default() += 1;
        match rule {
            1 => {
                let length = set.layout.length();
                *self.blocks.entry((length, part.kind, detail, done)).or_default() += 1
            }
            5 | 6 => *self.keys.entry((rule, detail, part.in_problem_state())).or_default() += 1,
            _ => {}
        }
        if has_place(outcome) {
            let used = &matches[0];
            *self.places.entry((rule, used.h, used.entry)).or_default() += 1;
        }
    }

    /// How many records showed each rule.
    pub fn by_rule(&self) -> BTreeMap<u32, u64> {
        let mut counts = BTreeMap::new();
        for ((rule, ..), count) in &self.rules {
            *counts.entry(*rule).or_default() += count;
        }
        counts
    }

    pub fn add(&mut self, other: &Decisions) {
        for (&key, count) in &other.rules {
            *self.rules.entry(key).or_default() += count;
        }
    }

    /// What was never shown of all rules, blocks, keys and places there are.
    pub fn missing(&self) -> Vec<String> {
        let mut missing = self.missing_rules();
        missing.extend(self.missing_blocks());
        missing.extend(self.missing_keys());
        missing.extend(self.missing_places());
        missing
    }

    /// A second part is shown where it faults, so never in real mode or done by a page.
    fn missing_rules(&self) -> Vec<String> {
        let mut missing = Vec::new();
        for (rule, done, kinds) in RULES {
            for &kind in kinds {
                for shown in [Shown::Whole, Shown::FirstOfTwo, Shown::SecondOfTwo] {
                    let never = done && shown == Shown::SecondOfTwo;
                    if !never && !self.rules.contains_key(&(rule, done, kind, shown)) {
                        let end = if done { "done" } else { "faulted" };
                        missing.push(format!(
                            "no access of kind {kind} {end} by rule {rule}, {shown:?}"
                        ));
                    }
                }
            }
        }
        missing
    }

    fn missing_blocks(&self) -> Vec<String> {
        let pairs = Layout::BOTH
            .into_iter()
            .flat_map(|layout| (0..layout.pairs as u32).map(move |pair| (layout.length(), pair)));
        let every = pairs.flat_map(|(length, pair)| {
            let kinds = [FETCH, LOAD, STORE].into_iter();
            kinds.flat_map(move |kind| [true, false].map(|done| (length, kind, pair, done)))
        });
        let unmet = every.filter(|key| !self.blocks.contains_key(key));
        unmet
            .map(|(length, kind, pair, done)| {
                let side = Side::of_kind(kind);
                format!(
                    "no access of kind {kind} by block {pair}, {side:?}, of {length} bytes, done: {done}"
                )
            })
            .collect()
    }

    fn missing_keys(&self) -> Vec<String> {
        let every = KEYS.into_iter().flat_map(|(rule, details)| {
            details.iter().flat_map(move |&detail| [(rule, detail, true), (rule, detail, false)])
        });
        let unmet = every.filter(|key| !self.keys.contains_key(key));
        unmet
            .map(|(rule, detail, user)| {
                format!("no key and PP {detail} by rule {rule}, user: {user}")
            })
            .collect()
    }

    fn missing_places(&self) -> Vec<String> {
        let every = (4..=6)
            .flat_map(|rule| (0..2).flat_map(move |h| (0..8).map(move |entry| (rule, h, entry))));
        let unmet = every.filter(|key| !self.places.contains_key(key));
        unmet
            .map(|(rule, h, entry)| format!("no entry {entry} of group {h} by rule {rule}"))
            .collect()
    }
}

/// Each rule, whether the access is done by it, and the kinds that it can decide.
const RULES: [(u32, bool, &[u32]); 8] = [
    (0, true, &[FETCH, LOAD, STORE]),
    (1, true, &[FETCH, LOAD, STORE]),
    (1, false, &[FETCH, LOAD, STORE]),
    (2, false, &[FETCH]),
    (3, false, &[FETCH, LOAD, STORE]),
    (4, false, &[FETCH]),
    (5, false, &[FETCH, LOAD, STORE]),
    (6, true, &[FETCH, LOAD, STORE]),
];

/// Key × 4 + PP that rules 5 and 6 can show: key 1 with PP 00 allows nothing, PP 10 everything.
const KEYS: [(u32, &[u32]); 2] = [(5, &[3, 4, 5, 7]), (6, &[0, 1, 2, 3, 5, 6, 7])];
