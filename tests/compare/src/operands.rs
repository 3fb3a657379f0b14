//! What the operands of the compared accesses met, and what they have to have met.

use std::collections::BTreeMap;

use model::bytes::End;
use model::call::{FETCH, LOAD, STORE};
use model::operand::LONGEST;
use model::translation::Outcome;

/// Counts of accesses that no rule on numbers, registers or lengths refused.
#[derive(Default)]
pub struct Operands {
    /// Over a page edge: by the end of each part and the kind.
    ends: BTreeMap<(&'static str, &'static str, u32), u64>,
    /// Over a page edge: by what is special about it.
    edges: BTreeMap<&'static str, u64>,
    /// Done: by the number of parts and the length.
    lengths: BTreeMap<(usize, u32), u64>,
}

impl Operands {
    pub fn note(&mut self, ends: &[End]) {
        if ends.iter().all(|end| end.outcome.is_done()) {
            let length = ends.iter().map(|end| end.part.length).sum();
            *self.lengths.entry((ends.len(), length)).or_default() += 1;
        }
        if let [first, second] = ends {
            let key = (first.outcome.name(), second.outcome.name(), first.part.kind);
            *self.ends.entry(key).or_default() += 1;
            for (name, holds) in EDGES {
                if holds(first, second) {
                    *self.edges.entry(name).or_default() += 1;
                }
            }
        }
    }

    /// What single calls never met of all ends, edges and lengths there are.
    pub fn missing(&self) -> Vec<String> {
        let ends = [&BLOCK_ENDS[..], &PAGE_ENDS].concat();
        let mut missing = self.missing_by_kinds(&ends);
        missing.extend(self.missing_ends(&["real mode"], &[FETCH, LOAD, STORE]));
        missing.extend(self.missing_edges());
        missing.extend(self.missing_lengths());
        missing
    }

    /// What the complete tables of page edges never met.
    pub fn missing_at_edges(&self) -> Vec<String> {
        let mut missing = self.missing_by_kinds(&PAGE_ENDS);
        missing.extend(self.missing_edges());
        missing.extend(self.missing_lengths());
        missing
    }

    /// What lists of calls never met: after a clear no matches contradict.
    pub fn missing_in_lists(&self) -> Vec<String> {
        let ends = ["a page", "no match", "protection", "a block"];
        let mut missing = self.missing_ends(&ends, &[FETCH, LOAD, STORE]);
        missing.extend(self.missing_edges());
        missing
    }

    fn missing_by_kinds(&self, ends: &[&'static str]) -> Vec<String> {
        let mut missing = self.missing_ends(ends, &[LOAD, STORE]);
        missing.extend(self.missing_ends(&[ends, &FETCH_ENDS].concat(), &[FETCH]));
        missing
    }

    fn missing_ends(&self, names: &[&'static str], kinds: &[u32]) -> Vec<String> {
        let mut missing = Vec::new();
        for &kind in kinds {
            for &first in names {
                for &second in names {
                    if !self.ends.contains_key(&(first, second, kind)) {
                        let pair = format!("by {first}, then by {second}");
                        missing.push(format!("no operand of kind {kind} ended {pair}"));
                    }
                }
            }
        }
        missing
    }

    fn missing_edges(&self) -> Vec<String> {
        let unmet = EDGES.iter().filter(|(name, _)| !self.edges.contains_key(name));
        unmet.map(|(name, _)| format!("no operand {name}")).collect()
    }

    fn missing_lengths(&self) -> Vec<String> {
        let every = (1..=LONGEST).map(|length| (1, length));
        let every = every.chain((2..=LONGEST).map(|length| (2, length)));
        let unmet = every.filter(|key| !self.lengths.contains_key(key));
        unmet
            .map(|(pages, length)| format!("no {length} bytes in {pages} pages were done"))
            .collect()
    }
}

/// How a part that goes by a block can end.
const BLOCK_ENDS: [&str; 2] = ["a block", "block protection"];
/// How a part that goes by a page can end.
const PAGE_ENDS: [&str; 4] = ["no match", "protection", "a page", "contradiction"];
/// How a part of a fetch can end besides.
const FETCH_ENDS: [&str; 2] = ["no execute", "guarded"];

type Edge = fn(&End, &End) -> bool;

/// What is special about an edge.
const EDGES: [(&str, Edge); 8] = [
    ("went on from FFFFFFFF at 00000000 by pages", |first, second| {
        second.part.address == 0 && by_pages(first, second)
    }),
    ("faulted at 00000000 after FFFFFFFF", |first, second| {
        second.part.address == 0 && first.outcome.is_done() && second.outcome == Outcome::NoMatch
    }),
    ("went by the pages of two segments", |first, second| {
        second.part.address % (1 << 28) == 0 && by_pages(first, second)
    }),
    ("lay in one block", |first, second| same_block(first, second) == Some(true)),
    ("went from block to block", |first, second| same_block(first, second) == Some(false)),
    ("marked one group twice", |first, second| {
        by_pages(first, second) && first.matches[0].group == second.matches[0].group
    }),
    ("had one byte before the edge", |first, second| {
        first.part.length == 1 && by_pages(first, second)
    }),
    ("had one byte after the edge", |first, second| {
        second.part.length == 1 && by_pages(first, second)
    }),
];

fn by_pages(first: &End, second: &End) -> bool {
    [first, second].iter().all(|end| matches!(end.outcome, Outcome::Page { .. }))
}

/// Whether one block did both parts; none where a part was not done by a block.
fn same_block(first: &End, second: &End) -> Option<bool> {
    match (first.outcome, second.outcome) {
        (Outcome::Block { number, .. }, Outcome::Block { number: other, .. }) => {
            Some(number == other)
        }
        _ => None,
    }
}
