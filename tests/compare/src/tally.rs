//! What the compared calls met, and what they have to have met.

use std::collections::BTreeMap;

use model::bytes::Model;
use model::call::{Call, Lengths, Page, FETCH, LOAD, STORE};
use model::operand::{parts, LONGEST};
use model::registers::{sdr1_is_well_formed, table_length, Registers};
use model::search::{contradict, first_free, matches, places, Place};
use model::translation::{before_search, BeforeSearch};

use crate::decisions::Decisions;
use crate::duplicates::Duplicates;
use crate::gaps::Gaps;
use crate::hits::Hits;
use crate::lost;
use crate::operands::Operands;
use crate::pages::Pages;
use crate::told::Told;

/// Counts of calls by what they met.
#[derive(Default)]
pub struct Tally {
    pub calls: u64,
    /// By call and result number.
    numbers: BTreeMap<(&'static str, u32), u64>,
    /// By call, the refusal given, and one that came after it in the order and held as well.
    orders: BTreeMap<(&'static str, u32, u32), u64>,
    /// By the end of an access and its kind.
    outcomes: BTreeMap<(&'static str, u32), u64>,
    /// By call and the matches of its page.
    situations: BTreeMap<(&'static str, &'static str), u64>,
    pub operands: Operands,
    pub decisions: Decisions,
    pub duplicates: Duplicates,
    pub gaps: Gaps,
    pub pages: Pages,
    pub hits: Hits,
    pub lost: lost::Counts,
    pub told: Told,
}

impl Tally {
    /// A call that was lent a register page of this length, if any, and its result.
    pub fn count(&mut self, call: &Call, number: u32, registers: usize) {
        self.calls += 1;
        *self.numbers.entry((call.name(), number)).or_default() += 1;
        self.pages.count(call, number, registers);
    }

    pub fn numbers(&self) -> &BTreeMap<(&'static str, u32), u64> {
        &self.numbers
    }

    pub fn add(&mut self, other: &Tally) {
        self.calls += other.calls;
        for (&key, count) in &other.numbers {
            *self.numbers.entry(key).or_default() += count;
        }
        self.decisions.add(&other.decisions);
        self.duplicates.add(&other.duplicates);
        self.gaps.add(&other.gaps);
        self.hits.add(&other.hits);
        self.lost.add(&other.lost);
        self.told.add(&other.told);
    }

    /// Notes the state a call comes upon.
    pub fn note(
        &mut self,
        model: &Model,
        call: &Call,
        registers: &[u8],
        table: &[u8],
        lengths: Lengths,
    ) {
        let mut broken = model.broken(call, registers, lengths);
        let refused = !broken.is_empty();
        self.pages.note(call, registers, broken.first().copied());
        if broken.iter().all(|number| [11, 6, 12, 5, 1].contains(number)) {
            broken.extend(self.note_search(call, registers, table));
        }
        if let Some((&first, later)) = broken.split_first() {
            for &second in later {
                *self.orders.entry((call.name(), first, second)).or_default() += 1;
            }
        }
        if !refused {
            for (sdr1, page) in pages_of(call, registers, table.len()) {
                let met = matches(None, sdr1, page, table);
                self.duplicates.note(call.name(), &met);
                self.gaps.note(call.name(), &places(sdr1, page, table), &met);
            }
        }
        if let (Call::Access(access), false) = (*call, refused) {
            let set = Registers::read(registers).expect("the length was tested");
            let ends = model.ends(&set, access, table, None);
            for end in &ends {
                *self.outcomes.entry((end.outcome.name(), access.kind)).or_default() += 1;
            }
            self.operands.note(&ends);
            self.decisions.note(&set, &ends);
        }
    }

    /// The refusals of the search, told even where an earlier rule hides them.
    fn note_search(&mut self, call: &Call, registers: &[u8], table: &[u8]) -> Vec<u32> {
        let Some((sdr1, page)) = page_of(call, registers, table.len()) else {
            return Vec::new();
        };
        let met = matches(None, sdr1, page, table);
        *self.situations.entry((call.name(), situation(&met))).or_default() += 1;
        let causes = match call {
            Call::Map { .. } => {
                vec![(7, !met.is_empty()), (9, first_free(None, sdr1, page, table).is_none())]
            }
            Call::Look { .. } => vec![(10, contradict(None, &met)), (8, met.is_empty())],
            Call::Access(_) | Call::AccessCached(_) => vec![(10, contradict(None, &met))],
            Call::Rights { .. } => Vec::new(),
            _ => vec![(8, met.is_empty())],
        };
        causes.into_iter().filter_map(|(number, holds)| holds.then_some(number)).collect()
    }

    /// Results and orders that these calls never met.
    pub fn missing_of(&self, calls: &[&str]) -> Vec<String> {
        let mut missing = Vec::new();
        for (call, numbers) in NUMBERS.iter().filter(|(call, _)| calls.contains(call)) {
            for &number in *numbers {
                if !self.numbers.contains_key(&(*call, number)) {
                    missing.push(format!("{call} never gave {number}"));
                }
            }
        }
        for (call, pairs) in ORDERS.iter().filter(|(call, _)| calls.contains(call)) {
            for &(first, second) in *pairs {
                if !self.orders.contains_key(&(*call, first, second)) {
                    missing.push(format!("{call} never met {first} and {second} together"));
                }
            }
        }
        missing
    }

    /// Matches that these calls never met.
    pub fn missing_situations(&self, calls: &[&'static str]) -> Vec<String> {
        let mut missing = Vec::new();
        for &call in calls {
            for situation in SITUATIONS {
                if !self.situations.contains_key(&(call, situation)) {
                    missing.push(format!("{call} never met {situation}"));
                }
            }
        }
        missing
    }

    /// What of the lists below was never met.
    pub fn missing(&self) -> Vec<String> {
        let mut missing = self.missing_of(&WITHOUT_CACHE);
        for key in OUTCOMES {
            if !self.outcomes.contains_key(&key) {
                missing.push(format!("no access of kind {} ended by {}", key.1, key.0));
            }
        }
        missing.extend(self.missing_situations(&["map", "unmap", "protect", "look", "access"]));
        missing.extend(self.operands.missing());
        missing.extend(self.decisions.missing());
        missing.extend(self.duplicates.missing());
        missing.extend(self.gaps.missing());
        missing.extend(self.pages.missing());
        missing
    }
}

/// SDR1 and each page that a call searches for, part by part where it is an access.
pub fn pages_of(call: &Call, registers: &[u8], table: usize) -> Vec<(u32, Page)> {
    let calls = match (*call, Registers::read(registers)) {
        (Call::Access(access) | Call::AccessCached(access), Some(set))
            if (1..=LONGEST).contains(&access.length) =>
        {
            parts(None, &set, access).into_iter().map(Call::Access).collect()
        }
        _ => vec![*call],
    };
    calls.iter().filter_map(|call| page_of(call, registers, table)).collect()
}

/// SDR1 and the page a call searches for first, where a search in a slice of this length is possible.
fn page_of(call: &Call, registers: &[u8], table: usize) -> Option<(u32, Page)> {
    if let Some(asked) = call.asked() {
        let mut accesses = asked.into_iter().map(Call::Access);
        return accesses.find_map(|access| page_of(&access, registers, table));
    }
    let (sdr1, page) = match *call {
        Call::Access(access) | Call::AccessCached(access) => {
            let set = Registers::read(registers)?;
            if access.mode > 7 || access.kind > 2 || !set.blocks_are_well_formed() {
                return None;
            }
            match before_search(None, &set, access) {
                BeforeSearch::Settled(_) => return None,
                BeforeSearch::Search { page, .. } => (set.sdr1(), page),
            }
        }
        _ => (call.sdr1()?, call.page()?),
    };
    let possible = page.in_range() && sdr1_is_well_formed(sdr1) && table >= table_length(sdr1);
    possible.then_some((sdr1, page))
}

#[rustfmt::skip]
const SITUATIONS: [&str; 5] = [
    "no match", "one match", "duplicates in one group", "duplicates in both groups", "contradicting matches",
];

fn situation(met: &[Place]) -> &'static str {
    match met {
        [] => SITUATIONS[0],
        [_] => SITUATIONS[1],
        _ if contradict(None, met) => SITUATIONS[4],
        _ if met.iter().all(|place| place.h == met[0].h) => SITUATIONS[2],
        _ => SITUATIONS[3],
    }
}

/// The calls that are lent no cache.
#[rustfmt::skip]
const WITHOUT_CACHE: [&str; 10] = [
    "check", "set", "clear", "map", "unmap", "protect", "look", "access", "pack", "unpack",
];

/// Every result number a call can give.
const NUMBERS: [(&str, &[u32]); 13] = [
    ("check", &[0, 11, 2, 3, 4, 5]),
    ("set", &[0, 11, 6, 2, 3, 4, 5]),
    ("clear", &[0, 2, 1]),
    ("map", &[0, 6, 2, 1, 7, 9]),
    ("unmap", &[0, 11, 6, 2, 1, 8]),
    ("protect", &[0, 6, 2, 1, 8]),
    ("look", &[0, 11, 6, 2, 1, 8, 10]),
    ("access", &[0, 64, 65, 11, 6, 12, 2, 3, 4, 5, 1, 10]),
    ("cached", &[0, 64, 65, 11, 6, 12, 2, 3, 4, 5, 1, 10]),
    ("rights", &[0, 11, 6, 2, 3, 4, 5, 1]),
    ("invalidate", &[0, 11, 6]),
    ("pack", &[0, 11, 6]),
    ("unpack", &[0, 11]),
];

/// Two causes that can hold at once, the one to be answered first.
#[rustfmt::skip]
const ORDERS: [(&str, &[(u32, u32)]); 12] = [
    ("check", &[(2, 3), (2, 4), (2, 5), (3, 4), (3, 5), (4, 5)]),
    ("set", &[
        (11, 6), (6, 2), (6, 3), (6, 4), (6, 5),
        (2, 3), (2, 4), (2, 5), (3, 4), (3, 5), (4, 5),
    ]),
    ("clear", &[(2, 1)]),
    ("map", &[(6, 2), (6, 1), (6, 7), (6, 9), (2, 1), (1, 7), (1, 9), (7, 9)]),
    ("unmap", &[(11, 6), (11, 2), (11, 1), (11, 8), (6, 2), (6, 1), (2, 1), (1, 8)]),
    ("protect", &[(6, 2), (6, 1), (6, 8), (2, 1), (1, 8)]),
    ("look", &[
        (11, 6), (11, 2), (11, 1), (11, 8), (11, 10), (6, 2), (6, 1), (2, 1), (1, 8), (1, 10),
    ]),
    ("access", &[
        (11, 6), (11, 12), (11, 2), (11, 3), (11, 4), (11, 5), (11, 1), (11, 10),
        (6, 12), (6, 2), (6, 3), (6, 4), (6, 5), (6, 1),
        (12, 2), (12, 3), (12, 4), (12, 5), (12, 1), (12, 10),
        (2, 3), (2, 4), (2, 5), (2, 1), (3, 4), (3, 5), (3, 1), (4, 5), (4, 1), (5, 1),
        (5, 10), (1, 10),
    ]),
    ("cached", &[
        (11, 6), (11, 12), (11, 2), (11, 3), (11, 4), (11, 5), (11, 1), (11, 10),
        (6, 12), (6, 2), (6, 3), (6, 4), (6, 5), (6, 1),
        (12, 2), (12, 3), (12, 4), (12, 5), (12, 1), (12, 10),
        (2, 3), (2, 4), (2, 5), (2, 1), (3, 4), (3, 5), (3, 1), (4, 5), (4, 1), (5, 1),
        (5, 10), (1, 10),
    ]),
    ("rights", &[
        (11, 6), (11, 2), (11, 3), (11, 4), (11, 5), (11, 1),
        (6, 2), (6, 3), (6, 4), (6, 5), (6, 1),
        (2, 3), (2, 4), (2, 5), (2, 1), (3, 4), (3, 5), (3, 1), (4, 5), (4, 1), (5, 1),
    ]),
    ("invalidate", &[(11, 6)]),
    ("pack", &[(11, 6)]),
];

/// Every way an access can end, with each kind that can end so.
const OUTCOMES: [(&str, u32); 21] = [
    ("real mode", FETCH),
    ("real mode", LOAD),
    ("real mode", STORE),
    ("a block", FETCH),
    ("a block", LOAD),
    ("a block", STORE),
    ("block protection", FETCH),
    ("block protection", LOAD),
    ("block protection", STORE),
    ("no execute", FETCH),
    ("no match", FETCH),
    ("no match", LOAD),
    ("no match", STORE),
    ("guarded", FETCH),
    ("protection", FETCH),
    ("protection", LOAD),
    ("protection", STORE),
    ("a page", FETCH),
    ("a page", LOAD),
    ("a page", STORE),
    ("contradiction", FETCH),
];
