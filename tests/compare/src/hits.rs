//! What the compared accesses with a cache came upon in it, and what they have to have met.

use std::collections::BTreeMap;

use model::bytes::{End, Model};
use model::cache::{Cache, Words, SET};
use model::call::{Call, Lengths, Page, FETCH, LOAD, STORE};
use model::entry::{CHANGED, REFERENCED};
use model::record;
use model::registers::Registers;
use model::search::{contradict, matches};
use model::translation::Outcome;
use model::words::word_at;

/// Something met, and numbers that tell which.
type Met = (&'static str, [u32; 4]);

/// Counts of parts of accesses by what they met in the cache.
#[derive(Default)]
pub struct Hits {
    met: BTreeMap<Met, u64>,
}

/// How a part went, in pairs of parts.
const WAYS: [&str; 9] = [
    "done by a hit",
    "stopped by a hit",
    "done by the table",
    "stopped by the table",
    "no match",
    "contradiction",
    "done by a block",
    "stopped before the search",
    "real mode",
];

impl Hits {
    fn add_one(&mut self, name: &'static str, numbers: [u32; 4]) {
        *self.met.entry((name, numbers)).or_default() += 1;
    }

    pub fn add(&mut self, other: &Hits) {
        for (&key, count) in &other.met {
            *self.met.entry(key).or_default() += count;
        }
    }

    /// How many parts hit, and how many loads there were.
    pub fn counts(&self) -> [u64; 2] {
        ["hit", "load"].map(|wanted| {
            let of_name = self.met.iter().filter(|((name, _), _)| *name == wanted);
            of_name.map(|(_, count)| count).sum()
        })
    }

    /// Notes the state that an access with a cache comes upon, where no rule on numbers or lengths refuses it.
    pub fn note(
        &mut self,
        model: &Model,
        call: &Call,
        registers: &[u8],
        table: &[u8],
        cache: &[u8],
        lengths: Lengths,
    ) {
        let Call::AccessCached(access) = *call else { return };
        if !model.broken(call, registers, lengths).is_empty() {
            return;
        }
        let set = Registers::read(registers).expect("the length was tested");
        let held = Cache::read(None, cache);
        let ends = model.ends(&set, access, table, Some(&held));
        let done = ends.iter().all(|end| end.outcome.is_done());
        for end in &ends {
            let Some(page) = end.page else {
                self.note_settled(&set, end, cache);
                continue;
            };
            let places = places(cache, page.page_index);
            self.note_near(page, &places);
            match end.hit {
                Some(hit) => {
                    self.note_hit(end, page, hit.place, &places);
                    self.note_table(&set, page, hit.words, table);
                }
                None => self.note_miss(end, page, &places, done),
            }
        }
        if let [first, second] = &ends[..] {
            self.add_one("pair", [way(first), way(second), access.kind, 0]);
        }
    }

    fn note_settled(&mut self, set: &Registers, end: &End, cache: &[u8]) {
        let vsid = set.segment(end.part.address).vsid();
        let page = Page::of_address(vsid, end.part.address);
        if places(cache, page.page_index).into_iter().any(|place| passes(page, place)) {
            let [rule, _] = record::rule_and_detail(None, set, end.part, end.outcome);
            self.add_one("held but not asked", [rule, u32::from(end.outcome.is_done()), 0, 0]);
        }
    }

    /// Places that differ from one that passes in one of its three conditions.
    fn note_near(&mut self, page: Page, places: &[Words; 2]) {
        for (place, &[first, _, third, _]) in (0..).zip(places) {
            let v = first >> 31 == 1;
            let vsid = first >> 7 & 0xFF_FFFF == page.vsid;
            let (index, low) = (third == page.page_index, third & 0xFFFF == page.page_index);
            match (v, vsid, index) {
                (false, true, true) => self.add_one("V clear", [place, 0, 0, 0]),
                (true, false, true) => self.add_one("another VSID", [place, 0, 0, 0]),
                (true, true, false) => self.add_one("another index", [place, u32::from(low), 0, 0]),
                _ => {}
            }
        }
    }

    fn note_hit(&mut self, end: &End, page: Page, place: usize, places: &[Words; 2]) {
        let [first, second, _, age] = places[place];
        let rule = rule(end.outcome);
        let number = place as u32;
        self.add_one("hit", [rule, end.part.kind, number, first >> 6 & 1]);
        if first & 0x3F != page.api() {
            self.add_one("hit with another API", [rule, number, 0, 0]);
        }
        if age > 1 {
            self.add_one("hit with another fourth word", [rule, number, 0, 0]);
        }
        if second & REFERENCED == 0 {
            self.add_one("hit with R clear", [rule, number, 0, 0]);
        }
        if passes(page, places[1 - place]) {
            self.add_one("hit of a page held twice", [end.part.kind, 0, 0, 0]);
        }
    }

    /// What a hit hides in the table.
    fn note_table(&mut self, set: &Registers, page: Page, words: Words, table: &[u8]) {
        let met = matches(None, set.sdr1(), page, table);
        let hidden = match met.first() {
            None => 0,
            Some(_) if contradict(None, &met) => 1,
            Some(first) if first.h != words[0] >> 6 & 1 => 2,
            Some(first) if first.second != words[1] => 3,
            Some(_) => 4,
        };
        self.add_one("table behind a hit", [hidden, 0, 0, 0]);
    }

    fn note_miss(&mut self, end: &End, page: Page, places: &[Words; 2], done: bool) {
        let held = (0..2).find(|&place| passes(page, places[place]));
        if let Some(place) = held {
            let other = match passes(page, places[1 - place]) {
                true => 1 + u32::from(places[1 - place][1] & CHANGED != 0),
                false => 0,
            };
            let rule = rule(end.outcome);
            self.add_one("store with C clear", [place as u32, other, rule, 0]);
        }
        if !(done && end.outcome.is_done()) {
            return;
        }
        let ages = [0, 1].map(|place: usize| places[place][3].min(2));
        match held {
            Some(place) => self.add_one("reload", [place as u32, ages[0], ages[1], 0]),
            None => self.add_one("load", [ages[0], ages[1], places[1][0] >> 31, end.part.kind]),
        }
    }

    /// What was never met of all that garbage in a cache can be.
    pub fn missing(&self) -> Vec<String> {
        let mut every: Vec<Met> = Vec::new();
        for (rule, kinds) in
            [(4, &[FETCH][..]), (5, &[FETCH, LOAD, STORE]), (6, &[FETCH, LOAD, STORE])]
        {
            for &kind in kinds {
                for place in 0..2 {
                    every.extend([0, 1].map(|h| ("hit", [rule, kind, place, h])));
                }
            }
            for place in 0..2 {
                every.push(("hit with another API", [rule, place, 0, 0]));
                every.push(("hit with another fourth word", [rule, place, 0, 0]));
                every.push(("hit with R clear", [rule, place, 0, 0]));
            }
        }
        every
            .extend([FETCH, LOAD, STORE].map(|kind| ("hit of a page held twice", [kind, 0, 0, 0])));
        every.extend((0..5).map(|hidden| ("table behind a hit", [hidden, 0, 0, 0])));
        for place in 0..2 {
            every.push(("V clear", [place, 0, 0, 0]));
            every.push(("another VSID", [place, 0, 0, 0]));
            every.extend([0, 1].map(|low| ("another index", [place, low, 0, 0])));
            let others = if place == 0 { 0..3 } else { 0..1 };
            for other in others {
                every.extend([3, 5, 6].map(|rule| ("store with C clear", [place, other, rule, 0])));
            }
            for ages in 0..9 {
                every.push(("reload", [place, ages / 3, ages % 3, 0]));
            }
        }
        for ages in 0..9 {
            for kind in [FETCH, LOAD, STORE] {
                every.extend([0, 1].map(|v| ("load", [ages / 3, ages % 3, v, kind])));
            }
        }
        for (rule, done) in [(0, 1), (1, 1), (1, 0), (2, 0)] {
            every.push(("held but not asked", [rule, done, 0, 0]));
        }
        every.extend(pairs());
        let unmet = every.into_iter().filter(|key| !self.met.contains_key(key));
        unmet
            .map(|(name, numbers)| match name {
                "pair" => {
                    let [first, second, kind, _] = numbers.map(|number| number as usize);
                    format!("no operand of kind {kind}: {}, then {}", WAYS[first], WAYS[second])
                }
                _ => format!("no access with a cache met: {name} {numbers:?}"),
            })
            .collect()
    }

    /// What runs from zeros have to meet.
    pub fn missing_in_runs(&self) -> Vec<String> {
        let mut every: Vec<Met> = Vec::new();
        for (rule, kinds) in
            [(4, &[FETCH][..]), (5, &[FETCH, LOAD, STORE]), (6, &[FETCH, LOAD, STORE])]
        {
            for &kind in kinds {
                for place in 0..2 {
                    every.extend([0, 1].map(|h| ("hit", [rule, kind, place, h])));
                }
            }
        }
        for place in 0..2 {
            every.push(("another VSID", [place, 0, 0, 0]));
            every.push(("another index", [place, 0, 0, 0]));
            every.push(("store with C clear", [place, 0, 6, 0]));
        }
        every.extend(
            [[0, 0, 0], [0, 1, 1], [1, 0, 1], [1, 0, 0]]
                .map(|[one, other, v]| ("load", [one, other, v, LOAD])),
        );
        let names = ["done by a hit", "done by the table"];
        every.extend(pairs().filter(|(_, [first, second, ..])| {
            [first, second].iter().all(|way| names.contains(&WAYS[**way as usize]))
        }));
        let unmet = every.into_iter().filter(|key| !self.met.contains_key(key));
        unmet
            .map(|(name, numbers)| format!("no access with a cache met: {name} {numbers:?}"))
            .collect()
    }
}

/// Every two ways that the parts of an operand of a kind can go.
fn pairs() -> impl Iterator<Item = Met> {
    let translated = 0..WAYS.len() as u32 - 1;
    let two = translated
        .clone()
        .flat_map(move |first| translated.clone().map(move |second| [first, second]));
    two.flat_map(|[first, second]| {
        [FETCH, LOAD, STORE].map(move |kind| ("pair", [first, second, kind, 0]))
    })
}

fn way(end: &End) -> u32 {
    let name = match (end.outcome, end.hit, end.page) {
        (Outcome::RealMode, ..) => "real mode",
        (Outcome::Block { .. }, ..) => "done by a block",
        (Outcome::BlockProtection { .. } | Outcome::NoExecute, ..) => "stopped before the search",
        (Outcome::NoMatch, ..) => "no match",
        (Outcome::Contradiction, ..) => "contradiction",
        (outcome, Some(_), _) if outcome.is_done() => "done by a hit",
        (_, Some(_), _) => "stopped by a hit",
        (outcome, ..) if outcome.is_done() => "done by the table",
        _ => "stopped by the table",
    };
    WAYS.iter().position(|&way| way == name).expect("every way is listed") as u32
}

fn rule(outcome: Outcome) -> u32 {
    match outcome {
        Outcome::Guarded => 4,
        Outcome::Protection { .. } => 5,
        Outcome::Page { .. } => 6,
        _ => 3,
    }
}

/// The two places of a page index's set.
fn places(cache: &[u8], page_index: u32) -> [Words; 2] {
    let at = SET * (page_index as usize % 64);
    [at, at + 16].map(|at| [0, 4, 8, 12].map(|word| word_at(cache, at + word)))
}

/// Whether a place has V, VSID and page index.
fn passes(page: Page, [first, _, third, _]: Words) -> bool {
    first >> 31 == 1 && first >> 7 & 0xFF_FFFF == page.vsid && third == page.page_index
}
