//! What the duplicate matches of the compared calls differed in, and what they have to have met.

use std::collections::BTreeMap;

use model::search::{contradict, Place};

/// Counts of searches that found more than one match, in calls that no earlier rule refused.
#[derive(Default)]
pub struct Duplicates {
    /// With equal second words.
    pub equal: u64,
    /// With second words that are not all equal.
    pub unequal: u64,
    /// By call, and the one field in which matches differ from the first.
    fields: BTreeMap<(&'static str, &'static str), u64>,
    /// By call, and how the matches stand to each other.
    shapes: BTreeMap<(&'static str, &'static str), u64>,
}

impl Duplicates {
    pub fn note(&mut self, call: &'static str, met: &[Place]) {
        let [first, _, ..] = met else { return };
        let differing = met.iter().fold(0, |bits, place| bits | place.second ^ first.second);
        match differing {
            0 => self.equal += 1,
            _ => self.unequal += 1,
        }
        for (field, bits) in FIELDS {
            if differing & bits != 0 && differing & !bits == 0 {
                *self.fields.entry((call, field)).or_default() += 1;
            }
        }
        for (shape, holds) in SHAPES {
            if holds(met) {
                *self.shapes.entry((call, shape)).or_default() += 1;
            }
        }
    }

    /// How many searches found matches that differ in each field alone.
    pub fn by_field(&self) -> Vec<(&'static str, u64)> {
        let of_field = |field| {
            let counts = self.fields.iter().filter(move |((_, of), _)| *of == field);
            (field, counts.map(|(_, count)| count).sum())
        };
        FIELDS.iter().map(|(field, _)| of_field(*field)).collect()
    }

    pub fn add(&mut self, other: &Duplicates) {
        self.equal += other.equal;
        self.unequal += other.unequal;
        for (&key, count) in &other.fields {
            *self.fields.entry(key).or_default() += count;
        }
    }

    /// What was never met of all fields and shapes there are.
    pub fn missing(&self) -> Vec<String> {
        let mut missing = Vec::new();
        for call in ["map", "unmap", "protect", "look", "access"] {
            for (field, _) in FIELDS {
                if !self.fields.contains_key(&(call, field)) {
                    missing
                        .push(format!("{call} never met duplicates that differ in {field} alone"));
                }
            }
        }
        for call in ["unmap", "protect", "look", "access"] {
            for (shape, _) in SHAPES {
                if !self.shapes.contains_key(&(call, shape)) {
                    missing.push(format!("{call} never met duplicates {shape}"));
                }
            }
        }
        missing
    }
}

/// The fields of a second word by their bits, and each ignored bit.
const FIELDS: [(&str, u32); 9] = [
    ("RPN", 0xFFFF_F000),
    ("bit 20", 0x0000_0800),
    ("bit 21", 0x0000_0400),
    ("bit 22", 0x0000_0200),
    ("R", 0x0000_0100),
    ("C", 0x0000_0080),
    ("WIMG", 0x0000_0078),
    ("bit 29", 0x0000_0004),
    ("PP", 0x0000_0003),
];

type Shape = fn(&[Place]) -> bool;

/// How matches stand to each other: who of them agree, and where.
const SHAPES: [(&str, Shape); 10] = [
    ("that agree in one group and differ", |met| agree(met) && in_one_group(met) && differ(met)),
    ("that agree in both groups and differ", |met| agree(met) && !in_one_group(met) && differ(met)),
    ("of which a later one alone has R", |met| agree(met) && later_alone(met, 0x100)),
    ("of which a later one alone has C", |met| agree(met) && later_alone(met, 0x080)),
    ("that contradict in the primary group", |met| !agree(&of_group(met, 0))),
    ("that contradict in the secondary group", |met| !agree(&of_group(met, 1))),
    ("that contradict between the groups alone", |met| {
        !agree(met) && agree(&of_group(met, 0)) && agree(&of_group(met, 1))
    }),
    ("of which the first two agree and a later one does not", |met| {
        !agree(met) && agree(&met[..2])
    }),
    ("of which one between does not agree", |met| {
        !agree(met) && agree(&[met[0], met[met.len() - 1]])
    }),
    ("of which the later agree, but not with the first", |met| {
        met.len() > 2 && !agree(met) && agree(&met[1..])
    }),
];

fn agree(met: &[Place]) -> bool {
    !contradict(None, met)
}

fn differ(met: &[Place]) -> bool {
    met.iter().any(|place| place.second != met[0].second)
}

fn in_one_group(met: &[Place]) -> bool {
    met.iter().all(|place| place.h == met[0].h)
}

fn of_group(met: &[Place], h: u32) -> Vec<Place> {
    met.iter().copied().filter(|place| place.h == h).collect()
}

/// Whether a match after the first has this mark, and the first has not.
fn later_alone(met: &[Place], mark: u32) -> bool {
    met[0].second & mark == 0 && met.iter().any(|place| place.second & mark != 0)
}
