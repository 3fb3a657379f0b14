//! What the entries with V = 0 of the compared calls stood in front of, and what they have to have met.

use std::collections::BTreeMap;

use model::search::{contradict, Place};

/// Counts of searches, and of maps that are done, in calls that no earlier rule refused.
#[derive(Default)]
pub struct Gaps {
    /// Searches whose first match stands behind an entry with V = 0.
    pub behind: u64,
    /// Maps that take a place in front of used entries of its group.
    pub in_front: u64,
    /// By call, and how its matches and the entries with V = 0 stand to each other.
    shapes: BTreeMap<(&'static str, &'static str), u64>,
    /// By how the place that map takes stands to other entries.
    taken: BTreeMap<&'static str, u64>,
}

impl Gaps {
    /// Notes a search by the sixteen entries of a page and the matches among them.
    pub fn note(&mut self, call: &'static str, places: &[Place], met: &[Place]) {
        let free: Vec<Place> = places.iter().copied().filter(Place::is_free).collect();
        for (shape, holds) in SHAPES {
            if holds(&free, met) {
                *self.shapes.entry((call, shape)).or_default() += 1;
            }
        }
        match (met.first(), free.first()) {
            (Some(first), _) if is_behind(first, &free) => self.behind += 1,
            (None, Some(place)) if call == "map" => self.note_taken(places, &free, place),
            _ => {}
        }
    }

    fn note_taken(&mut self, places: &[Place], free: &[Place], taken: &Place) {
        if is_in_front(places, taken) {
            self.in_front += 1;
        }
        for (way, holds) in TAKEN {
            if holds(places, free, taken) {
                *self.taken.entry(way).or_default() += 1;
            }
        }
    }

    pub fn add(&mut self, other: &Gaps) {
        self.behind += other.behind;
        self.in_front += other.in_front;
    }

    /// What was never met of all there is.
    pub fn missing(&self) -> Vec<String> {
        self.missing_of(&SHAPES, &TAKEN)
    }

    /// The same after a clear, where no page has two matches and every free entry is zero.
    pub fn missing_in_lists(&self) -> Vec<String> {
        self.missing_of(&SHAPES[..OF_ONE_MATCH], &TAKEN[..OF_ZERO_ENTRIES])
    }

    fn missing_of(&self, shapes: &[(&'static str, Shape)], taken: &[(&str, Way)]) -> Vec<String> {
        let mut missing = Vec::new();
        for call in ["map", "unmap", "protect", "look", "access"] {
            for &(shape, _) in shapes {
                if !self.shapes.contains_key(&(call, shape)) {
                    missing.push(format!("{call} never met {shape}"));
                }
            }
        }
        for (way, _) in taken {
            if !self.taken.contains_key(way) {
                missing.push(format!("map never took {way}"));
            }
        }
        missing
    }
}

/// Whether some entry with V = 0 comes before a place.
fn is_behind(place: &Place, free: &[Place]) -> bool {
    free.iter().any(|free| free.is_before(place))
}

/// Whether a used entry of its own group comes behind a place.
fn is_in_front(places: &[Place], taken: &Place) -> bool {
    let mut behind = places.iter().filter(|place| taken.is_before(place));
    behind.any(|place| place.h == taken.h && !place.is_free())
}

fn of_group(places: &[Place], h: u32) -> Vec<Place> {
    places.iter().copied().filter(|place| place.h == h).collect()
}

/// Of the entries with V = 0 and the matches.
type Shape = fn(&[Place], &[Place]) -> bool;

/// The first of these can be met by one match.
const OF_ONE_MATCH: usize = 5;

const SHAPES: [(&str, Shape); 7] = [
    ("no match, and an entry with V = 0", |free, met| met.is_empty() && !free.is_empty()),
    ("a first match behind an entry with V = 0 of the primary group", |free, met| {
        met.first().is_some_and(|first| first.h == 0 && is_behind(first, free))
    }),
    ("a first match behind an entry with V = 0 of the secondary group", |free, met| {
        met.first().is_some_and(|first| is_behind(first, &of_group(free, 1)))
    }),
    (
        "a first match in the secondary group, and an entry with V = 0 in the primary",
        |free, met| met.first().is_some_and(|first| first.h == 1 && !of_group(free, 0).is_empty()),
    ),
    ("a first match in the secondary group, and a full primary", |free, met| {
        met.first().is_some_and(|first| first.h == 1 && of_group(free, 0).is_empty())
    }),
    ("a further match behind an entry with V = 0 that the first is before", |free, met| {
        further_behind(free, met).is_some()
    }),
    ("such a further match that alone contradicts", |free, met| {
        further_behind(free, met)
            .is_some_and(|at| contradict(None, met) && !contradict(None, &met[..at]))
    }),
];

/// The number of the first match that an entry with V = 0 parts from the first of all.
fn further_behind(free: &[Place], met: &[Place]) -> Option<usize> {
    let first = met.first()?;
    let after: Vec<Place> = free.iter().copied().filter(|free| first.is_before(free)).collect();
    met.iter().position(|place| is_behind(place, &after))
}

/// Of all sixteen entries, those with V = 0, and the one that map takes.
type Way = fn(&[Place], &[Place], &Place) -> bool;

/// The first of these can be met where every free entry is zero.
const OF_ZERO_ENTRIES: usize = 6;

const TAKEN: [(&str, Way); 7] = [
    ("a place in front of used entries of the primary group", |places, _, taken| {
        taken.h == 0 && is_in_front(places, taken)
    }),
    ("a place in front of used entries of the secondary group", |places, _, taken| {
        taken.h == 1 && is_in_front(places, taken)
    }),
    ("a place of the primary group where the secondary has one", |_, free, taken| {
        taken.h == 0 && !of_group(free, 1).is_empty()
    }),
    ("the only place of the primary group", |_, free, _| of_group(free, 0).len() == 1),
    ("the last entry of the primary group", |_, _, taken| taken.h == 0 && taken.entry == 7),
    ("the last entry of the secondary group", |_, _, taken| taken.h == 1 && taken.entry == 7),
    ("an entry whose other bits are not zero", |_, _, taken| taken.first != 0),
];
