//! Arrangements of pages in groups, found by augmenting paths: nothing here counts to sixteen.

use std::collections::{BTreeMap, BTreeSet};

/// Pages seated in groups. A page is known by its place in the list of choices.
struct Seating<'a> {
    choices: &'a [Vec<u32>],
    capacity: usize,
    groups: BTreeMap<u32, Vec<usize>>,
}

/// Whether each page can have one of its groups, no group more than `capacity` times.
pub fn exists(choices: &[Vec<u32>], capacity: usize) -> bool {
    let groups = BTreeMap::new();
    let mut seating = Seating { choices, capacity, groups };
    (0..choices.len()).all(|page| seating.seat(page, &mut BTreeSet::new()))
}

impl Seating<'_> {
    /// Seats a page, moving others to make room; `visited` are the groups already tried for it.
    fn seat(&mut self, page: usize, visited: &mut BTreeSet<u32>) -> bool {
        for &group in &self.choices[page] {
            if visited.insert(group) && self.seat_in(page, group, visited) {
                return true;
            }
        }
        false
    }

    fn seat_in(&mut self, page: usize, group: u32, visited: &mut BTreeSet<u32>) -> bool {
        let seated = self.groups.entry(group).or_default();
        if seated.len() < self.capacity {
            seated.push(page);
            return true;
        }
        for (seat, moved) in seated.clone().into_iter().enumerate() {
            if self.seat(moved, visited) {
                self.groups.get_mut(&group).expect("the group is full")[seat] = page;
                return true;
            }
        }
        false
    }
}
