//! What `mmu-dump diff` has to say.

use crate::check::name;
use crate::json::{list, number, object, text, Json};
use crate::pages::{among, entries, Found};
use crate::scene::Scene;
use model::registers::{Layout, Side};
use model::words::word_at;
use std::collections::BTreeMap;

/// A register page by the names of its words; what a short page lacks is zero.
fn by_name(scene: &Scene) -> Vec<(String, u32)> {
    let layout = Layout::of_length(scene.registers.len()).expect("a page of right length");
    let of_page = |word: usize| {
        let name = name(Layout::LONG, word);
        let own = (0..layout.words).find(|&own| crate::check::name(layout, own) == name);
        (name, own.map_or(0, |own| word_at(&scene.registers, 4 * own)))
    };
    assert_eq!(Layout::LONG.first_register(Side::Data), 33);
    (0..Layout::LONG.words).map(of_page).collect()
}

fn registers(before: &Scene, after: &Scene) -> Json {
    let pairs = by_name(before).into_iter().zip(by_name(after));
    let changed = pairs.filter(|((_, one), (_, other))| one != other);
    list(
        changed
            .map(|((name, one), (_, other))| {
                object(vec![
                    ("name", text(&name)),
                    ("before", number(one)),
                    ("after", number(other)),
                ])
            })
            .collect(),
    )
}

/// The entries by page and number among its matches; those that no page reaches come last, by their place.
fn by_page(scene: &Scene) -> BTreeMap<[u64; 4], Found> {
    let key = |found: &Found| match found.page {
        Some(page) => {
            let order = among(scene, found, page).1 as u64;
            [0, u64::from(page.vsid), u64::from(page.page_index), order]
        }
        None => [1, found.group as u64, found.entry as u64, 0],
    };
    entries(scene).into_iter().map(|found| (key(&found), found)).collect()
}

fn change(one: Option<&Found>, other: Option<&Found>) -> Option<Json> {
    let place_and_words = |found: &Found| (found.group, found.entry, found.first, found.second);
    let what = match (one, other) {
        (Some(one), Some(other)) if place_and_words(one) == place_and_words(other) => return None,
        (Some(_), Some(_)) => "changed",
        (Some(_), None) => "gone",
        (None, _) => "added",
    };
    let mut members = vec![("change", text(what))];
    members.extend(one.map(|one| ("before", one.json())));
    members.extend(other.map(|other| ("after", other.json())));
    Some(object(members))
}

pub fn all(before: &Scene, after: &Scene) -> Json {
    let (one, other) = (by_page(before), by_page(after));
    let mut keys: Vec<[u64; 4]> = one.keys().chain(other.keys()).copied().collect();
    keys.sort();
    keys.dedup();
    let changes = keys.iter().filter_map(|key| change(one.get(key), other.get(key))).collect();
    object(vec![("registers", registers(before, after)), ("pages", list(changes))])
}
