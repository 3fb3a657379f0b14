//! What `mmu-dump pages` and `mmu-dump group` have to say.

use crate::check::rights;
use crate::json::{list, number, object, text, Json};
use crate::scene::Scene;
use model::call::{Access, Page, LOAD, STORE};
use model::entry::Fields;
use model::registers::{Layout, Registers};
use model::search::{agree, contradict, group_numbers, matches, Place};
use model::translation::{after_match, Outcome};
use model::words::word_at;

/// An entry with V = 1 and the page that reaches it.
#[derive(Clone, Copy)]
pub struct Found {
    pub group: usize,
    pub entry: usize,
    pub first: u32,
    pub second: u32,
    pub page: Option<Page>,
}

impl Found {
    pub fn at(scene: &Scene, group: usize, entry: usize) -> Found {
        let at = 64 * group + 8 * entry;
        let (first, second) = (word_at(&scene.table, at), word_at(&scene.table, at + 4));
        let fields = Fields::of_words(first, second);
        let page = (fields.v == 1).then(|| page_of(scene, group, fields)).flatten();
        Found { group, entry, first, second, page }
    }

    pub fn fields(&self) -> Fields {
        Fields::of_words(self.first, self.second)
    }

    pub fn json(&self) -> Json {
        let fields = self.fields();
        object(vec![
            ("group", number(self.group as u64)),
            ("entry", number(self.entry as u64)),
            ("first", number(self.first)),
            ("second", number(self.second)),
            ("v", number(fields.v)),
            ("vsid", number(fields.vsid)),
            ("h", number(fields.h)),
            ("api", number(fields.api)),
            ("page_index", self.page.map_or(Json::Null, |page| number(page.page_index))),
            ("frame", number(fields.rpn)),
            ("r", number(fields.r)),
            ("c", number(fields.c)),
            ("wimg", number(fields.wimg)),
            ("pp", number(fields.pp)),
        ])
    }
}

/// The page of an entry, found by trying every page index with its API.
fn page_of(scene: &Scene, group: usize, fields: Fields) -> Option<Page> {
    let pages = (0..1024).map(|low| Page { vsid: fields.vsid, page_index: fields.api << 10 | low });
    pages
        .into_iter()
        .find(|&page| group_numbers(sdr1_by_length(scene), page)[fields.h as usize] == group)
}

/// SDR1 with the mask that the table's length says, whatever the registers say.
pub fn sdr1_by_length(scene: &Scene) -> u32 {
    (scene.table.len() / 65_536 - 1) as u32
}

/// Every entry with V = 1, in the table's order.
pub fn entries(scene: &Scene) -> Vec<Found> {
    let places =
        (0..scene.table.len() / 64).flat_map(|group| (0..8).map(move |entry| (group, entry)));
    let used = places.filter(|&(group, entry)| scene.table[64 * group + 8 * entry] >= 0x80);
    used.map(|(group, entry)| Found::at(scene, group, entry)).collect()
}

/// The matches of an entry's page, and the entry's number among them.
pub fn among(scene: &Scene, found: &Found, page: Page) -> (Vec<Place>, usize) {
    let matches = matches(None, sdr1_by_length(scene), page, &scene.table);
    let order =
        matches.iter().position(|place| (place.group, place.entry) == (found.group, found.entry));
    (matches, order.expect("the page reaches the entry"))
}

fn addresses(scene: &Scene, page: Page) -> Vec<u32> {
    let set = Registers::read(&scene.registers).expect("a page of right length");
    let with = set.segments().enumerate().filter(|(_, segment)| segment.vsid() == page.vsid);
    with.map(|(n, _)| (n as u32) << 28 | page.page_index << 12).collect()
}

/// The rights of a page under a key, by what the model does with a load and a store.
fn page_rights(key: u32, pp: u32) -> &'static str {
    let mut words = [0; 33];
    words[1] = key << 30;
    let segment = Registers::of_words(Layout::SHORT, &words).segment(0);
    let allowed = |kind| {
        let access = Access { mode: 1, kind, address: 0, length: 1 };
        matches!(after_match(None, segment, pp, access), Outcome::Page { .. })
    };
    rights(allowed(LOAD), allowed(STORE))
}

fn json_page(scene: &Scene, found: &Found) -> Json {
    let mut members = Vec::new();
    let pp = found.fields().pp;
    let here = found.page.map_or(Vec::new(), |page| addresses(scene, page));
    members.push(("addresses", list(here.into_iter().map(number).collect())));
    members.push(("key0", text(page_rights(0, pp))));
    members.push(("key1", text(page_rights(1, pp))));
    members.push(("entry", found.json()));
    let state = match found.page.map(|page| among(scene, found, page)) {
        None => "unreached",
        Some((matches, _)) if matches.len() == 1 => "single",
        Some((matches, 0)) if contradict(None, &matches) => "contradicted",
        Some((_, 0)) => "first",
        Some((matches, order)) => {
            members.push(("first_group", number(matches[0].group as u64)));
            members.push(("first_entry", number(matches[0].entry as u64)));
            if agree(None, &matches[0], &matches[order]) {
                "same"
            } else {
                "contradicts"
            }
        }
    };
    members.push(("state", text(state)));
    object(members)
}

/// By address, then by VSID and page where no segment has it, then what no page reaches by its place.
fn key(scene: &Scene, found: &Found) -> [u64; 4] {
    let place = 8 * found.group as u64 + found.entry as u64;
    let Some(page) = found.page else { return [2, place, 0, 0] };
    let order = among(scene, found, page).1 as u64;
    match addresses(scene, page).first() {
        Some(&address) => [0, u64::from(address), 0, order],
        None => [1, u64::from(page.vsid), u64::from(page.page_index), order],
    }
}

pub fn all(scene: &Scene, result: u32) -> Json {
    let mut found = entries(scene);
    found.sort_by_cached_key(|one| key(scene, one));
    let pages = found.iter().map(|one| json_page(scene, one)).collect();
    object(vec![("result", number(result)), ("pages", list(pages))])
}

pub fn groups(scene: &Scene, group: u32) -> Json {
    let other = scene.table.len() as u32 / 64 - 1 - group;
    let one = |group: u32| {
        let entries: Vec<Found> =
            (0..8).map(|entry| Found::at(scene, group as usize, entry)).collect();
        let used = entries.iter().filter(|found| found.fields().v == 1).count();
        let origin = u64::from(scene.sdr1() >> 16) << 16;
        object(vec![
            ("group", number(group)),
            ("address", number(origin + 64 * u64::from(group))),
            ("used", number(used as u64)),
            ("entries", list(entries.iter().map(Found::json).collect())),
        ])
    };
    object(vec![("groups", list(vec![one(group), one(other)]))])
}
