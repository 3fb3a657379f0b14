//! The two groups of a page in a table's bytes: matches and free entries.

use crate::call::Page;
use crate::entry::Fields;
use crate::flaw::Flaw;
use crate::words::{bits, ending_at, word_at};

pub const GROUP: usize = 64;
pub const ENTRY: usize = 8;

/// The primary and the secondary group number of a page.
pub fn group_numbers(sdr1: u32, page: Page) -> [usize; 2] {
    let n = 10 + bits(sdr1, 23, 31).count_ones();
    let hash = (page.vsid % (1 << 19)) ^ page.page_index;
    let primary = hash % (1 << n);
    let secondary = (1 << n) - 1 - primary;
    [primary as usize, secondary as usize]
}

/// An entry on a page's way through the table.
#[derive(Clone, Copy, Debug)]
pub struct Place {
    /// The group's number in the table.
    pub group: usize,
    /// The entry's number in the group, 0 to 7.
    pub entry: usize,
    /// 0 in the primary group, 1 in the secondary.
    pub h: u32,
    pub first: u32,
    pub second: u32,
}

impl Place {
    /// The entry's first byte.
    pub fn at(&self) -> usize {
        GROUP * self.group + ENTRY * self.entry
    }

    pub fn is_free(&self) -> bool {
        bits(self.first, 0, 0) == 0
    }

    /// Whether it comes before another in search order.
    pub fn is_before(&self, other: &Place) -> bool {
        (self.h, self.entry) < (other.h, other.entry)
    }

    /// Its number in search order, 0 to 15.
    fn number(&self) -> usize {
        8 * self.h as usize + self.entry
    }

    fn matches(&self, flaw: Option<Flaw>, page: Page) -> bool {
        let forgotten = match flaw {
            Some(Flaw::BitForgottenAt { bit, place }) if place == self.number() => {
                ending_at(1, bit)
            }
            _ => 0,
        };
        let words = [self.first, self.first ^ forgotten];
        words.into_iter().any(|first| self.matches_by(flaw, page, first))
    }

    /// Whether it matches with this first word: field by field, as the rules say it.
    fn matches_by(&self, flaw: Option<Flaw>, page: Page, first: u32) -> bool {
        let entry = Fields::of_words(first, self.second);
        let h = if flaw == Some(Flaw::PrimaryWordInBoth) { 0 } else { self.h };
        (entry.v == 1 || flaw == Some(Flaw::VForgotten))
            && (entry.vsid == page.vsid || flaw == Some(Flaw::VsidForgotten))
            && (entry.h == h || flaw == Some(Flaw::HForgotten))
            && (entry.api == page.api() || flaw == Some(Flaw::ApiForgotten))
    }
}

/// The sixteen entries of a page's two groups in search order.
pub fn places(sdr1: u32, page: Page, table: &[u8]) -> Vec<Place> {
    let mut places = Vec::with_capacity(16);
    for (h, group) in group_numbers(sdr1, page).into_iter().enumerate() {
        for entry in 0..8 {
            let at = GROUP * group + ENTRY * entry;
            places.push(Place {
                group,
                entry,
                h: h as u32,
                first: word_at(table, at),
                second: word_at(table, at + 4),
            });
        }
    }
    places
}

/// The matches of a page in search order.
pub fn matches(flaw: Option<Flaw>, sdr1: u32, page: Page, table: &[u8]) -> Vec<Place> {
    let mut matches = places(sdr1, page, table);
    let places = matches.clone();
    matches.retain(|place| place.matches(flaw, page) && !is_passed_over(flaw, &places, place));
    matches
}

/// Whether a search that is wrong about entries with V = 0 does not come to a place.
fn is_passed_over(flaw: Option<Flaw>, places: &[Place], place: &Place) -> bool {
    let free_before = |h: u32| {
        let mut before = places.iter().filter(|other| other.is_before(place));
        before.any(|other| other.h == h && other.is_free())
    };
    match flaw {
        Some(Flaw::GroupEndsAtFree) => free_before(place.h),
        Some(Flaw::SearchEndsAtFree) => free_before(0) || free_before(1),
        Some(Flaw::FreeEndsInPrimary) => place.h == 1 && free_before(0),
        _ => false,
    }
}

/// Whether two matches agree: RPN, WIMG and PP are equal.
pub fn agree(flaw: Option<Flaw>, one: &Place, other: &Place) -> bool {
    let fields = [one, other].map(|place| Fields::of_words(place.first, place.second));
    let [rpn, wimg, pp] = [
        fields[0].rpn == fields[1].rpn,
        fields[0].wimg == fields[1].wimg,
        fields[0].pp == fields[1].pp,
    ];
    let same_bit =
        |number: u32| bits(one.second, number, number) == bits(other.second, number, number);
    match flaw {
        Some(Flaw::AgreeByRpnAlone) => rpn,
        Some(Flaw::AgreeWithoutRpn) => wimg && pp,
        Some(Flaw::AgreeWithoutWimg) => rpn && pp,
        Some(Flaw::AgreeWithoutPp) => rpn && wimg,
        Some(Flaw::AgreeByWord) => one.second == other.second,
        Some(Flaw::AgreeByBitToo(number)) => rpn && wimg && pp && same_bit(number),
        _ => rpn && wimg && pp,
    }
}

/// Whether some match does not agree with the first.
pub fn contradict(flaw: Option<Flaw>, matches: &[Place]) -> bool {
    let Some((first, later)) = matches.split_first() else { return false };
    let differs = |place: &Place| !agree(flaw, first, place);
    let of_group = |h: u32| matches.iter().filter(move |place| place.h == h);
    match flaw {
        Some(Flaw::ThirdNotCompared) => later.iter().take(1).any(differs),
        Some(Flaw::LastAloneCompared) => later.last().is_some_and(differs),
        Some(Flaw::GroupsNotCompared) => [0, 1].into_iter().any(|h| {
            let group: Vec<Place> = of_group(h).copied().collect();
            contradict(None, &group)
        }),
        Some(Flaw::OneGroupNotCompared) => of_group(1).take(1).any(differs),
        Some(Flaw::FirstOfGroupCompared(h)) => {
            of_group(1 - h).chain(of_group(h).take(1)).any(differs)
        }
        Some(Flaw::LaterPairsOnly) => {
            matches.windows(2).skip(1).any(|pair| !agree(flaw, &pair[0], &pair[1]))
        }
        _ => later.iter().any(differs),
    }
}

/// The first entry with V = 0.
pub fn first_free(flaw: Option<Flaw>, sdr1: u32, page: Page, table: &[u8]) -> Option<Place> {
    let mut free = places(sdr1, page, table);
    free.retain(Place::is_free);
    let first = free.first().copied();
    let mut free = free.into_iter();
    match flaw {
        Some(Flaw::SecondaryFreeTaken) => free.find(|place| place.h == 1).or(first),
        Some(Flaw::LastFreeTaken) => {
            free.rfind(|place| Some(place.h) == first.map(|first| first.h))
        }
        Some(Flaw::FreeMeansZero) => free.find(|place| place.first == 0),
        Some(Flaw::LastEntryNotFree) => free.find(|place| place.entry != 7),
        _ => first,
    }
}
