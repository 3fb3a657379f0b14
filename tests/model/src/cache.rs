//! The translation cache (request 7): 64 sets by the low six bits of the page index, two places each, four words a
//! place: an entry's two words, the page index, and 1 for the newer load.

use crate::call::{Access, Page};
use crate::entry::{IGNORED_BITS, REFERENCED};
use crate::flaw::{CacheFlaw, Flaw};
use crate::search::group_numbers;
use crate::words::{bits, ending_at, put_words, word_at};

/// The bytes of a cache.
pub const CACHE: usize = 2_048;
/// The bytes of a set.
pub const SET: usize = 32;
/// The entry number that a hit shows.
pub const HIT_ENTRY: u32 = 8;

const SETS: usize = 64;
const NEWER: u32 = 1;

/// First word, second word, page index, age.
pub type Words = [u32; 4];

/// The cache as it is lent, with the mistake that is to be made if any.
pub struct Cache {
    flaw: Option<CacheFlaw>,
    sets: Vec<[Words; 2]>,
}

/// The place that answers a part of an access, and what it holds.
#[derive(Clone, Copy, Debug)]
pub struct Hit {
    pub place: usize,
    pub words: Words,
}

impl Hit {
    /// The loaded entry's H.
    pub fn h(&self) -> u32 {
        bits(self.words[0], 25, 25)
    }

    /// The group that H names, and 8.
    pub fn shown(&self, flaw: Option<Flaw>, sdr1: u32, page: Page) -> [u32; 2] {
        let groups = group_numbers(sdr1, page);
        let group = match CacheFlaw::of_model(flaw) {
            Some(CacheFlaw::PrimaryShown) => groups[0],
            _ => groups[self.h() as usize],
        };
        [group as u32, HIT_ENTRY]
    }
}

impl Cache {
    /// Reads what is lent; a wrong model may be lent another length, and takes what is absent for zeros.
    pub fn read(flaw: Option<Flaw>, bytes: &[u8]) -> Cache {
        let mut whole = [0; CACHE];
        let shared = bytes.len().min(CACHE);
        whole[..shared].copy_from_slice(&bytes[..shared]);
        let place = |at: usize| [0, 4, 8, 12].map(|word| word_at(&whole, at + word));
        let sets = (0..SETS).map(|set| [place(SET * set), place(SET * set + 16)]).collect();
        Cache { flaw: CacheFlaw::of_model(flaw), sets }
    }

    pub fn write(&self, bytes: &mut [u8]) {
        let mut whole = [0; CACHE];
        for (set, places) in self.sets.iter().enumerate() {
            put_words(&mut whole[SET * set..], &places[0]);
            put_words(&mut whole[SET * set + 16..], &places[1]);
        }
        let shared = bytes.len().min(CACHE);
        bytes[..shared].copy_from_slice(&whole[..shared]);
    }

    fn has(&self, flaw: CacheFlaw) -> bool {
        self.flaw == Some(flaw)
    }

    fn number(&self, page_index: u32) -> usize {
        let set = match self.flaw {
            Some(CacheFlaw::SetByFiveBits) => page_index % 32,
            Some(CacheFlaw::SetByHighBits) => page_index >> 10,
            _ => page_index % 64,
        };
        set as usize
    }

    /// Whether a place passes for the page: V, VSID and the whole third word.
    fn holds(&self, page: Page, place: Words) -> bool {
        let [first, _, third, age] = place;
        let v = bits(first, 0, 0) == 1 || self.has(CacheFlaw::VForgotten);
        let vsid = bits(first, 1, 24) == page.vsid || self.has(CacheFlaw::VsidForgotten);
        let page_index = match self.flaw {
            Some(CacheFlaw::PageIndexForgotten) => true,
            Some(CacheFlaw::PageIndexLowBits) => third & 0xFFFF == page.page_index,
            _ => third == page.page_index,
        };
        let more = match self.flaw {
            Some(CacheFlaw::ApiCompared) => bits(first, 26, 31) == page.api(),
            Some(CacheFlaw::HCompared) => bits(first, 25, 25) == 0,
            Some(CacheFlaw::AgeCompared) => age <= 1,
            _ => true,
        };
        v && vsid && page_index && more
    }

    /// The first place that holds the page, whatever its C.
    fn place_of(&self, page: Page) -> Option<usize> {
        let set = self.sets[self.number(page.page_index)];
        let order = if self.has(CacheFlaw::PlaceOneFirst) { [1, 0] } else { [0, 1] };
        order.into_iter().find(|&place| self.holds(page, set[place]))
    }

    /// The hit of a part: a store that meets an entry with C clear has none.
    pub fn hit(&self, page: Page, part: Access) -> Option<Hit> {
        let set = self.sets[self.number(page.page_index)];
        let unchanged = |place: usize| bits(set[place][1], 24, 24) == 0;
        let place = match self.flaw {
            Some(CacheFlaw::ChangedCompared) => (0..2).find(|&place| {
                self.holds(page, set[place]) && !(part.is_store() && unchanged(place))
            }),
            _ => self.place_of(page),
        }?;
        let goes_to_table = match self.flaw {
            Some(CacheFlaw::StoreHitsUnchanged) => false,
            Some(CacheFlaw::LoadMissesUnchanged) => unchanged(place),
            Some(CacheFlaw::FetchMisses) => part.is_fetch() || part.is_store() && unchanged(place),
            _ => part.is_store() && unchanged(place),
        };
        (!goes_to_table).then_some(Hit { place, words: set[place] })
    }

    /// Loads an entry as it stands in the table: a page that is held keeps its place, else the older load goes.
    pub fn load(&mut self, page: Page, entry: [u32; 2], third: u32) {
        let number = self.number(page.page_index);
        let set = self.sets[number];
        let reload = match self.flaw {
            Some(CacheFlaw::ReloadByRule) => None,
            Some(CacheFlaw::ReloadWithoutV) => {
                (0..2).find(|&place| self.holds(page, with_v(set[place])))
            }
            Some(CacheFlaw::ReloadByPageIndex) => {
                (0..2).find(|&place| set[place][2] == page.page_index)
            }
            Some(CacheFlaw::ReloadInOtherPlace) => self.place_of(page).map(|place| 1 - place),
            _ => self.place_of(page),
        };
        let place = reload.unwrap_or_else(|| self.replaced(set));
        let [first, mut second] = entry;
        if self.has(CacheFlaw::IgnoredBitsNotLoaded) {
            second &= !IGNORED_BITS;
        }
        let age = match self.flaw {
            Some(CacheFlaw::ReloadNotNewer) if reload.is_some() => set[place][3],
            _ => NEWER,
        };
        let set = &mut self.sets[number];
        set[place] = [first, second, third, age];
        let other = &mut set[1 - place];
        match self.flaw {
            Some(CacheFlaw::OtherStaysNewer) => {}
            Some(CacheFlaw::OtherAgedIfNewer) if other[3] != NEWER => {}
            Some(CacheFlaw::OtherEmptied) => *other = [0; 4],
            _ => other[3] = 0,
        }
    }

    /// Place 1 if only place 0's fourth word is 1, else place 0.
    fn replaced(&self, set: [Words; 2]) -> usize {
        let newer = |place: usize| match self.flaw {
            Some(CacheFlaw::NonzeroIsNewer) => set[place][3] != 0,
            Some(CacheFlaw::LowBitIsNewer) => set[place][3] & 1 == 1,
            _ => set[place][3] == NEWER,
        };
        let empty = |place: usize| bits(set[place][0], 0, 0) == 0;
        let right = usize::from(newer(0) && !newer(1));
        match self.flaw {
            Some(CacheFlaw::NewerReplaced) => 1 - right,
            Some(CacheFlaw::EmptyOnePreferred) if empty(1) => 1,
            Some(CacheFlaw::EmptyZeroPreferred) if empty(0) => 0,
            Some(CacheFlaw::BothNewerTakesOne) => usize::from(newer(0)),
            Some(CacheFlaw::NeitherNewerTakesOne) => usize::from(!newer(1)),
            _ => right,
        }
    }

    /// Both places of the page index's set.
    pub fn invalidate(&mut self, page_index: u32) {
        let number = self.number(page_index);
        let set = &mut self.sets[number];
        match self.flaw {
            Some(CacheFlaw::InvalidatesPlace(place)) => set[place] = [0; 4],
            Some(CacheFlaw::InvalidatesByPageIndex) => {
                for place in set.iter_mut().filter(|place| place[2] == page_index) {
                    *place = [0; 4];
                }
            }
            Some(CacheFlaw::InvalidatesV) => {
                for place in set {
                    place[0] &= !ending_at(1, 0);
                }
            }
            Some(CacheFlaw::InvalidatesAll) => self.sets.fill([[0; 4]; 2]),
            _ => *set = [[0; 4]; 2],
        }
    }

    /// The mistakes by which a hit changes the cache.
    pub fn touch(&mut self, page: Page, hit: &Hit) {
        let number = self.number(page.page_index);
        let set = &mut self.sets[number];
        match self.flaw {
            Some(CacheFlaw::HitIsNewer) => {
                set[hit.place][3] = NEWER;
                set[1 - hit.place][3] = 0;
            }
            Some(CacheFlaw::HitReferences) => set[hit.place][1] |= REFERENCED,
            _ => {}
        }
    }
}

fn with_v(place: Words) -> Words {
    let [first, second, third, age] = place;
    [first | ending_at(1, 0), second, third, age]
}

/// Whether a cache of this length is taken.
pub fn length_fits(flaw: Option<Flaw>, length: usize) -> bool {
    match CacheFlaw::of_model(flaw) {
        Some(CacheFlaw::LengthUnchecked | CacheFlaw::LengthLast) => true,
        Some(CacheFlaw::LongerTaken) => length >= CACHE,
        _ => length == CACHE,
    }
}

/// Whether invalidate takes this page index.
pub fn page_index_fits(flaw: Option<Flaw>, page_index: u32) -> bool {
    page_index < 1 << 16 || CacheFlaw::of_model(flaw) == Some(CacheFlaw::InvalidateTakesAny)
}
