//! What the promise about a cache does not say: for each condition a small run that breaks it, and the difference that
//! shows. Each has to show on the library as it does here.

use model::cache::{CACHE, HIT_ENTRY};
use model::call::{Access, Call, Lent, Page, LOAD};
use model::words::{put_words, word_at};

use crate::bench::Difference;
use crate::machine::Machine;
use crate::tally::Tally;

const SDR1: u32 = 0x0F98_0000;
const PAGE: Page = Page { vsid: 0x0C_701C, page_index: 0x0FFA };
/// Another page of the same two groups.
const OTHER: Page = Page { vsid: 0x0C_701C ^ 0x400, page_index: 0x0FFA ^ 0x400 };
const DONE: u32 = 0;
const DATA_FAULT: u32 = 64;

type Limit = fn(&mut Setup) -> bool;

const LIMITS: [(&str, Limit); 9] = [
    ("a cache of wrong length is 11, the plain access done", wrong_length),
    ("the second load shows entry number 8", second_load),
    ("a refused invalidate does not count", refused_invalidate),
    ("each cache needs the invalidate", two_caches),
    ("the invalidate has to come after the unmap", invalidate_before),
    ("the cache has to begin as zeros", not_zeros),
    ("group and entry number are not the finite map's", places_of_one_map),
    ("a clear needs all 64 invalidates", clear_less_one),
    ("another writer of the table needs the invalidate", other_writer),
];

pub fn run(subject: &dyn Machine, _factor: u32) -> Result<Tally, Difference> {
    let mut tally = Tally::default();
    for (name, limit) in LIMITS {
        let mut setup = Setup::new(subject);
        if !limit(&mut setup) {
            return Err(Difference::new(format!("this did not show: {name}")));
        }
        tally.calls += setup.calls;
    }
    Ok(tally)
}

/// A cleared table, segment 0 at the page's VSID, segment 1 at the other's, blocks off, and two caches of zeros.
struct Setup<'a> {
    machine: &'a dyn Machine,
    table: Vec<u8>,
    caches: [Vec<u8>; 2],
    answer: [u8; 48],
    calls: u64,
}

impl<'a> Setup<'a> {
    fn new(machine: &'a dyn Machine) -> Setup<'a> {
        let caches = [vec![0; CACHE], vec![0; CACHE]];
        let mut setup =
            Setup { machine, table: vec![0xA5; 65_536], caches, answer: [0; 48], calls: 0 };
        setup.perform(Call::Clear { sdr1: SDR1 }, 0);
        setup
    }

    fn perform(&mut self, call: Call, cache: usize) -> u32 {
        self.calls += 1;
        let mut words = [0; 33];
        words[0] = SDR1;
        words[1] = PAGE.vsid;
        words[2] = OTHER.vsid;
        let mut registers = [0; 132];
        put_words(&mut registers, &words);
        let lent = Lent {
            registers: &mut registers,
            table: &mut self.table,
            cache: &mut self.caches[cache],
            answer: &mut self.answer[..call.answer_length().unwrap_or(0)],
        };
        self.machine.perform(&call, lent)
    }

    fn map(&mut self, page: Page) -> u32 {
        self.perform(Call::Map { sdr1: SDR1, page, rpn: 0x12345, wimg: 2, pp: 2 }, 0)
    }

    fn unmap(&mut self, page: Page) -> u32 {
        self.perform(Call::Unmap { sdr1: SDR1, page }, 0)
    }

    fn invalidate(&mut self, page_index: u32, cache: usize) -> u32 {
        self.perform(Call::Invalidate { page_index }, cache)
    }

    /// A load in the page with this cache.
    fn load(&mut self, page: Page, cache: usize) -> u32 {
        self.perform(Call::AccessCached(load_in(page)), cache)
    }

    /// The same without a cache.
    fn plain(&mut self, page: Page) -> u32 {
        self.perform(Call::Access(load_in(page)), 0)
    }

    fn answer(&self) -> [u32; 12] {
        std::array::from_fn(|word| word_at(&self.answer, 4 * word))
    }
}

fn load_in(page: Page) -> Access {
    let segment = if page == OTHER { 0x1000_0000 } else { 0 };
    let address = segment | page.page_index << 12 | 0x01B;
    Access { mode: 3, kind: LOAD, address, length: 1 }
}

fn wrong_length(setup: &mut Setup) -> bool {
    setup.map(PAGE);
    setup.caches[0].push(0);
    [setup.load(PAGE, 0), setup.plain(PAGE)] == [11, DONE]
}

fn second_load(setup: &mut Setup) -> bool {
    setup.map(PAGE);
    let first = setup.load(PAGE, 0);
    let before = setup.answer();
    let second = setup.load(PAGE, 0);
    let with = setup.answer();
    let plain = setup.plain(PAGE);
    let without = setup.answer();
    [first, second, plain] == [DONE; 3]
        && before == without
        && with[..11] == without[..11]
        && [with[11], without[11]] == [HIT_ENTRY, 0]
}

fn refused_invalidate(setup: &mut Setup) -> bool {
    setup.map(PAGE);
    setup.load(PAGE, 0);
    setup.unmap(PAGE);
    let refused = setup.invalidate(65_536 + PAGE.page_index, 0);
    let stale = [setup.load(PAGE, 0), setup.plain(PAGE)];
    let done = setup.invalidate(PAGE.page_index, 0);
    refused == 6 && stale == [DONE, DATA_FAULT] && done == 0 && setup.load(PAGE, 0) == DATA_FAULT
}

fn two_caches(setup: &mut Setup) -> bool {
    setup.map(PAGE);
    setup.load(PAGE, 0);
    setup.load(PAGE, 1);
    setup.unmap(PAGE);
    setup.invalidate(PAGE.page_index, 0);
    [setup.load(PAGE, 0), setup.load(PAGE, 1)] == [DATA_FAULT, DONE]
}

fn invalidate_before(setup: &mut Setup) -> bool {
    setup.map(PAGE);
    setup.load(PAGE, 0);
    setup.invalidate(PAGE.page_index, 0);
    setup.load(PAGE, 0);
    setup.unmap(PAGE);
    [setup.load(PAGE, 0), setup.plain(PAGE)] == [DONE, DATA_FAULT]
}

fn not_zeros(setup: &mut Setup) -> bool {
    let at = 32 * (PAGE.page_index as usize % 64);
    let words = [1 << 31 | PAGE.vsid << 7, 0x5432_1112, PAGE.page_index, 1];
    put_words(&mut setup.caches[0][at..], &words);
    let with = setup.load(PAGE, 0);
    let answer = setup.answer();
    [with, setup.plain(PAGE)] == [DONE, DATA_FAULT] && answer[1] == 0x5432_101B
}

/// Two tables that stand for the same map, by calls in another order.
fn places_of_one_map(setup: &mut Setup) -> bool {
    setup.map(OTHER);
    setup.map(PAGE);
    setup.unmap(OTHER);
    let first = setup.load(PAGE, 0);
    let behind = setup.answer();
    setup.perform(Call::Clear { sdr1: SDR1 }, 0);
    setup.caches[0].fill(0);
    setup.map(PAGE);
    let second = setup.load(PAGE, 0);
    let in_front = setup.answer();
    let third = setup.load(PAGE, 0);
    let hit = setup.answer();
    [first, second, third] == [DONE; 3]
        && behind[..11] == in_front[..11]
        && [behind[11], in_front[11], hit[11]] == [1, 0, HIT_ENTRY]
}

fn clear_less_one(setup: &mut Setup) -> bool {
    setup.map(PAGE);
    setup.load(PAGE, 0);
    setup.perform(Call::Clear { sdr1: SDR1 }, 0);
    for set in (0..64).filter(|set| *set != PAGE.page_index % 64) {
        setup.invalidate(set, 0);
    }
    let stale = setup.load(PAGE, 0);
    setup.invalidate(PAGE.page_index % 64, 0);
    [stale, setup.load(PAGE, 0)] == [DONE, DATA_FAULT]
}

fn other_writer(setup: &mut Setup) -> bool {
    setup.map(PAGE);
    setup.load(PAGE, 0);
    setup.table.fill(0);
    let stale = setup.load(PAGE, 0);
    setup.invalidate(PAGE.page_index, 0);
    [stale, setup.load(PAGE, 0)] == [DONE, DATA_FAULT]
}
