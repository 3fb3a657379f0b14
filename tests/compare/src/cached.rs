//! Single accesses with a cache, and invalidates, on garbage: tables with matches of the wanted pages, caches whose
//! sets hold the wanted pages, nearly hold them, or hold anything.

use model::cache::{CACHE, SET};
use model::call::{Access, Call, Page};
use model::registers::Side;
use model::search::matches;

use crate::bench::{Bench, Difference, Lending};
use crate::machine::Machine;
use crate::random::Random;
use crate::region::{Edge, Region};
use crate::scenes::groups::matching_word;
use crate::scenes::registers::Words;
use crate::scenes::{arguments, groups, operands, registers};
use crate::tally::Tally;

/// How many calls are made under a mask of so many ones.
const CALLS: [(u32, u32); 4] = [(0, 300_000), (1, 15_000), (2, 8_000), (4, 2_000)];

/// Room for slices of wrong length in the table's place.
const OTHER: usize = 2 * 65_536 + 4_096;

pub fn run(subject: &dyn Machine, factor: u32) -> Result<Tally, Difference> {
    let mut tally = Tally::default();
    for (ones, calls) in CALLS {
        let mut bench = Bench::new(subject, 65_536 << ones, OTHER);
        bench.tally = tally;
        let random = Random::new(0xCAC4E + u64::from(ones));
        let mut stage = Stage { random, bench, ones };
        stage.refill();
        for _ in 0..u64::from(calls) * u64::from(factor) {
            stage.one_call()?;
        }
        tally = stage.bench.tally;
    }
    let mut missing = tally.missing_of(&["cached", "invalidate"]);
    missing.extend(tally.hits.missing());
    match missing.first() {
        None => Ok(tally),
        Some(missing) => Err(Difference::new(format!("the calls made were too few: {missing}"))),
    }
}

/// One broken rule.
#[derive(Clone, Copy, PartialEq, Eq)]
enum Defect {
    LentLength,
    Argument,
    OperandLength,
    Sdr1,
    BlockShape,
    SharedBlocks,
    Segment,
    TableLength,
}

const DEFECTS: [Defect; 10] = [
    Defect::LentLength,
    Defect::LentLength,
    Defect::Argument,
    Defect::OperandLength,
    Defect::Sdr1,
    Defect::BlockShape,
    Defect::SharedBlocks,
    Defect::Segment,
    Defect::TableLength,
    Defect::TableLength,
];

struct Stage<'a> {
    random: Random,
    bench: Bench<'a>,
    ones: u32,
}

impl Stage<'_> {
    /// Garbage in everything that can be lent.
    fn refill(&mut self) {
        let random = &mut self.random;
        self.bench.table.fill(|bytes| random.fill(bytes));
        self.bench.other.fill(|bytes| random.fill(bytes));
        self.bench.cache.fill(|bytes| random.fill(bytes));
    }

    fn one_call(&mut self) -> Result<(), Difference> {
        let defects = self.defects();
        let has = |defect| defects.contains(&defect);
        self.bench.cache.lend(CACHE, Edge::End);
        let lending = self.lend_table(has(Defect::TableLength));
        let mut words = self.registers(&defects);
        let mut call = self.call(&words);
        if let (Some(access), true) = (call.access(), self.random.once_in(4)) {
            operands::cover_parts(&mut self.random, &mut words, &access);
        }
        self.bench.put_registers(&words);
        self.plant(&call, &words, lending);
        if has(Defect::Argument) {
            call = arguments::spoiled(&mut self.random, call, words.len());
        }
        if has(Defect::OperandLength) {
            call = arguments::with_spoiled_length(&mut self.random, call);
        }
        self.bench.lend_answer(&call);
        if has(Defect::LentLength) {
            self.spoil_lent_length(&call);
        }
        self.bench.compare(&call, lending)?;
        Ok(())
    }

    fn defects(&mut self) -> Vec<Defect> {
        let count = self.random.pick(&[0, 0, 0, 0, 0, 0, 1, 1, 2, 3]);
        (0..count).map(|_| self.random.pick(&DEFECTS)).collect()
    }

    fn lend_table(&mut self, spoiled: bool) -> Lending {
        if !spoiled {
            return Lending::Table;
        }
        let right = 65_536 << self.ones;
        let lengths = [0, 64, right / 2, right - 64, right - 1, right + 1, right + 64, 2 * right];
        let length = self.random.pick(&lengths);
        self.bench.other.lend(length.min(OTHER), Edge::End);
        Lending::Other
    }

    /// A page of registers, its blocks off more often than not.
    fn registers(&mut self, defects: &[Defect]) -> Words {
        let random = &mut self.random;
        let mut sdr1 = arguments::sdr1(random, self.ones);
        if defects.contains(&Defect::Sdr1) {
            sdr1 = arguments::spoiled_sdr1(random, sdr1);
        }
        let layout = registers::layout(random);
        let mut words = registers::well_formed(random, layout, sdr1);
        if random.below(3) > 0 {
            words[17..].fill(0);
        }
        if random.once_in(8) {
            let segment = 1 + random.index(16);
            words[segment] &= 0xFF00_0000;
        }
        for defect in defects {
            match defect {
                Defect::BlockShape => registers::spoil_block(random, &mut words),
                Defect::SharedBlocks => registers::share_blocks(random, &mut words),
                Defect::Segment => registers::spoil_segment(random, &mut words),
                _ => {}
            }
        }
        words
    }

    /// An access or an invalidate with arguments in range.
    fn call(&mut self, words: &Words) -> Call {
        let random = &mut self.random;
        if random.once_in(12) {
            let page_index = arguments::within(random, 16);
            return Call::Invalidate { page_index };
        }
        let mode = random.pick(&[0, 1, 2, 3, 3, 3, 4, 5, 6, 7, 7, 7]);
        let kind = random.below(3);
        let (address, length) = match random.below(4) {
            0 => operands::anywhere(random, words, Side::of_kind(kind)),
            _ => {
                let page = Page { vsid: 0, page_index: arguments::within(random, 16) };
                operands::in_page(random, page)
            }
        };
        Call::AccessCached(Access { mode, kind, address, length })
    }

    /// Puts entries of the call's pages into the table, where the lent slice has their groups, and into the cache.
    fn plant(&mut self, call: &Call, words: &Words, lending: Lending) {
        let pages = match call.access() {
            Some(access) => {
                let last = access.address.wrapping_add(access.length - 1);
                let mut pages =
                    vec![page_by_segment(words, access.address), page_by_segment(words, last)];
                pages.dedup();
                pages
            }
            None => Vec::new(),
        };
        let mask = (1 << self.ones) - 1;
        let random = &mut self.random;
        let table = self.bench.region(lending);
        if table.length() >= 65_536 << self.ones {
            match pages[..] {
                [] => {}
                [page] => groups::plant(random, table, mask, page, &groups::MATCHES),
                [page, next, ..] => {
                    groups::plant(random, table, mask, page, &groups::MATCHES);
                    groups::plant_next(random, table, mask, [page, next], &groups::MATCHES);
                }
            }
        }
        let bytes = match table.length() >= 65_536 << self.ones {
            true => table.bytes(),
            false => &[],
        };
        let used: Vec<Option<[u32; 2]>> = pages
            .iter()
            .map(|&page| {
                let found =
                    if bytes.is_empty() { vec![] } else { matches(None, mask, page, bytes) };
                found.first().map(|place| [place.first, place.second])
            })
            .collect();
        for (page, used) in pages.into_iter().zip(used) {
            plant_set(random, &mut self.bench.cache, page, used);
        }
        if let Call::Invalidate { page_index } = *call {
            let page = Page { vsid: arguments::within(random, 24), page_index };
            plant_set(random, &mut self.bench.cache, page, None);
        }
    }

    fn spoil_lent_length(&mut self, call: &Call) {
        let random = &mut self.random;
        let which = if call.access().is_some() { random.below(4) } else { 3 };
        match which {
            0 => {
                let length = random.pick(&[0, 4, 131, 133, 164, 195, 197]);
                self.bench.registers.lend(length, Edge::End);
            }
            1 => {
                let length = random.pick(&[0, 16, 32, 47, 49, 64]);
                self.bench.answer.lend(length, Edge::End);
            }
            _ => {
                let lengths = [0, 1, 16, 32, 1_024, 2_016, 2_047, 2_049, 2_064, 2_080, 4_096];
                self.bench.cache.lend(random.pick(&lengths), Edge::End);
            }
        }
    }
}

/// Fills the set of a page: each place holds it, nearly holds it, holds another page, zeros, or anything. The entry may
/// be the one that stands in the table, if it is told.
pub fn plant_set(random: &mut Random, cache: &mut Region, page: Page, used: Option<[u32; 2]>) {
    let any = random.word();
    let second = used.map_or(any, |[_, second]| second);
    let at = SET * (page.page_index as usize % 64);
    for place in 0..2 {
        let words = match used {
            Some([first, second]) if random.once_in(8) => {
                [first, second | 0x100, page.page_index, random.below(2)]
            }
            _ => place_words(random, page, second),
        };
        for (number, word) in words.into_iter().enumerate() {
            cache.write(at + 16 * place + 4 * number, &word.to_be_bytes());
        }
    }
}

fn place_words(random: &mut Random, page: Page, second: u32) -> [u32; 4] {
    let any = random.word();
    let second = random.pick(&[second, second ^ 0x80, any]);
    let age = random.pick(&[0, 0, 0, 1, 1, 1, 2, 7, 0x8000_0001, any]);
    let mut first = matching_word(page, random.below(2));
    if random.once_in(3) {
        first ^= 1 + random.below(63);
    }
    let index = page.page_index;
    let (first, third) = match random.below(16) {
        0 => return [0; 4],
        1 => return [0, 0, 0, age],
        2 => return [any, second, random.word(), age],
        3..=4 => (first & 0x7FFF_FFFF, index),
        5..=6 => (first ^ 0x80 << random.below(24), index),
        7 => (first, index ^ 0x1_0000 << random.below(16)),
        8 => (first, index ^ 0x40 << random.below(10)),
        9 => (first, index ^ 1 << random.below(6)),
        _ => (first, index),
    };
    [first, second, third, age]
}

/// The page of an address by the VSID of its segment register.
fn page_by_segment(words: &Words, address: u32) -> Page {
    Page::of_address(words[1 + (address >> 28) as usize] & 0xFF_FFFF, address)
}
