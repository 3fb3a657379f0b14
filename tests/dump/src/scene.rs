//! A random dump, most of whose registers break no rule and whose table has what tables have: pages in both groups,
//! duplicates, contradictions, entries in wrong groups, full groups and rests of old entries.

use crate::random::Random;
use model::call::{Access, Page};
use model::entry::Fields;
use model::registers::{sdr1_is_well_formed, table_length, Layout, Side};
use model::search::group_numbers;
use model::words::{put_word, put_words, word_at};

#[derive(Clone)]
pub struct Scene {
    pub registers: Vec<u8>,
    pub table: Vec<u8>,
    /// Pages that the table may have.
    pages: Vec<Page>,
    /// Pages that it has once, each with the page after it, for operands over the edge between them.
    edges: Vec<Page>,
}

impl Scene {
    pub fn new(random: &mut Random) -> Scene {
        let layout = random.pick(&Layout::BOTH);
        let vsids: Vec<u32> = (0..5).map(|_| random.word() >> 8).chain([0]).collect();
        let mut words = vec![sdr1(random)];
        words.extend((0..16).map(|_| segment(random, &vsids)));
        for side in [Side::Instruction, Side::Data] {
            let mut end = 0;
            for _ in 0..layout.pairs {
                let made = pair(random, side, layout, end);
                end = made[0].wrapping_add((made[0] >> 2 & 0x7FFF) + 1 << 17) >> 17;
                words.extend(made);
            }
        }
        let mut registers = vec![0; layout.length()];
        put_words(&mut registers, &words);
        let length = if sdr1_is_well_formed(words[0]) { table_length(words[0]) } else { 65_536 };
        let mut pages = Vec::new();
        for &vsid in &vsids {
            let base = random.below(1 << 16);
            for step in [0, 1, 2, 0x400, 0x800, 0xFC00, 0xFFFF, 0x10] {
                pages.push(Page { vsid, page_index: (base + step) % (1 << 16) });
            }
        }
        let edges =
            vsids.iter().map(|&vsid| Page { vsid, page_index: random.below(0xFFFF) }).collect();
        let mut scene = Scene { registers, table: vec![0; length], pages, edges };
        scene.fill(random);
        scene.map_edges(random);
        scene.spoil(random);
        scene
    }

    pub fn sdr1(&self) -> u32 {
        word_at(&self.registers, 0)
    }

    fn fill(&mut self, random: &mut Random) {
        let entries = random.below(150);
        for _ in 0..entries {
            let page = random.pick(&self.pages);
            let fields = fields(random);
            self.put(random, page, fields);
            if random.once_in(4) {
                let marks = Fields { r: random.below(2), c: random.below(2), ..fields };
                self.put(random, page, marks);
            }
        }
        if random.once_in(3) {
            let page = random.pick(&self.pages);
            for entry in 0..16 {
                let other = Page { page_index: page.page_index ^ (entry as u32) << 10, ..page };
                let fields = fields(random);
                self.put_at(random, page, entry, other, fields);
            }
        }
    }

    fn map_edges(&mut self, random: &mut Random) {
        for first in self.edges.clone() {
            for page in [first, Page { page_index: first.page_index + 1, ..first }] {
                let pp = random.pick(&[2, 2, 2, 3, 0]);
                let fields = Fields { pp, ..fields(random) };
                let entry = random.index(16);
                self.put_at(random, page, entry, page, fields);
            }
        }
    }

    /// Now and then all of the table, or all registers but SDR1, are any bytes.
    fn spoil(&mut self, random: &mut Random) {
        if random.once_in(40) && self.table.len() == 65_536 {
            random.fill(&mut self.table);
        }
        if random.once_in(40) {
            random.fill(&mut self.registers[4..]);
        }
    }

    /// One entry of a page in one of its groups, or in a wrong one.
    fn put(&mut self, random: &mut Random, page: Page, fields: Fields) {
        let of = match random.once_in(12) {
            true => Page { vsid: random.word() >> 8, page_index: random.below(1 << 16) },
            false => page,
        };
        let entry = random.index(16);
        self.put_at(random, of, entry, page, fields);
    }

    fn put_at(&mut self, random: &mut Random, of: Page, entry: usize, page: Page, fields: Fields) {
        let groups = self.table.len() / 64;
        let h = u32::from(entry >= 8);
        let group = group_numbers(self.sdr1(), of)[h as usize] % groups;
        let fields = Fields {
            v: u32::from(!random.once_in(20)),
            vsid: page.vsid,
            h,
            api: page.api(),
            ..fields
        };
        let mut words = fields.words();
        if random.once_in(4) {
            words[1] |= random.word() & 0xE04;
        }
        put_words(&mut self.table[64 * group + 8 * (entry % 8)..], &words);
    }

    /// The same dump with a few words of registers and table changed, or as it was.
    pub fn touched(&self, random: &mut Random) -> Scene {
        let mut scene = self.clone();
        for _ in 0..random.below(4) {
            let at = 4 * (1 + random.index(scene.registers.len() / 4 - 1));
            let word = word_at(&scene.registers, at) ^ 1 << random.below(24);
            put_word(&mut scene.registers, at, word);
        }
        for _ in 0..random.below(12) {
            let page = random.pick(&self.pages);
            let fields = fields(random);
            scene.put(random, page, fields);
        }
        scene
    }

    /// An access near the pages and blocks, at page edges, or anywhere.
    pub fn access(&self, random: &mut Random) -> Access {
        let length = random.pick(&[1, 2, 4, 8, 100, 128]);
        let mode = random.pick(&[3, 3, 3, 7, 7, 7, 0, 4]);
        let (address, kind) = match random.below(8) {
            0..=2 => self.near_block(random),
            3 => (random.word() | random.below(2) * 0xFFFF_FFFE, random.below(3)),
            _ => (self.in_page(random), random.below(3)),
        };
        Access { mode, kind, address, length }
    }

    /// An address in a page by its segment, often close to the page's end.
    fn in_page(&self, random: &mut Random) -> u32 {
        let (page, in_page) = match random.once_in(3) {
            true => (random.pick(&self.edges), random.pick(&[0xFFF, 0xFFD, 0xFC0])),
            false => {
                (random.pick(&self.pages), random.pick(&[0, 1, 0x1B, 0xFFF, 0xFFD, 0xFC0, 0x800]))
            }
        };
        let with_vsid =
            (0..16).find(|&n| word_at(&self.registers, 4 + 4 * n) & 0xFF_FFFF == page.vsid);
        let segment = with_vsid.unwrap_or(random.index(16)) as u32;
        segment << 28 | page.page_index << 12 | in_page
    }

    /// An address around a block's start, or far in it, with a kind of access of its side.
    fn near_block(&self, random: &mut Random) -> (u32, u32) {
        let pairs = (self.registers.len() - 68) / 8;
        let upper = |pair: usize| word_at(&self.registers, 68 + 8 * pair);
        let mut pair = random.index(pairs);
        for _ in 0..pairs {
            if upper(pair) & 3 == 0 {
                pair = (pair + 1) % pairs;
            }
        }
        let start = upper(pair) & 0xFFFE_0000;
        let within = random.pick(&[0, 0, 0x1234, 0x1_FFFE, 0xFFFF_FFFE]);
        let address = start.wrapping_add(within);
        (address, if pair < pairs / 2 { 0 } else { random.pick(&[1, 2]) })
    }
}

/// Frames are few, so that duplicates agree now and then.
fn fields(random: &mut Random) -> Fields {
    let rpn = match random.once_in(3) {
        true => random.word() >> 12,
        false => 0x12345,
    };
    let wimg = random.pick(&[0, 2, 2, 2, 3, 5, 15]);
    Fields {
        rpn,
        wimg,
        pp: random.below(4),
        r: random.below(2),
        c: random.below(2),
        ..Fields::default()
    }
}

fn sdr1(random: &mut Random) -> u32 {
    let mask = random.pick(&[0, 0, 0, 0, 0, 1, 1, 3, 7]);
    let right = (random.word() & 0xFFFF & !mask) << 16 | mask;
    match random.once_in(15) {
        true => right ^ 1 << random.below(32),
        false => right,
    }
}

fn segment(random: &mut Random, vsids: &[u32]) -> u32 {
    let n = u32::from(random.once_in(4)) << 28;
    let keys = random.below(4) << 29;
    let broken = u32::from(random.once_in(150))
        * random.pick(&[0x8000_0000, 0x0100_0000, 0x0800_0000, 0x8F00_0000]);
    random.pick(vsids) | n | keys | broken
}

/// A pair, now and then a block that begins where the one before it ended.
fn pair(random: &mut Random, side: Side, layout: Layout, end: u32) -> [u32; 2] {
    if !random.once_in(3) {
        let rest = random.below(2) * random.word();
        return [rest & !3, random.below(2) * random.word()];
    }
    let most = if layout.is_long() { 15 } else { 11 };
    let ones = if random.once_in(6) { random.below(most + 1) } else { random.below(5) };
    let bl = (1u32 << ones) - 1;
    let start = |random: &mut Random| (random.word() >> 17 & !bl) << 17;
    let wimg = match side {
        Side::Instruction => random.pick(&[0, 2, 4, 6]),
        Side::Data => random.pick(&[0, 1, 2, 3, 5, 7, 8, 9, 11]),
    };
    let begin = match random.once_in(3) && end & bl == 0 {
        true => end << 17,
        false => start(random),
    };
    let mut words =
        [begin | bl << 2 | 1 + random.below(3), start(random) | wimg << 3 | random.below(4)];
    if random.once_in(20) {
        words[random.index(2)] ^= 1 << random.below(32);
    }
    words
}
