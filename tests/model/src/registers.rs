//! The register words and what the rules ask of them.

use crate::call::FETCH;
use crate::flaw::Flaw;
use crate::words::{bits, ending_at, ones_at_low_end, put_word, word_at};

/// Bytes of a register page with four block pairs a side.
pub const SHORT_PAGE: usize = 132;
/// Bytes of one with eight pairs a side and BL of 15 bits (request 5).
pub const LONG_PAGE: usize = 196;
/// Words of the longer page.
pub const MOST_WORDS: usize = 49;

/// Whether SDR1 has the shape that the rules give it.
pub fn sdr1_is_well_formed(sdr1: u32) -> bool {
    let (origin, mask) = (bits(sdr1, 0, 15), bits(sdr1, 23, 31));
    bits(sdr1, 16, 22) == 0 && ones_at_low_end(mask) && origin & mask == 0
}

/// The table's length in bytes.
pub fn table_length(sdr1: u32) -> usize {
    65_536 * (bits(sdr1, 23, 31) as usize + 1)
}

#[derive(Clone, Copy, Debug, PartialEq, Eq)]
pub enum Side {
    Instruction,
    Data,
}

impl Side {
    /// The side of a kind of access.
    pub fn of_kind(kind: u32) -> Side {
        match kind {
            FETCH => Side::Instruction,
            _ => Side::Data,
        }
    }
}

/// What a page of one length holds, and the limit that its blocks are held to.
#[derive(Clone, Copy, Debug, PartialEq, Eq)]
pub struct Layout {
    /// SDR1, sixteen segments, and two words for each pair.
    pub words: usize,
    /// Block pairs of each side.
    pub pairs: usize,
    /// The words that the first instruction pair and the first data pair begin with.
    first_registers: [usize; 2],
    /// The bit of an upper word with which BL begins; those from 15 up to it are zero in a pair that is on.
    bl_from: u32,
    /// What a wrong model does with the page.
    flaw: Option<Flaw>,
}

impl Layout {
    pub const SHORT: Layout =
        Layout { words: 33, pairs: 4, first_registers: [17, 25], bl_from: 19, flaw: None };
    pub const LONG: Layout =
        Layout { words: 49, pairs: 8, first_registers: [17, 33], bl_from: 15, flaw: None };
    pub const BOTH: [Layout; 2] = [Layout::SHORT, Layout::LONG];

    /// By the lent length alone; none where a page of that length is refused.
    pub fn of_length(length: usize) -> Option<Layout> {
        Layout::BOTH.into_iter().find(|layout| layout.length() == length)
    }

    /// The same, with a mistake about the two lengths.
    fn wrong(flaw: Option<Flaw>, page: &[u8]) -> Option<Layout> {
        let layout = Layout::of_length(page.len());
        let short = layout == Some(Layout::SHORT);
        let wrong = match (flaw, layout) {
            (Some(Flaw::Length164Taken), None) if page.len() == 164 => {
                Layout { words: 41, pairs: 6, first_registers: [17, 29], ..Layout::LONG }
            }
            (Some(Flaw::BetweenTakenAsShort), None)
                if (SHORT_PAGE..LONG_PAGE).contains(&page.len()) =>
            {
                Layout::SHORT
            }
            (_, None) => return None,
            (Some(Flaw::LongRefused), Some(_)) if !short => return None,
            (Some(Flaw::DataPairsAtWord25), Some(layout)) => {
                Layout { first_registers: [17, 25], ..layout }
            }
            (Some(Flaw::ShortBlOfFifteen), Some(layout)) => Layout { bl_from: 15, ..layout },
            (Some(Flaw::LongBlOfEleven | Flaw::LongBitsRefused), Some(layout)) => {
                Layout { bl_from: 19, ..layout }
            }
            (Some(Flaw::LimitByContents), Some(layout)) if !short && upper_pairs_off(page) => {
                Layout { bl_from: 19, ..layout }
            }
            (Some(Flaw::ShortHasEight), Some(layout)) => Layout { pairs: 8, ..layout },
            (_, Some(layout)) => layout,
        };
        Some(Layout { flaw, ..wrong })
    }

    /// The page's length in bytes.
    pub fn length(self) -> usize {
        4 * self.words
    }

    /// Whether the page is one of eight pairs a side.
    pub fn is_long(self) -> bool {
        self.words > Layout::SHORT.words
    }

    /// The highest register number.
    pub fn last_number(self) -> u32 {
        let last = self.words as u32 - 1;
        match self.flaw {
            Some(Flaw::Number33OnShort) if !self.is_long() => last + 1,
            Some(Flaw::Number48Refused) if self.is_long() => last - 1,
            Some(Flaw::LongNumbersRefused) => 32,
            Some(Flaw::AnyPageTakes48) => 48,
            _ => last,
        }
    }

    /// The number of the register word that a side's first block begins with.
    pub fn first_register(self, side: Side) -> usize {
        self.first_registers[usize::from(side == Side::Data)]
    }

    /// Whether this is the mistake that is made.
    fn has(self, flaw: Flaw) -> bool {
        self.flaw == Some(flaw)
    }
}

/// Whether pairs 4 to 7 of both sides of a long page are off.
fn upper_pairs_off(page: &[u8]) -> bool {
    let uppers = (25..33).chain(41..49).step_by(2);
    uppers.map(|number| word_at(page, 4 * number)).all(|upper| bits(upper, 30, 31) == 0)
}

/// The register set, read from its page.
#[derive(Clone, Copy)]
pub struct Registers {
    pub layout: Layout,
    words: [u32; MOST_WORDS],
}

impl Registers {
    /// None where the page has another length.
    pub fn read(page: &[u8]) -> Option<Registers> {
        Registers::read_wrongly(None, page)
    }

    /// The same, with a mistake about the two lengths.
    pub fn read_wrongly(flaw: Option<Flaw>, page: &[u8]) -> Option<Registers> {
        Layout::wrong(flaw, page).map(|layout| {
            let mut words = [0; MOST_WORDS];
            for (word, bytes) in words.iter_mut().zip(page.chunks_exact(4)) {
                *word = word_at(bytes, 0);
            }
            Registers { layout, words }
        })
    }

    /// The set of a page with these words.
    pub fn of_words(layout: Layout, of_page: &[u32]) -> Registers {
        let mut words = [0; MOST_WORDS];
        words[..layout.words].copy_from_slice(of_page);
        Registers { layout, words }
    }

    /// The set with one word changed; a number past the page's last word changes none.
    pub fn with_word(mut self, number: u32, word: u32) -> Registers {
        if (number as usize) < self.layout.words {
            self.words[number as usize] = word;
        }
        self
    }

    pub fn sdr1(&self) -> u32 {
        self.words[0]
    }

    /// The segment register chosen by address bits 0 to 3.
    pub fn segment(&self, address: u32) -> Segment {
        Segment(self.words[1 + bits(address, 0, 3) as usize])
    }

    /// The set with the segment register of one address in the place of another's.
    pub fn with_segment_of(self, from: u32, to: u32) -> Registers {
        self.with_word(1 + bits(to, 0, 3), self.segment(from).0)
    }

    pub fn segments(&self) -> impl Iterator<Item = Segment> + '_ {
        self.words[1..17].iter().map(|&word| Segment(word))
    }

    /// The pairs of a side, by their numbers.
    pub fn blocks(&self, side: Side) -> Vec<Block> {
        let first = self.layout.first_register(side);
        let word = |number: usize| self.words.get(number).copied().unwrap_or(0);
        let pair = |pair: usize| Block {
            upper: word(first + 2 * pair),
            lower: word(first + 2 * pair + 1),
            layout: self.layout,
        };
        (0..self.layout.pairs).map(pair).collect()
    }

    pub fn segments_are_well_formed(&self) -> bool {
        (0..).zip(self.segments()).all(|(number, segment)| match self.layout.flaw {
            Some(Flaw::SegmentBit { segment: wrong, bit }) if wrong == number => {
                segment.0 & (0x8F00_0000 ^ ending_at(1, bit)) == 0
            }
            _ => segment.is_well_formed(),
        })
    }

    /// Whether every block that is on has its shape.
    pub fn blocks_are_well_formed(&self) -> bool {
        [Side::Instruction, Side::Data].into_iter().all(|side| {
            let mut blocks = self.judged(side).into_iter();
            blocks.all(|block| !block.is_judged() || block.is_well_formed(side))
                && !self.joined_wrongly(side)
        })
    }

    /// The mistakes by which a side is refused for words of several pairs put together.
    fn joined_wrongly(&self, side: Side) -> bool {
        let blocks = self.blocks(side);
        let any = |on: bool| {
            blocks
                .iter()
                .filter(|block| block.is_on() == on)
                .fold(0, |any, block| any | block.lower)
        };
        match self.layout.flaw {
            Some(Flaw::WAndIOfTwo) => side == Side::Data && bits(any(true), 25, 26) == 0b11,
            Some(Flaw::OffPairsJoined) => {
                let zero = bits(any(false), 15, 24) == 0 && bits(any(false), 29, 29) == 0;
                !zero && blocks.iter().any(Block::is_on)
            }
            _ => false,
        }
    }

    /// Whether a block is over 256 MB, two of a side begin in the same 256 MB, or W is of one data block and I of
    /// another: what a quick test of the page may leave open.
    pub fn is_open(&self) -> bool {
        [Side::Instruction, Side::Data].into_iter().any(|side| {
            let blocks = self.blocks(side).into_iter();
            let on: Vec<Block> = blocks.filter(Block::is_on).collect();
            let tops: Vec<u32> = on.iter().map(|block| bits(block.upper, 0, 3)).collect();
            let attributes = on.iter().fold(0, |any, block| any | block.wimg());
            on.iter().any(|block| block.length() > 1 << 28)
                || (1..tops.len()).any(|second| tops[..second].contains(&tops[second]))
                || side == Side::Data && attributes & 0b1100 == 0b1100
        })
    }

    /// The mistakes by which no block of a side is looked at for an address.
    pub fn overlooks_blocks(&self, side: Side, address: u32) -> bool {
        let other = match side {
            Side::Instruction => Side::Data,
            Side::Data => Side::Instruction,
        };
        let top = bits(address, 0, 3);
        let begins_there = |block: &Block| block.is_on() && bits(block.upper, 0, 3) == top;
        match self.layout.flaw {
            Some(Flaw::NoBlocksWhereOpen) => self.is_open(),
            Some(Flaw::BlocksByOtherSide) => !self.blocks(other).iter().any(begins_there),
            _ => false,
        }
    }

    /// The pairs whose shape and addresses are judged: all of the page.
    fn judged(&self, side: Side) -> Vec<Block> {
        let mut blocks = self.blocks(side);
        if self.layout.has(Flaw::LastPairUnchecked) {
            blocks.truncate(7);
        }
        if self.layout.has(Flaw::UpperPairsUnchecked) {
            blocks.truncate(4);
        }
        blocks
    }

    /// Whether two blocks of a side are in conflict, by the test given.
    pub fn some_two_blocks(&self, conflict: impl Fn(&Block, &Block) -> bool) -> bool {
        [Side::Instruction, Side::Data].into_iter().any(|side| {
            let blocks = self.judged(side);
            let shaped = |block: &Block| block.claimed_bits() != 0 && block.is_well_formed(side);
            let two = |first: usize, second: usize| {
                !self.layout.passes_over(first, second) && conflict(&blocks[first], &blocks[second])
            };
            (1..blocks.len()).any(|second| {
                let mut earlier = (0..second).filter(|&first| shaped(&blocks[first]));
                shaped(&blocks[second]) && earlier.any(|first| two(first, second))
            })
        })
    }
}

impl Layout {
    /// The mistakes by which two pairs are not compared.
    fn passes_over(self, first: usize, second: usize) -> bool {
        match self.flaw {
            Some(Flaw::ThreeAndFourNotCompared) => (first, second) == (3, 4),
            Some(Flaw::HalvesNotCompared) => first < 4 && second >= 4,
            _ => false,
        }
    }

    /// Whether a pair can hold an address: every one can.
    pub fn may_cover(self, pair: u32) -> bool {
        match self.flaw {
            Some(Flaw::LastPairNeverCovers) => pair != 7,
            Some(Flaw::UpperPairsNeverCover) => pair < 4,
            _ => true,
        }
    }
}

/// Stores one word of a register page; a number past its end stores none.
pub fn put_register(page: &mut [u8], number: u32, word: u32) {
    if let Some(bytes) = page.chunks_exact_mut(4).nth(number as usize) {
        put_word(bytes, 0, word);
    }
}

#[derive(Clone, Copy)]
pub struct Segment(u32);

impl Segment {
    pub fn is_well_formed(self) -> bool {
        bits(self.0, 0, 0) == 0 && bits(self.0, 4, 7) == 0
    }

    fn supervisor_key(self) -> u32 {
        bits(self.0, 1, 1)
    }

    pub fn problem_key(self) -> u32 {
        bits(self.0, 2, 2)
    }

    /// The key that an access goes by.
    pub fn key(self, problem_state: bool) -> u32 {
        match problem_state {
            true => self.problem_key(),
            false => self.supervisor_key(),
        }
    }

    pub fn no_execute(self) -> bool {
        bits(self.0, 3, 3) == 1
    }

    pub fn vsid(self) -> u32 {
        bits(self.0, 8, 31)
    }
}

/// A block pair. Addresses are counted in 64 bits, so that a block may end at the last address.
#[derive(Clone, Copy)]
pub struct Block {
    pub upper: u32,
    pub lower: u32,
    /// That of the page which the pair stands in.
    pub layout: Layout,
}

impl Block {
    pub fn is_on(&self) -> bool {
        self.valid_bits() != 0
    }

    /// Whether its shape is asked about: it is on.
    fn is_judged(&self) -> bool {
        let bits_in_off = self.layout.has(Flaw::OffPairBitsRefused)
            && !self.layout.is_long()
            && bits(self.upper, 15, 18) != 0;
        self.is_on() || bits_in_off
    }

    /// Vs and Vp, as they stand.
    pub fn valid_bits(&self) -> u32 {
        bits(self.upper, 30, 31)
    }

    pub fn start(&self) -> u64 {
        u64::from(bits(self.upper, 0, 14)) << 17
    }

    /// BL as its page has it: 11 bits, or 15.
    fn bl(&self) -> u32 {
        bits(self.upper, self.layout.bl_from, 29)
    }

    /// The block's length in bytes, where BL is ones only at its low end.
    pub fn length(&self) -> u64 {
        (u64::from(self.bl()) + 1) << 17
    }

    /// Whether bits 15 to 18 of the upper word are as they must be where they are not of BL.
    fn upper_reserved_zero(&self) -> bool {
        match self.layout.bl_from {
            15 => true,
            _ if self.layout.has(Flaw::ShortBitsLetThrough) => true,
            _ if self.layout.has(Flaw::LongBlOfEleven) && self.layout.is_long() => true,
            first => bits(self.upper, 15, first - 1) == 0,
        }
    }

    pub fn wimg(&self) -> u32 {
        bits(self.lower, 25, 28)
    }

    pub fn pp(&self) -> u32 {
        bits(self.lower, 30, 31)
    }

    pub fn is_well_formed(&self, side: Side) -> bool {
        match self.layout.flaw {
            Some(Flaw::ShapeWithout { data, upper, bit }) if data == (side == Side::Data) => {
                let seen = |word: u32, here: bool| word & !ending_at(u32::from(here), bit);
                let (upper, lower) = (seen(self.upper, upper), seen(self.lower, !upper));
                Block { upper, lower, ..*self }.has_shape(side)
            }
            _ => self.has_shape(side),
        }
    }

    fn has_shape(&self, side: Side) -> bool {
        let bl = self.bl();
        let starts_fit = (bits(self.upper, 0, 14) | bits(self.lower, 0, 14)) & bl == 0;
        let reserved_zero = self.upper_reserved_zero()
            && bits(self.lower, 15, 24) == 0
            && bits(self.lower, 29, 29) == 0;
        let wimg_fits = match side {
            Side::Instruction => self.wimg() & 0b1001 == 0,
            Side::Data => true,
        };
        let write_through_inhibited = self.wimg() & 0b1100 == 0b1100;
        ones_at_low_end(bl) && starts_fit && reserved_zero && wimg_fits && !write_through_inhibited
    }

    pub fn holds(&self, address: u32) -> bool {
        let elsewhere = bits(self.upper, 0, 3) != bits(address, 0, 3);
        if elsewhere && self.layout.has(Flaw::HoldsFirstOnly) {
            return false;
        }
        (self.start()..self.start() + self.length()).contains(&u64::from(address))
    }

    pub fn is_valid_in(&self, problem_state: bool) -> bool {
        self.valid_bits() & if problem_state { 1 } else { 2 } != 0
    }

    /// The physical address of an address that the block holds.
    pub fn physical(&self, address: u32) -> u32 {
        (bits(self.lower, 0, 14) << 17) + (address - self.start() as u32)
    }

    pub fn shares_an_address(&self, other: &Block) -> bool {
        let whole = [self, other].into_iter().any(|block| block.length() == 1 << 32);
        if whole && self.layout.has(Flaw::WholeSharesNothing) {
            return false;
        }
        let together = bits(self.upper, 0, 3) == bits(other.upper, 0, 3);
        match (self.layout.flaw, together) {
            (Some(Flaw::SameTopShares), true) => return true,
            (Some(Flaw::OtherTopApart), false) => return false,
            _ => {}
        }
        self.start() < other.start() + other.length()
            && other.start() < self.start() + self.length()
    }

    pub fn shares_a_valid_bit(&self, other: &Block) -> bool {
        self.claimed_bits() & other.claimed_bits() != 0
    }

    /// The V bits for which the pair has its addresses.
    fn claimed_bits(&self) -> u32 {
        let is_zero = (self.upper, self.lower) == (0, 0);
        match self.is_on() || is_zero || !self.layout.has(Flaw::OffPairShares) {
            true => self.valid_bits(),
            false => 0b11,
        }
    }
}
