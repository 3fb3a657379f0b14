//! Register pages that keep every rule, and ways to break one.

use std::ops::{Deref, DerefMut};

use model::registers::{Block, Layout, Registers, Side, MOST_WORDS};

use crate::random::Random;

/// The words of a register page of either length.
#[derive(Clone, Copy)]
pub struct Words {
    pub layout: Layout,
    words: [u32; MOST_WORDS],
}

impl Deref for Words {
    type Target = [u32];

    fn deref(&self) -> &[u32] {
        &self.words[..self.layout.words]
    }
}

impl DerefMut for Words {
    fn deref_mut(&mut self) -> &mut [u32] {
        &mut self.words[..self.layout.words]
    }
}

impl Words {
    /// Zeros: SDR1 0, all blocks off.
    pub fn zero(layout: Layout) -> Words {
        Words { layout, words: [0; MOST_WORDS] }
    }

    pub fn set(&self) -> Registers {
        Registers::of_words(self.layout, self)
    }

    /// The number of a pair's upper word.
    pub fn pair(&self, side: Side, pair: usize) -> usize {
        self.layout.first_register(side) + 2 * pair
    }

    pub fn put_pair(&mut self, side: Side, pair: usize, block: [u32; 2]) {
        let number = self.pair(side, pair);
        self[number..number + 2].copy_from_slice(&block);
    }

    /// The same words on a long page, the data pairs moved to their place; the pairs more are zero.
    pub fn widened(&self) -> Words {
        let mut long = Words::zero(Layout::LONG);
        for (number, &word) in self.iter().enumerate() {
            long[widened_number(number)] = word;
        }
        long
    }
}

/// The number that a short page's word has on a long page.
pub fn widened_number(number: usize) -> usize {
    let data = Layout::SHORT.first_register(Side::Data);
    match number < data {
        true => number,
        false => number - data + Layout::LONG.first_register(Side::Data),
    }
}

/// A length that a page may have.
pub fn layout(random: &mut Random) -> Layout {
    random.pick(&Layout::BOTH)
}

/// A page that keeps every rule, with some blocks on, under the given SDR1.
pub fn well_formed(random: &mut Random, layout: Layout, sdr1: u32) -> Words {
    let mut words = Words::zero(layout);
    words[0] = sdr1;
    for segment in &mut words[1..17] {
        *segment = segment_word(random);
    }
    let blocks_on = random.pick(&[0, 1, 2, 4]);
    for side in SIDES {
        for pair in 0..layout.pairs {
            let block = if random.below(4) < blocks_on {
                block_on(random, layout, side)
            } else {
                block_off(random)
            };
            words.put_pair(side, pair, block);
            part_from_earlier(random, &mut words, side, pair);
        }
    }
    words
}

fn segment_word(random: &mut Random) -> u32 {
    let keys = random.below(4) << 29;
    let no_execute = u32::from(random.once_in(4)) << 28;
    keys | no_execute | random.word() & 0xFF_FFFF
}

const SIDES: [Side; 2] = [Side::Instruction, Side::Data];

/// A pair that is off may hold anything else.
fn block_off(random: &mut Random) -> [u32; 2] {
    match random.below(3) {
        0 => [0, 0],
        _ => [random.word() & !0b11, random.word()],
    }
}

/// How many ones BL has: on a long page rarely more than 13, so that blocks leave room for others.
fn ones_of_bl(random: &mut Random, layout: Layout) -> u32 {
    match layout.is_long() {
        true => random.pick(&[0, 0, 0, 1, 2, 5, 10, 10, 11, 11, 11, 12, 13, 14, 15]),
        false => random.pick(&[0, 0, 1, 2, 5, 10, 11, 11]),
    }
}

fn block_on(random: &mut Random, layout: Layout, side: Side) -> [u32; 2] {
    let length = (1 << ones_of_bl(random, layout)) - 1;
    let start = (random.word() >> 17) & !length;
    let physical = (random.word() >> 17) & !length;
    let wimg = match side {
        Side::Instruction => random.pick(&[0b0000, 0b0100, 0b0010, 0b0110]),
        Side::Data => random.below(12),
    };
    [
        start << 17 | length << 2 | random.pick(&[1, 2, 3, 3]),
        physical << 17 | wimg << 3 | random.below(4),
    ]
}

/// A pair as the model reads it on such a page.
fn block(layout: Layout, [upper, lower]: [u32; 2]) -> Block {
    Block { upper, lower, layout }
}

fn clash(one: &Block, other: &Block) -> bool {
    one.shares_an_address(other) && one.shares_a_valid_bit(other)
}

/// Where a block clashes with an earlier one, takes away its V bits in common, or all.
fn part_from_earlier(random: &mut Random, words: &mut Words, side: Side, pair: usize) {
    let blocks = words.set().blocks(side);
    let number = words.pair(side, pair);
    for earlier in blocks[..pair].iter().filter(|block| block.is_on()) {
        if clash(earlier, &blocks[pair]) {
            let in_common = if random.once_in(2) { earlier.valid_bits() } else { 0b11 };
            words[number] &= !in_common;
        }
    }
}

/// Turns every pair of a side off.
fn turn_off(words: &mut Words, side: Side) {
    for pair in 0..words.layout.pairs {
        let number = words.pair(side, pair);
        words[number] &= !0b11;
    }
}

/// Two different pairs of a page, the earlier first.
fn two_pairs(random: &mut Random, layout: Layout) -> [usize; 2] {
    let first = random.index(layout.pairs);
    let second = (first + 1 + random.index(layout.pairs - 1)) % layout.pairs;
    [first.min(second), first.max(second)]
}

/// Makes a pair share its address with another, each under a V bit of its own: allowed.
pub fn overlay(random: &mut Random, words: &mut Words) {
    let side = random.pick(&SIDES);
    let [upper, lower] = block_on(random, words.layout, side);
    let [first, second] = two_pairs(random, words.layout);
    turn_off(words, side);
    words.put_pair(side, first, [upper & !0b11 | 0b01, lower]);
    words.put_pair(side, second, [upper & !0b11 | 0b10, lower ^ 0b11]);
}

/// Puts a block of 128 KB over an address, as the same pair of both sides.
pub fn cover(random: &mut Random, words: &mut Words, pair: usize, address: u32) {
    for side in SIDES {
        let [_, lower] = block_on(random, words.layout, side);
        words.put_pair(side, pair, [address & 0xFFFE_0000 | 0b11, lower]);
    }
}

/// Makes one block of a side end where another begins; all others of the side are off.
pub fn adjoin(random: &mut Random, words: &mut Words) {
    let side = random.pick(&SIDES);
    let length = (1 << random.below(if words.layout.is_long() { 15 } else { 11 })) - 1;
    let twice = length << 1 | 1;
    let start = (random.word() >> 17) & !twice;
    let pairs = two_pairs(random, words.layout);
    turn_off(words, side);
    for (pair, start) in pairs.into_iter().zip([start, start | length + 1]) {
        let [_, lower] = block_on(random, words.layout, side);
        let upper = start << 17 | length << 2 | random.pick(&[0b11, 0b11, 0b01, 0b10]);
        words.put_pair(side, pair, [upper, lower & !(length << 17)]);
    }
}

/// Makes one pair of a side a block of 4 GB, where there can be one: all others of its V bits are off.
pub fn whole(random: &mut Random, words: &mut Words) {
    if !words.layout.is_long() {
        return;
    }
    let side = random.pick(&SIDES);
    let pair = random.index(words.layout.pairs);
    let valid = random.pick(&[0b01, 0b10, 0b11]);
    for other in 0..words.layout.pairs {
        let number = words.pair(side, other);
        words[number] &= !valid;
    }
    let [_, lower] = block_on(random, words.layout, side);
    words.put_pair(side, pair, [0x1_FFFC | valid, lower & 0x1_FFFF]);
}

/// Breaks one rule of a block's shape in a pair that is on.
pub fn spoil_block(random: &mut Random, words: &mut Words) {
    let side = random.pick(&SIDES);
    let layout = words.layout;
    let bl = if layout.is_long() { 0x1_FFFC } else { 0x1FFC };
    let [mut upper, mut lower] = block_on(random, layout, side);
    loop {
        match random.below(6) {
            0 => upper |= 0x2000 << random.below(4),
            1 => lower |= 0x80 << random.below(10),
            2 => lower |= 0b100,
            3 => upper = upper & !bl | random.word() & bl,
            4 => lower |= random.pick(&[0b1100, 0b1001, 0b0001, 0b1000]) << 3,
            _ => {
                let under = 0x2_0000 << random.below(15);
                upper |= random.pick(&[under, 0]);
                lower |= random.pick(&[under, 0]);
            }
        }
        if !block(layout, [upper, lower]).is_well_formed(side) {
            break;
        }
    }
    words.put_pair(side, random.index(layout.pairs), [upper, lower]);
}

/// Makes two pairs of a side share an address and a V bit, both of right shape.
pub fn share_blocks(random: &mut Random, words: &mut Words) {
    let side = random.pick(&SIDES);
    let layout = words.layout;
    let bl = if layout.is_long() { 0x1_FFFC } else { 0x1FFC };
    let pairs = two_pairs(random, layout);
    loop {
        let one = block_on(random, layout, side);
        let mut other = block_on(random, layout, side);
        let length = (other[0] & bl) << 15;
        other[0] = (one[0] & 0xFFFE_0000 & !length) | other[0] & (bl | 0b11);
        let blocks = [one, other].map(|pair| block(layout, pair));
        if clash(&blocks[0], &blocks[1]) && blocks[1].is_well_formed(side) {
            let swapped = random.once_in(2);
            words.put_pair(side, pairs[usize::from(swapped)], one);
            words.put_pair(side, pairs[usize::from(!swapped)], other);
            return;
        }
    }
}

/// Sets T or one of bits 4 to 7 of a segment.
pub fn spoil_segment(random: &mut Random, words: &mut Words) {
    let segment = 1 + random.index(16);
    words[segment] |= random.pick(&[1 << 31, 1 << 27, 1 << 26, 1 << 25, 1 << 24]);
}
