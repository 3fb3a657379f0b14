//! Operands: where they begin, how long they are, and what covers their pages.

use model::call::{Access, Page};
use model::registers::{Block, Side};

use crate::random::Random;
use crate::scenes::arguments;
use crate::scenes::registers::{cover, Words};

/// An operand's address and length: anywhere, or over or up to an edge of a page, of a block of its
/// side, or of a segment.
pub fn anywhere(random: &mut Random, words: &Words, side: Side) -> (u32, u32) {
    let length = arguments::length(random);
    let address = address(random, words, side);
    let edge = match random.below(8) {
        0..=2 => return (address, length),
        3..=4 => address.wrapping_add(0x800) & 0xFFFF_F000,
        5..=6 => block_edge(random, words, side),
        _ => random.pick(&[0, address & 0xF000_0000]),
    };
    let before = 1 + random.below(length);
    (edge.wrapping_sub(before), length)
}

/// Where a block of a side begins or ends, of one that is on if there is any.
fn block_edge(random: &mut Random, words: &Words, side: Side) -> u32 {
    let blocks = words.set().blocks(side);
    let on: Vec<Block> = blocks.iter().copied().filter(Block::is_on).collect();
    let block = random.pick(if on.is_empty() { &blocks } else { &on });
    let [start, end] = [block.start(), block.start() + block.length()];
    random.pick(&[start, end]) as u32
}

/// An effective address: anywhere, or in or at an end of a block of either side, more often of its own.
fn address(random: &mut Random, words: &Words, side: Side) -> u32 {
    if random.below(3) > 0 {
        return random.word();
    }
    let side = random.pick(&[side, side, Side::Instruction, Side::Data]);
    let block = random.pick(&words.set().blocks(side));
    let (start, last) = (block.start() as u32, (block.length() - 1) as u32);
    match random.below(5) {
        0 => start,
        1 => start.wrapping_sub(1),
        2 => start.wrapping_add(last),
        3 => start.wrapping_add(last).wrapping_add(1),
        _ => start.wrapping_add(random.word() & last),
    }
}

/// The page that an operand goes on in, within the segment.
pub fn following(page: Page) -> Page {
    let page_index = (page.page_index + 1) & 0xFFFF;
    Page { page_index, ..page }
}

/// An operand that begins in a page, as often as not over or up to its end.
pub fn in_page(random: &mut Random, page: Page) -> (u32, u32) {
    let length = arguments::length(random);
    let in_page = match random.once_in(2) {
        true => 4_096 - 1 - random.below(length),
        false => random.below(4_096),
    };
    let segment = match page.page_index == 0xFFFF && random.once_in(2) {
        true => 0xF000_0000,
        false => random.word() & 0xF000_0000,
    };
    (segment | page.page_index << 12 | in_page, length)
}

/// Puts blocks of 128 KB over the operand's first byte, its last, or both; all other blocks are off.
pub fn cover_parts(random: &mut Random, words: &mut Words, access: &Access) {
    let last = access.address.wrapping_add(access.length - 1);
    let which =
        random.pick(&[[true, false], [false, true], [true, last >> 17 != access.address >> 17]]);
    words[17..].fill(0);
    let first = random.index(words.layout.pairs);
    for (number, (covered, address)) in which.into_iter().zip([access.address, last]).enumerate() {
        if covered {
            cover(random, words, (first + number) % words.layout.pairs, address);
        }
    }
}
