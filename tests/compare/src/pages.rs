//! What the compared calls met of the two lengths of a register page, and what they have to have met.

use std::collections::BTreeMap;

use model::call::{Access, Call};
use model::registers::{Block, Layout, Registers, Side};
use model::translation::block_of;

/// Something met on a page: a long one, or a short one.
#[derive(Clone, Copy, Debug, PartialEq, Eq, PartialOrd, Ord)]
enum Met {
    /// A call gave this number.
    Result { call: &'static str, number: u32 },
    /// A word of this number was replaced.
    Replaced { number: u32 },
    /// This number was refused.
    NumberRefused { number: u32 },
    /// A pair that is on broke a rule of its shape.
    Shape { data: bool, pair: usize },
    /// Two pairs shared an address and a V bit.
    Shared { data: bool, pairs: [usize; 2] },
    /// A block whose BL has so many ones held the address of an access.
    Held { ones: u32 },
    /// One of bits 15 to 18 stood in a pair of this state.
    Bit { on: bool, bit: u32 },
}

/// Counts by what was met, and whether the page is long.
#[derive(Default)]
pub struct Pages {
    met: BTreeMap<(bool, Met), u64>,
}

impl Pages {
    fn add(&mut self, layout: Layout, met: Met) {
        *self.met.entry((layout.is_long(), met)).or_default() += 1;
    }

    /// A call with its result, as it was lent a page of this length.
    pub fn count(&mut self, call: &Call, number: u32, length: usize) {
        let Some(layout) = Layout::of_length(length).filter(|_| call.is_lent_registers()) else {
            return;
        };
        self.add(layout, Met::Result { call: call.name(), number });
        match (*call, number) {
            (Call::SetRegister { number, .. }, 0) => self.add(layout, Met::Replaced { number }),
            (Call::SetRegister { number, .. }, 6) => {
                self.add(layout, Met::NumberRefused { number })
            }
            _ => {}
        }
    }

    /// The page that a check or an access comes upon; `refused` is the first rule that it breaks.
    pub fn note(&mut self, call: &Call, registers: &[u8], refused: Option<u32>) {
        let Some(set) = Registers::read(registers) else { return };
        match (*call, refused) {
            (Call::Check | Call::Access(_), None | Some(3 | 4)) => self.note_blocks(&set, refused),
            _ => {}
        }
        if let (Call::Access(access), None) = (*call, refused) {
            self.note_block(&set, access);
        }
    }

    fn note_blocks(&mut self, set: &Registers, refused: Option<u32>) {
        for side in [Side::Instruction, Side::Data] {
            let data = side == Side::Data;
            let blocks = set.blocks(side);
            for (pair, block) in blocks.iter().enumerate() {
                if refused == Some(3) && block.is_on() && !block.is_well_formed(side) {
                    self.add(set.layout, Met::Shape { data, pair });
                }
                self.note_bits(set.layout, block, refused);
                if refused != Some(4) {
                    continue;
                }
                for earlier in (0..pair).filter(|&earlier| clash(&blocks[earlier], block)) {
                    self.add(set.layout, Met::Shared { data, pairs: [earlier, pair] });
                }
            }
        }
    }

    /// Bits 15 to 18 where the page was refused for a shape, or in a pair that is off where it was not refused.
    fn note_bits(&mut self, layout: Layout, block: &Block, refused: Option<u32>) {
        let on = block.is_on();
        if refused != on.then_some(3) {
            return;
        }
        for bit in (15..19).filter(|bit| block.upper >> (31 - bit) & 1 == 1) {
            self.add(layout, Met::Bit { on, bit });
        }
    }

    fn note_block(&mut self, set: &Registers, access: Access) {
        if let (true, Some((_, block))) = (access.is_translated(), block_of(set, access)) {
            let ones = (block.length() >> 17).trailing_zeros();
            self.add(set.layout, Met::Held { ones });
        }
    }

    /// What was never met, of pages of both lengths.
    pub fn missing(&self) -> Vec<String> {
        let wanted = Layout::BOTH.into_iter().flat_map(|layout| {
            let long = layout.is_long();
            wanted(layout).into_iter().map(move |met| (long, met))
        });
        self.unmet(wanted)
    }

    /// The same of lists of calls, which have accesses alone.
    pub fn missing_in_lists(&self) -> Vec<String> {
        let results = [0, 64, 65, 3, 4, 5, 1].map(|number| Met::Result { call: "access", number });
        let wanted = results.into_iter().flat_map(|met| [(false, met), (true, met)]);
        self.unmet(wanted)
    }

    fn unmet(&self, wanted: impl Iterator<Item = (bool, Met)>) -> Vec<String> {
        let unmet = wanted.filter(|key| !self.met.contains_key(key));
        unmet
            .map(|(long, met)| {
                let page = if long { "long" } else { "short" };
                format!("on a {page} page never {met:?}")
            })
            .collect()
    }
}

/// A V bit in common and an address in common, both of right shape by the page's own rule.
fn clash(one: &Block, other: &Block) -> bool {
    one.is_on() && other.is_on() && one.shares_an_address(other) && one.shares_a_valid_bit(other)
}

/// What has to be met of a page of one length.
fn wanted(layout: Layout) -> Vec<Met> {
    let mut wanted = Vec::new();
    for (call, numbers) in [
        ("check", &[0, 2, 3, 4, 5][..]),
        ("set", &[0, 6, 2, 3, 4, 5]),
        ("access", &[0, 64, 65, 6, 12, 2, 3, 4, 5, 1, 10]),
    ] {
        wanted.extend(numbers.iter().map(|&number| Met::Result { call, number }));
    }
    let words = layout.words as u32;
    wanted.extend((0..words).map(|number| Met::Replaced { number }));
    wanted.extend([words, words.max(48), u32::MAX].map(|number| Met::NumberRefused { number }));
    for data in [false, true] {
        for pair in 0..layout.pairs {
            wanted.push(Met::Shape { data, pair });
            wanted.extend((0..pair).map(|first| Met::Shared { data, pairs: [first, pair] }));
        }
    }
    let most = if layout.is_long() { 15 } else { 11 };
    wanted.extend(BL_ONES.into_iter().filter(|&ones| ones <= most).map(|ones| Met::Held { ones }));
    for bit in 15..19 {
        wanted.push(Met::Bit { on: false, bit });
        if !layout.is_long() {
            wanted.push(Met::Bit { on: true, bit });
        }
    }
    wanted
}

/// Lengths of blocks that an access has to have met; every BL is in the complete tables.
const BL_ONES: [u32; 10] = [0, 1, 2, 5, 10, 11, 12, 13, 14, 15];
