//! Register pages at the edges of a quick test. The library puts the words of a page together and asks once; where
//! that tells nothing (a block over 256 MB, two of a side that begin in the same 256 MB, W of one data block and I of
//! another, a broken rule) it asks word by word. Either way has to come to the same numbers. What has to come of each
//! page is said here without the model, by lengths and addresses; the model is asked beside it.

use model::call::{Access, Call, Page, FETCH, LOAD, STORE};
use model::registers::{Layout, Side};
use model::search::{group_numbers, GROUP};
use model::words::word_at;

use crate::bench::{Before, Bench, Difference, Judges, Lending};
use crate::machine::Machine;
use crate::region::Edge;
use crate::scenes::groups::matching_word;
use crate::scenes::registers::Words;
use crate::tally::Tally;

const SDR1: u32 = 0x0F98_0000;
const VSID: u32 = 0x0C_701C;
/// An address whose page is in the table, and its second word: a frame, R, C, M and PP 2. The entry stands in the last
/// 64 KB that are lent: by an SDR1 with a mask no search for the page comes there.
const MAPPED: u32 = 0x4041_2345;
const SECOND: u32 = 0x1234_5192;
/// A table of this length is lent for a mask of one; for more ones one of 64 KB, which is refused.
const LONGEST_TABLE: usize = 131_072;
const SIDES: [Side; 2] = [Side::Instruction, Side::Data];
/// All modes; those that translate every access come most often.
const MODES: [u32; 13] = [3, 7, 3, 7, 1, 5, 3, 7, 2, 6, 3, 0, 4];

pub fn run(subject: &dyn Machine, _factor: u32) -> Result<Tally, Difference> {
    run_with(subject, Judges::ModelAndStatement)
}

pub fn run_with(subject: &dyn Machine, judges: Judges) -> Result<Tally, Difference> {
    let mut stage = Stage { bench: Bench::new(subject, LONGEST_TABLE, 0), judges, turn: 0 };
    stage.put_entry();
    for samples in
        [segments, sdr1_words, two_pairs, attributes, off_pairs, several_rules, every_bit]
    {
        for layout in Layout::BOTH {
            for sample in samples(layout) {
                stage.one_page(&sample)?;
            }
        }
    }
    Layout::BOTH.into_iter().try_for_each(|layout| stage.numbers_past_last(layout))?;
    Ok(stage.bench.tally)
}

/// A page, one word of it replaced, and what a check says of the page without and with that word.
struct Sample {
    before: Words,
    number: usize,
    word: u32,
    checks: [u32; 2],
}

impl Sample {
    /// A page that breaks no rule, and a word of it replaced.
    fn of(before: &Words, number: usize, word: u32, check: u32) -> Sample {
        Sample { before: *before, number, word, checks: [0, check] }
    }

    fn page(&self) -> Words {
        let mut page = self.before;
        page[self.number] = self.word;
        page
    }
}

// ---- The pages ---------------------------------------------------------------------------------

/// Sixteen VSIDs; every block is off, and the pairs are zero words or all ones but for V.
fn base(layout: Layout, ones: bool) -> Words {
    let mut words = Words::zero(layout);
    words[0] = SDR1;
    for segment in 0..16 {
        words[1 + segment] = VSID + 0x111 * segment as u32;
    }
    for side in SIDES {
        for pair in 0..layout.pairs {
            words.put_pair(side, pair, if ones { [0xFFFF_FFFC, 0xFFFF_FFFF] } else { [0, 0] });
        }
    }
    words
}

/// Upper and lower word of a block with so many ones in BL, at or below a start.
fn block(ones: u32, start: u32, valid: u32) -> [u32; 2] {
    let bl = (1 << ones) - 1;
    let aligned = |address: u32| address & !(bl << 17);
    [aligned(start) | bl << 2 | valid, aligned(0x5000_0000) | 0b10]
}

/// Ones of BL in a block of a page's limit.
fn most_ones(layout: Layout) -> u32 {
    if layout.is_long() {
        15
    } else {
        11
    }
}

/// Each bit of each segment register turned over, with a block of either side on.
fn segments(layout: Layout) -> Vec<Sample> {
    let mut page = base(layout, false);
    page.put_pair(Side::Instruction, 1, block(0, 0xB000_0000, 0b11));
    page.put_pair(Side::Data, 2, block(3, 0xC000_0000, 0b11));
    let bits = (1..17).flat_map(|number| (0..32).map(move |bit| (number, bit)));
    let turned = bits.map(|(number, bit)| {
        let check = if matches!(bit, 0 | 4..=7) { 5 } else { 0 };
        Sample::of(&page, number, page[number] ^ 0x8000_0000 >> bit, check)
    });
    turned.collect()
}

/// SDR1 with a mask of each number of ones, and each of its bits turned over.
fn sdr1_words(layout: Layout) -> Vec<Sample> {
    let mut samples = Vec::new();
    for ones in 0..10 {
        let mask = (1 << ones) - 1;
        let mut page = base(layout, ones % 2 == 1);
        page[0] = (SDR1 & !(mask << 16)) | mask;
        page.put_pair(Side::Data, 0, block(ones, 0xB000_0000, 0b11));
        for bit in 0..32 {
            let word = page[0] ^ 1 << bit;
            let (origin, mask) = (word >> 16, word & 0xFFFF);
            let right = mask < 512 && (mask + 1).is_power_of_two() && origin % (mask + 1) == 0;
            samples.push(Sample::of(&page, 0, word, if right { 0 } else { 2 }));
        }
    }
    samples
}

/// Ones in BL, starts and V bits of two blocks of a side, and what a check says where BL may have so many ones.
struct Two {
    ones: [u32; 2],
    starts: [u32; 2],
    valid: [u32; 2],
    check: u32,
}

/// Apart, in different parts of 256 MB and in the same; sharing addresses and a V bit; sharing addresses and no V bit;
/// and the same with blocks over 256 MB.
#[rustfmt::skip]
const TWO: [Two; 38] = [
    Two { ones: [0, 0], starts: [0x2000_0000, 0x7000_0000], valid: [3, 3], check: 0 },
    Two { ones: [11, 11], starts: [0x2000_0000, 0x3000_0000], valid: [3, 3], check: 0 },
    Two { ones: [11, 0], starts: [0xF000_0000, 0x0000_0000], valid: [3, 3], check: 0 },
    Two { ones: [11, 11], starts: [0x0000_0000, 0xF000_0000], valid: [3, 3], check: 0 },
    Two { ones: [0, 0], starts: [0x2000_0000, 0x2002_0000], valid: [3, 3], check: 0 },
    Two { ones: [0, 0], starts: [0x2000_0000, 0x2FFE_0000], valid: [3, 3], check: 0 },
    Two { ones: [3, 0], starts: [0x2000_0000, 0x2010_0000], valid: [3, 3], check: 0 },
    Two { ones: [3, 0], starts: [0x2010_0000, 0x200E_0000], valid: [3, 3], check: 0 },
    Two { ones: [10, 10], starts: [0x2000_0000, 0x2800_0000], valid: [3, 3], check: 0 },
    Two { ones: [10, 10], starts: [0xF000_0000, 0xF800_0000], valid: [2, 1], check: 0 },
    Two { ones: [0, 0], starts: [0x2000_0000, 0x2000_0000], valid: [3, 3], check: 4 },
    Two { ones: [3, 0], starts: [0x2000_0000, 0x2000_0000], valid: [3, 3], check: 4 },
    Two { ones: [3, 0], starts: [0x2000_0000, 0x200E_0000], valid: [3, 3], check: 4 },
    Two { ones: [11, 0], starts: [0x2000_0000, 0x2FFE_0000], valid: [3, 3], check: 4 },
    Two { ones: [11, 10], starts: [0x2000_0000, 0x2800_0000], valid: [3, 3], check: 4 },
    Two { ones: [3, 3], starts: [0x2000_0000, 0x2000_0000], valid: [1, 1], check: 4 },
    Two { ones: [3, 3], starts: [0x2000_0000, 0x2000_0000], valid: [2, 2], check: 4 },
    Two { ones: [3, 0], starts: [0x2000_0000, 0x2008_0000], valid: [3, 1], check: 4 },
    Two { ones: [3, 0], starts: [0x2000_0000, 0x2008_0000], valid: [2, 3], check: 4 },
    Two { ones: [3, 3], starts: [0x2000_0000, 0x2000_0000], valid: [1, 2], check: 0 },
    Two { ones: [11, 0], starts: [0x2000_0000, 0x2800_0000], valid: [2, 1], check: 0 },
    Two { ones: [11, 11], starts: [0xF000_0000, 0xF000_0000], valid: [1, 2], check: 0 },
    Two { ones: [12, 0], starts: [0x2000_0000, 0x4000_0000], valid: [3, 3], check: 0 },
    Two { ones: [12, 0], starts: [0x2000_0000, 0x1FFE_0000], valid: [3, 3], check: 0 },
    Two { ones: [12, 11], starts: [0x2000_0000, 0x4000_0000], valid: [3, 3], check: 0 },
    Two { ones: [12, 12], starts: [0x2000_0000, 0xE000_0000], valid: [3, 3], check: 0 },
    Two { ones: [12, 0], starts: [0x2000_0000, 0x2FFE_0000], valid: [3, 3], check: 4 },
    Two { ones: [12, 0], starts: [0x2000_0000, 0x3000_0000], valid: [3, 3], check: 4 },
    Two { ones: [12, 0], starts: [0x2000_0000, 0x3FFE_0000], valid: [2, 2], check: 4 },
    Two { ones: [12, 0], starts: [0x2000_0000, 0x3FFE_0000], valid: [2, 1], check: 0 },
    Two { ones: [13, 11], starts: [0x4000_0000, 0x7000_0000], valid: [3, 3], check: 4 },
    Two { ones: [13, 11], starts: [0x4000_0000, 0x8000_0000], valid: [3, 3], check: 0 },
    Two { ones: [14, 14], starts: [0x0000_0000, 0x8000_0000], valid: [3, 3], check: 0 },
    Two { ones: [14, 11], starts: [0x8000_0000, 0xF000_0000], valid: [3, 3], check: 4 },
    Two { ones: [15, 0], starts: [0x0000_0000, 0xFFFE_0000], valid: [3, 3], check: 4 },
    Two { ones: [15, 0], starts: [0x0000_0000, 0xFFFE_0000], valid: [2, 1], check: 0 },
    Two { ones: [15, 15], starts: [0x0000_0000, 0x0000_0000], valid: [1, 2], check: 0 },
    Two { ones: [15, 15], starts: [0x0000_0000, 0x0000_0000], valid: [3, 1], check: 4 },
];

/// Which two pairs of a side are on.
fn two_places(layout: Layout) -> &'static [[usize; 2]] {
    match layout.is_long() {
        true => &[[0, 1], [3, 4], [0, 7], [6, 7]],
        false => &[[0, 1], [0, 3], [2, 3]],
    }
}

/// Each two blocks, either of them put in last; where it has too many ones for the page the check says 3.
fn two_pairs(layout: Layout) -> Vec<Sample> {
    let mut samples = Vec::new();
    for (number, two) in TWO.iter().enumerate() {
        for (side, last) in SIDES.into_iter().flat_map(|side| [(side, 0), (side, 1)]) {
            if two.ones[1 - last] > most_ones(layout) {
                continue;
            }
            for places in two_places(layout) {
                let pair = |one: usize| block(two.ones[one], two.starts[one], two.valid[one]);
                let mut page = base(layout, number % 2 == 1);
                page.put_pair(side, places[1 - last], pair(1 - last));
                let [upper, lower] = pair(last);
                page.put_pair(side, places[last], [upper & !0b11, lower]);
                let too_long = two.ones[last] > most_ones(layout);
                let check = if too_long { 3 } else { two.check };
                samples.push(Sample::of(&page, page.pair(side, places[last]), upper, check));
            }
        }
    }
    samples
}

const W: u32 = 0x40;
const I: u32 = 0x20;
const M: u32 = 0x10;
const G: u32 = 0x08;

/// Attributes of a block and of one put in after it, and what a check says of each side.
#[rustfmt::skip]
const ATTRIBUTES: [([u32; 2], [u32; 2]); 12] = [
    ([0, W], [3, 0]), ([0, I], [0, 0]), ([0, M], [0, 0]), ([0, G], [3, 0]),
    ([I, I], [0, 0]), ([I, W], [3, 0]), ([I | M, W | G], [3, 0]),
    ([I, W | I], [3, 3]), ([0, W | I], [3, 3]), ([M, W | I | M | G], [3, 3]),
    ([I | M, I | M], [0, 0]), ([0, I | M | G], [3, 0]),
];

/// W and I of a side's blocks: in one block, in two, and in one that is off; and of blocks of the two sides.
fn attributes(layout: Layout) -> Vec<Sample> {
    let mut samples = Vec::new();
    let starts = [0x2000_0000, 0x9000_0000];
    for places in two_places(layout) {
        for ([first, second], checks) in ATTRIBUTES {
            for (side, check) in SIDES.into_iter().zip(checks) {
                let [one, other] = starts.map(|start| block(2, start, 0b11));
                let mut page = base(layout, false);
                page.put_pair(side, places[0], [one[0], one[1] | first]);
                page.put_pair(side, places[1], other);
                let number = page.pair(side, places[1]) + 1;
                samples.push(Sample::of(&page, number, other[1] | second, check));
                // The second is off: it may have any attributes, and turning it on is judged.
                page[number] = other[1] | second;
                page[number - 1] &= !0b11;
                samples.push(Sample::of(&page, number, !0, 0));
                samples.push(Sample::of(&page, number - 1, other[0], check));
            }
        }
        for [data, instruction] in [[W, I], [I, 0], [W | G, I | M]] {
            let [one, other] = starts.map(|start| block(2, start, 0b11));
            let mut page = base(layout, false);
            page.put_pair(Side::Data, places[0], [one[0], one[1] | data]);
            page.put_pair(Side::Instruction, places[1], other);
            let number = page.pair(Side::Instruction, places[1]) + 1;
            samples.push(Sample::of(&page, number, other[1] | instruction, 0));
        }
    }
    samples
}

/// Pairs that are off: with the words of one that is on, with all bits but V, with each bit but V alone; and each
/// pair turned on over another.
fn off_pairs(layout: Layout) -> Vec<Sample> {
    let mut samples = Vec::new();
    for side in SIDES {
        for pair in 0..layout.pairs {
            let [upper, lower] = block(5, 0x6000_0000, 0b11);
            let mut page = base(layout, pair % 2 == 0);
            let next = (pair + 1) % layout.pairs;
            page.put_pair(side, next, [upper, lower]);
            page.put_pair(side, pair, [upper & !0b11, lower]);
            let number = page.pair(side, pair);
            samples.push(Sample::of(&page, number, upper, 4));
            for bit in 2..32 {
                samples.push(Sample::of(&page, number, 1 << bit, 0));
                samples.push(Sample::of(&page, number + 1, 1 << bit, 0));
            }
        }
    }
    samples
}

/// Pages that break several rules, of which the first is told, and a further one broken.
fn several_rules(layout: Layout) -> Vec<Sample> {
    let page = {
        let mut page = base(layout, false);
        page.put_pair(Side::Data, 0, block(3, 0x6000_0000, 0b11));
        page
    };
    let upper = |pair: usize| page.pair(Side::Data, pair);
    let [gap, share] = [0x2000_0017, block(0, 0x6002_0000, 0b11)[0]];
    let faults: [(u32, usize, u32); 4] =
        [(2, 0, SDR1 | 0x200), (3, upper(1), gap), (4, upper(2), share), (5, 16, 1 << 31)];
    let mut samples = Vec::new();
    for broken in 0..16 {
        for (place, &(_, number, word)) in faults.iter().enumerate() {
            if broken >> place & 1 == 1 {
                continue;
            }
            let mut before = page;
            for (other, &(_, number, word)) in faults.iter().enumerate() {
                if broken >> other & 1 == 1 {
                    before[number] = word;
                }
            }
            let first = |broken: u32| (broken != 0).then(|| broken.trailing_zeros() + 2);
            let checks = [broken, broken | 1 << place].map(|broken| first(broken).unwrap_or(0));
            samples.push(Sample { before, number, word, checks });
        }
    }
    samples
}

/// A block of each length, and each bit of its two words turned over.
fn every_bit(layout: Layout) -> Vec<Sample> {
    let mut samples = Vec::new();
    for side in SIDES {
        for ones in 0..=most_ones(layout) {
            for bit in 0..64 {
                let pair = (ones as usize + bit) % layout.pairs;
                let mut page = base(layout, bit % 2 == 1);
                let [upper, lower] = block(ones, 0xA000_0000, 0b11);
                page.put_pair(side, pair, [upper, lower]);
                let turned = 0x8000_0000 >> (bit % 32);
                let [upper, lower] =
                    if bit < 32 { [upper ^ turned, lower] } else { [upper, lower ^ turned] };
                let check = if has_shape(layout, side, upper, lower) { 0 } else { 3 };
                let number = page.pair(side, pair) + bit / 32;
                let word = if bit < 32 { upper } else { lower };
                samples.push(Sample::of(&page, number, word, check));
            }
        }
    }
    samples
}

/// The bytes of a block that is on, where BL is ones only at its low end.
fn length_of(upper: u32) -> u64 {
    u64::from((upper >> 2 & 0x7FFF) + 1) << 17
}

/// The shape of a block that is on, by its length: a power of two within the page's limit, at a multiple of which
/// the block begins in both spaces.
fn has_shape(layout: Layout, side: Side, upper: u32, lower: u32) -> bool {
    let length = length_of(upper);
    let longest = 1 << (17 + most_ones(layout));
    let begins = [upper, lower].map(|word| u64::from(word & 0xFFFE_0000));
    let attributes = match side {
        Side::Instruction => lower & (W | G) == 0,
        Side::Data => lower & (W | I) != W | I,
    };
    length.is_power_of_two()
        && length <= longest
        && begins.iter().all(|begin| begin % length == 0)
        && lower & 0x1_FF84 == 0
        && attributes
}

// ---- The calls ---------------------------------------------------------------------------------

struct Stage<'a> {
    bench: Bench<'a>,
    judges: Judges,
    /// Counts accesses, whose modes and kinds it chooses.
    turn: u32,
}

impl Stage<'_> {
    /// The entry of the one page in the table.
    fn put_entry(&mut self) {
        self.bench.table.lend(65_536, Edge::End);
        let vsid = base(Layout::SHORT, false)[1 + (MAPPED >> 28) as usize];
        let page = Page::of_address(vsid, MAPPED);
        let at = GROUP * group_numbers(SDR1, page)[0];
        self.bench.table.write(at, &matching_word(page, 0).to_be_bytes());
        self.bench.table.write(at + 4, &SECOND.to_be_bytes());
    }

    /// The check of both pages, the word replaced and put back, and accesses by the page with the word.
    fn one_page(&mut self, sample: &Sample) -> Result<(), Difference> {
        let (before, page) = (&sample.before, &sample.page());
        let [was, is] = sample.checks;
        let number = sample.number as u32;
        self.by_page(&Call::Check, before, was, before)?;
        self.by_page(&Call::Check, page, is, page)?;
        let set = Call::SetRegister { number, word: sample.word };
        self.by_page(&set, before, is, if is == 0 { page } else { before })?;
        let back = Call::SetRegister { number, word: before[sample.number] };
        self.by_page(&back, page, was, if was == 0 { before } else { page })?;
        let right_length = 65_536 * ((page[0] & 0x1FF) as usize + 1);
        let lent = if right_length > LONGEST_TABLE { 65_536 } else { right_length };
        self.bench.table.lend(lent, Edge::End);
        let refused = match is {
            0 if lent != right_length => 1,
            _ => is,
        };
        for (address, length) in addresses(sample) {
            for kind in [Some(sample.kind(self.turn)), None] {
                self.turn += 1;
                let mode = MODES[self.turn as usize % MODES.len()];
                let kind = kind.unwrap_or(self.turn / 3 % 3);
                let access = Access { mode, kind, address, length };
                self.one_access(page, refused, access)?;
            }
        }
        Ok(())
    }

    /// Numbers that no word of the page has, by a page that breaks no rule, by one left open, and by a broken one.
    fn numbers_past_last(&mut self, layout: Layout) -> Result<(), Difference> {
        let [right, mut open, mut broken] = [0; 3].map(|_| base(layout, false));
        open.put_pair(Side::Data, 0, block(3, 0x6000_0000, 0b10));
        open.put_pair(Side::Data, 1, block(0, 0x6000_0000, 0b01));
        broken[16] |= 1 << 31;
        let past = layout.words as u32;
        for page in [right, open, broken] {
            for number in (past..past + 20).chain([0x4000_0000, 0x8000_0001, u32::MAX]) {
                for word in [0, SDR1, u32::MAX] {
                    self.by_page(&Call::SetRegister { number, word }, &page, 6, &page)?;
                }
            }
        }
        Ok(())
    }

    /// A call on a page, which has to give this number and leave this page.
    fn by_page(
        &mut self,
        call: &Call,
        page: &Words,
        expected: u32,
        after: &Words,
    ) -> Result<(), Difference> {
        self.bench.put_registers(page);
        self.bench.lend_answer(call);
        let number = self.bench.judge(call, self.judges)?;
        let bytes: Vec<u8> = after.iter().flat_map(|word| word.to_be_bytes()).collect();
        if number == expected && bytes == self.bench.registers.subject_bytes() {
            return Ok(());
        }
        let left = self.bench.registers.subject_bytes();
        let text = format!(
            "expected {expected} and the page {bytes:02X?}\n  got {number} and {left:02X?}"
        );
        Err(self.difference(call, page, &text))
    }

    fn one_access(&mut self, page: &Words, refused: u32, access: Access) -> Result<(), Difference> {
        let call = Call::Access(access);
        self.bench.put_registers(page);
        self.bench.lend_answer(&call);
        let number = self.bench.judge(&call, self.judges)?;
        let expected = match refused {
            0 => answer(page, access),
            _ => [refused, 0, 0, 0, 0, 0, 0, 0, 0, 0],
        };
        let bytes = self.bench.answer.subject_bytes();
        let got: Vec<u32> = (0..expected.len()).map(|word| word_at(bytes, 4 * word)).collect();
        if number == expected[0] && got == expected {
            return Ok(());
        }
        let text = format!("expected {expected:X?}\n  got {number}, {got:X?}");
        Err(self.difference(&call, page, &text))
    }

    fn difference(&self, call: &Call, page: &Words, text: &str) -> Difference {
        let registers = page.iter().flat_map(|word| word.to_be_bytes()).collect();
        let before = Before { registers, places: Vec::new(), sets: Vec::new() };
        self.bench.difference(call, Lending::Table, &before, text)
    }
}

impl Sample {
    /// The side of the word that is replaced; of SDR1 and the segments, none.
    fn side(&self) -> Option<Side> {
        let layout = self.before.layout;
        let first = SIDES.map(|side| layout.first_register(side));
        match self.number {
            number if number >= first[1] => Some(Side::Data),
            number if number >= first[0] => Some(Side::Instruction),
            _ => None,
        }
    }

    /// A kind of access by that side, in turns.
    fn kind(&self, turn: u32) -> u32 {
        match self.side() {
            Some(Side::Instruction) => FETCH,
            Some(Side::Data) => [LOAD, STORE][turn as usize / 2 % 2],
            None => turn / 2 % 3,
        }
    }
}

/// Addresses and lengths of operands: within the blocks that are on before or after, over both of their edges, in the
/// segment whose register is replaced, and in the page that is mapped.
fn addresses(sample: &Sample) -> Vec<(u32, u32)> {
    let mut operands = vec![(MAPPED, 1)];
    if (1..17).contains(&sample.number) {
        let segment = (sample.number as u32 - 1) << 28;
        return vec![(segment | 0xFF_A01B, 4), (segment.wrapping_sub(2), 4)];
    }
    let sides = SIDES.into_iter().filter(|&side| sample.side().is_none_or(|own| own == side));
    for side in sides {
        for pair in 0..sample.before.layout.pairs {
            let uppers = [&sample.before, &sample.page()].map(|page| page[page.pair(side, pair)]);
            let Some(upper) = uppers.into_iter().find(|upper| upper & 0b11 != 0) else { continue };
            let start = upper & 0xFFFE_0000;
            let last = start.wrapping_add((length_of(upper) - 1) as u32);
            operands.extend([
                (start, 1),
                (last, 1),
                (last.wrapping_sub(1), 4),
                (start.wrapping_sub(1), 2),
            ]);
            operands.push((start ^ 0x1000_0000, 1));
        }
    }
    operands
}

/// What a part of an operand answers: four words, then the rule and its detail.
type Told = [u32; 6];

/// Words 0 to 9 of the answer of an access by a page that breaks no rule.
fn answer(page: &Words, access: Access) -> [u32; 10] {
    let bytes = access.length.min(0x1000 - access.address % 0x1000);
    let told = part(page, access.mode, access.kind, access.address);
    let next = access.address.wrapping_add(bytes);
    let further = match told[0] {
        0 if bytes < access.length => Some(part(page, access.mode, access.kind, next)),
        _ => None,
    };
    let [result, second, third, fourth, rule, detail] = match further {
        Some(further) if further[0] != 0 => further,
        _ => told,
    };
    let mut words = [result, second, third, fourth, 0, 0, 0, 0, rule, detail];
    if result == 0 {
        let [address, attributes] = further.map_or([0, 0], |part| [part[1], part[2]]);
        words[4..8].copy_from_slice(&[address, attributes, bytes, access.length - bytes]);
    }
    words
}

/// The part of an operand from an address on.
fn part(page: &Words, mode: u32, kind: u32, address: u32) -> Told {
    let is_user = mode & 4 != 0;
    if mode & if kind == FETCH { 2 } else { 1 } == 0 {
        return [0, address, 3, address, 0, 0];
    }
    let side = if kind == FETCH { Side::Instruction } else { Side::Data };
    for pair in 0..page.layout.pairs {
        let number = page.pair(side, pair);
        let (upper, lower) = (page[number], page[number + 1]);
        let start = u64::from(upper & 0xFFFE_0000);
        let inside = (start..start + length_of(upper)).contains(&u64::from(address));
        if inside && upper & if is_user { 1 } else { 2 } != 0 {
            let physical = (lower & 0xFFFE_0000) + (address - start as u32);
            return match (lower & 0b11, kind) {
                (2, _) | (1 | 3, FETCH | LOAD) => {
                    [0, physical, lower >> 3 & 0xF, address, 1, pair as u32]
                }
                _ => fault(kind, address, 0x0800_0000, [1, pair as u32]),
            };
        }
    }
    let segment = page[1 + (address >> 28) as usize];
    if kind == FETCH && segment & 0x1000_0000 != 0 {
        return fault(kind, address, 0x1000_0000, [2, 0]);
    }
    let mapped = base(page.layout, false)[1 + (MAPPED >> 28) as usize];
    let is_mapped = address >> 12 == MAPPED >> 12 && page[0] & 0x1FF == 0;
    if !is_mapped || (segment ^ mapped) & 0xFF_FFFF != 0 {
        return fault(kind, address, 0x4000_0000, [3, 0]);
    }
    let key = segment >> if is_user { 29 } else { 30 } & 1;
    let physical = SECOND & 0xFFFF_F000 | address & 0xFFF;
    [0, physical, SECOND >> 3 & 0xF, address, 6, 4 * key + 2]
}

fn fault(kind: u32, address: u32, cause: u32, [rule, detail]: [u32; 2]) -> Told {
    match kind {
        FETCH => [65, cause, 0x400, address, rule, detail],
        LOAD => [64, cause, 0x300, address, rule, detail],
        _ => [64, cause | 0x0200_0000, 0x300, address, rule, detail],
    }
}
