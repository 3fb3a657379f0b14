//! Operands around page edges: every length from every byte before an edge, whatever lies on its two
//! sides; and every two ends that neighbouring pages can have.

use model::call::{Access, Call, Page, FETCH, LOAD, STORE};
use model::registers::{Layout, Side};
use model::search::{group_numbers, ENTRY, GROUP};

use crate::bench::{Bench, Difference, Lending};
use crate::machine::Machine;
use crate::scenes::groups::matching_word;
use crate::scenes::registers::Words;
use crate::tally::Tally;

const SDR1: u32 = 0x0F98_0000;
/// Lengths and distances to an edge go past the longest operand.
const PAST_LONGEST: u32 = 131;
/// Lengths whose low bits alone would be right or zero.
const HIGH_BITS: [u32; 5] = [0x100, 0x101, 0x180, 0x8000_0001, 0xFFFF_FFFF];
const SUPERVISOR: u32 = 3;
const USER: u32 = 7;

/// An edge, by the first address after it, and what the bytes on its sides are translated by.
struct Scene {
    edge: u32,
    mode: u32,
    /// Upper and lower words of blocks, the same on both sides.
    blocks: &'static [[u32; 2]],
    /// Second words of the entries of the page before the edge, and of the one after.
    seconds: [&'static [u32]; 2],
}

const BEFORE: [u32; 2] = [0x8000_0003, 0x1000_0012];
const AFTER: [u32; 2] = [0x8002_0003, 0x3000_0022];
const NO_BLOCKS: &[[u32; 2]] = &[];
const NEITHER: [&[u32]; 2] = [&[], &[]];
const BOTH: [&[u32]; 2] = [&[0x1234_5012], &[0x6789_A022]];

/// Real mode, blocks and pages on either side, within segments, over their edges, over FFFFFFFF.
#[rustfmt::skip]
const SCENES: [Scene; 13] = [
    Scene { edge: 0x0000_1000, mode: 0, blocks: NO_BLOCKS, seconds: NEITHER },
    Scene { edge: 0x0000_0000, mode: 4, blocks: NO_BLOCKS, seconds: NEITHER },
    Scene { edge: 0x8001_0000, mode: SUPERVISOR, blocks: &[BEFORE], seconds: NEITHER },
    Scene { edge: 0x8002_0000, mode: USER, blocks: &[BEFORE, AFTER], seconds: NEITHER },
    Scene { edge: 0x8002_0000, mode: SUPERVISOR, blocks: &[BEFORE], seconds: BOTH },
    Scene { edge: 0x8002_0000, mode: USER, blocks: &[AFTER], seconds: BOTH },
    Scene { edge: 0x00FF_B000, mode: SUPERVISOR, blocks: NO_BLOCKS, seconds: BOTH },
    Scene { edge: 0x0020_0000, mode: USER, blocks: NO_BLOCKS, seconds: BOTH },
    Scene { edge: 0x5000_0000, mode: SUPERVISOR, blocks: NO_BLOCKS, seconds: BOTH },
    Scene { edge: 0x0000_0000, mode: USER, blocks: NO_BLOCKS, seconds: BOTH },
    Scene { edge: 0x00FF_B000, mode: USER, blocks: NO_BLOCKS, seconds: [BOTH[0], &[]] },
    Scene { edge: 0x00FF_B000, mode: SUPERVISOR, blocks: NO_BLOCKS, seconds: [&[], BOTH[1]] },
    Scene { edge: 0x00FF_B000, mode: USER, blocks: NO_BLOCKS, seconds: NEITHER },
];

/// Entries of a page by their second words: none; each PP; guarded; marked; with ignored bits;
/// duplicates that are equal, that agree by R, by C and by ignored bits, that contradict.
const PAGES: [&[u32]; 14] = [
    &[],
    &[0x1234_5010],
    &[0x1234_5011],
    &[0x1234_5012],
    &[0x1234_5013],
    &[0x1234_500A],
    &[0x1234_5112],
    &[0x1234_5192],
    &[0x1234_5E16],
    &[0x1234_5012, 0x1234_5012],
    &[0x1234_5012, 0x1234_5112],
    &[0x1234_5192, 0x1234_5112],
    &[0x1234_5012, 0x1234_5F96],
    &[0x1234_5012, 0x6789_A012],
];

/// Edges within a segment, between pages that share their groups, between segments, at FFFFFFFF.
const PAGE_EDGES: [u32; 4] = [0x00FF_B000, 0x0020_0000, 0x5000_0000, 0x0000_0000];

pub fn run(subject: &dyn Machine, _factor: u32) -> Result<Tally, Difference> {
    let mut bench = Bench::new(subject, 65_536, 0);
    for layout in Layout::BOTH {
        for scene in &SCENES {
            every_length(&mut bench, layout, scene)?;
        }
    }
    for edge in PAGE_EDGES {
        for before in PAGES {
            for after in PAGES {
                every_end(&mut bench, edge, [before, after])?;
            }
        }
    }
    let missing = bench.tally.operands.missing_at_edges();
    match missing.first() {
        None => Ok(bench.tally),
        Some(missing) => Err(Difference::new(format!("the edges were too few: {missing}"))),
    }
}

/// Lengths 0 to past the longest from every byte up to as far before the edge, the kinds in turn.
fn every_length(bench: &mut Bench, layout: Layout, scene: &Scene) -> Result<(), Difference> {
    let words = registers(layout, scene.blocks, 0);
    bench.put_registers(&words);
    for before in 0..=PAST_LONGEST {
        for length in (0..=PAST_LONGEST).chain(HIGH_BITS) {
            let address = scene.edge.wrapping_sub(before);
            let kind = (before + length % 3) % 3;
            let access = Access { mode: scene.mode, kind, address, length };
            compare(bench, &words, scene.edge, scene.seconds, access)?;
        }
    }
    Ok(())
}

/// Three bytes before the edge and five after it, by every key and N of its segments, mode and kind.
fn every_end(bench: &mut Bench, edge: u32, seconds: [&[u32]; 2]) -> Result<(), Difference> {
    let segments = if edge % (1 << 28) == 0 { 2 } else { 1 };
    for keys in 0..1 << (3 * segments) {
        let words = registers(Layout::SHORT, NO_BLOCKS, keys);
        bench.put_registers(&words);
        for mode in [SUPERVISOR, USER] {
            for kind in [FETCH, LOAD, STORE] {
                let access = Access { mode, kind, address: edge.wrapping_sub(3), length: 8 };
                compare(bench, &words, edge, seconds, access)?;
            }
        }
    }
    Ok(())
}

/// Sixteen VSIDs, Ks, Kp and N of the even segments and, three bits higher, of the odd ones; blocks in the last pairs.
fn registers(layout: Layout, blocks: &[[u32; 2]], keys: u32) -> Words {
    let mut words = Words::zero(layout);
    words[0] = SDR1;
    for segment in 0..16 {
        let keys = keys >> (3 * (segment % 2)) & 0b111;
        words[1 + segment] = keys << 28 | 0x0C_701C + 0x111 * segment as u32;
    }
    for (number, &block) in blocks.iter().enumerate() {
        for side in [Side::Instruction, Side::Data] {
            words.put_pair(side, layout.pairs - 1 - number, block);
        }
    }
    words
}

/// One access with the entries of the two pages in the table, and the table empty again.
fn compare(
    bench: &mut Bench,
    words: &Words,
    edge: u32,
    seconds: [&[u32]; 2],
    access: Access,
) -> Result<(), Difference> {
    let addresses = [edge.wrapping_sub(1), edge];
    let mut places = Vec::new();
    for (h, (address, seconds)) in addresses.into_iter().zip(seconds).enumerate() {
        let vsid = words[1 + (address >> 28) as usize] & 0xFF_FFFF;
        let page = Page::of_address(vsid, address);
        let group = GROUP * group_numbers(SDR1, page)[h];
        for (number, second) in seconds.iter().enumerate() {
            let at = group + ENTRY * (number + 4 * h);
            bench.table.write(at, &matching_word(page, h as u32).to_be_bytes());
            bench.table.write(at + 4, &second.to_be_bytes());
            places.push(at);
        }
    }
    let call = Call::Access(access);
    bench.lend_answer(&call);
    bench.compare(&call, Lending::Table)?;
    for at in places {
        bench.table.write(at, &[0; ENTRY]);
    }
    Ok(())
}
