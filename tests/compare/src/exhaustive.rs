//! Complete small tables: every mode, kind, key, N, PP and WIMG of a page, the same of a block, every
//! two places of a page's matches, every choice of free entries among its sixteen, every BL, every two
//! block pairs, and every bit of the register words, of both lengths of the register page.

use model::call::{Access, Call, Page};
use model::registers::{Layout, Side};
use model::search::{group_numbers, ENTRY, GROUP};

use crate::bench::{Bench, Difference, Lending};
use crate::machine::Machine;
use crate::random::Random;
use crate::region::Edge;
use crate::scenes::groups::matching_word;
use crate::scenes::registers::{self, Words};
use crate::tally::Tally;

const SDR1: u32 = 0x0F98_0000;
const ADDRESS: u32 = 0x00FF_A01B;
const VSID: u32 = 0x0C_701C;

pub fn run(subject: &dyn Machine, _factor: u32) -> Result<Tally, Difference> {
    let mut bench = Bench::new(subject, 65_536, 0);
    for mode in 0..8 {
        for kind in 0..3 {
            let access = Call::Access(Access { mode, kind, address: ADDRESS, length: 1 });
            bench.lend_answer(&access);
            by_page(&mut bench, &access)?;
            by_places(&mut bench, &access, &SOME_WORDS)?;
            for layout in Layout::BOTH {
                by_block(&mut bench, layout, &access)?;
            }
        }
    }
    duplicates(&mut bench)?;
    free_entries(&mut bench)?;
    one_free_entry(&mut bench)?;
    sdr1_words(&mut bench)?;
    block_lengths(&mut bench)?;
    long_block_lengths(&mut bench)?;
    for layout in Layout::BOTH {
        every_two_pairs(&mut bench, layout)?;
        single_bits(&mut bench, layout)?;
    }
    Ok(bench.tally)
}

/// Ks, Kp and N by WIMG, marks and PP, in either group, at an entry that goes with marks and bit 29.
fn by_page(bench: &mut Bench, access: &Call) -> Result<(), Difference> {
    let page = Page::of_address(VSID, ADDRESS);
    let mut words = Words::zero(Layout::SHORT);
    words[0] = SDR1;
    for keys in 0..8 {
        words[1] = keys << 28 | VSID;
        bench.put_registers(&words);
        for low in 0..0x400 {
            let h = low >> 9;
            let entry = (low >> 7 & 0b11 | low & 0b100) as usize;
            let at = GROUP * group_numbers(SDR1, page)[h as usize] + ENTRY * entry;
            let second = 0x1234_5000 | low & 0x1FF;
            bench.table.write(at, &matching_word(page, h).to_be_bytes());
            bench.table.write(at + 4, &second.to_be_bytes());
            bench.compare(access, Lending::Table)?;
            bench.table.write(at, &[0; 8]);
        }
    }
    Ok(())
}

/// The second word of a match.
const SECOND: u32 = 0x1234_5012;
/// Second words of another match: equal, with marks and ignored bits, and of another frame.
const SOME_WORDS: [u32; 3] = [SECOND, SECOND | 0xF84, SECOND ^ 0x1000];

/// Two matches at every two places that differ in each bit by itself: looked at, loaded from, unmapped, asked for rights.
fn duplicates(bench: &mut Bench) -> Result<(), Difference> {
    let every_bit: Vec<u32> = (0..32).map(|bit| SECOND ^ 1 << bit).collect();
    let page = Page::of_address(VSID, ADDRESS);
    let load = Access { mode: 1, kind: 1, address: ADDRESS, length: 1 };
    for call in [
        Call::Look { sdr1: SDR1, page },
        Call::Access(load),
        Call::Access(Access { kind: 2, ..load }),
        Call::Rights { mode: 3, address: ADDRESS },
        Call::Unmap { sdr1: SDR1, page },
        Call::Protect { sdr1: SDR1, page, pp: 3 },
    ] {
        bench.lend_answer(&call);
        by_places(bench, &call, &every_bit)?;
    }
    Ok(())
}

/// Where map writes, for every choice of free entries among a page's sixteen. A free entry has the
/// page's own words but for V.
fn free_entries(bench: &mut Bench) -> Result<(), Difference> {
    let page = Page::of_address(VSID, ADDRESS);
    let call = Call::Map { sdr1: SDR1, page, rpn: 0x54321, wimg: 5, pp: 1 };
    bench.lend_answer(&call);
    for free in 0..0x1_0000 {
        for place in 0..16 {
            let entry = if free >> place & 1 == 1 { Entry::Free } else { Entry::Used };
            put_entry(bench, place, entry);
        }
        bench.compare(&call, Lending::Table)?;
    }
    clear_groups(bench);
    Ok(())
}

/// One free entry among a page's sixteen at every place, a match at every other one, and a further match
/// with each of some second words at each place behind that; entries of another page at the others.
fn one_free_entry(bench: &mut Bench) -> Result<(), Difference> {
    let page = Page::of_address(VSID, ADDRESS);
    let load = Access { mode: 1, kind: 1, address: ADDRESS, length: 1 };
    put_registers(bench);
    for call in [
        Call::Map { sdr1: SDR1, page, rpn: 0x54321, wimg: 5, pp: 1 },
        Call::Look { sdr1: SDR1, page },
        Call::Access(load),
        Call::Access(Access { kind: 2, ..load }),
        Call::Rights { mode: 3, address: ADDRESS },
        Call::Unmap { sdr1: SDR1, page },
        Call::Protect { sdr1: SDR1, page, pp: 3 },
    ] {
        bench.lend_answer(&call);
        for first in 0..16 {
            for free in (0..16).filter(|&free| free != first) {
                for later in (first..16).filter(|&later| later != free) {
                    for other in SOME_WORDS {
                        (0..16).for_each(|place| put_entry(bench, place, Entry::Used));
                        put_entry(bench, free, Entry::Free);
                        put_entry(bench, later, Entry::Match(other));
                        put_entry(bench, first, Entry::Match(SECOND));
                        bench.compare(&call, Lending::Table)?;
                    }
                }
            }
        }
    }
    clear_groups(bench);
    Ok(())
}

/// SDR1 and the segment of the page; every block is off.
fn put_registers(bench: &mut Bench) {
    let mut words = Words::zero(Layout::SHORT);
    words[0] = SDR1;
    words[1] = VSID;
    bench.put_registers(&words);
}

/// What stands at one of a page's places.
#[derive(Clone, Copy)]
enum Entry {
    Free,
    /// Of a page with another VSID.
    Used,
    /// With this second word.
    Match(u32),
}

/// Writes an entry of the page at a place of its search order.
fn put_entry(bench: &mut Bench, place: usize, entry: Entry) {
    let page = Page::of_address(VSID, ADDRESS);
    let matching = matching_word(page, (place / 8) as u32);
    let [first, second] = match entry {
        Entry::Free => [matching & 0x7FFF_FFFF, SECOND],
        Entry::Used => [matching ^ 0x4000_0000, SECOND],
        Entry::Match(second) => [matching, second],
    };
    let at = GROUP * group_numbers(SDR1, page)[place / 8] + ENTRY * (place % 8);
    bench.table.write(at, &first.to_be_bytes());
    bench.table.write(at + 4, &second.to_be_bytes());
}

/// Zeroes the page's two groups.
fn clear_groups(bench: &mut Bench) {
    for group in group_numbers(SDR1, Page::of_address(VSID, ADDRESS)) {
        bench.table.write(GROUP * group, &[0; GROUP]);
    }
}

/// A match at each of the sixteen places of a page, and one with each of these second words at each place
/// from there on.
fn by_places(bench: &mut Bench, call: &Call, others: &[u32]) -> Result<(), Difference> {
    let page = Page::of_address(VSID, ADDRESS);
    put_registers(bench);
    let groups = group_numbers(SDR1, page);
    let at = |place: usize| GROUP * groups[place / 8] + ENTRY * (place % 8);
    for first in 0..16 {
        for later in first..16 {
            for &other in others {
                for (place, second) in [(first, SECOND), (later, other)] {
                    let h = (place / 8) as u32;
                    bench.table.write(at(place), &matching_word(page, h).to_be_bytes());
                    bench.table.write(at(place) + 4, &second.to_be_bytes());
                }
                bench.compare(call, Lending::Table)?;
                for place in [first, later] {
                    bench.table.write(at(place), &[0; ENTRY]);
                }
            }
        }
    }
    Ok(())
}

const SIDES: [Side; 2] = [Side::Instruction, Side::Data];

/// Each block of either side by its V bits, WIMG and PP; some of these are refused.
fn by_block(bench: &mut Bench, layout: Layout, access: &Call) -> Result<(), Difference> {
    for (side, pair) in SIDES.into_iter().flat_map(|side| (0..layout.pairs).map(move |p| (side, p)))
    {
        for low in 0..0x100 {
            let mut words = Words::zero(layout);
            words[0] = SDR1;
            words[1] = VSID;
            let lower = 0x1234_0000 | (low & 0x3C) << 1 | low & 3;
            words.put_pair(side, pair, [0x00FE_0000 | low >> 6, lower]);
            bench.put_registers(&words);
            bench.compare(access, Lending::Table)?;
        }
    }
    Ok(())
}

/// Every lower half of SDR1, and every mask under each single bit of the origin; no table is lent.
fn sdr1_words(bench: &mut Bench) -> Result<(), Difference> {
    bench.other.lend(0, Edge::End);
    let halves = (0..0x1_0000).flat_map(|low| [low, 0xFE00_0000 | low]);
    let origins = (0..16).flat_map(|bit| (0..0x200).map(move |mask| 0x1_0000 << bit | mask));
    for sdr1 in halves.chain(origins) {
        bench.compare(&Call::Clear { sdr1 }, Lending::Other)?;
    }
    Ok(())
}

/// Every BL of an instruction and a data block of a short page, alone and with each bit of either start.
fn block_lengths(bench: &mut Bench) -> Result<(), Difference> {
    for side in SIDES {
        for length in 0..0x800 {
            for bit in 0..15 {
                for starts in [[0, 0], [0x2_0000 << bit, 0], [0, 0x2_0000 << bit]] {
                    check_block(bench, Layout::SHORT, side, 0, length, starts)?;
                }
            }
        }
    }
    Ok(())
}

/// Every BL of a long page, the pairs in turn, alone and with one bit of either start; with each bit where BL is
/// ones only at its low end. On a short page the same upper words, whose bits 15 to 18 are refused.
fn long_block_lengths(bench: &mut Bench) -> Result<(), Difference> {
    for side in SIDES {
        for length in 0..0x8000u32 {
            let every = (length + 1).is_power_of_two();
            for bit in (0..15).filter(|&bit| every || bit == length % 15) {
                for starts in [[0, 0], [0x2_0000 << bit, 0], [0, 0x2_0000 << bit]] {
                    let pair = (length % 8) as usize;
                    check_block(bench, Layout::LONG, side, pair, length, starts)?;
                }
            }
            check_block(bench, Layout::SHORT, side, (length % 4) as usize, length, [0, 0])?;
        }
    }
    Ok(())
}

/// A check of a page with one block on.
fn check_block(
    bench: &mut Bench,
    layout: Layout,
    side: Side,
    pair: usize,
    length: u32,
    [start, physical]: [u32; 2],
) -> Result<(), Difference> {
    let mut words = Words::zero(layout);
    words[0] = SDR1;
    words.put_pair(side, pair, [start | length << 2 | 0b11, physical]);
    bench.put_registers(&words);
    bench.compare(&Call::Check, Lending::Table).map(|_| ())
}

/// Every two pairs of a side, of every two lengths, at one address, as neighbours and far apart, with V bits in
/// common and without.
fn every_two_pairs(bench: &mut Bench, layout: Layout) -> Result<(), Difference> {
    let most = if layout.is_long() { 15 } else { 11 };
    for side in SIDES {
        for second in 1..layout.pairs {
            for first in 0..second {
                for lengths in (0..=most).flat_map(|one| (0..=most).map(move |other| [one, other]))
                {
                    two_pairs(bench, layout, side, [first, second], lengths)?;
                }
            }
        }
    }
    Ok(())
}

/// Two blocks with BL of so many ones.
fn two_pairs(
    bench: &mut Bench,
    layout: Layout,
    side: Side,
    pairs: [usize; 2],
    ones: [u32; 2],
) -> Result<(), Difference> {
    let bl = ones.map(|ones| (1u32 << ones) - 1);
    let wider = bl[0].max(bl[1]);
    for (start, valid) in [
        (0, [0b11, 0b11]),
        (0, [0b01, 0b11]),
        (0, [0b10, 0b01]),
        (wider, [0b11, 0b11]),
        (wider + 1, [0b11, 0b11]),
        (0x4000, [0b11, 0b10]),
    ] {
        let starts = [0, start & 0x7FFF & !bl[1]];
        let mut words = Words::zero(layout);
        words[0] = SDR1;
        for number in 0..2 {
            let upper = starts[number] << 17 | bl[number] << 2 | valid[number];
            words.put_pair(side, pairs[number], [upper, 0]);
        }
        bench.put_registers(&words);
        bench.compare(&Call::Check, Lending::Table)?;
    }
    Ok(())
}

/// Each bit of each register word turned over, in pages that keep every rule; and the first numbers past the last.
fn single_bits(bench: &mut Bench, layout: Layout) -> Result<(), Difference> {
    let mut random = Random::new(0xB175);
    for _ in 0..20 {
        let good = registers::well_formed(&mut random, layout, SDR1);
        for number in 0..layout.words + 20 {
            for bit in 0..32 {
                let mut words = good;
                let word = match words.get_mut(number) {
                    Some(word) => {
                        *word ^= 1 << bit;
                        *word
                    }
                    None => 1 << bit,
                };
                bench.put_registers(&words);
                bench.compare(&Call::Check, Lending::Table)?;
                bench.put_registers(&good);
                let call = Call::SetRegister { number: number as u32, word };
                bench.compare(&call, Lending::Table)?;
            }
        }
    }
    Ok(())
}
