//! Groups of entries around one page: matches, duplicates, contradictions, and near misses.

use model::call::Page;
use model::entry::{Fields, CHANGED, IGNORED_BITS, REFERENCED};
use model::search::{group_numbers, ENTRY, GROUP};

use crate::random::Random;
use crate::region::Region;

/// How many matches are planted, one of these at random.
pub const MATCHES: [u32; 9] = [0, 0, 1, 1, 1, 2, 2, 3, 20];
/// The same where a match is what stands in the way.
pub const FEW_MATCHES: [u32; 6] = [0, 0, 0, 0, 1, 2];

/// Fills both groups of a page, and puts entries that would match into groups that are not its own.
pub fn plant(random: &mut Random, table: &mut Region, sdr1: u32, page: Page, matches: &[u32]) {
    let second = random.word();
    let free = random.pick(&[0, 0, 1, 8, 15]);
    for (h, group) in group_numbers(sdr1, page).into_iter().enumerate() {
        for entry in 0..8 {
            let first = other_entry(random, page, h as u32, free);
            let any = random.word();
            put_entry(table, group, entry, [first, random.pick(&[second, any])]);
        }
    }
    plant_matches(random, table, sdr1, page, second, matches);
    if random.once_in(2) {
        plant_astray(random, table, sdr1, page, second);
    }
}

/// The same for the page that follows: groups that are the first page's too get its matches alone.
pub fn plant_next(
    random: &mut Random,
    table: &mut Region,
    sdr1: u32,
    [page, next]: [Page; 2],
    matches: &[u32],
) {
    let (groups, of_next) = (group_numbers(sdr1, page), group_numbers(sdr1, next));
    if groups.contains(&of_next[0]) {
        let second = random.word();
        plant_matches(random, table, sdr1, next, second, matches);
    } else {
        plant(random, table, sdr1, next, matches);
    }
}

/// So many matches of a page as one of these numbers says.
fn plant_matches(
    random: &mut Random,
    table: &mut Region,
    sdr1: u32,
    page: Page,
    second: u32,
    matches: &[u32],
) {
    let groups = group_numbers(sdr1, page);
    let matches = random.pick(matches);
    for words in matching_entries(random, page, second, matches) {
        let h = (words[0] >> 6 & 1) as usize;
        put_entry(table, groups[h], random.index(8), words);
    }
}

fn put_entry(table: &mut Region, group: usize, entry: usize, words: [u32; 2]) {
    let at = GROUP * group + ENTRY * entry;
    table.write(at, &words[0].to_be_bytes());
    table.write(at + 4, &words[1].to_be_bytes());
}

/// The first word by which a page matches.
pub fn matching_word(page: Page, h: u32) -> u32 {
    let (vsid, api) = (page.vsid, page.api());
    let entry = Fields { v: 1, vsid, h, api, ..Fields::default() };
    entry.words()[0]
}

/// The first word of an entry that does not match; `free` in sixteen have V = 0.
fn other_entry(random: &mut Random, page: Page, h: u32, free: u32) -> u32 {
    let matching = matching_word(page, h);
    if random.below(16) < free {
        let anything = random.word();
        return random.pick(&[0, matching, anything]) & 0x7FFF_FFFF;
    }
    match random.below(5) {
        0 => matching ^ 0x40,
        1 => matching ^ 0x80 << random.below(24),
        2 => matching ^ 1 << random.below(6),
        3 => matching ^ 0x40 ^ 0x80 << random.below(24),
        _ => 0x8000_0000 | random.word(),
    }
}

/// Matches, of one group or of both, equal, agreeing, or differing in any field.
fn matching_entries(random: &mut Random, page: Page, second: u32, count: u32) -> Vec<[u32; 2]> {
    let in_one_group = random.once_in(2);
    let side = random.below(2);
    let bits: Bits = random.pick(&[no_bits as Bits, one_bit, one_bit, agreeing_bits]);
    let mut entry = || {
        let h = if in_one_group { side } else { random.below(2) };
        let second = match random.once_in(2) {
            true => second ^ bits(random),
            false => second,
        };
        [matching_word(page, h), second]
    };
    (0..count).map(|_| entry()).collect()
}

/// Bits in which a match differs from another.
type Bits = fn(&mut Random) -> u32;

fn no_bits(_: &mut Random) -> u32 {
    0
}

/// A bit of any field, seldom of two.
fn one_bit(random: &mut Random) -> u32 {
    let one = bit_of_any_field(random);
    match random.once_in(4) {
        true => one | bit_of_any_field(random),
        false => one,
    }
}

/// A bit of RPN, WIMG or PP, a mark or an ignored bit, each as often as the others.
fn bit_of_any_field(random: &mut Random) -> u32 {
    let ignored = random.pick(&[0x800, 0x400, 0x200, 0x004]);
    debug_assert!(IGNORED_BITS & ignored != 0);
    let rpn = 0x1000 << random.below(20);
    let wimg = 0x08 << random.below(4);
    let pp = 0x01 << random.below(2);
    random.pick(&[rpn, wimg, pp, REFERENCED, CHANGED, ignored])
}

/// Any of the bits in which matches that agree may differ.
fn agreeing_bits(random: &mut Random) -> u32 {
    random.word() & (REFERENCED | CHANGED | IGNORED_BITS)
}

/// The page's own words in groups near its two, where no search may find them.
fn plant_astray(random: &mut Random, table: &mut Region, sdr1: u32, page: Page, second: u32) {
    let groups = group_numbers(sdr1, page);
    let top = groups[0] + groups[1];
    for _ in 0..4 {
        let near = random.pick(&groups) ^ 1 << random.below(top.count_ones());
        let words = [matching_word(page, random.below(2)), second];
        if !groups.contains(&near) {
            put_entry(table, near, random.index(8), words);
        }
    }
}
