//! The numbers of a call: within their ranges, at their edges, and past them.

use model::call::{Access, Call, Page};
use model::entry::{Fields, WIDTHS};
use model::operand::LONGEST;
use model::registers::sdr1_is_well_formed;

use crate::random::Random;

/// A well-formed SDR1 whose mask has `ones` ones.
pub fn sdr1(random: &mut Random, ones: u32) -> u32 {
    let mask = (1 << ones) - 1;
    let origin = (random.word() >> 16) & !mask;
    origin << 16 | mask
}

/// An SDR1 that breaks one of its rules.
pub fn spoiled_sdr1(random: &mut Random, sdr1: u32) -> u32 {
    loop {
        let spoiled = match random.below(3) {
            0 => sdr1 ^ 0x0000_0200 << random.below(7),
            1 => sdr1 & !0x1FF | random.below(512),
            _ => sdr1 | 0x0001_0000 << random.below(9) | 0x7,
        };
        if !sdr1_is_well_formed(spoiled) {
            return spoiled;
        }
    }
}

/// A number within a width, often at its edges.
pub fn within(random: &mut Random, width: u32) -> u32 {
    let largest = (1u32 << width) - 1;
    match random.below(4) {
        0 => random.pick(&[0, 1, largest - 1, largest, largest / 2, largest / 2 + 1]) & largest,
        _ => random.word() & largest,
    }
}

/// A number past a limit.
pub fn past(random: &mut Random, limit: u32) -> u32 {
    let above = limit + random.word() % (u32::MAX - limit);
    random.pick(&[limit, limit, limit + 1, limit | limit << 1, u32::MAX, above])
}

pub fn page(random: &mut Random) -> Page {
    Page { vsid: within(random, 24), page_index: within(random, 16) }
}

/// WIMG as map takes it: W and I not both one.
pub fn wimg(random: &mut Random) -> u32 {
    loop {
        let wimg = random.below(16);
        if wimg < 12 {
            return wimg;
        }
    }
}

pub fn fields(random: &mut Random) -> Fields {
    Fields::of_list(WIDTHS.map(|width| within(random, width)))
}

/// The fields with one of them past its width.
pub fn spoiled_fields(random: &mut Random, fields: Fields) -> Fields {
    let mut list = fields.list();
    let spoiled = random.index(list.len());
    list[spoiled] = past(random, 1 << WIDTHS[spoiled]);
    Fields::of_list(list)
}

/// The call with one argument out of its range; a call without such an argument stays as it is. The register
/// page that it is lent has so many words.
pub fn spoiled(random: &mut Random, call: Call, register_words: usize) -> Call {
    let mut call = call;
    let first_past = register_words as u32;
    match &mut call {
        Call::SetRegister { number, .. } => {
            let past = past(random, first_past);
            *number = random.pick(&[past, past, first_past.max(48)])
        }
        Call::Map { page, rpn, wimg, pp, .. } => match random.below(6) {
            0 => *rpn = past(random, 1 << 20),
            1 => *wimg = past(random, 16),
            2 => *wimg = 12 + random.below(4),
            3 => *pp = past(random, 4),
            _ => *page = spoiled_page(random, *page),
        },
        Call::Protect { page, pp, .. } => match random.below(2) {
            0 => *pp = past(random, 4),
            _ => *page = spoiled_page(random, *page),
        },
        Call::Unmap { page, .. } | Call::Look { page, .. } => *page = spoiled_page(random, *page),
        Call::Access(access) | Call::AccessCached(access) => {
            *access = spoiled_access(random, *access)
        }
        Call::Rights { mode, .. } => *mode = past(random, 8),
        Call::Invalidate { page_index } => *page_index = past(random, 1 << 16),
        Call::Pack(fields) => *fields = spoiled_fields(random, *fields),
        Call::Check | Call::Clear { .. } | Call::Unpack { .. } => {}
    }
    call
}

fn spoiled_page(random: &mut Random, page: Page) -> Page {
    let mut page = page;
    match random.below(2) {
        0 => page.vsid = past(random, 1 << 24),
        _ => page.page_index = past(random, 1 << 16),
    }
    page
}

fn spoiled_access(random: &mut Random, access: Access) -> Access {
    let mut access = access;
    match random.below(2) {
        0 => access.mode = past(random, 8),
        _ => access.kind = past(random, 3),
    }
    access
}

/// A length that an operand may have, often at an end of the range.
pub fn length(random: &mut Random) -> u32 {
    match random.below(3) {
        0 => random.pick(&[1, 1, 2, 4, 8, 127, 128]),
        _ => 1 + random.below(LONGEST),
    }
}

/// A length that no operand may have: 0, just too long, or right in its low bits alone.
pub fn spoiled_length(random: &mut Random) -> u32 {
    let right_below = 1 << (8 + random.below(24)) | 1 + random.below(LONGEST);
    let longer = past(random, LONGEST + 1);
    random.pick(&[0, 0, LONGEST + 1, 257, 0x8000_0001, right_below, longer])
}

/// The call with an operand of wrong length, where it is an access.
pub fn with_spoiled_length(random: &mut Random, call: Call) -> Call {
    match call.access() {
        Some(access) => {
            let length = spoiled_length(random);
            call.with_access(Access { length, ..access })
        }
        None => call,
    }
}

/// The call with another SDR1, where it brings one itself.
pub fn with_sdr1(call: Call, new: u32) -> Call {
    let mut call = call;
    match &mut call {
        Call::Clear { sdr1 }
        | Call::Map { sdr1, .. }
        | Call::Unmap { sdr1, .. }
        | Call::Protect { sdr1, .. }
        | Call::Look { sdr1, .. } => *sdr1 = new,
        _ => {}
    }
    call
}
