//! The fields of a page table entry and their two words.

use crate::words::{bits, ending_at};

/// Bits 20 to 22 and 29 of the second word.
pub const IGNORED_BITS: u32 = 0x0000_0E04;
pub const REFERENCED: u32 = 0x0000_0100;
pub const CHANGED: u32 = 0x0000_0080;

#[derive(Clone, Copy, Debug, Default, PartialEq, Eq)]
pub struct Fields {
    pub v: u32,
    pub vsid: u32,
    pub h: u32,
    pub api: u32,
    pub rpn: u32,
    pub r: u32,
    pub c: u32,
    pub wimg: u32,
    pub pp: u32,
}

/// The width of each field, in the order of `Fields::list`.
pub const WIDTHS: [u32; 9] = [1, 24, 1, 6, 20, 1, 1, 4, 2];

impl Fields {
    pub fn list(self) -> [u32; 9] {
        [self.v, self.vsid, self.h, self.api, self.rpn, self.r, self.c, self.wimg, self.pp]
    }

    pub fn of_list(list: [u32; 9]) -> Fields {
        let [v, vsid, h, api, rpn, r, c, wimg, pp] = list;
        Fields { v, vsid, h, api, rpn, r, c, wimg, pp }
    }

    pub fn in_range(self) -> bool {
        let within = |(&field, width): (&u32, u32)| field < 1 << width;
        self.list().iter().zip(WIDTHS).all(within)
    }

    /// The two words, ignored bits zero.
    pub fn words(self) -> [u32; 2] {
        let first = ending_at(self.v, 0)
            | ending_at(self.vsid, 24)
            | ending_at(self.h, 25)
            | ending_at(self.api, 31);
        let second = ending_at(self.rpn, 19)
            | ending_at(self.r, 23)
            | ending_at(self.c, 24)
            | ending_at(self.wimg, 28)
            | ending_at(self.pp, 31);
        [first, second]
    }

    pub fn of_words(first: u32, second: u32) -> Fields {
        Fields {
            v: bits(first, 0, 0),
            vsid: bits(first, 1, 24),
            h: bits(first, 25, 25),
            api: bits(first, 26, 31),
            rpn: bits(second, 0, 19),
            r: bits(second, 23, 23),
            c: bits(second, 24, 24),
            wimg: bits(second, 25, 28),
            pp: bits(second, 30, 31),
        }
    }
}
