//! A call with its numbers, and what is lent with it.

use crate::entry::Fields;
use crate::rights;

/// A virtual page.
#[derive(Clone, Copy, Debug, PartialEq, Eq, PartialOrd, Ord)]
pub struct Page {
    pub vsid: u32,
    pub page_index: u32,
}

impl Page {
    /// The page an effective address lies in, by the VSID of its segment.
    pub fn of_address(vsid: u32, address: u32) -> Page {
        let page_index = (address >> 12) & 0xFFFF;
        Page { vsid, page_index }
    }

    pub fn in_range(self) -> bool {
        self.vsid < 1 << 24 && self.page_index < 1 << 16
    }

    /// The top six bits of the page index.
    pub fn api(self) -> u32 {
        self.page_index >> 10
    }
}

/// The inputs of one access that are numbers.
#[derive(Clone, Copy, Debug, PartialEq, Eq)]
pub struct Access {
    pub mode: u32,
    pub kind: u32,
    /// The effective address of the operand's first byte.
    pub address: u32,
    /// The operand's bytes.
    pub length: u32,
}

pub const FETCH: u32 = 0;
pub const LOAD: u32 = 1;
pub const STORE: u32 = 2;
pub const KINDS: [u32; 3] = [FETCH, LOAD, STORE];

impl Access {
    pub fn is_fetch(self) -> bool {
        self.kind == FETCH
    }

    pub fn is_store(self) -> bool {
        self.kind == STORE
    }

    pub fn in_problem_state(self) -> bool {
        self.mode & 4 != 0
    }

    /// Whether IR (for a fetch) or DR (for data) is on.
    pub fn is_translated(self) -> bool {
        self.mode & if self.is_fetch() { 2 } else { 1 } != 0
    }
}

#[derive(Clone, Copy, Debug, PartialEq, Eq)]
#[rustfmt::skip]
pub enum Call {
    Check,
    SetRegister { number: u32, word: u32 },
    Clear { sdr1: u32 },
    Map { sdr1: u32, page: Page, rpn: u32, wimg: u32, pp: u32 },
    Unmap { sdr1: u32, page: Page },
    Protect { sdr1: u32, page: Page, pp: u32 },
    Look { sdr1: u32, page: Page },
    Access(Access),
    /// An access with a translation cache.
    AccessCached(Access),
    /// What an access of each kind to one byte would come to.
    Rights { mode: u32, address: u32 },
    Invalidate { page_index: u32 },
    Pack(Fields),
    Unpack { first: u32, second: u32 },
}

/// The names of the thirteen calls.
#[rustfmt::skip]
pub const NAMES: [&str; 13] = [
    "check", "set", "clear", "map", "unmap", "protect", "look", "access", "cached", "rights",
    "invalidate", "pack", "unpack",
];

impl Call {
    pub fn name(&self) -> &'static str {
        match self {
            Call::Check => "check",
            Call::SetRegister { .. } => "set",
            Call::Clear { .. } => "clear",
            Call::Map { .. } => "map",
            Call::Unmap { .. } => "unmap",
            Call::Protect { .. } => "protect",
            Call::Look { .. } => "look",
            Call::Access(_) => "access",
            Call::AccessCached(_) => "cached",
            Call::Rights { .. } => "rights",
            Call::Invalidate { .. } => "invalidate",
            Call::Pack(_) => "pack",
            Call::Unpack { .. } => "unpack",
        }
    }

    /// The SDR1 among the call's own numbers; an access has its own in the register page.
    pub fn sdr1(&self) -> Option<u32> {
        match *self {
            Call::Clear { sdr1 }
            | Call::Map { sdr1, .. }
            | Call::Unmap { sdr1, .. }
            | Call::Protect { sdr1, .. }
            | Call::Look { sdr1, .. } => Some(sdr1),
            _ => None,
        }
    }

    /// The page among the call's own numbers.
    pub fn page(&self) -> Option<Page> {
        match *self {
            Call::Map { page, .. }
            | Call::Unmap { page, .. }
            | Call::Protect { page, .. }
            | Call::Look { page, .. } => Some(page),
            _ => None,
        }
    }

    /// The access, with a cache or without.
    pub fn access(&self) -> Option<Access> {
        match *self {
            Call::Access(access) | Call::AccessCached(access) => Some(access),
            _ => None,
        }
    }

    /// The call with another access, where it is one.
    pub fn with_access(self, access: Access) -> Call {
        match self {
            Call::Access(_) => Call::Access(access),
            Call::AccessCached(_) => Call::AccessCached(access),
            _ => self,
        }
    }

    /// The accesses of one byte that rights are asked of, by kind.
    pub fn asked(&self) -> Option<[Access; 3]> {
        match *self {
            Call::Rights { mode, address } => {
                Some(KINDS.map(|kind| Access { mode, kind, address, length: 1 }))
            }
            _ => None,
        }
    }

    /// Whether it goes by the registers to a page: an access, or rights.
    pub fn translates(&self) -> bool {
        self.access().is_some() || self.asked().is_some()
    }

    pub fn is_lent_registers(&self) -> bool {
        matches!(self, Call::Check | Call::SetRegister { .. }) || self.translates()
    }

    pub fn is_lent_table(&self) -> bool {
        self.sdr1().is_some() || self.translates()
    }

    pub fn is_lent_cache(&self) -> bool {
        matches!(self, Call::AccessCached(_) | Call::Invalidate { .. })
    }

    /// The length an answer has to have; pack's entry and unpack's fields are answers too.
    pub fn answer_length(&self) -> Option<usize> {
        match self {
            Call::Unmap { .. } | Call::Look { .. } => Some(16),
            Call::Access(_) | Call::AccessCached(_) => Some(48),
            Call::Rights { .. } => Some(rights::SIZE),
            Call::Pack(_) => Some(8),
            Call::Unpack { .. } => Some(36),
            _ => None,
        }
    }
}

/// The slices lent with a call; those it has no use for are not looked at.
pub struct Lent<'a> {
    pub registers: &'a mut [u8],
    pub table: &'a mut [u8],
    pub cache: &'a mut [u8],
    pub answer: &'a mut [u8],
}

impl Lent<'_> {
    pub fn lengths(&self) -> Lengths {
        Lengths {
            registers: self.registers.len(),
            table: self.table.len(),
            cache: self.cache.len(),
            answer: self.answer.len(),
        }
    }
}

#[derive(Clone, Copy, Debug, PartialEq, Eq)]
pub struct Lengths {
    pub registers: usize,
    pub table: usize,
    pub cache: usize,
    pub answer: usize,
}
