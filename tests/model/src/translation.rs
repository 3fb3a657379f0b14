//! The steps of an access within one page that need no table, and what their outcome answers.

use crate::call::{Access, Page};
use crate::entry::Fields;
use crate::flaw::Flaw;
use crate::registers::{Block, Registers, Segment, Side};

/// How an access ends.
#[derive(Clone, Copy, Debug, PartialEq, Eq)]
pub enum Outcome {
    RealMode,
    Block { number: u32, physical: u32, wimg: u32 },
    BlockProtection { number: u32 },
    NoExecute,
    NoMatch,
    Guarded,
    Protection { key: u32, pp: u32 },
    Page { key: u32, pp: u32, physical: u32, wimg: u32 },
    Contradiction,
}

impl Outcome {
    pub fn is_done(self) -> bool {
        matches!(self, Outcome::RealMode | Outcome::Block { .. } | Outcome::Page { .. })
    }

    /// The end in words.
    pub fn name(self) -> &'static str {
        match self {
            Outcome::RealMode => "real mode",
            Outcome::Block { .. } => "a block",
            Outcome::BlockProtection { .. } => "block protection",
            Outcome::NoExecute => "no execute",
            Outcome::NoMatch => "no match",
            Outcome::Guarded => "guarded",
            Outcome::Protection { .. } => "protection",
            Outcome::Page { .. } => "a page",
            Outcome::Contradiction => "contradiction",
        }
    }
}

/// What is known of an access before the search.
pub enum BeforeSearch {
    Settled(Outcome),
    Search { page: Page, segment: Segment },
}

/// Steps 1 to 3.
pub fn before_search(flaw: Option<Flaw>, registers: &Registers, access: Access) -> BeforeSearch {
    if !access.is_translated() {
        return BeforeSearch::Settled(Outcome::RealMode);
    }
    if let Some((number, block)) = block_of(registers, access) {
        return BeforeSearch::Settled(by_block(number, &block, access));
    }
    let segment = registers.segment(access.address);
    if access.is_fetch() && segment.no_execute() && flaw != Some(Flaw::NoExecuteLate) {
        return BeforeSearch::Settled(Outcome::NoExecute);
    }
    let page = Page::of_address(segment.vsid(), access.address);
    BeforeSearch::Search { page, segment }
}

/// The valid block of the access's side that holds its address, and its number on that side.
pub fn block_of(registers: &Registers, access: Access) -> Option<(u32, Block)> {
    let side = Side::of_kind(access.kind);
    if registers.overlooks_blocks(side, access.address) {
        return None;
    }
    let blocks = registers.blocks(side);
    (0..).zip(blocks).find(|(number, block)| {
        block.is_valid_in(access.in_problem_state())
            && block.holds(access.address)
            && registers.layout.may_cover(*number)
    })
}

fn by_block(number: u32, block: &Block, access: Access) -> Outcome {
    let allowed = match block.pp() {
        0b00 => false,
        0b10 => true,
        _ => !access.is_store(),
    };
    if !allowed {
        return Outcome::BlockProtection { number };
    }
    Outcome::Block { number, physical: block.physical(access.address), wimg: block.wimg() }
}

/// Steps 5 to 7, by the second word of the match.
pub fn after_match(flaw: Option<Flaw>, segment: Segment, second: u32, access: Access) -> Outcome {
    let entry = Fields::of_words(0, second);
    let guarded = access.is_fetch() && entry.wimg & 1 == 1;
    let (key, pp) = (key(flaw, segment, access), entry.pp);
    let allowed = is_allowed(flaw, key, pp, access);
    if access.is_fetch() && segment.no_execute() {
        return Outcome::NoExecute;
    }
    if guarded && (allowed || flaw != Some(Flaw::GuardedLast)) {
        return Outcome::Guarded;
    }
    if !allowed {
        return Outcome::Protection { key, pp };
    }
    let rpn = if flaw == Some(Flaw::OneFrame) { 0x12345 } else { entry.rpn };
    let physical = rpn << 12 | access.address & 0xFFF;
    Outcome::Page { key, pp, physical, wimg: entry.wimg }
}

fn key(flaw: Option<Flaw>, segment: Segment, access: Access) -> u32 {
    segment.key(access.in_problem_state() || flaw == Some(Flaw::KpForSupervisor))
}

fn is_allowed(flaw: Option<Flaw>, key: u32, pp: u32, access: Access) -> bool {
    let (read, write) = match (key, pp) {
        (0, 0b11) => (true, false),
        (0, _) => (true, true),
        (_, 0b00) => (false, false),
        (_, 0b10) => (true, true),
        (_, _) => (true, false),
    };
    let unprotected = access.is_fetch() && flaw == Some(Flaw::FetchUnprotected);
    unprotected || if access.is_store() { write } else { read }
}

/// Result, physical address or fault word, attributes or interrupt offset, and effective address.
pub fn answer(flaw: Option<Flaw>, outcome: Outcome, access: Access) -> [u32; 4] {
    let address = access.address;
    let cause = match outcome {
        Outcome::RealMode => return [0, address, 3, address],
        Outcome::Block { physical, wimg, .. } | Outcome::Page { physical, wimg, .. } => {
            return [0, physical, wimg, address]
        }
        Outcome::Contradiction => return [10, 0, 0, 0],
        Outcome::NoMatch => 0x4000_0000,
        Outcome::NoExecute | Outcome::Guarded => 0x1000_0000,
        Outcome::Protection { .. } | Outcome::BlockProtection { .. } => 0x0800_0000,
    };
    if access.is_fetch() {
        return [65, cause, 0x400, address];
    }
    let store = access.is_store() && flaw != Some(Flaw::StoreFaultBit);
    [64, cause + if store { 0x0200_0000 } else { 0 }, 0x300, address]
}
