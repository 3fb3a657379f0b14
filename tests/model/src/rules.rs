//! The refusals that follow from numbers, register words and lengths alone, in their order.

use crate::cache;
use crate::call::{Call, Lengths, Page};
use crate::flaw::{CacheFlaw, Flaw};
use crate::operand;
use crate::registers::{sdr1_is_well_formed, table_length, Block, Layout, Registers};
use crate::rights;
use crate::words::{bits, ending_at};

/// The numbers a call can be refused with before its table is searched, first tested first.
fn order(call: &Call) -> &'static [u32] {
    match call {
        Call::Check => &[11, 2, 3, 4, 5],
        Call::SetRegister { .. } => &[11, 6, 2, 3, 4, 5],
        Call::Clear { .. } => &[2, 1],
        Call::Map { .. } | Call::Protect { .. } => &[6, 2, 1],
        Call::Unmap { .. } | Call::Look { .. } => &[11, 6, 2, 1],
        Call::Access(_) | Call::AccessCached(_) => &[11, 6, 12, 2, 3, 4, 5, 1],
        Call::Rights { .. } => &[11, 6, 2, 3, 4, 5, 1],
        Call::Invalidate { .. } => &[11, 6],
        Call::Pack(_) => &[11, 6],
        Call::Unpack { .. } => &[11],
    }
}

/// Every rule that a call breaks, in the order of the refusals: the first is answered.
pub fn broken(flaw: Option<Flaw>, call: &Call, registers: &[u8], lengths: Lengths) -> Vec<u32> {
    let mut numbers = order(call).to_vec();
    if let Some(Flaw::Swapped(earlier, later)) = flaw {
        swap(&mut numbers, earlier, later);
    }
    if rights::asks_no_table(flaw, call) {
        numbers.retain(|&number| number != 1);
    }
    let of_cache = CacheFlaw::of_model(flaw).filter(|_| call.is_lent_cache());
    if let (Some(CacheFlaw::InvalidateSixFirst), Call::Invalidate { .. }) = (of_cache, call) {
        swap(&mut numbers, 11, 6);
    }
    if flaw == Some(Flaw::RealModeUnchecked) && is_untranslated(call) {
        numbers.truncate(3);
    }
    if is_unchecked(flaw, call) {
        numbers.retain(|number| !(2..=5).contains(number));
    }
    let judged = judged_set(flaw, call, registers);
    let is_open = || judged.is_some_and(|set| set.is_open());
    let sdr1 = call.sdr1().or(judged.map(|set| set.sdr1()));
    numbers.retain(|&number| match number {
        11 => length_is_wrong(flaw, call, judged.is_some(), lengths),
        6 => !arguments_in_range(flaw, call, judged.as_ref()),
        12 => !operand_in_range(flaw, call),
        3..=5 if flaw == Some(Flaw::OpenTaken) && is_open() => false,
        3 if flaw == Some(Flaw::OpenRefused) && is_open() => true,
        2 => sdr1.is_some_and(|sdr1| !sdr1_fits(flaw, sdr1)),
        1 => sdr1.is_some_and(|sdr1| lengths.table != table_length(sdr1)),
        _ => judged.is_some_and(|set| breaks_register_rule(flaw, number, call, &set)),
    });
    if of_cache == Some(CacheFlaw::LengthLast) && lengths.cache != cache::CACHE {
        numbers.push(11);
    }
    numbers
}

fn swap(numbers: &mut [u32], earlier: u32, later: u32) {
    let place = |wanted| numbers.iter().position(|&number| number == wanted);
    if let (Some(first), Some(second)) = (place(earlier), place(later)) {
        numbers.swap(first, second);
    }
}

fn is_untranslated(call: &Call) -> bool {
    call.access().is_some_and(|access| !access.is_translated())
}

/// The mistakes by which a call asks for no rule of the register page.
fn is_unchecked(flaw: Option<Flaw>, call: &Call) -> bool {
    match flaw {
        Some(Flaw::AccessUnchecked) => call.access().is_some(),
        Some(Flaw::SetUnchecked) => matches!(call, Call::SetRegister { .. }),
        _ => false,
    }
}

/// Whether SDR1 has its shape.
fn sdr1_fits(flaw: Option<Flaw>, sdr1: u32) -> bool {
    match flaw {
        Some(Flaw::MaskZeroTaken) if bits(sdr1, 23, 31) == 0 => true,
        Some(Flaw::Sdr1Without(bit)) => sdr1_is_well_formed(sdr1 & !ending_at(1, bit)),
        _ => sdr1_is_well_formed(sdr1),
    }
}

/// The register set a call is judged by, the new one where a word is replaced; none where the page has neither
/// length, or where no page is lent.
fn judged_set(flaw: Option<Flaw>, call: &Call, registers: &[u8]) -> Option<Registers> {
    let set = Registers::read_wrongly(flaw, registers).filter(|_| call.is_lent_registers())?;
    match *call {
        Call::SetRegister { .. } if flaw == Some(Flaw::SetJudgedByOld) => Some(set),
        Call::SetRegister { number, word } => Some(set.with_word(number, word)),
        _ => Some(set),
    }
}

fn length_is_wrong(flaw: Option<Flaw>, call: &Call, has_registers: bool, lengths: Lengths) -> bool {
    let answer_is_wrong = match call {
        Call::Rights { .. } => !rights::length_fits(flaw, lengths.answer),
        _ => call.answer_length().is_some_and(|length| lengths.answer != length),
    };
    let cache_is_wrong = call.is_lent_cache() && !cache::length_fits(flaw, lengths.cache);
    answer_is_wrong || cache_is_wrong || call.is_lent_registers() && !has_registers
}

fn arguments_in_range(flaw: Option<Flaw>, call: &Call, set: Option<&Registers>) -> bool {
    let page_fits = call.page().is_none_or(Page::in_range);
    page_fits
        && match *call {
            // Of a page that has neither length, a number that no page has is out of range.
            Call::SetRegister { number, .. } => {
                number <= set.map_or(Layout::LONG, |set| set.layout).last_number()
            }
            Call::Map { rpn, wimg, pp, .. } => {
                rpn < 1 << 20 && wimg < 16 && !has_w_and_i(wimg) && pp < 4
            }
            Call::Protect { pp, .. } => pp < 4,
            Call::Access(access) | Call::AccessCached(access) => {
                access.mode <= 7 && access.kind <= 2
            }
            Call::Rights { mode, .. } => rights::mode_fits(flaw, mode),
            Call::Invalidate { page_index } => cache::page_index_fits(flaw, page_index),
            Call::Pack(fields) if flaw == Some(Flaw::PackRefusesWimg) => {
                fields.in_range() && !has_w_and_i(fields.wimg)
            }
            Call::Pack(fields) => fields.in_range(),
            _ => true,
        }
}

/// Whether an access names 1 to 128 bytes.
fn operand_in_range(flaw: Option<Flaw>, call: &Call) -> bool {
    let Some(access) = call.access() else { return true };
    let longest = match flaw {
        Some(Flaw::LongestRefused) => operand::LONGEST - 1,
        Some(Flaw::OneTooLongTaken) => operand::LONGEST + 1,
        _ => operand::LONGEST,
    };
    let fits = (1..=longest).contains(&operand::length(flaw, access));
    fits && (flaw != Some(Flaw::FetchOfFour) || !access.is_fetch() || access.length == 4)
}

fn has_w_and_i(wimg: u32) -> bool {
    wimg & 0b1100 == 0b1100
}

/// Rules 3, 4 and 5.
fn breaks_register_rule(flaw: Option<Flaw>, number: u32, call: &Call, set: &Registers) -> bool {
    match number {
        3 if flaw == Some(Flaw::OffBlockJudged) => !every_block_well_formed(set),
        3 => !set.blocks_are_well_formed(),
        4 => set.some_two_blocks(|one: &Block, other: &Block| {
            one.shares_an_address(other)
                && (one.shares_a_valid_bit(other) || flaw == Some(Flaw::BlocksOfAnyState))
        }),
        _ => match call.access() {
            Some(access) if flaw == Some(Flaw::OneSegmentJudged) => {
                !set.segment(access.address).is_well_formed()
            }
            _ => !set.segments_are_well_formed(),
        },
    }
}

fn every_block_well_formed(set: &Registers) -> bool {
    use crate::registers::Side::{Data, Instruction};
    [Instruction, Data].into_iter().all(|side| {
        let mut blocks = set.blocks(side).into_iter();
        blocks.all(|block| block.is_well_formed(side))
    })
}
