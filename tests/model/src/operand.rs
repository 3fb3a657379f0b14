//! The operand of an access page by page: which of its bytes lie in which page, which part answers,
//! and the first eight words of the answer.

use crate::call::Access;
use crate::flaw::Flaw;
use crate::registers::Registers;
use crate::translation::{self, Outcome};

/// The most bytes an operand may have.
pub const LONGEST: u32 = 128;

/// The number of bytes that is asked for.
pub fn length(flaw: Option<Flaw>, access: Access) -> u32 {
    match flaw {
        Some(Flaw::LengthLowBits) => access.length & 0xFF,
        _ => access.length,
    }
}

/// The operand's bytes gathered by page, in their order: each part is an access within one page.
pub fn parts(flaw: Option<Flaw>, registers: &Registers, access: Access) -> Vec<Access> {
    let length = length(flaw, access);
    if is_left_whole(flaw, registers, access) {
        return vec![Access { length, ..access }];
    }
    let mut parts: Vec<Access> = Vec::new();
    let read_past = u32::from(flaw == Some(Flaw::EndTouchesNext));
    for byte in 0..length + read_past {
        let address = byte_address(flaw, access.address, byte);
        match parts.last_mut() {
            Some(part) if page(flaw, part.address) == page(flaw, address) => part.length += 1,
            _ => parts.push(Access { address, length: 1, ..access }),
        }
    }
    if let Some(last) = parts.last_mut() {
        last.length -= read_past;
    }
    parts
}

/// The address of a byte of the operand: the one after FFFFFFFF is 00000000.
fn byte_address(flaw: Option<Flaw>, address: u32, byte: u32) -> u32 {
    match flaw {
        Some(Flaw::NoWrap) => address.saturating_add(byte),
        _ => (u64::from(address) + u64::from(byte)) as u32,
    }
}

/// The 4 KB of effective addresses that an address lies in.
fn page(flaw: Option<Flaw>, address: u32) -> u32 {
    let edge = match flaw {
        Some(Flaw::EdgeEarly) => address.wrapping_add(1),
        Some(Flaw::EdgeLate) => address.wrapping_sub(1),
        _ => address,
    };
    edge / 4096
}

/// The mistakes by which an operand is not taken page by page.
fn is_left_whole(flaw: Option<Flaw>, registers: &Registers, access: Access) -> bool {
    match flaw {
        Some(Flaw::FirstPageOnly) => true,
        Some(Flaw::RealModeWhole) => !access.is_translated(),
        Some(Flaw::BlockWhole) => {
            let last = access.address.wrapping_add(access.length - 1);
            translation::block_of(registers, access).is_some_and(|(_, block)| block.holds(last))
        }
        _ => false,
    }
}

/// Words 0 to 7 of the answer, by what each part came to: the first that is not done answers.
pub fn answer(flaw: Option<Flaw>, access: Access, ends: &[(Access, Outcome)]) -> [u32; 8] {
    let mut stopped = ends.iter().filter(|(_, outcome)| !outcome.is_done());
    let stopped = match flaw {
        Some(Flaw::SecondAnswersFirst) => stopped.next_back(),
        _ => stopped.next(),
    };
    let Some(&(part, outcome)) = stopped else {
        return done_answer(flaw, ends);
    };
    let address = told_address(flaw, access, part);
    let mut words = [0; 8];
    words[..4].copy_from_slice(&translation::answer(flaw, outcome, Access { address, ..part }));
    let (first, first_outcome) = ends[0];
    if flaw == Some(Flaw::BytesAfterFault) && first_outcome.is_done() {
        words[6] = first.length;
    }
    words
}

/// What a fault tells as its address: that of the operand's first byte in the page.
fn told_address(flaw: Option<Flaw>, access: Access, part: Access) -> u32 {
    match flaw {
        Some(Flaw::SecondFaultAtOperand) => access.address,
        Some(Flaw::FirstFaultAtPage) => part.address / 4096 * 4096,
        _ => part.address,
    }
}

/// Physical address, attributes and bytes of each part; those of an absent second page are zero.
fn done_answer(flaw: Option<Flaw>, ends: &[(Access, Outcome)]) -> [u32; 8] {
    let mut words = [0; 8];
    let (first, outcome) = ends[0];
    words[..4].copy_from_slice(&translation::answer(flaw, outcome, first));
    words[6] = first.length;
    match ends.get(1) {
        Some(&(second, outcome)) => {
            let [_, physical, attributes, _] = translation::answer(flaw, outcome, second);
            words[4] = physical;
            words[5] = attributes;
            words[7] = second.length;
        }
        None if flaw == Some(Flaw::BytesZeroInOnePage) => words[6] = 0,
        None => {}
    }
    if flaw == Some(Flaw::SecondAttributesOfFirst) && ends.len() == 2 {
        words[5] = words[2];
    }
    words
}
