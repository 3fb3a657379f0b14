//! The rule that decided an access (request 2), bytes 32 to 47 of its answer: the rule; the block's
//! number, or key and PP; the group and the number of the entry used.

use crate::call::{Access, Page};
use crate::flaw::RecordFlaw;
use crate::registers::{Registers, Side};
use crate::search::{group_numbers, Place};
use crate::translation::{block_of, Outcome};

/// The part whose record is shown: a done operand's first, else the one whose fault is given.
pub fn speaking(flaw: Option<RecordFlaw>, outcomes: &[Outcome]) -> Option<usize> {
    let stopped = outcomes.iter().position(|outcome| !outcome.is_done());
    let contradicts = |part: usize| outcomes[part] == Outcome::Contradiction;
    match (flaw, stopped) {
        (Some(RecordFlaw::SecondWhenDone), None) => Some(outcomes.len() - 1),
        (Some(RecordFlaw::FirstForSecondFault), Some(1)) if !contradicts(1) => Some(0),
        (Some(RecordFlaw::SecondForFirstFault), Some(0)) if outcomes.len() == 2 => Some(1),
        (Some(RecordFlaw::FirstAtContradiction), Some(1)) if contradicts(1) => Some(0),
        (Some(RecordFlaw::AtContradiction), Some(part)) => Some(part),
        (_, None) => Some(0),
        (_, Some(part)) => (!contradicts(part)).then_some(part),
    }
}

/// Words 8 and 9 of a part: rule r is step r + 1 of an access.
pub fn rule_and_detail(
    flaw: Option<RecordFlaw>,
    registers: &Registers,
    part: Access,
    outcome: Outcome,
) -> [u32; 2] {
    let right = match outcome {
        Outcome::RealMode => [0, 0],
        Outcome::Block { number, .. } | Outcome::BlockProtection { number } => [1, number],
        Outcome::NoExecute => [2, 0],
        Outcome::NoMatch | Outcome::Contradiction => [3, 0],
        Outcome::Guarded => [4, 0],
        Outcome::Protection { key, pp } => [5, key * 4 + pp],
        Outcome::Page { key, pp, .. } => [6, key * 4 + pp],
    };
    match flaw {
        Some(flaw) => {
            wrong_detail(flaw, registers, part, wrong_rule(flaw, registers, part, outcome, right))
        }
        None => right,
    }
}

/// The mistakes about the rule that is shown.
fn wrong_rule(
    flaw: RecordFlaw,
    registers: &Registers,
    part: Access,
    outcome: Outcome,
    [rule, detail]: [u32; 2],
) -> [u32; 2] {
    let no_execute = part.is_fetch() && registers.segment(part.address).no_execute();
    match (flaw, outcome) {
        (RecordFlaw::RuleAsStep, _) => [rule + 1, detail],
        (RecordFlaw::BlockFaultAsProtection, Outcome::BlockProtection { .. }) => [5, detail],
        (RecordFlaw::GuardedAsNoExecute, Outcome::Guarded) => [2, detail],
        (RecordFlaw::NoExecuteAsGuarded, Outcome::NoExecute) => [4, detail],
        (RecordFlaw::BlockInRealMode, Outcome::RealMode) => {
            block_of(registers, part).map_or([0, 0], |(number, _)| [1, number])
        }
        (RecordFlaw::NoExecuteBeforeBlock, _) if rule == 1 && no_execute => [2, 0],
        (RecordFlaw::GuardedData, Outcome::Page { wimg, .. }) if wimg & 1 == 1 => [4, 0],
        _ => [rule, detail],
    }
}

/// The mistakes about word 9.
fn wrong_detail(
    flaw: RecordFlaw,
    registers: &Registers,
    part: Access,
    [rule, detail]: [u32; 2],
) -> [u32; 2] {
    let side = Side::of_kind(part.kind);
    let segment = registers.segment(part.address);
    let (by_block, by_key) = (rule == 1, rule == 5 || rule == 6);
    let detail = match flaw {
        RecordFlaw::BlockThroughSides if by_block && side == Side::Data => {
            detail + registers.layout.pairs as u32
        }
        RecordFlaw::BlockOfFour if by_block => detail % 4,
        RecordFlaw::BlockAsRegister if by_block => {
            registers.layout.first_register(side) as u32 + 2 * detail
        }
        RecordFlaw::BlockPp if by_block => registers.blocks(side)[detail as usize].pp(),
        RecordFlaw::KeyAndPpSwapped if by_key => detail % 4 * 4 + detail / 4,
        RecordFlaw::KeyByKp if by_key => segment.problem_key() * 4 + detail % 4,
        RecordFlaw::KeyWhenGuarded if rule == 4 => segment.key(part.in_problem_state()) * 4,
        RecordFlaw::DetailOfFaultsOnly if rule == 6 => 0,
        _ => detail,
    };
    [rule, detail]
}

/// Whether the rule is 4 to 6, in which the entry used is shown.
pub fn has_place(outcome: Outcome) -> bool {
    matches!(outcome, Outcome::Guarded | Outcome::Protection { .. } | Outcome::Page { .. })
}

/// The mistakes by which a place is shown though no entry was used.
pub fn has_place_too_many(flaw: Option<RecordFlaw>, outcome: Outcome) -> bool {
    match flaw {
        Some(RecordFlaw::NoMatchWithPlace) => outcome == Outcome::NoMatch,
        Some(RecordFlaw::PlaceBeforeSearch) => {
            !has_place(outcome) && !matches!(outcome, Outcome::NoMatch | Outcome::Contradiction)
        }
        _ => false,
    }
}

/// Words 10 and 11 of a part: where the first of its matches stands.
pub fn place(
    flaw: Option<RecordFlaw>,
    registers: &Registers,
    part: Access,
    outcome: Outcome,
    matches: &[Place],
) -> [u32; 2] {
    let is_shown = match flaw {
        Some(RecordFlaw::PlaceOfDoneOnly) => outcome.is_done() && has_place(outcome),
        Some(RecordFlaw::AtContradiction) => !matches.is_empty(),
        _ => has_place(outcome),
    };
    let used = match flaw {
        Some(RecordFlaw::LastMatch) => matches.last(),
        _ => matches.first(),
    };
    let groups = || {
        let vsid = registers.segment(part.address).vsid();
        group_numbers(registers.sdr1(), Page::of_address(vsid, part.address))
    };
    match used.filter(|_| is_shown) {
        Some(used) => standing(flaw, registers, groups(), used),
        None if has_place_too_many(flaw, outcome) => [groups()[0] as u32, 0],
        None => [0, 0],
    }
}

/// A place as group and entry number.
fn standing(
    flaw: Option<RecordFlaw>,
    registers: &Registers,
    groups: [usize; 2],
    used: &Place,
) -> [u32; 2] {
    let (group, entry) = (used.group as u32, used.entry as u32);
    match flaw {
        Some(RecordFlaw::PrimaryAlways) => [groups[0] as u32, entry],
        Some(RecordFlaw::GroupWithOrigin) => [registers.sdr1() >> 16 << 10 | group, entry],
        Some(RecordFlaw::GroupAsByte) => [64 * group, entry],
        Some(RecordFlaw::EntryFromOne) => [group, entry + 1],
        Some(RecordFlaw::EntryThroughGroups) => [group, entry + 8 * used.h],
        _ => [group, entry],
    }
}
