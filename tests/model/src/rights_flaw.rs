//! Ways to get rights wrong.

use crate::flaw::Flaw;

#[derive(Clone, Copy, Debug, PartialEq, Eq)]
pub enum RightsFlaw {
    /// The load marks its entry in the table.
    LoadMarks,
    /// The store marks its entry in the table.
    StoreMarks,
    /// R is told though it is set.
    ReferencedThoughSet,
    /// C is told though it is set.
    ChangedThoughSet,
    /// The marks of the load are told of the store.
    StoreAsLoad,
    /// The marks of the store are told of the load.
    LoadAsStore,
    /// A fetch tells no marks.
    FetchWithout,
    /// A store tells R only where it tells C.
    ReferencedWithChanged,
    /// R and C are told in each other's place.
    MarksSwapped,
    /// Marks are told as they would stand, not as they would be set.
    MarksAsLeft,
    /// Marks are told where protection stops the access.
    MarksOfProtection,
    /// Marks are told where a guarded page stops the fetch.
    MarksOfGuarded,
    /// R is told where there is no match.
    MarksOfNoMatch,
    /// Marks are told of contradicting matches.
    MarksOfContradiction,
    /// R is told of a block.
    MarksOfBlock,
    /// R is told in real mode.
    MarksOfRealMode,
    /// Marks are those of the last match.
    LastMatch,
    /// A mark that any match has is not told.
    AnyMatch,
    /// Marks are read at the entry's number in the primary group always.
    PrimaryMarks,
    /// Marks are read in the next entry of the group.
    NextEntry,
    /// The fetch's answer stands in the load's place, and the load's in the fetch's.
    FetchAndLoadSwapped,
    /// The store's answer is that of the load.
    StoreByLoad,
    /// The marks of load and store stand in each other's place.
    MarksOutOfOrder,
    /// The marks stand before the answers.
    MarksFirst,
    /// A store needs the right to read alone.
    StoreByReadRight,
    /// A fetch is translated where DR is on.
    FetchByDr,
    /// A load and a store are translated where IR is on.
    DataByIr,
    /// A fetch goes by the data blocks.
    FetchByDataBlocks,
    /// Loads and stores go by the instruction blocks.
    DataByInstructionBlocks,
    /// A fetch from a guarded page is done.
    GuardedFetched,
    /// A load or a store of a guarded page faults too.
    GuardedData,
    /// A fetch asks for no N.
    NoExecuteForgotten,
    /// A fetch asks for N after the search.
    NoExecuteLate,
    /// The supervisor goes by Kp.
    KpForSupervisor,
    /// The fault word of a store lacks its 02000000.
    StoreFaultBit,
    /// The length is told as 0.
    LengthZero,
    /// The length is told as 4.
    LengthFour,
    /// The effective address is told as its page's first byte.
    PageAddress,
    /// Group and entry are told with a done access only.
    PlaceOfDoneOnly,
    /// Contradicting matches of any kind refuse the call.
    ContradictionRefuses,
    /// The call hands back what the load comes to.
    ResultOfLoad,
    /// The call hands back what the store comes to.
    ResultOfStore,
    /// A refusal is told in the first answer alone, zeros in the others.
    RefusedOnce,
    /// A refusal is answered by zeros.
    RefusedByZeros,
    /// A refusal leaves the marks as they were lent.
    RefusalLeavesMarks,
    /// A refusal leaves the second and the third answer as they were lent.
    RefusalLeavesOthers,
    /// At 11 a rightly sized answer is written.
    WrittenAtEleven,
    /// A longer answer is taken.
    LongerTaken,
    /// A mode over 7 is taken by its low bits.
    ModeLowBits,
    /// The table's length is not asked where neither side is translated.
    RealModeUnchecked,
}

impl RightsFlaw {
    /// All of them.
    #[rustfmt::skip]
    pub const ALL: [RightsFlaw; 50] = [
        RightsFlaw::LoadMarks, RightsFlaw::StoreMarks, RightsFlaw::ReferencedThoughSet,
        RightsFlaw::ChangedThoughSet, RightsFlaw::StoreAsLoad, RightsFlaw::LoadAsStore,
        RightsFlaw::FetchWithout, RightsFlaw::ReferencedWithChanged, RightsFlaw::MarksSwapped,
        RightsFlaw::MarksAsLeft, RightsFlaw::MarksOfProtection, RightsFlaw::MarksOfGuarded,
        RightsFlaw::MarksOfNoMatch, RightsFlaw::MarksOfContradiction, RightsFlaw::MarksOfBlock,
        RightsFlaw::MarksOfRealMode, RightsFlaw::LastMatch, RightsFlaw::AnyMatch,
        RightsFlaw::PrimaryMarks, RightsFlaw::NextEntry, RightsFlaw::FetchAndLoadSwapped,
        RightsFlaw::StoreByLoad, RightsFlaw::MarksOutOfOrder, RightsFlaw::MarksFirst,
        RightsFlaw::StoreByReadRight, RightsFlaw::FetchByDr, RightsFlaw::DataByIr,
        RightsFlaw::FetchByDataBlocks, RightsFlaw::DataByInstructionBlocks,
        RightsFlaw::GuardedFetched, RightsFlaw::GuardedData, RightsFlaw::NoExecuteForgotten,
        RightsFlaw::NoExecuteLate, RightsFlaw::KpForSupervisor, RightsFlaw::StoreFaultBit,
        RightsFlaw::LengthZero, RightsFlaw::LengthFour, RightsFlaw::PageAddress,
        RightsFlaw::PlaceOfDoneOnly, RightsFlaw::ContradictionRefuses, RightsFlaw::ResultOfLoad,
        RightsFlaw::ResultOfStore, RightsFlaw::RefusedOnce, RightsFlaw::RefusedByZeros,
        RightsFlaw::RefusalLeavesMarks, RightsFlaw::RefusalLeavesOthers,
        RightsFlaw::WrittenAtEleven, RightsFlaw::LongerTaken, RightsFlaw::ModeLowBits,
        RightsFlaw::RealModeUnchecked,
    ];

    /// Those that the finite map lets pass: about entries that no list after a clear leads to (several matches, C without
    /// R), about the place, which follows from the table, and about an answer that is left at 11.
    pub const UNSEEN_BY_MAP: [RightsFlaw; 7] = [
        RightsFlaw::WrittenAtEleven,
        RightsFlaw::ReferencedWithChanged,
        RightsFlaw::LastMatch,
        RightsFlaw::AnyMatch,
        RightsFlaw::MarksOfContradiction,
        RightsFlaw::ContradictionRefuses,
        RightsFlaw::PlaceOfDoneOnly,
    ];

    /// All others, which the finite map has to find without the model's help.
    pub fn in_map() -> impl Iterator<Item = RightsFlaw> {
        RightsFlaw::ALL.into_iter().filter(|flaw| !RightsFlaw::UNSEEN_BY_MAP.contains(flaw))
    }

    /// The mistake about rights that a wrong model makes, if it is one.
    pub fn of_model(flaw: Option<Flaw>) -> Option<RightsFlaw> {
        match flaw {
            Some(Flaw::Rights(flaw)) => Some(flaw),
            _ => None,
        }
    }
}
