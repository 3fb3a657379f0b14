//! Ways to get the rules wrong, each of which the comparison has to find in the model.

use crate::rights_flaw::RightsFlaw;

/// One mistake; a model without any is the one the library is held to.
#[derive(Clone, Copy, Debug, PartialEq, Eq)]
pub enum Flaw {
    /// Unmap zeroes only matches in the primary group and answers as if it had zeroed all.
    UnmapPrimaryOnly,
    /// Unmap answers the marks of the first match alone.
    UnmapFirstMarks,
    /// The H bit is not compared.
    HForgotten,
    /// The API is compared without the VSID.
    VsidForgotten,
    /// V is not compared.
    VForgotten,
    /// The VSID is compared without the API.
    ApiForgotten,
    /// The first word that matches in the primary group is the one that matches in the secondary too.
    PrimaryWordInBoth,
    /// This bit of the first word is not compared at this place of the search order.
    BitForgottenAt { bit: u32, place: usize },
    /// Map refuses 9 as soon as the primary group is full.
    FullAtPrimary,
    /// Map asks for a free entry before it asks whether the page matches.
    FullBeforeMatch,
    /// Map looks for a match only up to the first free entry.
    MatchUpToFree,
    /// The search of a group ends at its first entry with V = 0, of either group.
    GroupEndsAtFree,
    /// The whole search ends at the first entry with V = 0.
    SearchEndsAtFree,
    /// The secondary group is not searched where the primary has an entry with V = 0.
    FreeEndsInPrimary,
    /// Map takes the secondary group's free entry though the primary has one.
    SecondaryFreeTaken,
    /// Map takes the last free entry of the group.
    LastFreeTaken,
    /// An entry is free only where its first word is zero.
    FreeMeansZero,
    /// The last entry of a group is never free.
    LastEntryNotFree,
    /// Map says done and writes nothing.
    MapStoresNothing,
    /// Protect changes the first match alone.
    ProtectFirstOnly,
    /// Protect clears the ignored bits.
    ProtectIgnoredBits,
    /// Duplicates agree where RPN is equal.
    AgreeByRpnAlone,
    /// Duplicates agree where WIMG and PP are equal.
    AgreeWithoutRpn,
    /// Duplicates agree where RPN and PP are equal.
    AgreeWithoutWimg,
    /// Duplicates agree where RPN and WIMG are equal.
    AgreeWithoutPp,
    /// Duplicates agree where their second words are equal in every bit.
    AgreeByWord,
    /// Duplicates have to be equal in this bit too: R, C or an ignored one.
    AgreeByBitToo(u32),
    /// A third match is not compared.
    ThirdNotCompared,
    /// Of the matches after the first the last alone is compared.
    LastAloneCompared,
    /// Matches of the two groups are not compared with each other.
    GroupsNotCompared,
    /// Matches of one group are not compared with each other.
    OneGroupNotCompared,
    /// Of this group's matches, 0 for the primary, the first alone is compared.
    FirstOfGroupCompared(u32),
    /// The first match is not compared, each other one is with the next.
    LaterPairsOnly,
    /// Where each group has one match, unmap and protect take the first for the only one.
    OneOfEachNotSeveral,
    /// Unmap answers the marks of the first match's group alone.
    UnmapMarksOfOneGroup,
    /// An access marks every match.
    MarksEveryMatch,
    /// A mark that a later match has is not set in the first.
    MarkLeftToLater,
    /// An access puts the marks of all matches into the first.
    MarksJoined,
    /// Look answers the marks of all matches.
    LookJoinsMarks,
    /// Marking clears the ignored bits.
    MarkIgnoredBits,
    /// Look answers the ignored bits as zero.
    LookIgnoredBits,
    /// Supervisor accesses go by Kp.
    KpForSupervisor,
    /// A store refused by protection sets C.
    ChangedByFault,
    /// An access refused by protection sets R.
    ReferencedByFault,
    /// G is tested after protection.
    GuardedLast,
    /// N is tested after the search.
    NoExecuteLate,
    /// A fetch does not ask for the right to read.
    FetchUnprotected,
    /// The fault word of a store lacks its 02000000.
    StoreFaultBit,
    /// Every search fails.
    NeverMatches,
    /// Every done access by a page gives one frame.
    OneFrame,
    /// Every call is refused.
    RefusesAll,
    /// Two blocks that share an address are refused though they share no V bit.
    BlocksOfAnyState,
    /// The shape of a block that is off is judged.
    OffBlockJudged,
    /// Only the segment of the address is judged by an access.
    OneSegmentJudged,
    /// An access that is not translated looks at no register and at no table length.
    RealModeUnchecked,
    /// A refusal leaves the last three words of the answer.
    RefusalKeepsAnswer,
    /// At 11 the number is put into a rightly sized answer.
    AnswerAtEleven,
    /// Packing refuses W and I both one.
    PackRefusesWimg,
    /// An operand of 128 bytes is refused.
    LongestRefused,
    /// An operand of 129 bytes is taken.
    OneTooLongTaken,
    /// Of an operand's length the low eight bits are looked at alone.
    LengthLowBits,
    /// A fetch of another length than four bytes is refused.
    FetchOfFour,
    /// Only the page of an operand's first byte is translated.
    FirstPageOnly,
    /// In real mode an operand is not taken page by page.
    RealModeWhole,
    /// An operand within one block is not taken page by page.
    BlockWhole,
    /// A page's last byte is counted with the next page.
    EdgeEarly,
    /// A page's first byte is counted with the page before.
    EdgeLate,
    /// An operand that ends with a page's last byte touches the next page.
    EndTouchesNext,
    /// No byte follows FFFFFFFF.
    NoWrap,
    /// The second page goes by the segment of the first.
    SecondBySegmentOfFirst,
    /// Where both pages fault the second answers.
    SecondAnswersFirst,
    /// A fault of the second page tells the operand's own address.
    SecondFaultAtOperand,
    /// A fault tells the address of its page's first byte.
    FirstFaultAtPage,
    /// The bytes of a done first page are told though the second faults.
    BytesAfterFault,
    /// Without a second page the bytes in the first are not told.
    BytesZeroInOnePage,
    /// The second page is told the attributes of the first.
    SecondAttributesOfFirst,
    /// The first page is marked before the second is translated.
    FirstMarkedEarly,
    /// Only the first page is marked.
    FirstMarkedOnly,
    /// Only the second page is marked.
    SecondMarkedOnly,
    /// A store over a page edge sets C in the first page alone.
    ChangedInFirstOnly,
    /// A mark writes the whole group as it was lent.
    MarkWritesGroup,
    /// The long page's data pairs begin at word 25.
    DataPairsAtWord25,
    /// On a short page bits 15 to 18 of a pair that is on are not looked at.
    ShortBitsLetThrough,
    /// On a short page BL has 15 bits.
    ShortBlOfFifteen,
    /// On a short page bits 15 to 18 are refused in a pair that is off too.
    OffPairBitsRefused,
    /// A short page has eight pairs a side, from word 17 and word 25 on.
    ShortHasEight,
    /// On a long page BL has 11 bits, and bits 15 to 18 are not looked at.
    LongBlOfEleven,
    /// On a long page bits 15 to 18 of a pair that is on must be zero.
    LongBitsRefused,
    /// A long page whose pairs 4 to 7 are off has BL of 11 bits.
    LimitByContents,
    /// Pairs 3 and 4 of a side may share an address.
    ThreeAndFourNotCompared,
    /// Pairs 0 to 3 of a side may share an address with pairs 4 to 7.
    HalvesNotCompared,
    /// Neither shape nor addresses of pair 7 are judged.
    LastPairUnchecked,
    /// Neither shape nor addresses of pairs 4 to 7 are judged.
    UpperPairsUnchecked,
    /// Pair 7 holds no address.
    LastPairNeverCovers,
    /// Pairs 4 to 7 hold no address.
    UpperPairsNeverCover,
    /// A block of 4 GB may share its addresses.
    WholeSharesNothing,
    /// Number 33 is taken on a short page.
    Number33OnShort,
    /// Number 48 is refused on a long page.
    Number48Refused,
    /// Numbers past 32 are refused on a long page.
    LongNumbersRefused,
    /// Numbers up to 48 are taken on a short page.
    AnyPageTakes48,
    /// A page of 164 bytes is taken, with six pairs a side.
    Length164Taken,
    /// A page of 132 to 195 bytes is taken for a short one.
    BetweenTakenAsShort,
    /// A page of 196 bytes is refused.
    LongRefused,
    /// W of one data block and I of another are refused 3.
    WAndIOfTwo,
    /// Bits that have to be zero are asked of pairs that are off too, where a pair of the side is on.
    OffPairsJoined,
    /// A pair that is off, and is not zero words, shares its addresses.
    OffPairShares,
    /// Two blocks that begin in the same 256 MB share an address.
    SameTopShares,
    /// Two blocks share an address only where they begin in the same 256 MB.
    OtherTopApart,
    /// A block holds addresses only in the 256 MB in which it begins.
    HoldsFirstOnly,
    /// No block holds an address where one is over 256 MB, two of a side begin in the same 256 MB, or W is of one data
    /// block and I of another.
    NoBlocksWhereOpen,
    /// Such a page is refused 3.
    OpenRefused,
    /// Such a page is taken, whatever else it breaks.
    OpenTaken,
    /// A block is looked for only where one of the other side begins in the same 256 MB as the address.
    BlocksByOtherSide,
    /// An access asks for no rule of the register page.
    AccessUnchecked,
    /// set_register asks for no rule of the register page.
    SetUnchecked,
    /// set_register asks for the rules of the page as it was.
    SetJudgedByOld,
    /// A refused register word stays in the page.
    RefusedWordLeft,
    /// After a refused register word there is zero in its place.
    RefusedWordZeroed,
    /// After a refused register word the old one stands there with its bytes in reverse order.
    RefusedWordReversed,
    /// SDR1 has no rule where its mask is zero.
    MaskZeroTaken,
    /// This bit of SDR1 is not looked at in its shape.
    Sdr1Without(u32),
    /// Of this segment register the other way round: this bit has to be zero, or does not.
    SegmentBit { segment: usize, bit: u32 },
    /// This bit of a side's upper or lower words is not looked at in a block's shape.
    ShapeWithout { data: bool, upper: bool, bit: u32 },
    /// The second refusal is tested before the first.
    Swapped(u32, u32),
    /// The rule that decided is shown wrong.
    Record(RecordFlaw),
    /// The translation cache is used wrongly.
    Cache(CacheFlaw),
    /// Rights are told wrongly.
    Rights(RightsFlaw),
}

/// Ways to get the translation cache wrong.
#[derive(Clone, Copy, Debug, PartialEq, Eq)]
pub enum CacheFlaw {
    /// Place 1 is looked at first.
    PlaceOneFirst,
    /// V is not compared.
    VForgotten,
    /// The VSID is not compared.
    VsidForgotten,
    /// The page index is not compared.
    PageIndexForgotten,
    /// The page index is compared in its low 16 bits.
    PageIndexLowBits,
    /// The API of the loaded word is compared too.
    ApiCompared,
    /// An entry with H set does not hit.
    HCompared,
    /// A place whose fourth word is neither 0 nor 1 does not hit.
    AgeCompared,
    /// A store passes over a place with C clear and looks at the next.
    ChangedCompared,
    /// A store hits an entry with C clear.
    StoreHitsUnchanged,
    /// No access hits an entry with C clear.
    LoadMissesUnchanged,
    /// A fetch never hits.
    FetchMisses,
    /// The set goes by the low five bits of the page index.
    SetByFiveBits,
    /// The set goes by the high six bits of the page index.
    SetByHighBits,
    /// The cache is asked before real mode.
    BeforeRealMode,
    /// The cache is asked before the blocks.
    BeforeBlocks,
    /// The cache is asked before the segment's N.
    BeforeNoExecute,
    /// G is not asked for at a hit.
    HitNotGuarded,
    /// Protection is not asked for at a hit.
    HitNotProtected,
    /// A hit is refused 10 where the table's matches contradict.
    HitContradicts,
    /// A page that has no match in the table does not hit.
    HitAsksTable,
    /// A hit marks the table.
    HitMarks,
    /// A hit sets R in the cache.
    HitReferences,
    /// A hit becomes the newer load.
    HitIsNewer,
    /// A hit shows the entry number of the table's first match.
    TableEntryShown,
    /// A hit shows the group of the table's first match.
    TableGroupShown,
    /// A hit shows the primary group always.
    PrimaryShown,
    /// A page is loaded after a fault of its own.
    LoadedAtFault,
    /// The first page is loaded though the second is not done.
    LoadedEarly,
    /// The first match is loaded after a 10.
    LoadedAtContradiction,
    /// A page without a match is loaded, with zero words.
    LoadedAtNoMatch,
    /// A page that a block did is loaded from the table.
    LoadedByBlock,
    /// Stores load nothing.
    StoreNotLoaded,
    /// Fetches load nothing.
    FetchNotLoaded,
    /// Over two pages this one is not loaded.
    PartNotLoaded(usize),
    /// The entry is loaded before it is marked.
    LoadedUnmarked,
    /// R is set in the cache and not in the table.
    ReferencedInCacheOnly,
    /// C is set in the cache and not in the table.
    ChangedInCacheOnly,
    /// The last of several matches is loaded.
    LastMatchLoaded,
    /// Bits 20 to 22 and 29 are loaded as zero.
    IgnoredBitsNotLoaded,
    /// The first word is loaded with H = 0.
    LoadedWithoutH,
    /// The third word has the segment's number before the page index.
    SegmentInThird,
    /// The newer load is replaced.
    NewerReplaced,
    /// Place 1 is taken where it has V = 0.
    EmptyOnePreferred,
    /// Place 0 is taken where it has V = 0.
    EmptyZeroPreferred,
    /// Place 1 is taken where both fourth words are 1.
    BothNewerTakesOne,
    /// Place 1 is taken where neither fourth word is 1.
    NeitherNewerTakesOne,
    /// A fourth word is the newer load's where it is not 0.
    NonzeroIsNewer,
    /// A fourth word is the newer load's where its low bit is 1.
    LowBitIsNewer,
    /// A reload goes where a new page would.
    ReloadByRule,
    /// A reload goes to the other place.
    ReloadInOtherPlace,
    /// A place with V = 0 that has VSID and page index is loaded again.
    ReloadWithoutV,
    /// A place that has the page index is loaded again, whatever its VSID.
    ReloadByPageIndex,
    /// A reload does not become the newer load.
    ReloadNotNewer,
    /// A load leaves the other place's fourth word.
    OtherStaysNewer,
    /// A load leaves the other place's fourth word where it is not 1.
    OtherAgedIfNewer,
    /// A load empties the other place.
    OtherEmptied,
    /// Invalidate zeroes this place alone.
    InvalidatesPlace(usize),
    /// Invalidate zeroes the places that have the page index.
    InvalidatesByPageIndex,
    /// Invalidate clears V alone.
    InvalidatesV,
    /// Invalidate zeroes the whole cache.
    InvalidatesAll,
    /// Invalidate takes any page index.
    InvalidateTakesAny,
    /// Invalidate tests 6 before 11.
    InvalidateSixFirst,
    /// The length of the cache is not looked at.
    LengthUnchecked,
    /// A longer cache is taken.
    LongerTaken,
    /// The length of the cache is tested last.
    LengthLast,
    /// The length of the table is not tested where every page hits.
    TableLengthAtMissOnly,
}

impl CacheFlaw {
    /// All of them.
    #[rustfmt::skip]
    pub const ALL: [CacheFlaw; 69] = [
        CacheFlaw::PlaceOneFirst, CacheFlaw::VForgotten, CacheFlaw::VsidForgotten,
        CacheFlaw::PageIndexForgotten, CacheFlaw::PageIndexLowBits, CacheFlaw::ApiCompared,
        CacheFlaw::HCompared, CacheFlaw::AgeCompared, CacheFlaw::ChangedCompared,
        CacheFlaw::StoreHitsUnchanged, CacheFlaw::LoadMissesUnchanged, CacheFlaw::FetchMisses,
        CacheFlaw::SetByFiveBits, CacheFlaw::SetByHighBits, CacheFlaw::BeforeRealMode,
        CacheFlaw::BeforeBlocks, CacheFlaw::BeforeNoExecute, CacheFlaw::HitNotGuarded,
        CacheFlaw::HitNotProtected, CacheFlaw::HitContradicts, CacheFlaw::HitAsksTable,
        CacheFlaw::HitMarks, CacheFlaw::HitReferences, CacheFlaw::HitIsNewer,
        CacheFlaw::TableEntryShown, CacheFlaw::TableGroupShown, CacheFlaw::PrimaryShown,
        CacheFlaw::LoadedAtFault, CacheFlaw::LoadedEarly, CacheFlaw::LoadedAtContradiction,
        CacheFlaw::LoadedAtNoMatch, CacheFlaw::LoadedByBlock, CacheFlaw::StoreNotLoaded,
        CacheFlaw::FetchNotLoaded, CacheFlaw::PartNotLoaded(0), CacheFlaw::PartNotLoaded(1),
        CacheFlaw::LoadedUnmarked, CacheFlaw::ReferencedInCacheOnly, CacheFlaw::ChangedInCacheOnly,
        CacheFlaw::LastMatchLoaded, CacheFlaw::IgnoredBitsNotLoaded, CacheFlaw::LoadedWithoutH,
        CacheFlaw::SegmentInThird, CacheFlaw::NewerReplaced, CacheFlaw::EmptyOnePreferred,
        CacheFlaw::EmptyZeroPreferred, CacheFlaw::BothNewerTakesOne,
        CacheFlaw::NeitherNewerTakesOne, CacheFlaw::NonzeroIsNewer, CacheFlaw::LowBitIsNewer,
        CacheFlaw::ReloadByRule, CacheFlaw::ReloadInOtherPlace, CacheFlaw::ReloadWithoutV,
        CacheFlaw::ReloadByPageIndex, CacheFlaw::ReloadNotNewer, CacheFlaw::OtherStaysNewer,
        CacheFlaw::OtherAgedIfNewer, CacheFlaw::OtherEmptied, CacheFlaw::InvalidatesPlace(0),
        CacheFlaw::InvalidatesPlace(1), CacheFlaw::InvalidatesByPageIndex, CacheFlaw::InvalidatesV,
        CacheFlaw::InvalidatesAll, CacheFlaw::InvalidateTakesAny, CacheFlaw::InvalidateSixFirst,
        CacheFlaw::LengthUnchecked, CacheFlaw::LongerTaken, CacheFlaw::LengthLast,
        CacheFlaw::TableLengthAtMissOnly,
    ];

    /// Those by which a run with a cache differs from the same run without: the two runs of one machine are the only
    /// judge. The rest needs a cache that no run from zeros leads to, or changes what is loaded and no answer.
    #[rustfmt::skip]
    pub const IN_RUNS: [CacheFlaw; 19] = [
        CacheFlaw::VForgotten, CacheFlaw::VsidForgotten, CacheFlaw::PageIndexForgotten,
        CacheFlaw::StoreHitsUnchanged, CacheFlaw::BeforeRealMode, CacheFlaw::BeforeBlocks,
        CacheFlaw::BeforeNoExecute, CacheFlaw::HitNotGuarded, CacheFlaw::HitNotProtected,
        CacheFlaw::PrimaryShown, CacheFlaw::LoadedAtFault, CacheFlaw::LoadedEarly,
        CacheFlaw::LoadedAtContradiction, CacheFlaw::ReferencedInCacheOnly,
        CacheFlaw::ChangedInCacheOnly, CacheFlaw::LoadedWithoutH,
        CacheFlaw::InvalidatesPlace(0), CacheFlaw::InvalidatesPlace(1), CacheFlaw::LengthUnchecked,
    ];

    /// Those that keep the promise about runs: the page stands in another place, or another page makes room.
    pub const UNSEEN_IN_RUNS: [CacheFlaw; 3] =
        [CacheFlaw::NewerReplaced, CacheFlaw::ReloadInOtherPlace, CacheFlaw::HitIsNewer];

    /// The mistake about the cache that a wrong model makes, if it is one.
    pub fn of_model(flaw: Option<Flaw>) -> Option<CacheFlaw> {
        match flaw {
            Some(Flaw::Cache(flaw)) => Some(flaw),
            _ => None,
        }
    }
}

/// Ways to get the record of the rule that decided wrong, in the model or in the finite map.
#[derive(Clone, Copy, Debug, PartialEq, Eq)]
pub enum RecordFlaw {
    /// Rules are counted from 1, as the steps are.
    RuleAsStep,
    /// A block's protection fault is shown as page protection.
    BlockFaultAsProtection,
    /// Guarded is shown as no-execute.
    GuardedAsNoExecute,
    /// No-execute is shown as guarded.
    NoExecuteAsGuarded,
    /// In real mode a block that holds the address is shown.
    BlockInRealMode,
    /// A fetch by a block is shown as no-execute where its segment has N.
    NoExecuteBeforeBlock,
    /// A load or store of a guarded page is shown as guarded.
    GuardedData,
    /// Blocks are counted through both sides.
    BlockThroughSides,
    /// A block is shown by the number of its upper register word.
    BlockAsRegister,
    /// A block is shown by its PP.
    BlockPp,
    /// Blocks are counted from 0 to 3 twice.
    BlockOfFour,
    /// PP × 4 + key is shown.
    KeyAndPpSwapped,
    /// The key shown is Kp for the supervisor too.
    KeyByKp,
    /// The PP shown is that of the next entry of the group.
    PpOfNextEntry,
    /// The key is shown with a guarded page too.
    KeyWhenGuarded,
    /// Key and PP are shown with a fault only.
    DetailOfFaultsOnly,
    /// The group shown is the primary one, wherever the entry stands.
    PrimaryAlways,
    /// The group's number has the origin before it.
    GroupWithOrigin,
    /// The group is shown by its first byte.
    GroupAsByte,
    /// Entries are counted from 1.
    EntryFromOne,
    /// Entries are counted through both groups.
    EntryThroughGroups,
    /// The last match is shown.
    LastMatch,
    /// A place is shown with a done access only.
    PlaceOfDoneOnly,
    /// The primary group is shown where there is no match.
    NoMatchWithPlace,
    /// The primary group is shown in real mode, by a block and for no-execute.
    PlaceBeforeSearch,
    /// Of a done operand over a page edge the second part is shown.
    SecondWhenDone,
    /// Where the second part faults the first is shown.
    FirstForSecondFault,
    /// Where the first part faults the second is shown.
    SecondForFirstFault,
    /// Contradicting matches are shown with the search's rule and their first place.
    AtContradiction,
    /// Where the second part's matches contradict the first part is shown.
    FirstAtContradiction,
    /// A refusal leaves the record as it was lent.
    LeftAtRefusal,
}

impl RecordFlaw {
    /// Those about rule, detail, part or refusal, which the finite map answers for.
    #[rustfmt::skip]
    pub const IN_MAP: [RecordFlaw; 21] = [
        RecordFlaw::RuleAsStep, RecordFlaw::BlockFaultAsProtection, RecordFlaw::GuardedAsNoExecute,
        RecordFlaw::NoExecuteAsGuarded, RecordFlaw::BlockInRealMode,
        RecordFlaw::NoExecuteBeforeBlock, RecordFlaw::GuardedData, RecordFlaw::BlockThroughSides,
        RecordFlaw::BlockAsRegister, RecordFlaw::BlockPp, RecordFlaw::BlockOfFour,
        RecordFlaw::KeyAndPpSwapped,
        RecordFlaw::KeyByKp, RecordFlaw::KeyWhenGuarded, RecordFlaw::DetailOfFaultsOnly,
        RecordFlaw::NoMatchWithPlace, RecordFlaw::PlaceBeforeSearch, RecordFlaw::SecondWhenDone,
        RecordFlaw::FirstForSecondFault, RecordFlaw::SecondForFirstFault, RecordFlaw::LeftAtRefusal,
    ];

    /// Those that a table's bytes show alone: a neighbouring entry, or contradicting matches.
    pub const IN_TABLE: [RecordFlaw; 3] =
        [RecordFlaw::PpOfNextEntry, RecordFlaw::AtContradiction, RecordFlaw::FirstAtContradiction];

    /// Those about the place in rules 4 to 6, which the finite map leaves to the table.
    pub const OF_PLACE: [RecordFlaw; 7] = [
        RecordFlaw::PrimaryAlways,
        RecordFlaw::GroupWithOrigin,
        RecordFlaw::GroupAsByte,
        RecordFlaw::EntryFromOne,
        RecordFlaw::EntryThroughGroups,
        RecordFlaw::LastMatch,
        RecordFlaw::PlaceOfDoneOnly,
    ];

    /// Those about which of two parts is shown.
    pub const OF_PARTS: [RecordFlaw; 4] = [
        RecordFlaw::SecondWhenDone,
        RecordFlaw::FirstForSecondFault,
        RecordFlaw::SecondForFirstFault,
        RecordFlaw::FirstAtContradiction,
    ];

    /// The mistake about the record that a wrong model makes, if it is one.
    pub fn of_model(flaw: Option<Flaw>) -> Option<RecordFlaw> {
        match flaw {
            Some(Flaw::Record(flaw)) => Some(flaw),
            _ => None,
        }
    }

    /// The same of a wrong finite map.
    pub fn of_map(flaw: Option<MapFlaw>) -> Option<RecordFlaw> {
        match flaw {
            Some(MapFlaw::Record(flaw)) => Some(flaw),
            _ => None,
        }
    }
}

impl Flaw {
    /// Those that show in calls whose operands lie within one page.
    #[rustfmt::skip]
    pub const WITHIN_PAGE: [Flaw; 33] = [
        Flaw::UnmapPrimaryOnly, Flaw::UnmapFirstMarks, Flaw::HForgotten, Flaw::VsidForgotten,
        Flaw::VForgotten, Flaw::ApiForgotten, Flaw::PrimaryWordInBoth,
        Flaw::FullAtPrimary, Flaw::FullBeforeMatch, Flaw::MatchUpToFree, Flaw::MapStoresNothing,
        Flaw::ProtectFirstOnly, Flaw::ProtectIgnoredBits,
        Flaw::MarksEveryMatch, Flaw::MarkIgnoredBits, Flaw::LookIgnoredBits,
        Flaw::KpForSupervisor, Flaw::ChangedByFault, Flaw::ReferencedByFault,
        Flaw::GuardedLast, Flaw::NoExecuteLate, Flaw::FetchUnprotected, Flaw::StoreFaultBit,
        Flaw::NeverMatches, Flaw::OneFrame, Flaw::RefusesAll,
        Flaw::BlocksOfAnyState, Flaw::OffBlockJudged, Flaw::OneSegmentJudged,
        Flaw::RealModeUnchecked, Flaw::RefusalKeepsAnswer, Flaw::AnswerAtEleven,
        Flaw::PackRefusesWimg,
    ];

    /// Those of them that show after a clear, where no duplicate and no ignored bit ever stands in
    /// the table: the finite map has to find them without the model's help.
    #[rustfmt::skip]
    pub const AFTER_CLEAR: [Flaw; 19] = [
        Flaw::UnmapPrimaryOnly, Flaw::HForgotten, Flaw::VsidForgotten, Flaw::FullAtPrimary,
        Flaw::ApiForgotten, Flaw::PrimaryWordInBoth,
        Flaw::FullBeforeMatch, Flaw::MatchUpToFree, Flaw::MapStoresNothing,
        Flaw::GroupEndsAtFree, Flaw::SearchEndsAtFree, Flaw::FreeEndsInPrimary,
        Flaw::LastEntryNotFree,
        Flaw::KpForSupervisor, Flaw::ChangedByFault, Flaw::ReferencedByFault,
        Flaw::NeverMatches, Flaw::OneFrame, Flaw::RefusesAll,
    ];

    /// Those by which one lost call leaves more than one page of a kind behind. A wrong room or a wrong 9 does not: it
    /// is wrong in both runs alike.
    #[rustfmt::skip]
    pub const IN_LOST_RUNS: [Flaw; 9] = [
        Flaw::UnmapPrimaryOnly, Flaw::HForgotten, Flaw::VsidForgotten, Flaw::ApiForgotten,
        Flaw::PrimaryWordInBoth, Flaw::MatchUpToFree, Flaw::GroupEndsAtFree,
        Flaw::SearchEndsAtFree, Flaw::FreeEndsInPrimary,
    ];

    /// Those about entries with V = 0: matches behind them, and which of them map takes. A map that
    /// fills one though the page is mapped behind it is `MatchUpToFree`.
    #[rustfmt::skip]
    pub const GAPS: [Flaw; 7] = [
        Flaw::GroupEndsAtFree, Flaw::SearchEndsAtFree, Flaw::FreeEndsInPrimary,
        Flaw::SecondaryFreeTaken, Flaw::LastFreeTaken, Flaw::FreeMeansZero, Flaw::LastEntryNotFree,
    ];

    /// Those of them that change the entry map takes and nothing else: the finite map has no entries.
    pub const OF_FREE_PLACE: [Flaw; 3] =
        [Flaw::SecondaryFreeTaken, Flaw::LastFreeTaken, Flaw::FreeMeansZero];

    /// Those about duplicate matches: when they agree, and which of them is marked, looked at, changed.
    #[rustfmt::skip]
    pub const DUPLICATES: [Flaw; 23] = [
        Flaw::AgreeByRpnAlone, Flaw::AgreeWithoutRpn, Flaw::AgreeWithoutWimg,
        Flaw::AgreeWithoutPp, Flaw::AgreeByWord,
        Flaw::AgreeByBitToo(20), Flaw::AgreeByBitToo(21), Flaw::AgreeByBitToo(22),
        Flaw::AgreeByBitToo(23), Flaw::AgreeByBitToo(24), Flaw::AgreeByBitToo(29),
        Flaw::ThirdNotCompared, Flaw::LastAloneCompared, Flaw::GroupsNotCompared,
        Flaw::OneGroupNotCompared, Flaw::FirstOfGroupCompared(0), Flaw::FirstOfGroupCompared(1),
        Flaw::LaterPairsOnly, Flaw::OneOfEachNotSeveral, Flaw::UnmapMarksOfOneGroup,
        Flaw::MarkLeftToLater, Flaw::MarksJoined, Flaw::LookJoinsMarks,
    ];

    /// Those about an operand's length and pages: the finite map has to find them too.
    #[rustfmt::skip]
    pub const OPERANDS: [Flaw; 23] = [
        Flaw::LongestRefused, Flaw::OneTooLongTaken, Flaw::LengthLowBits, Flaw::FetchOfFour,
        Flaw::FirstPageOnly, Flaw::RealModeWhole, Flaw::BlockWhole, Flaw::EdgeEarly,
        Flaw::EdgeLate, Flaw::EndTouchesNext, Flaw::NoWrap, Flaw::SecondBySegmentOfFirst,
        Flaw::SecondAnswersFirst, Flaw::SecondFaultAtOperand, Flaw::FirstFaultAtPage,
        Flaw::BytesAfterFault, Flaw::BytesZeroInOnePage, Flaw::SecondAttributesOfFirst,
        Flaw::FirstMarkedEarly, Flaw::FirstMarkedOnly, Flaw::SecondMarkedOnly,
        Flaw::ChangedInFirstOnly, Flaw::MarkWritesGroup,
    ];

    /// Those about the two lengths of a register page: what a page of each holds, and its limit.
    #[rustfmt::skip]
    pub const LENGTHS: [Flaw; 22] = [
        Flaw::DataPairsAtWord25, Flaw::ShortBitsLetThrough, Flaw::ShortBlOfFifteen,
        Flaw::OffPairBitsRefused, Flaw::ShortHasEight, Flaw::LongBlOfEleven, Flaw::LongBitsRefused,
        Flaw::LimitByContents, Flaw::ThreeAndFourNotCompared, Flaw::HalvesNotCompared,
        Flaw::LastPairUnchecked, Flaw::UpperPairsUnchecked, Flaw::LastPairNeverCovers,
        Flaw::UpperPairsNeverCover, Flaw::WholeSharesNothing, Flaw::Number33OnShort,
        Flaw::Number48Refused, Flaw::LongNumbersRefused, Flaw::AnyPageTakes48,
        Flaw::Length164Taken, Flaw::BetweenTakenAsShort, Flaw::LongRefused,
    ];

    /// Those of them that show in accesses of a list: the finite map has to find them too.
    #[rustfmt::skip]
    pub const LENGTHS_IN_LISTS: [Flaw; 12] = [
        Flaw::DataPairsAtWord25, Flaw::ShortBitsLetThrough, Flaw::OffPairBitsRefused,
        Flaw::ShortHasEight, Flaw::LongBlOfEleven, Flaw::LongBitsRefused, Flaw::HalvesNotCompared,
        Flaw::UpperPairsUnchecked, Flaw::LastPairNeverCovers, Flaw::UpperPairsNeverCover,
        Flaw::BetweenTakenAsShort, Flaw::LongRefused,
    ];

    /// Those of them by which a short page answers otherwise than the same page widened by zero pairs, or
    /// takes one of bits 15 to 18 in a pair that is on: no other judge is asked.
    #[rustfmt::skip]
    pub const WIDENED: [Flaw; 6] = [
        Flaw::DataPairsAtWord25, Flaw::ShortBitsLetThrough, Flaw::ShortBlOfFifteen,
        Flaw::OffPairBitsRefused, Flaw::ShortHasEight, Flaw::LongRefused,
    ];

    /// Those about a register page that a quick test of it leaves open, or decides wrongly.
    #[rustfmt::skip]
    pub const QUICK: [Flaw; 17] = [
        Flaw::WAndIOfTwo, Flaw::OffPairsJoined, Flaw::OffPairShares, Flaw::SameTopShares,
        Flaw::OtherTopApart, Flaw::HoldsFirstOnly, Flaw::NoBlocksWhereOpen, Flaw::OpenRefused,
        Flaw::OpenTaken, Flaw::BlocksByOtherSide, Flaw::AccessUnchecked, Flaw::SetUnchecked,
        Flaw::SetJudgedByOld, Flaw::RefusedWordLeft, Flaw::RefusedWordZeroed,
        Flaw::RefusedWordReversed, Flaw::MaskZeroTaken,
    ];

    /// Those above that such pages show too.
    #[rustfmt::skip]
    pub const AT_QUICK_TEST: [Flaw; 22] = [
        Flaw::BlocksOfAnyState, Flaw::OffBlockJudged, Flaw::OneSegmentJudged,
        Flaw::RealModeUnchecked, Flaw::DataPairsAtWord25, Flaw::ShortBitsLetThrough,
        Flaw::ShortBlOfFifteen, Flaw::OffPairBitsRefused, Flaw::ShortHasEight, Flaw::LongBlOfEleven,
        Flaw::LongBitsRefused, Flaw::LimitByContents, Flaw::ThreeAndFourNotCompared,
        Flaw::HalvesNotCompared, Flaw::LastPairUnchecked, Flaw::UpperPairsUnchecked,
        Flaw::LastPairNeverCovers, Flaw::UpperPairsNeverCover, Flaw::WholeSharesNothing,
        Flaw::Swapped(2, 3), Flaw::Swapped(3, 4), Flaw::Swapped(4, 5),
    ];

    /// One for each bit of a register page that its rules look at, and for each other bit of a segment register: of
    /// the origin in SDR1 its low nine, of a pair all but V, PP, M, and what is free on its side.
    pub fn of_register_bits() -> impl Iterator<Item = Flaw> {
        let sdr1 = (7..32).map(Flaw::Sdr1Without);
        let segments =
            (0..16).flat_map(|segment| (0..32).map(move |bit| Flaw::SegmentBit { segment, bit }));
        let pairs = [false, true].into_iter().flat_map(|data| {
            let last = if data { 26 } else { 28 };
            let lower = (0..26).chain([last, 29]).map(move |bit| (false, bit));
            let both = (0..30).map(|bit| (true, bit)).chain(lower);
            both.map(move |(upper, bit)| Flaw::ShapeWithout { data, upper, bit })
        });
        sdr1.chain(segments).chain(pairs)
    }

    /// One for each bit of a first word at each place of the search order.
    pub fn of_first_words() -> impl Iterator<Item = Flaw> {
        (0..16).flat_map(|place| (0..32).map(move |bit| Flaw::BitForgottenAt { bit, place }))
    }

    /// Refusals in another order.
    #[rustfmt::skip]
    pub const ORDERS: [Flaw; 10] = [
        Flaw::Swapped(11, 6), Flaw::Swapped(6, 2), Flaw::Swapped(2, 3), Flaw::Swapped(3, 4),
        Flaw::Swapped(4, 5), Flaw::Swapped(5, 1), Flaw::Swapped(2, 1),
        Flaw::Swapped(11, 12), Flaw::Swapped(6, 12), Flaw::Swapped(12, 2),
    ];
}

/// Ways to get the finite map wrong.
#[derive(Clone, Copy, Debug, PartialEq, Eq)]
pub enum MapFlaw {
    /// A group holds seven pages.
    GroupOfSeven,
    /// A group holds nine pages.
    GroupOfNine,
    /// An arrangement has the primary group of each page alone.
    PrimaryOnly,
    /// Unmap leaves the page in the map.
    UnmapKeepsPage,
    /// A store does not set C.
    StoreUnmarked,
    /// An operand has one page.
    OnePage,
    /// The second page goes by the segment of the first.
    SecondBySegmentOfFirst,
    /// The first page is marked before the second is looked for.
    FirstMarkedEarly,
    /// Only the first page is marked.
    FirstMarkedOnly,
    /// A store over a page edge sets C in the first page alone.
    ChangedInFirstOnly,
    /// Rights mark the page as the three accesses would.
    RightsMark,
    /// Rights tell the marks as they would stand.
    RightsTellMarks,
    /// The rule that decided is shown wrong.
    Record(RecordFlaw),
}

impl MapFlaw {
    /// Those about pages and marks.
    pub const OF_PAGES: [MapFlaw; 12] = [
        MapFlaw::GroupOfSeven,
        MapFlaw::GroupOfNine,
        MapFlaw::PrimaryOnly,
        MapFlaw::UnmapKeepsPage,
        MapFlaw::StoreUnmarked,
        MapFlaw::OnePage,
        MapFlaw::SecondBySegmentOfFirst,
        MapFlaw::FirstMarkedEarly,
        MapFlaw::FirstMarkedOnly,
        MapFlaw::ChangedInFirstOnly,
        MapFlaw::RightsMark,
        MapFlaw::RightsTellMarks,
    ];
}
