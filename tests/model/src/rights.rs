//! Rights: what a fetch, a load and a store of one byte at an address would come to (docs/RULES.md, 13). An access goes
//! through its steps kind by kind; here each side is looked at once, and what stands there is told for its kinds.

use crate::call::{Call, FETCH, LOAD, STORE};
use crate::entry::{CHANGED, REFERENCED};
use crate::flaw::Flaw;
use crate::registers::{Registers, Segment, Side};
use crate::rights_flaw::RightsFlaw;
use crate::words::{put_word, put_words, word_at};

/// Bytes of an access's answer.
const ANSWER: usize = 48;
/// Where the marks begin, after three answers.
const MARKS: usize = 3 * ANSWER;
/// Bytes of the whole answer.
pub const SIZE: usize = MARKS + 12;

/// RPN, WIMG and PP of a second word: matches agree where these are equal.
const AGREED: u32 = 0xFFFF_F07B;

/// By key and PP: whether one may read and fetch, and whether one may write. A block has the rights of key 1.
const MAY: [[(bool, bool); 4]; 2] = [
    [(true, true), (true, true), (true, true), (true, false)],
    [(false, false), (true, false), (true, true), (true, false)],
];

/// What stands at an address on one side, as far as its kinds share it.
enum Standing {
    Untranslated,
    Block { number: u32, physical: u32, wimg: u32, pp: u32 },
    Page { segment: Segment, entries: Vec<Entry> },
}

/// An entry that matches, at its byte of the table.
#[derive(Clone, Copy)]
struct Entry {
    at: usize,
    second: u32,
}

/// What the access of one kind answers, and the marks that it would newly set.
#[derive(Clone, Copy)]
struct Told {
    words: [u32; 12],
    marks: u32,
}

/// The call where no rule is broken: fills the answer, and hands back its result.
pub fn perform(
    flaw: Option<Flaw>,
    set: &Registers,
    mode: u32,
    address: u32,
    table: &mut [u8],
    answer: &mut [u8],
) -> u32 {
    let flaw = RightsFlaw::of_model(flaw);
    let asked = Asked { flaw, set, mode, address };
    let [instructions, data] =
        [Side::Instruction, Side::Data].map(|side| asked.standing(side, table));
    let fetch = asked.told(FETCH, &instructions, table);
    let load = asked.told(LOAD, &data, table);
    let store = asked.told(STORE, &data, table);
    if let Some(kind) = spoiling(flaw) {
        mark(kind, &data, table);
    }
    write(flaw, [fetch, load, store], &mut answer[..SIZE]);
    match flaw {
        Some(RightsFlaw::ContradictionRefuses) => {
            if [fetch, load, store].iter().any(|told| told.words[0] == 10) {
                10
            } else {
                0
            }
        }
        Some(RightsFlaw::ResultOfLoad) => load.words[0],
        Some(RightsFlaw::ResultOfStore) => store.words[0],
        _ => 0,
    }
}

/// What is asked, and the mistake that is made if any.
struct Asked<'a> {
    flaw: Option<RightsFlaw>,
    set: &'a Registers,
    mode: u32,
    address: u32,
}

impl Asked<'_> {
    fn has(&self, flaw: RightsFlaw) -> bool {
        self.flaw == Some(flaw)
    }

    fn is_user(&self) -> bool {
        self.mode & 4 != 0
    }

    /// Real mode, else the block that holds the address, else the matches of its page.
    fn standing(&self, side: Side, table: &[u8]) -> Standing {
        let by_ir = match side {
            Side::Instruction => !self.has(RightsFlaw::FetchByDr),
            Side::Data => self.has(RightsFlaw::DataByIr),
        };
        if self.mode & if by_ir { 2 } else { 1 } == 0 {
            return Standing::Untranslated;
        }
        let of_blocks = match self.flaw {
            Some(RightsFlaw::FetchByDataBlocks) => Side::Data,
            Some(RightsFlaw::DataByInstructionBlocks) => Side::Instruction,
            _ => side,
        };
        for (number, block) in (0..).zip(self.set.blocks(of_blocks)) {
            let valid = if self.is_user() { 0b01 } else { 0b10 };
            if block.valid_bits() & valid != 0 && block.holds(self.address) {
                let physical = block.physical(self.address);
                return Standing::Block { number, physical, wimg: block.wimg(), pp: block.pp() };
            }
        }
        let segment = self.set.segment(self.address);
        Standing::Page { segment, entries: self.entries(segment.vsid(), table) }
    }

    /// The page's matches in search order, the first word compared whole.
    fn entries(&self, vsid: u32, table: &[u8]) -> Vec<Entry> {
        let index = self.address >> 12 & 0xFFFF;
        let last = (self.set.sdr1() & 0x1FF) << 10 | 0x3FF;
        let primary = (vsid ^ index) & last;
        let mut entries = Vec::new();
        for place in 0..16 {
            let (group, h) = if place < 8 { (primary, 0) } else { (primary ^ last, 0x40) };
            let at = (64 * group + 8 * (place % 8)) as usize;
            if word_at(table, at) == 0x8000_0000 | vsid << 7 | h | index >> 10 {
                entries.push(Entry { at, second: word_at(table, at + 4) });
            }
        }
        entries
    }

    fn told(&self, kind: u32, standing: &Standing, table: &[u8]) -> Told {
        match standing {
            Standing::Untranslated => {
                let marks = self.told_wrongly(RightsFlaw::MarksOfRealMode);
                Told { words: self.done(self.address, 3, [0; 4]), marks }
            }
            &Standing::Block { number, physical, wimg, pp } => {
                let record = [1, number, 0, 0];
                let words = match self.may(kind, 1, pp) {
                    true => self.done(physical, wimg, record),
                    false => self.fault(kind, 0x0800_0000, record),
                };
                Told { words, marks: self.told_wrongly(RightsFlaw::MarksOfBlock) }
            }
            Standing::Page { segment, entries } => self.by_page(kind, *segment, entries, table),
        }
    }

    /// R, by this mistake.
    fn told_wrongly(&self, flaw: RightsFlaw) -> u32 {
        if self.has(flaw) {
            REFERENCED
        } else {
            0
        }
    }

    fn by_page(&self, kind: u32, segment: Segment, entries: &[Entry], table: &[u8]) -> Told {
        let no_execute =
            kind == FETCH && segment.no_execute() && !self.has(RightsFlaw::NoExecuteForgotten);
        if no_execute && !self.has(RightsFlaw::NoExecuteLate) {
            return Told { words: self.fault(kind, 0x1000_0000, [2, 0, 0, 0]), marks: 0 };
        }
        let Some(used) = entries.first() else {
            let words = self.fault(kind, 0x4000_0000, [3, 0, 0, 0]);
            return Told { words, marks: self.told_wrongly(RightsFlaw::MarksOfNoMatch) };
        };
        let new = self.new_marks(kind, entries, table);
        if entries.iter().any(|entry| (entry.second ^ used.second) & AGREED != 0) {
            let mut words = [0; 12];
            words[0] = 10;
            let marks = if self.has(RightsFlaw::MarksOfContradiction) { new } else { 0 };
            return Told { words, marks };
        }
        if no_execute {
            return Told { words: self.fault(kind, 0x1000_0000, [2, 0, 0, 0]), marks: 0 };
        }
        self.by_entry(kind, segment, used, new)
    }

    /// G, then key and PP, then the frame.
    fn by_entry(&self, kind: u32, segment: Segment, used: &Entry, new: u32) -> Told {
        let by_fetch = kind == FETCH && !self.has(RightsFlaw::GuardedFetched);
        let guarded = used.second & 8 != 0 && (by_fetch || self.has(RightsFlaw::GuardedData));
        let key = segment.key(self.is_user() || self.has(RightsFlaw::KpForSupervisor));
        let pp = used.second & 3;
        let may = self.may(kind, key, pp);
        let mut place = [used.at as u32 / 64, used.at as u32 / 8 % 8];
        if (guarded || !may) && self.has(RightsFlaw::PlaceOfDoneOnly) {
            place = [0, 0];
        }
        let [group, entry] = place;
        if guarded {
            let marks = if self.has(RightsFlaw::MarksOfGuarded) { new } else { 0 };
            return Told { words: self.fault(kind, 0x1000_0000, [4, 0, group, entry]), marks };
        }
        if !may {
            let marks = if self.has(RightsFlaw::MarksOfProtection) { new } else { 0 };
            let record = [5, 4 * key + pp, group, entry];
            return Told { words: self.fault(kind, 0x0800_0000, record), marks };
        }
        let physical = used.second & 0xFFFF_F000 | self.address & 0xFFF;
        let record = [6, 4 * key + pp, group, entry];
        Told { words: self.done(physical, used.second >> 3 & 15, record), marks: new }
    }

    fn may(&self, kind: u32, key: u32, pp: u32) -> bool {
        let (read, write) = MAY[key as usize][pp as usize];
        match kind {
            STORE if self.has(RightsFlaw::StoreByReadRight) => read,
            STORE => write,
            _ => read,
        }
    }

    /// R, and C of a store, as far as the first match does not have them.
    fn new_marks(&self, kind: u32, entries: &[Entry], table: &[u8]) -> u32 {
        let first = entries[0];
        let last = (self.set.sdr1() & 0x1FF) << 10 | 0x3FF;
        let primary = (self.set.segment(self.address).vsid() ^ self.address >> 12 & 0xFFFF) & last;
        let has = match self.flaw {
            Some(RightsFlaw::LastMatch) => entries[entries.len() - 1].second,
            Some(RightsFlaw::AnyMatch) => entries.iter().fold(0, |any, entry| any | entry.second),
            Some(RightsFlaw::PrimaryMarks) => {
                word_at(table, 64 * primary as usize + first.at % 64 + 4)
            }
            Some(RightsFlaw::NextEntry) => {
                word_at(table, first.at / 64 * 64 + (first.at + 8) % 64 + 4)
            }
            _ => first.second,
        };
        let kind = match (self.flaw, kind) {
            (Some(RightsFlaw::StoreAsLoad), STORE) => LOAD,
            (Some(RightsFlaw::LoadAsStore), LOAD) => STORE,
            (Some(RightsFlaw::FetchWithout), FETCH) => return 0,
            (_, kind) => kind,
        };
        let set = if kind == STORE { REFERENCED | CHANGED } else { REFERENCED };
        let new = set & !has;
        match self.flaw {
            Some(RightsFlaw::ReferencedThoughSet) => new | REFERENCED,
            Some(RightsFlaw::ChangedThoughSet) => new | set & CHANGED,
            Some(RightsFlaw::ReferencedWithChanged) if kind == STORE && new & CHANGED == 0 => 0,
            Some(RightsFlaw::MarksSwapped) => (new & REFERENCED) >> 1 | (new & CHANGED) << 1,
            Some(RightsFlaw::MarksAsLeft) => (has | set) & (REFERENCED | CHANGED),
            _ => new,
        }
    }

    /// The words of an access that is done, within one page.
    fn done(&self, physical: u32, wimg: u32, record: [u32; 4]) -> [u32; 12] {
        let length = match self.flaw {
            Some(RightsFlaw::LengthZero) => 0,
            Some(RightsFlaw::LengthFour) => 4,
            _ => 1,
        };
        let [rule, detail, group, entry] = record;
        let effective = self.effective();
        [0, physical, wimg, effective, 0, 0, length, 0, rule, detail, group, entry]
    }

    fn fault(&self, kind: u32, cause: u32, record: [u32; 4]) -> [u32; 12] {
        let [rule, detail, group, entry] = record;
        let [number, word, offset] = match kind {
            FETCH => [65, cause, 0x400],
            STORE if !self.has(RightsFlaw::StoreFaultBit) => [64, cause | 0x0200_0000, 0x300],
            _ => [64, cause, 0x300],
        };
        let effective = self.effective();
        [number, word, offset, effective, 0, 0, 0, 0, rule, detail, group, entry]
    }

    fn effective(&self) -> u32 {
        match self.flaw {
            Some(RightsFlaw::PageAddress) => self.address & 0xFFFF_F000,
            _ => self.address,
        }
    }
}

/// Three answers, then the marks of each.
fn write(flaw: Option<RightsFlaw>, told: [Told; 3], answer: &mut [u8]) {
    let [fetch, load, store] = told;
    let answers = match flaw {
        Some(RightsFlaw::FetchAndLoadSwapped) => [load, fetch, store],
        Some(RightsFlaw::StoreByLoad) => [fetch, load, load],
        _ => told,
    };
    let marks = match flaw {
        Some(RightsFlaw::MarksOutOfOrder) => [fetch.marks, store.marks, load.marks],
        _ => told.map(|told| told.marks),
    };
    let (first_answer, first_mark) = match flaw {
        Some(RightsFlaw::MarksFirst) => (12, 0),
        _ => (0, MARKS),
    };
    for (kind, told) in answers.iter().enumerate() {
        put_words(&mut answer[first_answer + ANSWER * kind..], &told.words);
    }
    put_words(&mut answer[first_mark..], &marks);
}

/// Three times the number and eleven zeros, and no marks.
pub fn refuse(flaw: Option<Flaw>, number: u32, answer: &mut [u8]) {
    let told = [number, 0, 0];
    let [told, left] = match RightsFlaw::of_model(flaw) {
        Some(RightsFlaw::RefusedByZeros) => [[0; 3], [0; 3]],
        Some(RightsFlaw::RefusedOnce) => [told, [0; 3]],
        _ => [told, told],
    };
    let end = match RightsFlaw::of_model(flaw) {
        Some(RightsFlaw::RefusalLeavesMarks) => MARKS,
        Some(RightsFlaw::RefusalLeavesOthers) => ANSWER,
        _ => SIZE,
    };
    answer[..end].fill(0);
    put_words(answer, &told);
    for kind in [1, 2].into_iter().filter(|kind| ANSWER * kind < end) {
        put_words(&mut answer[ANSWER * kind..], &left);
    }
}

/// The kind of access by which a wrong model marks the table.
fn spoiling(flaw: Option<RightsFlaw>) -> Option<u32> {
    match flaw {
        Some(RightsFlaw::LoadMarks) => Some(LOAD),
        Some(RightsFlaw::StoreMarks) => Some(STORE),
        _ => None,
    }
}

/// The mistake by which the first match is marked.
fn mark(kind: u32, data: &Standing, table: &mut [u8]) {
    let Standing::Page { entries, .. } = data else { return };
    let Some(first) = entries.first() else { return };
    let set = if kind == STORE { REFERENCED | CHANGED } else { REFERENCED };
    put_word(table, first.at + 4, first.second | set);
}

/// Whether the answer has its length.
pub fn length_fits(flaw: Option<Flaw>, length: usize) -> bool {
    match RightsFlaw::of_model(flaw) {
        Some(RightsFlaw::LongerTaken) => length >= SIZE,
        _ => length == SIZE,
    }
}

/// Whether the mode is within its range.
pub fn mode_fits(flaw: Option<Flaw>, mode: u32) -> bool {
    mode <= 7 || RightsFlaw::of_model(flaw) == Some(RightsFlaw::ModeLowBits)
}

/// The mistake by which the table's length is not asked for.
pub fn asks_no_table(flaw: Option<Flaw>, call: &Call) -> bool {
    match (RightsFlaw::of_model(flaw), *call) {
        (Some(RightsFlaw::RealModeUnchecked), Call::Rights { mode, .. }) => mode & 3 == 0,
        _ => false,
    }
}

/// The mistake by which a rightly sized answer is written at 11.
pub fn at_eleven(flaw: Option<Flaw>, call: &Call) -> bool {
    let wrong = RightsFlaw::of_model(flaw) == Some(RightsFlaw::WrittenAtEleven);
    wrong && matches!(call, Call::Rights { .. })
}
