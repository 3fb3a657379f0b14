//! The calls on bytes: each gives its number and rewrites what is lent, as the rules say.

use crate::cache::{Cache, Hit};
use crate::call::{Access, Call, Lengths, Lent, Page, LOAD};
use crate::entry::{Fields, CHANGED, IGNORED_BITS, REFERENCED};
use crate::flaw::{CacheFlaw, Flaw, RecordFlaw};
use crate::operand;
use crate::record;
use crate::registers::{put_register, table_length, Registers, Segment};
use crate::rights;
use crate::rules;
use crate::search::{self, Place, GROUP};
use crate::translation::{self, BeforeSearch, Outcome};
use crate::words::{put_word, put_words, word_at};

/// Where the record of the rule that decided begins in the answer of an access.
const RECORD: usize = 32;

/// The model, with the mistake it is to make if any.
#[derive(Clone, Copy, Debug, Default)]
pub struct Model {
    flaw: Option<Flaw>,
}

impl Model {
    pub fn with(flaw: Flaw) -> Model {
        Model { flaw: Some(flaw) }
    }

    fn has(&self, flaw: Flaw) -> bool {
        self.flaw == Some(flaw)
    }

    /// One call.
    pub fn perform(&self, call: &Call, lent: Lent) -> u32 {
        if let Some(&number) = self.broken(call, lent.registers, lent.lengths()).first() {
            if let Call::SetRegister { number: register, word } = *call {
                self.spoil_page(number, lent.registers, register, word);
            }
            if let (1, Call::AccessCached(access)) = (number, *call) {
                if self.has(Flaw::Cache(CacheFlaw::TableLengthAtMissOnly)) {
                    return self.access_without_table(lent, access);
                }
            }
            return self.refuse(call, number, lent.answer);
        }
        if self.has(Flaw::RefusesAll) {
            return self.refuse(call, 6, lent.answer);
        }
        match *call {
            Call::Check => 0,
            Call::SetRegister { number, word } => {
                put_register(lent.registers, number, word);
                0
            }
            Call::Clear { .. } => {
                lent.table.fill(0);
                0
            }
            Call::Map { sdr1, page, rpn, wimg, pp } => {
                let frame = Fields { rpn, wimg, pp, ..Fields::default() };
                self.map(sdr1, page, frame, lent.table)
            }
            Call::Unmap { sdr1, page } => self.unmap(sdr1, page, lent.table, lent.answer),
            Call::Protect { sdr1, page, pp } => self.protect(sdr1, page, pp, lent.table),
            Call::Look { sdr1, page } => self.look(sdr1, page, lent.table, lent.answer),
            Call::Access(access) => self.access(lent, access, None),
            Call::AccessCached(access) => {
                let cache = Cache::read(self.flaw, lent.cache);
                self.access(lent, access, Some(cache))
            }
            Call::Rights { mode, address } => {
                let set = Registers::read_wrongly(self.flaw, lent.registers);
                let set = set.expect("the length was tested");
                rights::perform(self.flaw, &set, mode, address, lent.table, lent.answer)
            }
            Call::Invalidate { page_index } => {
                let mut cache = Cache::read(self.flaw, lent.cache);
                cache.invalidate(page_index);
                cache.write(lent.cache);
                0
            }
            Call::Pack(fields) => {
                put_words(lent.answer, &fields.words());
                0
            }
            Call::Unpack { first, second } => {
                put_words(lent.answer, &Fields::of_words(first, second).list());
                0
            }
        }
    }

    /// The rules on numbers, registers and lengths that a call breaks, in their order.
    pub fn broken(&self, call: &Call, registers: &[u8], lengths: Lengths) -> Vec<u32> {
        rules::broken(self.flaw, call, registers, lengths)
    }

    /// At 11 nothing is written; else an answer is the number and zeros, an entry two zero words.
    fn refuse(&self, call: &Call, number: u32, answer: &mut [u8]) -> u32 {
        let rightly_sized = call.answer_length() == Some(answer.len());
        let written_at_eleven =
            self.has(Flaw::AnswerAtEleven) || rights::at_eleven(self.flaw, call);
        if !rightly_sized || number == 11 && !written_at_eleven {
            return number;
        }
        if self.has(Flaw::RefusalKeepsAnswer) {
            put_word(answer, 0, number);
            return number;
        }
        if let Call::Rights { .. } = call {
            rights::refuse(self.flaw, number, answer);
            return number;
        }
        let record = match call {
            _ if call.access().is_some() && self.has(Flaw::Record(RecordFlaw::LeftAtRefusal)) => {
                RECORD
            }
            _ => answer.len(),
        };
        answer[..record].fill(0);
        if !matches!(call, Call::Pack(_)) {
            put_word(answer, 0, number);
        }
        number
    }

    /// The mistakes by which a refused register word changes the page.
    fn spoil_page(&self, refusal: u32, page: &mut [u8], register: u32, word: u32) {
        let at = 4 * register as usize;
        let old = match page.get(at..at + 4) {
            Some(bytes) if (2..=5).contains(&refusal) => word_at(bytes, 0),
            _ => return,
        };
        let left = match self.flaw {
            Some(Flaw::RefusedWordLeft) => word,
            Some(Flaw::RefusedWordZeroed) => 0,
            Some(Flaw::RefusedWordReversed) => old.swap_bytes(),
            _ => return,
        };
        put_register(page, register, left);
    }

    fn map(&self, sdr1: u32, page: Page, frame: Fields, table: &mut [u8]) -> u32 {
        let free = search::first_free(self.flaw, sdr1, page, table);
        let mut matches = search::matches(self.flaw, sdr1, page, table);
        if let (true, Some(free)) = (self.has(Flaw::MatchUpToFree), free) {
            matches.retain(|place| place.is_before(&free));
        }
        if free.is_none() && self.has(Flaw::FullBeforeMatch) {
            return 9;
        }
        if !matches.is_empty() {
            return 7;
        }
        let Some(free) = free else { return 9 };
        if free.h == 1 && self.has(Flaw::FullAtPrimary) {
            return 9;
        }
        if self.has(Flaw::MapStoresNothing) {
            return 0;
        }
        let entry = Fields { v: 1, vsid: page.vsid, h: free.h, api: page.api(), ..frame };
        put_words(&mut table[free.at()..], &entry.words());
        0
    }

    fn unmap(&self, sdr1: u32, page: Page, table: &mut [u8], answer: &mut [u8]) -> u32 {
        let matches = search::matches(self.flaw, sdr1, page, table);
        let Some(first) = matches.first() else {
            return self.answer_number(8, answer);
        };
        let mut marks = marks_of(self.edited(&matches));
        for place in self.edited(&matches) {
            if place.h == 0 || !self.has(Flaw::UnmapPrimaryOnly) {
                table[place.at()..place.at() + search::ENTRY].fill(0);
            }
        }
        if self.has(Flaw::UnmapFirstMarks) {
            marks = 0;
        }
        if self.has(Flaw::UnmapMarksOfOneGroup) {
            let of_group = matches.iter().take_while(|place| place.h == first.h);
            marks = marks_of(&of_group.copied().collect::<Vec<Place>>());
        }
        put_words(answer, &[0, first.second | marks, 0, 0]);
        0
    }

    /// The matches that unmap and protect change: all of them.
    fn edited<'a>(&self, matches: &'a [Place]) -> &'a [Place] {
        match matches {
            [one, other] if one.h != other.h && self.has(Flaw::OneOfEachNotSeveral) => {
                &matches[..1]
            }
            _ => matches,
        }
    }

    fn protect(&self, sdr1: u32, page: Page, pp: u32, table: &mut [u8]) -> u32 {
        let mut matches = search::matches(self.flaw, sdr1, page, table);
        if matches.is_empty() {
            return 8;
        }
        if self.has(Flaw::ProtectFirstOnly) {
            matches.truncate(1);
        }
        for place in self.edited(&matches) {
            let mut second = place.second & !0b11 | pp;
            if self.has(Flaw::ProtectIgnoredBits) {
                second &= !IGNORED_BITS;
            }
            put_word(table, place.at() + 4, second);
        }
        0
    }

    fn look(&self, sdr1: u32, page: Page, table: &[u8], answer: &mut [u8]) -> u32 {
        let matches = search::matches(self.flaw, sdr1, page, table);
        if search::contradict(self.flaw, &matches) {
            return self.answer_number(10, answer);
        }
        let Some(first) = matches.first() else {
            return self.answer_number(8, answer);
        };
        let mut second = first.second;
        if self.has(Flaw::LookIgnoredBits) {
            second &= !IGNORED_BITS;
        }
        if self.has(Flaw::LookJoinsMarks) {
            second |= marks_of(&matches);
        }
        put_words(answer, &[0, second, 0, 0]);
        0
    }

    fn answer_number(&self, number: u32, answer: &mut [u8]) -> u32 {
        put_words(answer, &[number, 0, 0, 0]);
        number
    }

    /// An access, with a cache or without.
    fn access(&self, lent: Lent, access: Access, cache: Option<Cache>) -> u32 {
        let registers =
            Registers::read_wrongly(self.flaw, lent.registers).expect("the length was tested");
        let ends = self.ends(&registers, access, lent.table, cache.as_ref());
        let told: Vec<_> = ends.iter().map(|end| (end.part, end.outcome)).collect();
        let words = operand::answer(self.flaw, access, &told);
        let record = self.record(&registers, &ends, lent.table);
        let lent_groups = self.has(Flaw::MarkWritesGroup).then(|| lent.table.to_vec());
        for (number, end) in ends.iter().enumerate() {
            if let (Some(before), Some(place)) = (&lent_groups, end.matches.first()) {
                let group = GROUP * place.group;
                lent.table[group..group + GROUP].copy_from_slice(&before[group..group + GROUP]);
            }
            self.mark_part(&ends, number, lent.table);
        }
        if let Some(mut cache) = cache {
            self.load(&ends, &registers, lent.table, &mut cache);
            cache.write(lent.cache);
        }
        put_words(lent.answer, &words);
        if words[0] != 10 || !self.has(Flaw::Record(RecordFlaw::LeftAtRefusal)) {
            put_words(&mut lent.answer[RECORD..], &record);
        }
        words[0]
    }

    /// The record of the part that is shown, by the table as it is lent; zeros after a refusal.
    fn record(&self, registers: &Registers, ends: &[End], table: &[u8]) -> [u32; 4] {
        let flaw = RecordFlaw::of_model(self.flaw);
        let outcomes: Vec<Outcome> = ends.iter().map(|end| end.outcome).collect();
        let Some(speaking) = record::speaking(flaw, &outcomes) else { return [0; 4] };
        let End { part, outcome, ref matches, page, hit } = ends[speaking];
        let [rule, mut detail] = record::rule_and_detail(flaw, registers, part, outcome);
        if let (Some(RecordFlaw::PpOfNextEntry), 5 | 6, Some(&first)) =
            (flaw, rule, matches.first())
        {
            let next = Place { entry: (first.entry + 1) % 8, ..first };
            detail = detail & !0b11 | word_at(table, next.at() + 4) & 0b11;
        }
        let [group, entry] = match (hit, page) {
            (Some(hit), Some(page)) => self.place_of_hit(registers, outcome, page, hit, table),
            _ => record::place(flaw, registers, part, outcome, matches),
        };
        [rule, detail, group, entry]
    }

    /// Words 10 and 11 of a hit.
    fn place_of_hit(
        &self,
        registers: &Registers,
        outcome: Outcome,
        page: Page,
        hit: Hit,
        table: &[u8],
    ) -> [u32; 2] {
        if !record::has_place(outcome) {
            return [0, 0];
        }
        let [group, entry] = hit.shown(self.flaw, registers.sdr1(), page);
        let first = || search::matches(None, registers.sdr1(), page, table).first().copied();
        match CacheFlaw::of_model(self.flaw) {
            Some(CacheFlaw::TableEntryShown) => {
                [group, first().map_or(entry, |place| place.entry as u32)]
            }
            Some(CacheFlaw::TableGroupShown) => {
                [first().map_or(group, |place| place.group as u32), entry]
            }
            _ => [group, entry],
        }
    }

    /// What each part of an operand comes to under well-formed registers, on the table as it is lent.
    pub fn ends(
        &self,
        registers: &Registers,
        access: Access,
        table: &[u8],
        cache: Option<&Cache>,
    ) -> Vec<End> {
        let parts = operand::parts(self.flaw, registers, access);
        let by_first = self.has(Flaw::SecondBySegmentOfFirst);
        let of_part = |part: Access| match by_first {
            true => registers.with_segment_of(access.address, part.address),
            false => *registers,
        };
        parts.into_iter().map(|part| self.end(&of_part(part), part, table, cache)).collect()
    }

    /// What a part comes to: where it goes by a page, the cache is asked before the table.
    fn end(&self, registers: &Registers, part: Access, table: &[u8], cache: Option<&Cache>) -> End {
        let (page, segment) = match self.before_search(registers, part, cache) {
            BeforeSearch::Settled(outcome) => {
                return End { part, outcome, matches: Vec::new(), page: None, hit: None }
            }
            BeforeSearch::Search { page, segment } => (page, segment),
        };
        if let Some(hit) = cache.and_then(|cache| cache.hit(page, part)) {
            if let Some(end) = self.end_by_hit(registers, segment, part, page, hit, table) {
                return end;
            }
        }
        let mut matches = search::matches(self.flaw, registers.sdr1(), page, table);
        if self.has(Flaw::NeverMatches) {
            matches.clear();
        }
        let outcome = match matches.first() {
            None => Outcome::NoMatch,
            Some(_) if search::contradict(self.flaw, &matches) => Outcome::Contradiction,
            Some(first) => translation::after_match(self.flaw, segment, first.second, part),
        };
        End { part, outcome, matches, page: Some(page), hit: None }
    }

    /// Steps 1 to 3, or a mistake by which the cache is asked before one of them.
    fn before_search(
        &self,
        registers: &Registers,
        part: Access,
        cache: Option<&Cache>,
    ) -> BeforeSearch {
        let right = translation::before_search(self.flaw, registers, part);
        let segment = registers.segment(part.address);
        let page = Page::of_address(segment.vsid(), part.address);
        let wrong = match (CacheFlaw::of_model(self.flaw), &right) {
            (Some(CacheFlaw::BeforeRealMode), BeforeSearch::Settled(Outcome::RealMode))
            | (
                Some(CacheFlaw::BeforeBlocks),
                BeforeSearch::Settled(Outcome::Block { .. } | Outcome::BlockProtection { .. }),
            )
            | (Some(CacheFlaw::BeforeNoExecute), BeforeSearch::Settled(Outcome::NoExecute)) => {
                cache.is_some_and(|cache| cache.hit(page, part).is_some())
            }
            _ => false,
        };
        match wrong {
            true => BeforeSearch::Search { page, segment },
            false => right,
        }
    }

    /// What a hit comes to by the entry as loaded; none where a wrong model goes to the table all the same.
    fn end_by_hit(
        &self,
        registers: &Registers,
        segment: Segment,
        part: Access,
        page: Page,
        hit: Hit,
        table: &[u8],
    ) -> Option<End> {
        let found = || search::matches(None, registers.sdr1(), page, table);
        let flaw = CacheFlaw::of_model(self.flaw);
        let asked = match flaw {
            Some(CacheFlaw::HitNotGuarded | CacheFlaw::BeforeNoExecute) if part.is_fetch() => {
                Access { kind: LOAD, ..part }
            }
            _ => part,
        };
        let mut outcome = translation::after_match(self.flaw, segment, hit.words[1], asked);
        let mut matches = Vec::new();
        match flaw {
            Some(CacheFlaw::HitAsksTable) if found().is_empty() => return None,
            Some(CacheFlaw::HitContradicts) if search::contradict(None, &found()) => {
                outcome = Outcome::Contradiction
            }
            Some(CacheFlaw::HitMarks) => matches = found(),
            Some(CacheFlaw::HitNotProtected) => {
                if let Outcome::Protection { key, pp } = outcome {
                    let Fields { rpn, wimg, .. } = Fields::of_words(0, hit.words[1]);
                    let physical = rpn << 12 | part.address & 0xFFF;
                    outcome = Outcome::Page { key, pp, physical, wimg };
                }
            }
            _ => {}
        }
        Some(End { part, outcome, matches, page: Some(page), hit: Some(hit) })
    }

    /// Loads each page of a done access that went to the table, as its entry stands there now.
    fn load(&self, ends: &[End], registers: &Registers, table: &mut [u8], cache: &mut Cache) {
        let flaw = CacheFlaw::of_model(self.flaw);
        let all_done = ends.iter().all(|end| end.outcome.is_done());
        for (number, end) in ends.iter().enumerate() {
            let page = end.page.or_else(|| self.page_by_block(registers, end));
            let Some(page) = page else { continue };
            if let Some(hit) = &end.hit {
                cache.touch(page, hit);
                continue;
            }
            let loaded = match (flaw, end.outcome) {
                (Some(CacheFlaw::StoreNotLoaded), _) if end.part.is_store() => false,
                (Some(CacheFlaw::FetchNotLoaded), _) if end.part.is_fetch() => false,
                (Some(CacheFlaw::PartNotLoaded(part)), _) if ends.len() == 2 && part == number => {
                    false
                }
                (Some(CacheFlaw::LoadedEarly), Outcome::Page { .. }) => true,
                (Some(CacheFlaw::LoadedAtFault), Outcome::Guarded | Outcome::Protection { .. }) => {
                    true
                }
                (Some(CacheFlaw::LoadedAtContradiction), Outcome::Contradiction) => true,
                (Some(CacheFlaw::LoadedAtNoMatch), Outcome::NoMatch) => true,
                (_, outcome) => all_done && outcome.is_done(),
            };
            if loaded {
                self.load_page(registers, end, page, table, cache);
            }
        }
    }

    /// The page of a part that a block did, for the mistake by which it is loaded.
    fn page_by_block(&self, registers: &Registers, end: &End) -> Option<Page> {
        match (CacheFlaw::of_model(self.flaw), end.outcome) {
            (Some(CacheFlaw::LoadedByBlock), Outcome::Block { .. }) => {
                let vsid = registers.segment(end.part.address).vsid();
                Some(Page::of_address(vsid, end.part.address))
            }
            _ => None,
        }
    }

    fn load_page(
        &self,
        registers: &Registers,
        end: &End,
        page: Page,
        table: &mut [u8],
        cache: &mut Cache,
    ) {
        let flaw = CacheFlaw::of_model(self.flaw);
        let searched = match end.matches.is_empty() {
            true => search::matches(None, registers.sdr1(), page, table),
            false => end.matches.clone(),
        };
        let used = match flaw {
            Some(CacheFlaw::LastMatchLoaded) => searched.last(),
            _ => searched.first(),
        };
        let Some(used) = used else {
            if flaw == Some(CacheFlaw::LoadedAtNoMatch) {
                cache.load(page, [0, 0], page.page_index);
            }
            return;
        };
        let mut entry = [word_at(table, used.at()), word_at(table, used.at() + 4)];
        let left_out = match flaw {
            Some(CacheFlaw::ReferencedInCacheOnly) => REFERENCED,
            Some(CacheFlaw::ChangedInCacheOnly) => CHANGED,
            _ => 0,
        };
        put_word(table, used.at() + 4, entry[1] & !left_out | used.second & left_out);
        match flaw {
            Some(CacheFlaw::LoadedUnmarked) => entry[1] = used.second,
            Some(CacheFlaw::LoadedWithoutH) => entry[0] &= !0x40,
            _ => {}
        }
        let third = match flaw {
            Some(CacheFlaw::SegmentInThird) => end.part.address >> 12,
            _ => page.page_index,
        };
        cache.load(page, entry, third);
    }

    /// The mistake by which a table of wrong length is not asked for where every page hits.
    fn access_without_table(&self, lent: Lent, access: Access) -> u32 {
        let Lent { registers, cache, answer, .. } = lent;
        let set = Registers::read(registers).expect("the length was tested");
        let mut table = vec![0; table_length(set.sdr1())];
        let held = Cache::read(self.flaw, cache);
        let ends = self.ends(&set, access, &table, Some(&held));
        if ends.iter().any(|end| end.page.is_some() && end.hit.is_none()) {
            return self.refuse(&Call::AccessCached(access), 1, answer);
        }
        let lent = Lent { registers, table: &mut table, cache, answer };
        self.access(lent, access, Some(held))
    }

    /// Marks the match that did a part, where every part is done.
    fn mark_part(&self, ends: &[End], number: usize, table: &mut [u8]) {
        let left_out = match number {
            0 => self.has(Flaw::SecondMarkedOnly) && ends.len() == 2,
            _ => self.has(Flaw::FirstMarkedOnly),
        };
        if left_out {
            return;
        }
        let waited_for = match self.has(Flaw::FirstMarkedEarly) {
            true => &ends[..=number],
            false => ends,
        };
        let done = waited_for.iter().all(|end| end.outcome.is_done());
        let changed_here = number == 0 || !self.has(Flaw::ChangedInFirstOnly);
        let marked = if self.has(Flaw::MarksEveryMatch) { 16 } else { 1 };
        for place in ends[number].matches.iter().take(marked) {
            self.mark(done, changed_here, &ends[number], place, table);
        }
    }

    /// R is set by a done access, and C too by a store.
    fn mark(&self, done: bool, changed_here: bool, end: &End, place: &Place, table: &mut [u8]) {
        let stopped = matches!(end.outcome, Outcome::Protection { .. });
        let mut second = place.second;
        if done || stopped && self.has(Flaw::ReferencedByFault) {
            second |= REFERENCED;
        }
        let changes = end.part.is_store() && changed_here;
        if changes && (done || stopped && self.has(Flaw::ChangedByFault)) {
            second |= CHANGED;
        }
        if done && self.has(Flaw::MarkIgnoredBits) {
            second &= !IGNORED_BITS;
        }
        if done && self.has(Flaw::MarksJoined) {
            second |= marks_of(&end.matches);
        }
        if done && self.has(Flaw::MarkLeftToLater) {
            second &= !marks_of(&end.matches[1..]) | place.second;
        }
        put_word(table, place.at() + 4, second);
    }
}

/// R and C, each set if one of these matches has it.
fn marks_of(matches: &[Place]) -> u32 {
    matches.iter().fold(0, |marks, place| marks | place.second & (REFERENCED | CHANGED))
}

/// What a part of an operand comes to, the matches it met in the table, its page where it goes by one, and its hit.
pub struct End {
    pub part: Access,
    pub outcome: Outcome,
    pub matches: Vec<Place>,
    pub page: Option<Page>,
    pub hit: Option<Hit>,
}
