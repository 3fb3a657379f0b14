//! The plain finite map (docs/RULES.md, 8): fed numbers, register words and lengths, no table byte.

use std::collections::BTreeMap;

use crate::arrangement;
use crate::call::{Access, Call, Lengths, Page};
use crate::entry::Fields;
use crate::flaw::{MapFlaw, RecordFlaw};
use crate::operand;
use crate::record;
use crate::registers::Registers;
use crate::rules;
use crate::translation::{self, BeforeSearch, Outcome};

/// What a page is mapped to; V, VSID, H and API are left zero here.
type Frame = Fields;

/// A call's number and, where it has an answer that is written, the answer's words; a word that
/// follows from the table alone is none.
#[derive(Clone, Debug, PartialEq, Eq)]
pub struct Reply {
    pub number: u32,
    pub answer: Option<Vec<Option<u32>>>,
}

impl Reply {
    /// Whether a call's number and the words of its answer are these.
    pub fn allows(&self, number: u32, answer: Option<&[u32]>) -> bool {
        let same = |stated: &[Option<u32>], words: &[u32]| {
            let mut pairs = stated.iter().zip(words);
            stated.len() == words.len()
                && pairs.all(|(one, word)| one.is_none_or(|one| one == *word))
        };
        self.number == number
            && match (&self.answer, answer) {
                (Some(stated), Some(words)) => same(stated, words),
                (stated, words) => stated.is_none() && words.is_none(),
            }
    }
}

#[derive(Clone, Debug, Default)]
pub struct FiniteMap {
    pages: BTreeMap<Page, Frame>,
    flaw: Option<MapFlaw>,
}

impl FiniteMap {
    pub fn with(flaw: Option<MapFlaw>) -> FiniteMap {
        let pages = BTreeMap::new();
        FiniteMap { pages, flaw }
    }

    pub fn pages(&self) -> &BTreeMap<Page, Frame> {
        &self.pages
    }

    /// One call on a table: clear, map, unmap, protect, look, an access with a cache or without, rights; or an
    /// invalidate, which is nothing to the map.
    pub fn perform(&mut self, call: &Call, registers: &[u8], lengths: Lengths) -> Reply {
        if let Some(&number) = rules::broken(None, call, registers, lengths).first() {
            return self.refusal(call, number);
        }
        match *call {
            Call::Clear { .. } => {
                self.pages.clear();
                done(None)
            }
            Call::Map { sdr1, page, rpn, wimg, pp } => {
                let frame = Frame { rpn, wimg, pp, ..Frame::default() };
                self.map(call, sdr1, page, frame)
            }
            Call::Unmap { page, .. } => self.unmap(call, page),
            Call::Protect { page, pp, .. } => match self.pages.get_mut(&page) {
                None => self.refusal(call, 8),
                Some(frame) => {
                    frame.pp = pp;
                    done(None)
                }
            },
            Call::Look { page, .. } => match self.pages.get(&page) {
                None => self.refusal(call, 8),
                Some(frame) => done(Some(second_word(frame))),
            },
            Call::Access(access) | Call::AccessCached(access) => self.access(registers, access),
            Call::Rights { .. } => self.rights(call, registers),
            Call::Invalidate { .. } => done(None),
            _ => panic!("{} is no call on a table", call.name()),
        }
    }

    fn map(&mut self, call: &Call, sdr1: u32, page: Page, frame: Frame) -> Reply {
        if self.pages.contains_key(&page) {
            return self.refusal(call, 7);
        }
        let with_the_new_one = self.pages.keys().copied().chain([page]);
        let choices: Vec<_> = with_the_new_one.map(|page| self.choices(sdr1, page)).collect();
        let capacity = match self.flaw {
            Some(MapFlaw::GroupOfSeven) => 7,
            Some(MapFlaw::GroupOfNine) => 9,
            _ => 8,
        };
        if !arrangement::exists(&choices, capacity) {
            return self.refusal(call, 9);
        }
        self.pages.insert(page, frame);
        done(None)
    }

    /// The two groups that an arrangement may choose for a page.
    fn choices(&self, sdr1: u32, page: Page) -> Vec<u32> {
        let number_bits = (sdr1 & 0x1FF) << 10 | 0x3FF;
        let hash = page.vsid & 0x7_FFFF ^ page.page_index;
        match self.flaw {
            Some(MapFlaw::PrimaryOnly) => vec![hash & number_bits],
            _ => vec![hash & number_bits, !hash & number_bits],
        }
    }

    fn unmap(&mut self, call: &Call, page: Page) -> Reply {
        let Some(&frame) = self.pages.get(&page) else {
            return self.refusal(call, 8);
        };
        if self.flaw != Some(MapFlaw::UnmapKeepsPage) {
            self.pages.remove(&page);
        }
        done(Some(second_word(&frame)))
    }

    fn access(&mut self, registers: &[u8], access: Access) -> Reply {
        let registers = Registers::read(registers).expect("the length was tested");
        let mut ends = Vec::new();
        let mut pages = Vec::new();
        for part in self.parts(&registers, access) {
            let (outcome, page) = self.end(&self.registers_of(&registers, access, part), part);
            ends.push((part, outcome));
            pages.push(page);
        }
        let words = operand::answer(None, access, &ends);
        let done = ends.iter().take_while(|(_, outcome)| outcome.is_done()).count();
        let marked = match self.flaw {
            Some(MapFlaw::FirstMarkedEarly) => done,
            Some(MapFlaw::FirstMarkedOnly) if done == ends.len() => 1,
            _ if done == ends.len() => done,
            _ => 0,
        };
        for (number, page) in pages.into_iter().take(marked).enumerate() {
            if let Some(page) = page {
                self.mark(number, page, access);
            }
        }
        let record = self.record(&registers, &ends);
        let answer = words.into_iter().map(Some).chain(record).collect();
        Reply { number: words[0], answer: Some(answer) }
    }

    /// What each kind of access would answer, then what it would newly mark; the map stays as it is.
    fn rights(&mut self, call: &Call, registers: &[u8]) -> Reply {
        let mut answers = Vec::new();
        let mut marks = Vec::new();
        for access in call.asked().expect("rights are asked of accesses") {
            let mut after = self.clone();
            let reply = after.access(registers, access);
            answers.extend(reply.answer.expect("no rule was broken"));
            let left = after.pages.values().zip(self.pages.values());
            let new = left.fold(0, |new, (left, was)| match self.flaw {
                Some(MapFlaw::RightsTellMarks) if left != was => second_word(left) & 0x180,
                _ => new | second_word(left) ^ second_word(was),
            });
            marks.push(Some(new));
            if self.flaw == Some(MapFlaw::RightsMark) {
                *self = after;
            }
        }
        answers.extend(marks);
        Reply { number: 0, answer: Some(answers) }
    }

    /// The record of the part that is shown; where an entry was used, its place follows from the table.
    fn record(&self, registers: &Registers, ends: &[(Access, Outcome)]) -> [Option<u32>; 4] {
        let flaw = RecordFlaw::of_map(self.flaw);
        let outcomes: Vec<Outcome> = ends.iter().map(|(_, outcome)| *outcome).collect();
        let Some(speaking) = record::speaking(flaw, &outcomes) else { return [Some(0); 4] };
        let (part, outcome) = ends[speaking];
        let [rule, detail] = record::rule_and_detail(flaw, registers, part, outcome);
        let zero = u32::from(record::has_place_too_many(flaw, outcome));
        let place = (!record::has_place(outcome)).then_some(zero);
        [Some(rule), Some(detail), place, place]
    }

    /// The number and zeros, where an answer is written at all.
    fn refusal(&self, call: &Call, number: u32) -> Reply {
        let written = call.answer_length().filter(|_| number != 11);
        let answer = written.map(|length| {
            let mut words = vec![Some(0); length / 4];
            words[0] = Some(number);
            if call.asked().is_some() {
                (words[12], words[24]) = (Some(number), Some(number));
            }
            if let (Some(_), Some(RecordFlaw::LeftAtRefusal)) =
                (call.access(), RecordFlaw::of_map(self.flaw))
            {
                words[8] = Some(3);
            }
            words
        });
        Reply { number, answer }
    }

    fn parts(&self, registers: &Registers, access: Access) -> Vec<Access> {
        let mut parts = operand::parts(None, registers, access);
        if self.flaw == Some(MapFlaw::OnePage) {
            parts.truncate(1);
        }
        parts
    }

    fn registers_of(&self, registers: &Registers, access: Access, part: Access) -> Registers {
        match self.flaw {
            Some(MapFlaw::SecondBySegmentOfFirst) => {
                registers.with_segment_of(access.address, part.address)
            }
            _ => *registers,
        }
    }

    /// What a part comes to, and the page of the map that did it.
    fn end(&self, registers: &Registers, part: Access) -> (Outcome, Option<Page>) {
        let (page, segment) = match translation::before_search(None, registers, part) {
            BeforeSearch::Settled(outcome) => return (outcome, None),
            BeforeSearch::Search { page, segment } => (page, segment),
        };
        match self.pages.get(&page) {
            None => (Outcome::NoMatch, None),
            Some(frame) => {
                let outcome = translation::after_match(None, segment, second_word(frame), part);
                (outcome, Some(page))
            }
        }
    }

    /// R of a page that did a part, and C on a store.
    fn mark(&mut self, number: usize, page: Page, access: Access) {
        let changed = match self.flaw {
            Some(MapFlaw::StoreUnmarked) => false,
            Some(MapFlaw::ChangedInFirstOnly) => number == 0,
            _ => true,
        };
        let frame = self.pages.get_mut(&page).expect("the page was found");
        frame.r = 1;
        if access.is_store() && changed {
            frame.c = 1;
        }
    }
}

fn second_word(frame: &Frame) -> u32 {
    frame.words()[1]
}

fn done(second: Option<u32>) -> Reply {
    Reply { number: 0, answer: second.map(|word| [0, word, 0, 0].map(Some).to_vec()) }
}
