//! Two runs of calls after one first clear, each with a table and a cache of its own, of which the second lacks a map
//! or an unmap of the first, be it done or refused. After each later call each of the two tables has at most one mapped
//! page that the other lacks. Mapped is a page whose look is not 8: after each later call every page that calls name
//! is looked at in both. Nothing is asked of invalidates. Where two calls are lost it is at most two pages.

use std::collections::BTreeMap;

use model::cache::CACHE;
use model::call::{Access, Call, Lent, Page};
use model::words::word_at;

use crate::bench::{Bench, Difference, Judges, Lending};
use crate::lists::{contents, page_of_group, put_vsid};
use crate::machine::Machine;
use crate::random::Random;
use crate::region::Edge;
use crate::scenes::{arguments, operands, registers};
use crate::tally::Tally;

/// Ones of the mask, how many pairs of runs, and how many calls in each run after the maps that fill the groups.
const RUNS: [(u32, u32, u32); 3] = [(0, 1_300, 50), (1, 100, 50), (3, 20, 50)];

/// Of so many pairs of runs one lacks two calls.
const TWO_LOST: u32 = 10;

/// Room for slices of another length.
const OTHER: usize = 2 * 65_536 + 4_096;

/// The mapped pages that were looked at, with their second words; none where the matches contradict.
type Mapped = BTreeMap<Page, Option<u32>>;

pub fn run(subject: &dyn Machine, factor: u32) -> Result<Tally, Difference> {
    let tally = run_with(subject, factor, Judges::ModelAndStatement)?;
    match tally.lost.missing().first() {
        None => Ok(tally),
        Some(missing) => Err(Difference::new(format!("the runs were too short: {missing}"))),
    }
}

pub fn run_with(subject: &dyn Machine, factor: u32, judges: Judges) -> Result<Tally, Difference> {
    let mut tally = Tally::default();
    for (ones, pairs, calls) in RUNS {
        let mut runs = [0; 2].map(|_| Bench::new(subject, 65_536 << ones, OTHER));
        runs[0].tally = tally;
        let mut stage = Stage {
            random: Random::new(0x2008 + u64::from(ones)),
            subject,
            runs,
            judges,
            ones,
            sdr1: 0,
            pages: Vec::new(),
            lost: Vec::new(),
            before: Mapped::new(),
            same: true,
        };
        for number in 0..pairs * factor {
            let lost = if number % TWO_LOST == 0 { 2 } else { 1 };
            stage.two_runs(calls, lost)?;
        }
        let [whole, log] = stage.runs;
        tally = whole.tally;
        tally.add(&log.tally);
    }
    Ok(tally)
}

/// What the two runs came to.
#[derive(Default)]
pub struct Counts {
    /// Looks at the pages, which are not counted as calls.
    pub looks: u64,
    /// By the lost call, or the number of them, and what was met.
    met: BTreeMap<(&'static str, &'static str), u64>,
}

impl Counts {
    fn add_one(&mut self, of: &'static str, what: &'static str) {
        *self.met.entry((of, what)).or_default() += 1;
    }

    pub fn add(&mut self, other: &Counts) {
        self.looks += other.looks;
        for (&key, count) in &other.met {
            *self.met.entry(key).or_default() += count;
        }
    }

    /// How often this was met where one call was lost, a map or an unmap.
    pub fn of_one(&self, what: &'static str) -> u64 {
        ["map", "unmap"].iter().filter_map(|of| self.met.get(&(*of, what))).sum()
    }

    pub fn of_two(&self, what: &'static str) -> u64 {
        self.met.get(&(TWO_CALLS, what)).copied().unwrap_or(0)
    }

    /// What has to occur and did not: each way to differ, and each statement that is too strong broken.
    fn missing(&self) -> Vec<String> {
        let after = [FIRST_ONE, SECOND_ONE, ONE_EACH, OTHER_WORDS, BY_NUMBER, CLEARED, MET_AGAIN];
        let of_map =
            ["done", "7", "9", "6", "1"].into_iter().chain(after).map(|what| ("map", what));
        let of_unmap =
            ["done", "8", "6", "1", "11"].into_iter().chain(after).map(|what| ("unmap", what));
        let wanted = of_map.chain(of_unmap).chain([(TWO_CALLS, TWO_PAGES)]);
        let missing = wanted.filter(|key| !self.met.contains_key(key));
        missing.map(|(of, what)| format!("lost {of}, never: {what}")).collect()
    }
}

const TWO_CALLS: &str = "two calls";

/// How the two runs differ after a later call.
pub const DIFFER: &str = "a page of one";
const FIRST_ONE: &str = "the first run has a page";
const SECOND_ONE: &str = "the second run has a page";
/// Against: at most one page in all.
pub const ONE_EACH: &str = "each has a page";
/// Against: common pages have equal second words.
pub const OTHER_WORDS: &str = "a common page with another second word";
/// Against: at most one page after equally many calls.
pub const BY_NUMBER: &str = "two pages after equally many calls";
/// Against: at most one page after two lost calls.
pub const TWO_PAGES: &str = "two pages of one";
const CLEARED: &str = "the same pages by a clear";
const MET_AGAIN: &str = "the same pages by another call";

struct Stage<'a> {
    random: Random,
    subject: &'a dyn Machine,
    /// With every call, and without the lost ones.
    runs: [Bench<'a>; 2],
    judges: Judges,
    ones: u32,
    sdr1: u32,
    /// The few pages that the calls name.
    pages: Vec<Page>,
    /// The calls that the second run lacks so far, with their results in the first.
    lost: Vec<(Call, u32)>,
    /// The pages of the first run after its call before.
    before: Mapped,
    /// Whether the two runs have the same pages.
    same: bool,
}

impl Stage<'_> {
    fn two_runs(&mut self, calls: u32, lost: usize) -> Result<(), Difference> {
        self.sdr1 = arguments::sdr1(&mut self.random, self.ones);
        let first = self.choose_pages();
        let random = &mut self.random;
        for bench in &mut self.runs {
            bench.table.fill(|bytes| random.fill(bytes));
            bench.other.fill(|bytes| random.fill(bytes));
            bench.cache.fill(|bytes| bytes.fill(0));
        }
        self.lost.clear();
        self.same = true;
        self.perform(Call::Clear { sdr1: self.sdr1 }, Lending::Table)?;
        for page in first {
            let call = self.map(page);
            self.perform(call, Lending::Table)?;
        }
        let from: Vec<u32> = (0..lost).map(|_| self.random.below(calls / 2)).collect();
        for number in 0..calls {
            let (call, lending) = self.call();
            let due = from.iter().filter(|&&from| from <= number).count();
            match call {
                Call::Map { .. } | Call::Unmap { .. } if due > self.lost.len() => {
                    self.lose(call, lending)?
                }
                _ => self.perform(call, lending)?,
            }
        }
        match self.judges {
            Judges::ModelAndStatement => self.compare_contents(),
            Judges::StatementAlone => Ok(()),
        }
    }

    /// More pages of one or two pairs of groups than their sixteen entries hold, and neighbours of some. Says which are
    /// mapped at first: nearly or just too many.
    fn choose_pages(&mut self) -> Vec<Page> {
        let random = &mut self.random;
        let n = 10 + self.ones;
        let few = if n < 13 { 6 } else { 40 };
        let vsids: Vec<u32> = (0..few).map(|_| random.word() >> 8).collect();
        let mut first = Vec::new();
        self.pages.clear();
        for _ in 0..random.pick(&[1, 1, 2]) {
            let group = random.below(1 << n);
            let mut pages = Vec::new();
            while pages.len() < 22 {
                let group = if random.once_in(2) { group } else { !group };
                let vsid = random.pick(&vsids);
                let page = page_of_group(random, vsid, group, n);
                if !pages.contains(&page) {
                    pages.push(page);
                }
            }
            first.extend(&pages[..random.pick(&[8, 14, 15, 15, 16, 16, 18])]);
            self.pages.extend(pages);
        }
        for _ in 0..2 {
            let page = random.pick(&self.pages);
            self.pages.push(operands::following(page));
        }
        self.pages.sort();
        self.pages.dedup();
        first
    }

    /// A call, spoiled at times, with all that is lent for it in both runs.
    fn call(&mut self) -> (Call, Lending) {
        let often = [0, self.pages.len() / 2].map(|number| self.pages[number]);
        let random = &mut self.random;
        let from = if random.once_in(3) { &often } else { &self.pages[..] };
        let page = random.pick(from);
        let sdr1 = self.sdr1;
        let call = match random.below(100) {
            0..=39 => self.map(page),
            40..=51 => Call::Unmap { sdr1, page },
            52..=57 => {
                let pp = random.below(4);
                Call::Protect { sdr1, page, pp }
            }
            58..=60 => Call::Look { sdr1, page },
            61 if random.once_in(3) => Call::Clear { sdr1 },
            61..=66 => Call::Invalidate { page_index: page.page_index },
            67..=76 => Call::Access(self.access(page)),
            _ => Call::AccessCached(self.access(page)),
        };
        self.lend(&call, page.vsid);
        match self.random.once_in(8) {
            true => self.spoiled(call),
            false => (call, Lending::Table),
        }
    }

    fn map(&mut self, page: Page) -> Call {
        let random = &mut self.random;
        let (rpn, wimg) = (arguments::within(random, 20), arguments::wimg(random));
        Call::Map { sdr1: self.sdr1, page, rpn, wimg, pp: random.below(4) }
    }

    fn access(&mut self, page: Page) -> Access {
        let random = &mut self.random;
        let mode = random.pick(&[1, 2, 3, 3, 3, 5, 6, 7, 7, 7, 0, 4]);
        let (address, length) = operands::in_page(random, page);
        Access { mode, kind: random.below(3), address, length }
    }

    /// The right lengths, and registers with the VSID in the segment of the address.
    fn lend(&mut self, call: &Call, vsid: u32) {
        let random = &mut self.random;
        let layout = registers::layout(random);
        let mut words = registers::well_formed(random, layout, self.sdr1);
        if let Some(access) = call.access() {
            let segment = (access.address >> 28) as usize;
            put_vsid(&mut words, segment, vsid);
            if random.below(8) > 0 {
                words[17..].fill(0);
            }
        }
        for bench in &mut self.runs {
            bench.put_registers(&words);
            bench.lend_answer(call);
            bench.cache.lend(CACHE, Edge::End);
        }
    }

    /// The call with a number out of its range, or with a slice of another length; at 11 it may bring any SDR1.
    fn spoiled(&mut self, call: Call) -> (Call, Lending) {
        let random = &mut self.random;
        match random.below(5) {
            0 => (arguments::spoiled(random, call, 0), Lending::Table),
            3 if call.access().is_some() => {
                (arguments::with_spoiled_length(random, call), Lending::Table)
            }
            1 if call.answer_length().is_some() => {
                let length = random.pick(&[0, 8, 15, 17, 32, 47, 49, 64]);
                self.runs.iter_mut().for_each(|bench| bench.answer.lend(length, Edge::End));
                (arguments::with_sdr1(call, random.word()), Lending::Table)
            }
            2 if call.is_lent_cache() => {
                let length = random.pick(&[0, 1, 32, 1_024, 2_016, 2_047, 2_049, 4_096]);
                self.runs.iter_mut().for_each(|bench| bench.cache.lend(length, Edge::End));
                (call, Lending::Table)
            }
            _ => {
                let right = 65_536 << self.ones;
                let lengths = [0, 64, right / 2, right - 1, right + 1, 2 * right];
                let length = random.pick(&lengths).min(OTHER);
                self.runs.iter_mut().for_each(|bench| bench.other.lend(length, Edge::End));
                (call, Lending::Other)
            }
        }
    }

    /// The call in the first run alone.
    fn lose(&mut self, call: Call, lending: Lending) -> Result<(), Difference> {
        let number = self.runs[0].judge_lent(&call, lending, self.judges)?;
        self.lost.push((call, number));
        self.before = self.mapped(0)?;
        self.same &= number != 0;
        let result = match number {
            0 => "done",
            1 => "1",
            6 => "6",
            7 => "7",
            8 => "8",
            9 => "9",
            11 => "11",
            _ => "another number",
        };
        self.counts().add_one(call.name(), result);
        Ok(())
    }

    /// The call in both runs, which are then held to each other.
    fn perform(&mut self, call: Call, lending: Lending) -> Result<(), Difference> {
        let mut numbers = [0; 2];
        for (bench, number) in self.runs.iter_mut().zip(&mut numbers) {
            *number = bench.judge_lent(&call, lending, self.judges)?;
        }
        if self.done_and_lost() == 0 {
            self.hold_equal(call, numbers)?;
        }
        match self.lost.is_empty() {
            true => Ok(()),
            false => self.hold_near(call, numbers),
        }
    }

    fn done_and_lost(&self) -> usize {
        self.lost.iter().filter(|(_, number)| *number == 0).count()
    }

    /// Where no done call is lost the two runs are one.
    fn hold_equal(&self, call: Call, numbers: [u32; 2]) -> Result<(), Difference> {
        let [whole, log] = &self.runs;
        let same = numbers[0] == numbers[1]
            && whole.table.subject_bytes() == log.table.subject_bytes()
            && whole.cache.subject_bytes() == log.cache.subject_bytes();
        match same {
            true => Ok(()),
            false => Err(self.difference(call, numbers, "no done call is lost, and they differ")),
        }
    }

    /// At most as many pages of each as done calls are lost, and none from where they have the same.
    fn hold_near(&mut self, call: Call, numbers: [u32; 2]) -> Result<(), Difference> {
        let (whole, log) = (self.mapped(0)?, self.mapped(1)?);
        let [more, less] = [lacking(&whole, &log), lacking(&log, &whole)];
        let most = if self.same { 0 } else { self.done_and_lost() };
        if more.len().max(less.len()) > most {
            let text = format!(
                "at most {most} of each\n  the first run alone has  {more:x?}\n  the second run alone has {less:x?}"
            );
            return Err(self.difference(call, numbers, &text));
        }
        let same_now = more.is_empty() && less.is_empty();
        let met_again = match call {
            _ if self.same || !same_now => None,
            Call::Clear { .. } => Some(CLEARED),
            _ => Some(MET_AGAIN),
        };
        self.same = same_now;
        let differs = |(page, word)| log.get(page).is_some_and(|other| other != word);
        let other_words = whole.iter().any(differs);
        let before = std::mem::replace(&mut self.before, whole);
        let by_number = lacking(&before, &log).len().max(lacking(&log, &before).len()) > 1;
        let of = match self.lost[..] {
            [(call, _)] => call.name(),
            _ => TWO_CALLS,
        };
        let found = [
            (DIFFER, !same_now),
            (FIRST_ONE, more.len() == 1 && less.is_empty()),
            (SECOND_ONE, more.is_empty() && less.len() == 1),
            (ONE_EACH, more.len() == 1 && less.len() == 1),
            (OTHER_WORDS, other_words),
            (BY_NUMBER, by_number),
            (TWO_PAGES, more.len() == 2 || less.len() == 2),
        ];
        let found = found.into_iter().filter(|(_, holds)| *holds).map(|(what, _)| what);
        for what in found.chain(met_again) {
            self.counts().add_one(of, what);
        }
        Ok(())
    }

    fn counts(&mut self) -> &mut Counts {
        &mut self.runs[0].tally.lost
    }

    /// The pages of a run that a look finds.
    fn mapped(&mut self, run: usize) -> Result<Mapped, Difference> {
        let mut mapped = Mapped::new();
        for &page in &self.pages {
            let mut answer = [0; 16];
            let table = self.runs[run].table.subject();
            let lent = Lent { registers: &mut [], table, cache: &mut [], answer: &mut answer };
            let call = Call::Look { sdr1: self.sdr1, page };
            match self.subject.perform(&call, lent) {
                0 => mapped.insert(page, Some(word_at(&answer, 4))),
                10 => mapped.insert(page, None),
                8 => None,
                number => return Err(self.difference(call, [number; 2], "a look")),
            };
        }
        self.counts().looks += self.pages.len() as u64;
        Ok(mapped)
    }

    /// The pages that were looked at are all that the tables have.
    fn compare_contents(&mut self) -> Result<(), Difference> {
        for run in 0..2 {
            let mapped = self.mapped(run)?;
            let found = contents(self.runs[run].table.subject_bytes(), 10 + self.ones);
            if !found.as_ref().is_some_and(|found| found.keys().eq(mapped.keys())) {
                let text =
                    format!("contents of run {run}\n  looked at {mapped:x?}\n  got {found:x?}");
                return Err(Difference { text, calls: self.runs[0].tally.calls });
            }
        }
        Ok(())
    }

    fn difference(&self, call: Call, numbers: [u32; 2], what: &str) -> Difference {
        let lost = &self.lost;
        let text =
            format!("a run and the same without {lost:x?}\ncall {call:x?}: {numbers:?}\n{what}");
        Difference { text, calls: self.runs.iter().map(|bench| bench.tally.calls).sum() }
    }
}

/// The pages of the one that the other lacks.
fn lacking(one: &Mapped, other: &Mapped) -> Vec<Page> {
    one.keys().filter(|page| !other.contains_key(page)).copied().collect()
}
