//! Runs of calls with one cache that began as zeros, beside the same runs without a cache: where each unmap or protect
//! that was done is followed by its invalidate, and each clear by all 64, before the next access with the cache, the
//! two agree in every result, in every answer but its word 11, and in every byte of the table. That word is 8 where
//! the answering part hit. The table begins with a clear, or as anything. After a clear the finite map is asked too.

use std::collections::BTreeSet;

use model::bytes::Model;
use model::cache::{Cache, CACHE, HIT_ENTRY};
use model::call::{Access, Call, Page};
use model::finite_map::FiniteMap;
use model::record;
use model::registers::Registers;
use model::translation::Outcome;
use model::words::word_at;

use crate::bench::{Before, Bench, Difference, Judges, Lending};
use crate::machine::Machine;
use crate::random::Random;
use crate::region::Edge;
use crate::scenes::{arguments, groups, operands, registers};
use crate::tally::Tally;

/// Ones of the mask, how many runs, and how many calls in each.
const RUNS: [(u32, u32, u32); 3] = [(0, 260, 500), (1, 20, 500), (3, 6, 500)];

/// Room for slices of another length.
const OTHER: usize = 2 * 65_536 + 4_096;
const SETS: usize = 64;

pub fn run(subject: &dyn Machine, factor: u32) -> Result<Tally, Difference> {
    let tally = run_with(subject, factor, Judges::ModelAndStatement)?;
    match tally.hits.missing_in_runs().first() {
        None => Ok(tally),
        Some(missing) => Err(Difference::new(format!("the runs were too short: {missing}"))),
    }
}

pub fn run_with(subject: &dyn Machine, factor: u32, judges: Judges) -> Result<Tally, Difference> {
    let mut tally = Tally::default();
    for (ones, runs, calls) in RUNS {
        let [mut cached, plain] = [0; 2].map(|_| Bench::new(subject, 65_536 << ones, OTHER));
        cached.tally = tally;
        let mut stage = Stage {
            random: Random::new(0x2007 + u64::from(ones)),
            cached,
            plain,
            judges,
            map: None,
            ones,
            sdr1: 0,
            pages: Vec::new(),
            stale: BTreeSet::new(),
        };
        for number in 0..runs * factor {
            stage.one_run(calls, number % 3 < 2)?;
        }
        tally = stage.cached.tally;
        tally.calls += stage.plain.tally.calls;
    }
    Ok(tally)
}

struct Stage<'a> {
    random: Random,
    cached: Bench<'a>,
    plain: Bench<'a>,
    judges: Judges,
    /// Where the table began with a clear.
    map: Option<FiniteMap>,
    ones: u32,
    sdr1: u32,
    /// The few pages that the run is about, of few sets.
    pages: Vec<Page>,
    /// The sets that have to be invalidated before the next access with the cache.
    stale: BTreeSet<usize>,
}

impl Stage<'_> {
    fn one_run(&mut self, calls: u32, from_clear: bool) -> Result<(), Difference> {
        self.sdr1 = arguments::sdr1(&mut self.random, self.ones);
        self.choose_pages();
        self.fill_tables();
        self.cached.cache.fill(|bytes| bytes.fill(0));
        self.stale.clear();
        self.map = from_clear.then(FiniteMap::default);
        if from_clear {
            self.perform(Call::Clear { sdr1: self.sdr1 }, Lending::Table)?;
        }
        for _ in 0..calls {
            let page = self.random.pick(&self.pages);
            let call = self.call(page);
            match call.access() {
                Some(access) => self.put_registers(&access, page.vsid),
                None => self.lend_answers(&call),
            }
            match self.random.once_in(12) {
                true => self.refused_call(call)?,
                false => self.perform(call, Lending::Table)?,
            }
        }
        Ok(())
    }

    /// Neighbours of two or three sets, by few VSIDs, zero among them, each page index several times.
    fn choose_pages(&mut self) {
        let random = &mut self.random;
        let mut vsids: Vec<u32> = (0..3).map(|_| random.word() >> 8).collect();
        vsids.push(0);
        let any = random.word() & 0x3E;
        let set = random.pick(&[0, 0x3F, 0x1F, any]);
        self.pages.clear();
        for _ in 0..4 {
            let high = random.word() & 0xFFC0;
            for low in [set, set + 1] {
                let page_index = (high + low) & 0xFFFF;
                for _ in 0..2 {
                    self.pages.push(Page { vsid: random.pick(&vsids), page_index });
                }
            }
        }
        for vsid in [vsids[0], 0] {
            self.pages.push(Page { vsid, page_index: 0xFFFF });
            self.pages.push(Page { vsid, page_index: 0 });
        }
    }

    /// Anything, with entries of the pages: also duplicates and contradictions.
    fn fill_tables(&mut self) {
        let random = &mut self.random;
        self.cached.table.fill(|bytes| random.fill(bytes));
        for &page in &self.pages {
            groups::plant(random, &mut self.cached.table, self.sdr1, page, &groups::MATCHES);
        }
        let table = self.cached.table.bytes().to_vec();
        self.plain.table.write(0, &table);
        for bench in [&mut self.cached, &mut self.plain] {
            bench.other.fill(|bytes| bytes.fill(0x5A));
        }
    }

    fn call(&mut self, page: Page) -> Call {
        let random = &mut self.random;
        let sdr1 = self.sdr1;
        match random.below(100) {
            0..=11 => Call::Map {
                sdr1,
                page,
                rpn: arguments::within(random, 20),
                wimg: arguments::wimg(random),
                pp: random.below(4),
            },
            12..=15 => Call::Unmap { sdr1, page },
            16..=20 => {
                let pp = random.below(4);
                Call::Protect { sdr1, page, pp }
            }
            21..=22 => Call::Look { sdr1, page },
            23 if random.once_in(6) => Call::Clear { sdr1 },
            23..=26 => Call::Invalidate { page_index: page.page_index },
            27..=32 => Call::Access(self.access(page)),
            _ => Call::AccessCached(self.access(page)),
        }
    }

    fn access(&mut self, page: Page) -> Access {
        let random = &mut self.random;
        let mode = random.pick(&[1, 2, 3, 3, 3, 5, 6, 7, 7, 7, 0, 4]);
        let (address, length) = operands::in_page(random, page);
        Access { mode, kind: random.below(3), address, length }
    }

    /// Registers with the VSID in the segment of the address, and one of the run's in the next.
    fn put_registers(&mut self, access: &Access, vsid: u32) {
        let random = &mut self.random;
        let layout = registers::layout(random);
        let mut words = registers::well_formed(random, layout, self.sdr1);
        let segment = (access.address >> 28) as usize;
        for (segment, vsid) in
            [((segment + 1) % 16, random.pick(&self.pages).vsid), (segment, vsid)]
        {
            let word = &mut words[1 + segment];
            *word = *word & 0xFF00_0000 | vsid;
        }
        if random.below(8) > 0 {
            words[17..].fill(0);
        }
        if random.once_in(8) {
            operands::cover_parts(random, &mut words, access);
        }
        for bench in [&mut self.cached, &mut self.plain] {
            bench.put_registers(&words);
            bench.lend_answer(&Call::Access(*access));
        }
    }

    fn lend_answers(&mut self, call: &Call) {
        self.cached.lend_answer(call);
        self.plain.lend_answer(call);
    }

    /// The call spoiled: such a call changes nothing, and no invalidate has to follow it.
    fn refused_call(&mut self, call: Call) -> Result<(), Difference> {
        let random = &mut self.random;
        match random.below(5) {
            0 => {
                let call = arguments::spoiled(random, call, 0);
                self.perform(call, Lending::Table)
            }
            1 => {
                let call = arguments::with_spoiled_length(random, call);
                self.perform(call, Lending::Table)
            }
            2 if call.answer_length().is_some() => {
                let length = random.pick(&[0, 8, 15, 17, 32, 47, 49, 64]);
                self.cached.answer.lend(length, Edge::End);
                self.plain.answer.lend(length, Edge::End);
                self.perform(call, Lending::Table)
            }
            3 if call.is_lent_cache() => {
                let lengths = [0, 1, 16, 32, 1_024, 2_016, 2_047, 2_049, 2_080, 4_096];
                self.cached.cache.lend(random.pick(&lengths), Edge::End);
                let performed = self.perform(call, Lending::Table);
                self.cached.cache.lend(CACHE, Edge::End);
                performed
            }
            _ => {
                let right = 65_536 << self.ones;
                let lengths = [0, 64, right / 2, right - 1, right + 1, 2 * right];
                let length = random.pick(&lengths).min(OTHER);
                self.cached.other.lend(length, Edge::End);
                self.plain.other.lend(length, Edge::End);
                self.perform(call, Lending::Other)
            }
        }
    }

    /// The call in both runs, after the invalidates that have to come before it.
    fn perform(&mut self, call: Call, lending: Lending) -> Result<(), Difference> {
        if let Call::AccessCached(_) = call {
            self.invalidate_stale()?;
        }
        let number = self.in_both(call, lending)?;
        match (call, number) {
            (Call::Unmap { page, .. } | Call::Protect { page, .. }, 0) => {
                self.stale.insert(page.page_index as usize % SETS);
            }
            (Call::Clear { .. }, 0) => self.stale.extend(0..SETS),
            (Call::Invalidate { page_index }, 0) => {
                self.stale.remove(&(page_index as usize % SETS));
            }
            _ => {}
        }
        Ok(())
    }

    /// One invalidate of each set that needs it, by any page index of the set.
    fn invalidate_stale(&mut self) -> Result<(), Difference> {
        let stale: Vec<usize> = std::mem::take(&mut self.stale).into_iter().collect();
        let length = self.cached.cache.length();
        self.cached.cache.lend(CACHE, Edge::End);
        for set in stale {
            let page_index = self.random.word() & 0xFFC0 | set as u32;
            let call = Call::Invalidate { page_index };
            let answer = self.cached.answer.length();
            self.cached.lend_answer(&call);
            self.in_both(call, Lending::Table)?;
            self.cached.answer.lend(answer, Edge::End);
        }
        self.cached.cache.lend(length, Edge::End);
        Ok(())
    }

    /// The call with the cache, and what it is without; the number, or how the two differ.
    fn in_both(&mut self, call: Call, lending: Lending) -> Result<u32, Difference> {
        let registers = self.cached.registers.bytes().to_vec();
        let lengths = self.cached.lengths(lending);
        let hits = self.hits(&call, lending);
        let old_cache = self.cached.cache.subject_bytes().to_vec();
        let before = Before { registers: registers.clone(), places: Vec::new(), sets: Vec::new() };
        let number = self.cached.judge_lent(&call, lending, self.judges)?;
        let expected = self.without_cache(&call, lending)?;
        if number == 11 && old_cache != self.cached.cache.subject_bytes() {
            return Err(self.cached.difference(&call, lending, &before, "the cache changed at 11"));
        }
        let written = call.answer_length() == Some(lengths.answer) && number != 11;
        let words: Option<Vec<u32>> = written.then(|| words_of(self.cached.answer.subject_bytes()));
        let same = number == expected
            && self.cached.table.subject_bytes() == self.plain.table.subject_bytes()
            && words.as_ref().is_none_or(|words| {
                let mut others = words_of(self.plain.answer.subject_bytes());
                if hits {
                    others[11] = HIT_ENTRY;
                }
                *words == others
            });
        if !same {
            let text = format!(
                "a run with a cache and the same without, hit: {hits}\n  with    {number} {words:X?}\n  \
                 without {expected} {:X?}",
                words_of(self.plain.answer.subject_bytes())
            );
            return Err(self.cached.difference(&call, lending, &before, &text));
        }
        if let Some(map) = &mut self.map {
            let reply = map.perform(&call, &registers, lengths);
            if !reply.allows(number, words.as_deref()) {
                let text = format!(
                    "the finite map\n  expected {reply:x?}\n  got      {number} {words:x?}"
                );
                return Err(self.cached.difference(&call, lending, &before, &text));
            }
        }
        Ok(number)
    }

    /// What the call gives in the run that has no cache: an access that would be 11 for its cache is 11.
    fn without_cache(&mut self, call: &Call, lending: Lending) -> Result<u32, Difference> {
        let fits = self.cached.cache.length() == CACHE;
        match *call {
            Call::AccessCached(_) | Call::Invalidate { .. } if !fits => Ok(11),
            Call::Invalidate { page_index } => Ok(if page_index < 65_536 { 0 } else { 6 }),
            Call::AccessCached(access) => {
                self.plain.judge_lent(&Call::Access(access), lending, self.judges)
            }
            _ => self.plain.judge_lent(call, lending, self.judges),
        }
    }

    /// Whether the part that answers hits, by the cache's bytes as they stand.
    fn hits(&self, call: &Call, lending: Lending) -> bool {
        let (Call::AccessCached(access), Lending::Table) = (*call, lending) else { return false };
        let model = Model::default();
        let registers = self.cached.registers.subject_bytes();
        if !model.broken(call, registers, self.cached.lengths(lending)).is_empty() {
            return false;
        }
        let set = Registers::read(registers).expect("the length was tested");
        let cache = Cache::read(None, self.cached.cache.subject_bytes());
        let table = self.cached.table.subject_bytes();
        let ends = model.ends(&set, access, table, Some(&cache));
        let outcomes: Vec<Outcome> = ends.iter().map(|end| end.outcome).collect();
        record::speaking(None, &outcomes).is_some_and(|part| ends[part].hit.is_some())
    }
}

fn words_of(bytes: &[u8]) -> Vec<u32> {
    bytes.chunks_exact(4).map(|word| word_at(word, 0)).collect()
}
