//! Long lists of calls after a clear, against the model's bytes and against the finite map.

use std::collections::BTreeMap;

use model::call::{Access, Call, Page};
use model::entry::Fields;
use model::finite_map::FiniteMap;
use model::flaw::MapFlaw;
use model::words::word_at;

use crate::bench::{Before, Bench, Difference, Lending};
use crate::machine::Machine;
use crate::random::Random;
use crate::region::Edge;
use crate::scenes::{arguments, operands, registers};
use crate::tally::Tally;

/// Ones of the mask, how many lists, and how many calls in each.
#[rustfmt::skip]
const LISTS: [(u32, u32, u32); 10] = [
    (0, 600, 600), (1, 60, 600), (2, 30, 600), (3, 15, 600), (4, 8, 600),
    (5, 4, 400), (6, 2, 400), (7, 2, 300), (8, 1, 300), (9, 1, 200),
];

/// Room for slices of another length.
const OTHER: usize = 2 * 65_536 + 4_096;

/// What every answer is held to.
#[derive(Clone, Copy, PartialEq, Eq)]
pub enum Judges {
    ModelAndMap,
    MapAlone,
}

pub fn run(subject: &dyn Machine, factor: u32) -> Result<Tally, Difference> {
    let tally = run_with(subject, factor, Judges::ModelAndMap, None)?;
    for key in MET {
        if !tally.numbers().contains_key(&key) {
            let text = format!("the lists were too short: {} never gave {}", key.0, key.1);
            return Err(Difference::new(text));
        }
    }
    let mut missing = tally.operands.missing_in_lists();
    missing.extend(tally.decisions.missing());
    missing.extend(tally.gaps.missing_in_lists());
    missing.extend(tally.pages.missing_in_lists());
    match missing.first() {
        None => Ok(tally),
        Some(missing) => Err(Difference::new(format!("the lists were too short: {missing}"))),
    }
}

/// Results that have to occur in the lists.
#[rustfmt::skip]
const MET: [(&str, u32); 38] = [
    ("clear", 0), ("clear", 1), ("clear", 2),
    ("map", 0), ("map", 1), ("map", 2), ("map", 6), ("map", 7), ("map", 9),
    ("unmap", 0), ("unmap", 1), ("unmap", 6), ("unmap", 8), ("unmap", 11),
    ("protect", 0), ("protect", 1), ("protect", 6), ("protect", 8),
    ("look", 0), ("look", 1), ("look", 6), ("look", 8), ("look", 11),
    ("access", 0), ("access", 64), ("access", 65), ("access", 1), ("access", 6), ("access", 11),
    ("access", 12),
    ("rights", 0), ("rights", 1), ("rights", 2), ("rights", 3), ("rights", 4), ("rights", 5),
    ("rights", 6), ("rights", 11),
];

pub fn run_with(
    subject: &dyn Machine,
    factor: u32,
    judges: Judges,
    map_flaw: Option<MapFlaw>,
) -> Result<Tally, Difference> {
    let mut tally = Tally::default();
    for (ones, lists, calls) in LISTS {
        let mut bench = Bench::new(subject, 65_536 << ones, OTHER);
        bench.tally = tally;
        let random = Random::new(0x1157 + u64::from(ones));
        let mut stage = Stage {
            random,
            bench,
            judges,
            map: FiniteMap::with(map_flaw),
            ones,
            sdr1: 0,
            pages: Vec::new(),
            neighbours: Vec::new(),
        };
        for _ in 0..lists * factor {
            stage.one_list(calls)?;
        }
        tally = stage.bench.tally;
    }
    Ok(tally)
}

struct Stage<'a> {
    random: Random,
    bench: Bench<'a>,
    judges: Judges,
    map: FiniteMap,
    ones: u32,
    sdr1: u32,
    /// The few pages that the list is about.
    pages: Vec<Page>,
    /// Those of them that an operand can lie in two of.
    neighbours: Vec<Page>,
}

impl Stage<'_> {
    fn one_list(&mut self, calls: u32) -> Result<(), Difference> {
        self.sdr1 = arguments::sdr1(&mut self.random, self.ones);
        self.choose_pages();
        let random = &mut self.random;
        self.bench.table.fill(|bytes| random.fill(bytes));
        self.bench.other.fill(|bytes| random.fill(bytes));
        self.perform(Call::Clear { sdr1: self.sdr1 }, Lending::Table)?;
        for number in 0..calls {
            let quarter = number * 4 / calls;
            let filling = matches!(quarter, 0 | 2);
            let page = self.choose_page();
            let mut call = self.call(page, filling);
            if let Call::Access(access) = &mut call {
                self.choose_operand(access, page);
            }
            call = self.rights_instead(call);
            self.bench.lend_answer(&call);
            match self.random.once_in(8) {
                true => self.refused_call(call)?,
                false => self.perform(call, Lending::Table)?,
            }
        }
        self.compare_contents()
    }

    /// Pages of few pairs of groups, more for each pair than its sixteen entries can hold.
    fn choose_pages(&mut self) {
        let random = &mut self.random;
        let n = 10 + self.ones;
        let few = if n < 13 { random.pick(&[3, 5, 12]) } else { 40 };
        let vsids: Vec<u32> = (0..few).map(|_| random.word() >> 8).collect();
        self.pages.clear();
        for _ in 0..random.pick(&[1, 2, 3]) {
            let group = random.below(1 << n);
            for _ in 0..random.pick(&[20, 30, 40]) {
                let vsid = random.pick(&vsids);
                let group = if random.once_in(2) { group } else { !group };
                self.pages.push(page_of_group(random, vsid, group, n));
            }
        }
        self.choose_neighbours(&vsids);
        self.pages.sort();
        self.pages.dedup();
    }

    /// Pages that an operand can lie in together: of any groups, at a block's end, of the same two
    /// groups, of two segments.
    fn choose_neighbours(&mut self, vsids: &[u32]) {
        let random = &mut self.random;
        let mut pages: Vec<Page> = (0..3).map(|_| random.pick(&self.pages)).collect();
        let half_of_groups = (1 << (9 + self.ones)) - 1;
        for page_index in [random.word() & 0x7FE0 | 0x1F, half_of_groups & 0x7FFF] {
            pages.push(Page { vsid: random.pick(vsids), page_index });
        }
        pages.extend(pages.clone().into_iter().map(operands::following));
        let vsid = random.pick(vsids);
        pages.push(Page { vsid, page_index: 0xFFFF });
        let in_next = [vsid, vsid ^ 0xFFFF, random.pick(vsids)];
        pages.extend(in_next.map(|vsid| Page { vsid, page_index: 0 }));
        self.pages.extend(&pages);
        self.neighbours = pages;
    }

    /// One of the pages, more often a neighbour of another, or one that is not mapped.
    fn choose_page(&mut self) -> Page {
        if self.random.once_in(3) {
            return self.random.pick(&self.neighbours);
        }
        let page = self.random.pick(&self.pages);
        match self.map.pages().contains_key(&page) {
            true => self.random.pick(&self.pages),
            false => page,
        }
    }

    /// A call that no rule on numbers, registers or lengths refuses; an access has no operand yet.
    fn call(&mut self, page: Page, filling: bool) -> Call {
        let random = &mut self.random;
        let sdr1 = self.sdr1;
        match random.below(if filling { 40 } else { 50 }) {
            0..=3 => Call::Look { sdr1, page },
            4..=8 => {
                let pp = random.below(4);
                Call::Protect { sdr1, page, pp }
            }
            9..=20 => Call::Access(Access {
                mode: random.pick(&[1, 2, 3, 3, 5, 6, 7, 7, 0, 4]),
                kind: random.below(3),
                address: 0,
                length: 1,
            }),
            21 if random.once_in(10) => Call::Clear { sdr1 },
            21..=23 => Call::Unmap { sdr1, page },
            24..=39 => Call::Map {
                sdr1,
                page,
                rpn: arguments::within(random, 20),
                wimg: arguments::wimg(random),
                pp: random.below(4),
            },
            _ => Call::Unmap { sdr1, page },
        }
    }

    /// Rights at an access's address in the place of the access, now and then.
    fn rights_instead(&mut self, call: Call) -> Call {
        match call {
            Call::Access(Access { mode, address, .. }) if self.random.once_in(6) => {
                Call::Rights { mode, address }
            }
            _ => call,
        }
    }

    /// An operand in the page, or in one of two mapped neighbours, with registers for it.
    fn choose_operand(&mut self, access: &mut Access, page: Page) {
        let mapped = self.map.pages();
        let before_mapped = |page: &&Page| {
            page.page_index == 0xFFFF || mapped.contains_key(&operands::following(**page))
        };
        let firsts: Vec<Page> = mapped.keys().filter(before_mapped).copied().collect();
        let page = match firsts.is_empty() || self.random.once_in(3) {
            true => page,
            false => self.random.pick(&firsts),
        };
        (access.address, access.length) = operands::in_page(&mut self.random, page);
        self.put_registers(access, page.vsid);
    }

    /// Registers with the VSID in the segment of the address, and one of the list's in the next.
    fn put_registers(&mut self, access: &Access, vsid: u32) {
        let random = &mut self.random;
        let layout = registers::layout(random);
        let mut words = registers::well_formed(random, layout, self.sdr1);
        let segment = (access.address >> 28) as usize;
        let in_next = self.neighbours.iter().filter(|page| page.page_index == 0);
        let in_next: Vec<u32> = in_next.map(|page| page.vsid).collect();
        put_vsid(&mut words, (segment + 1) % 16, random.pick(&in_next));
        put_vsid(&mut words, segment, vsid);
        if random.below(4) > 0 {
            words[17..].fill(0);
        }
        if random.once_in(4) {
            operands::cover_parts(random, &mut words, access);
        }
        self.bench.put_registers(&words);
    }

    /// The call spoiled in a way that is open to it: a refusal leaves the table as it was.
    fn refused_call(&mut self, call: Call) -> Result<(), Difference> {
        let random = &mut self.random;
        match random.below(6) {
            0 => {
                let call = arguments::spoiled(random, call, 0);
                self.perform(call, Lending::Table)
            }
            5 => {
                let call = arguments::with_spoiled_length(random, call);
                self.perform(call, Lending::Table)
            }
            1 => {
                let sdr1 = arguments::spoiled_sdr1(random, self.sdr1);
                self.perform_under(call, sdr1, Lending::Table)
            }
            2 => self.refused_by_registers(call),
            3 if call.answer_length().is_some() => self.refused_by_length(call),
            _ => {
                self.lend_other();
                self.perform(call, Lending::Other)
            }
        }
    }

    /// A slice of another length in the table's place.
    fn lend_other(&mut self) {
        let right = 65_536 << self.ones;
        let lengths =
            [0, 8, 64, right / 2, right - 64, right - 1, right + 1, right + 64, 2 * right];
        let length = self.random.pick(&lengths).min(OTHER);
        self.bench.other.lend(length, Edge::End);
    }

    /// A length refused 11 may come with any SDR1 or none, and with any slice as the table.
    fn refused_by_length(&mut self, call: Call) -> Result<(), Difference> {
        let random = &mut self.random;
        let sdr1 = random.word();
        let length = random.pick(&[0, 4, 8, 12, 15, 17, 20, 32, 47, 49, 64, 155, 157]);
        let page = random.pick(&[0, 4, 64, 131, 133, 136, 160, 164, 192, 195, 197, 200]);
        let lending = random.pick(&[Lending::Table, Lending::Other]);
        let no_registers = random.once_in(2);
        self.lend_other();
        match call.translates() && no_registers {
            true => self.bench.registers.lend(page, Edge::End),
            false => self.bench.answer.lend(length, Edge::End),
        }
        self.perform_under(call, sdr1, lending)
    }

    fn perform_under(&mut self, call: Call, sdr1: u32, lending: Lending) -> Result<(), Difference> {
        if call.translates() && self.bench.registers.length() >= 4 {
            self.bench.registers.write(0, &sdr1.to_be_bytes());
        }
        self.perform(arguments::with_sdr1(call, sdr1), lending)
    }

    /// Blocks or segments of wrong shape under the list's own SDR1, where registers are lent.
    fn refused_by_registers(&mut self, call: Call) -> Result<(), Difference> {
        if call.translates() {
            let random = &mut self.random;
            let layout = registers::layout(random);
            let mut words = registers::well_formed(random, layout, self.sdr1);
            match random.below(3) {
                0 => registers::spoil_block(random, &mut words),
                1 => registers::share_blocks(random, &mut words),
                _ => registers::spoil_segment(random, &mut words),
            }
            self.bench.put_registers(&words);
        }
        self.perform(call, Lending::Table)
    }

    /// The call on the subject, held to its judges.
    fn perform(&mut self, call: Call, lending: Lending) -> Result<(), Difference> {
        let registers = self.bench.registers.bytes().to_vec();
        let lengths = self.bench.lengths(lending);
        let number = match self.judges {
            Judges::ModelAndMap => self.bench.compare(&call, lending)?,
            Judges::MapAlone => self.bench.perform(&call, lending),
        };
        let answer = self.bench.answer.subject_bytes();
        let written = call.answer_length() == Some(answer.len()) && number != 11;
        let words: Vec<u32> = answer.chunks_exact(4).map(|word| word_at(word, 0)).collect();
        let words = written.then_some(&words[..]);
        let expected = self.map.perform(&call, &registers, lengths);
        if expected.allows(number, words) {
            return Ok(());
        }
        let got = format!("{number} {words:x?}");
        let text = format!("the finite map\n  expected {expected:x?}\n  got      {got}");
        let before = Before { registers, places: Vec::new(), sets: Vec::new() };
        Err(self.bench.difference(&call, lending, &before, &text))
    }

    /// The entries in the table are the finite map's pages, each once.
    fn compare_contents(&self) -> Result<(), Difference> {
        let table = self.bench.table.subject_bytes();
        let found = contents(table, 10 + self.ones);
        if found.as_ref() == Some(self.map.pages()) {
            return Ok(());
        }
        let expected = self.map.pages();
        let text = format!("contents\n  expected {expected:x?}\n  got      {found:x?}");
        let calls = self.bench.tally.calls;
        Err(Difference { text, calls })
    }
}

pub fn put_vsid(words: &mut registers::Words, segment: usize, vsid: u32) {
    let word = &mut words[1 + segment];
    *word = *word & 0xFF00_0000 | vsid;
}

/// A page whose hash ends in the given group number: the VSID's bits past a page index follow it.
pub fn page_of_group(random: &mut Random, vsid: u32, group: u32, n: u32) -> Page {
    let number_bits = (1u32 << n) - 1;
    let past_index = number_bits & !0xFFFF;
    let vsid = vsid & !past_index | group & past_index;
    let fixed = (vsid ^ group) & number_bits & 0xFFFF;
    let free = random.word() & 0x1C00 & !number_bits;
    Page { vsid, page_index: fixed | free }
}

/// The pages that a table's used entries stand for; none where one is astray or comes twice.
pub fn contents(table: &[u8], n: u32) -> Option<BTreeMap<Page, Fields>> {
    let number_bits = (1u32 << n) - 1;
    let mut pages = BTreeMap::new();
    for at in (0..table.len()).step_by(8).filter(|&at| table[at] & 0x80 != 0) {
        let entry = Fields::of_words(word_at(table, at), word_at(table, at + 4));
        let group = (at / 64) as u32;
        let hash = if entry.h == 0 { group } else { number_bits - group };
        let page =
            Page { vsid: entry.vsid, page_index: entry.api << 10 | (hash ^ entry.vsid) & 0x3FF };
        let in_its_group = (page.vsid ^ page.page_index ^ hash) & number_bits == 0;
        let frame = Fields { v: 0, vsid: 0, h: 0, api: 0, ..entry };
        if !in_its_group || pages.insert(page, frame).is_some() {
            return None;
        }
    }
    Some(pages)
}
