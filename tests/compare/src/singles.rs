//! Single calls on garbage registers and tables.

use model::call::{Access, Call, Page};
use model::registers::Side;

use crate::bench::{Bench, Difference, Lending};
use crate::machine::Machine;
use crate::random::Random;
use crate::region::Edge;
use crate::scenes::registers::Words;
use crate::scenes::{arguments, groups, operands, registers};
use crate::tally::Tally;

/// How many calls are made under a mask of so many ones.
#[rustfmt::skip]
const CALLS: [(u32, u32); 10] = [
    (0, 600_000), (1, 40_000), (2, 20_000), (3, 10_000), (4, 5_000),
    (5, 2_500), (6, 1_200), (7, 600), (8, 300), (9, 150),
];

/// Room for slices of wrong length in the table's place.
const OTHER: usize = 2 * 65_536 + 4_096;

pub fn run(subject: &dyn Machine, factor: u32) -> Result<Tally, Difference> {
    let mut tally = Tally::default();
    for (ones, calls) in CALLS {
        let mut bench = Bench::new(subject, 65_536 << ones, OTHER);
        bench.tally = tally;
        let random = Random::new(0x51E0 + u64::from(ones));
        let mut stage = Stage { random, bench, ones };
        stage.refill();
        for _ in 0..u64::from(calls) * u64::from(factor) {
            stage.one_call()?;
        }
        tally = stage.bench.tally;
    }
    match tally.missing().first() {
        None => Ok(tally),
        Some(missing) => Err(Difference::new(format!("the calls made were too few: {missing}"))),
    }
}

/// One broken rule.
#[derive(Clone, Copy, PartialEq, Eq)]
enum Defect {
    LentLength,
    Argument,
    OperandLength,
    Sdr1,
    BlockShape,
    SharedBlocks,
    Segment,
    TableLength,
}

impl Defect {
    /// Breaks the rule in a register page, if it is one on blocks or segments.
    fn spoil(self, random: &mut Random, words: &mut Words) {
        match self {
            Defect::BlockShape => registers::spoil_block(random, words),
            Defect::SharedBlocks => registers::share_blocks(random, words),
            Defect::Segment => registers::spoil_segment(random, words),
            _ => {}
        }
    }
}

const DEFECTS: [Defect; 8] = [
    Defect::LentLength,
    Defect::Argument,
    Defect::OperandLength,
    Defect::Sdr1,
    Defect::BlockShape,
    Defect::SharedBlocks,
    Defect::Segment,
    Defect::TableLength,
];

struct Stage<'a> {
    random: Random,
    bench: Bench<'a>,
    ones: u32,
}

impl Stage<'_> {
    /// Garbage in everything that can be lent.
    fn refill(&mut self) {
        let random = &mut self.random;
        self.bench.table.fill(|bytes| random.fill(bytes));
        self.bench.other.fill(|bytes| random.fill(bytes));
        self.bench.registers.fill(|bytes| random.fill(bytes));
    }

    fn one_call(&mut self) -> Result<(), Difference> {
        let defects = self.defects();
        let lending = self.lend_table(&defects);
        let sdr1 = self.sdr1(&defects);
        let words = self.registers(sdr1, &defects);
        let mut call = self.call(sdr1, &words);
        if let Call::SetRegister { .. } = call {
            call = self.set_register(words, &defects);
        } else {
            self.bench.put_registers(&words);
        }
        self.plant(&call, &words, lending);
        if defects.contains(&Defect::Argument) {
            call = arguments::spoiled(&mut self.random, call, words.len());
        }
        if defects.contains(&Defect::OperandLength) {
            call = arguments::with_spoiled_length(&mut self.random, call);
        }
        self.bench.lend_answer(&call);
        if defects.contains(&Defect::LentLength) {
            self.spoil_lent_length(&call);
        }
        let number = self.bench.compare(&call, lending)?;
        if let (Call::Clear { .. }, 0) = (call, number) {
            self.refill();
        }
        Ok(())
    }

    fn defects(&mut self) -> Vec<Defect> {
        let count = self.random.pick(&[0, 0, 0, 0, 1, 1, 2, 3]);
        (0..count).map(|_| self.random.pick(&DEFECTS)).collect()
    }

    fn lend_table(&mut self, defects: &[Defect]) -> Lending {
        let right = 65_536 << self.ones;
        if !defects.contains(&Defect::TableLength) {
            return Lending::Table;
        }
        let small = [0, 1, 8, 63, 64, 4_096];
        let near = [right / 2, right - 64, right - 1, right + 1, right + 8, right + 64, 2 * right];
        let lengths: &[usize] = if self.random.once_in(3) { &small } else { &near };
        let length = self.random.pick(lengths);
        self.bench.other.lend(length.min(OTHER), Edge::End);
        Lending::Other
    }

    fn sdr1(&mut self, defects: &[Defect]) -> u32 {
        let sdr1 = arguments::sdr1(&mut self.random, self.ones);
        match defects.contains(&Defect::Sdr1) {
            true => arguments::spoiled_sdr1(&mut self.random, sdr1),
            false => sdr1,
        }
    }

    fn registers(&mut self, sdr1: u32, defects: &[Defect]) -> Words {
        let random = &mut self.random;
        let layout = registers::layout(random);
        let mut words = registers::well_formed(random, layout, sdr1);
        match random.below(16) {
            0..=1 => registers::overlay(random, &mut words),
            2..=3 => registers::adjoin(random, &mut words),
            4 => registers::whole(random, &mut words),
            _ => {}
        }
        for defect in defects {
            defect.spoil(random, &mut words);
        }
        words
    }

    /// A call with arguments in range; `set_register` chooses its own later.
    fn call(&mut self, sdr1: u32, words: &Words) -> Call {
        let random = &mut self.random;
        let page = arguments::page(random);
        match random.below(40) {
            0..=1 => Call::Check,
            2..=5 => Call::SetRegister { number: 0, word: 0 },
            6 if random.once_in(1 << self.ones) => Call::Clear { sdr1 },
            6..=11 => Call::Map {
                sdr1,
                page,
                rpn: arguments::within(random, 20),
                wimg: arguments::wimg(random),
                pp: random.below(4),
            },
            12..=17 => Call::Unmap { sdr1, page },
            18..=21 => {
                let pp = random.below(4);
                Call::Protect { sdr1, page, pp }
            }
            22..=25 => Call::Look { sdr1, page },
            26..=37 => {
                let mode = random.pick(&[0, 1, 2, 3, 3, 4, 5, 6, 7, 7]);
                let kind = random.below(3);
                let (address, length) = operands::anywhere(random, words, Side::of_kind(kind));
                Call::Access(Access { mode, kind, address, length })
            }
            38 => Call::Pack(arguments::fields(random)),
            _ => Call::Unpack { first: random.word(), second: random.word() },
        }
    }

    /// A word that spoils a good page, mends a spoiled one, or is of neither sort.
    fn set_register(&mut self, words: Words, defects: &[Defect]) -> Call {
        let random = &mut self.random;
        let sdr1 = arguments::sdr1(random, self.ones);
        let good = registers::well_formed(random, words.layout, sdr1);
        let mut spoiled = good;
        if defects.contains(&Defect::Sdr1) {
            spoiled[0] = words[0];
        }
        for defect in defects {
            defect.spoil(random, &mut spoiled);
        }
        let all = 0..words.len();
        let differing: Vec<usize> = all.filter(|&word| spoiled[word] != good[word]).collect();
        let number = match differing.is_empty() || random.once_in(4) {
            true => random.index(words.len()),
            false => random.pick(&differing),
        };
        let (lent, word) = match random.below(4) {
            0 => (spoiled, good[number]),
            1 => (good, spoiled[number]),
            2 => (spoiled, spoiled[number]),
            _ => (words, random.word()),
        };
        self.bench.put_registers(&lent);
        let number = number as u32;
        Call::SetRegister { number, word }
    }

    /// Puts entries around the pages that the call is about, wherever the lent slice has their groups.
    fn plant(&mut self, call: &Call, words: &Words, lending: Lending) {
        let pages = match *call {
            Call::Access(access) => {
                let last = access.address.wrapping_add(access.length - 1);
                vec![page_by_segment(words, access.address), page_by_segment(words, last)]
            }
            _ => call.page().into_iter().collect(),
        };
        let mask = (1 << self.ones) - 1;
        let matches: &[u32] = match call {
            Call::Map { .. } => &groups::FEW_MATCHES,
            _ => &groups::MATCHES,
        };
        let (random, table) = (&mut self.random, self.bench.region(lending));
        if table.length() < 65_536 << self.ones {
            return;
        }
        if let Some(&page) = pages.first() {
            groups::plant(random, table, mask, page, matches);
        }
        match pages[..] {
            [page, next] if page != next => {
                groups::plant_next(random, table, mask, [page, next], matches)
            }
            _ => {}
        }
    }

    fn spoil_lent_length(&mut self, call: &Call) {
        let random = &mut self.random;
        let length = random.index(72);
        if call.is_lent_registers() && (call.answer_length().is_none() || random.once_in(3)) {
            let length =
                random.pick(&[0, 3, 4, 128, 131, 133, 136, 160, 164, 192, 195, 197, 200, length]);
            self.bench.registers.lend(length, Edge::End);
        } else if call.answer_length().is_some() {
            self.bench.answer.lend(length, Edge::End);
        }
    }
}

/// The page of an address by the VSID of its segment register.
fn page_by_segment(words: &Words, address: u32) -> Page {
    Page::of_address(words[1 + (address >> 28) as usize] & 0xFF_FFFF, address)
}
