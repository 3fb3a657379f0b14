//! Rights beside the model, and beside three accesses of the same machine, each on the table as it was lent: answers,
//! marks by the second word before and after, and what is refused. A sweep of everything that an address can have, then
//! garbage with matches, duplicates and contradictions of the wanted page and with broken rules.

use model::call::{Access, Call, Page, FETCH, KINDS};
use model::registers::{Layout, Side};
use model::rights::SIZE;
use model::search::{group_numbers, ENTRY, GROUP};
use model::words::word_at;

use crate::bench::{Before, Bench, Difference, Judges, Lending};
use crate::machine::Machine;
use crate::random::Random;
use crate::region::Edge;
use crate::scenes::groups::matching_word;
use crate::scenes::registers::Words;
use crate::scenes::{arguments, groups, operands, registers};
use crate::tally::Tally;

/// How many calls are made under a mask of so many ones.
const CALLS: [(u32, u32); 5] = [(0, 60_000), (1, 5_000), (2, 2_000), (4, 800), (9, 30)];

/// Room for slices of wrong length in the table's place.
const OTHER: usize = 2 * 65_536 + 4_096;

pub fn run(subject: &dyn Machine, factor: u32) -> Result<Tally, Difference> {
    let tally = run_with(subject, factor, Judges::ModelAndStatement)?;
    let mut missing = tally.missing_of(&["rights"]);
    missing.extend(tally.missing_situations(&["rights"]));
    missing.extend(tally.told.missing());
    match missing.first() {
        None => Ok(tally),
        Some(missing) => Err(Difference::new(format!("the calls made were too few: {missing}"))),
    }
}

pub fn run_with(subject: &dyn Machine, factor: u32, judges: Judges) -> Result<Tally, Difference> {
    let mut tally = Tally::default();
    for (ones, calls) in CALLS {
        let mut bench = Bench::new(subject, 65_536 << ones, OTHER);
        bench.tally = tally;
        let random = Random::new(0x4167 + u64::from(ones));
        let mut stage = Stage { random, bench, judges, ones };
        stage.refill();
        for _ in 0..u64::from(calls) * u64::from(factor) {
            stage.one_call()?;
        }
        if ones == 0 {
            stage.sweep()?;
        }
        tally = stage.bench.tally;
    }
    Ok(tally)
}

/// One broken rule.
#[derive(Clone, Copy, PartialEq, Eq)]
enum Defect {
    LentLength,
    Mode,
    Sdr1,
    BlockShape,
    SharedBlocks,
    Segment,
    TableLength,
}

const DEFECTS: [Defect; 7] = [
    Defect::LentLength,
    Defect::Mode,
    Defect::Sdr1,
    Defect::BlockShape,
    Defect::SharedBlocks,
    Defect::Segment,
    Defect::TableLength,
];

struct Stage<'a> {
    random: Random,
    bench: Bench<'a>,
    judges: Judges,
    ones: u32,
}

impl Stage<'_> {
    /// Garbage in everything that can be lent.
    fn refill(&mut self) {
        let random = &mut self.random;
        self.bench.table.fill(|bytes| random.fill(bytes));
        self.bench.other.fill(|bytes| random.fill(bytes));
    }

    fn one_call(&mut self) -> Result<(), Difference> {
        let count = self.random.pick(&[0, 0, 0, 0, 0, 1, 1, 2, 3]);
        let defects: Vec<Defect> = (0..count).map(|_| self.random.pick(&DEFECTS)).collect();
        let has = |defect| defects.contains(&defect);
        let lending = self.lend_table(has(Defect::TableLength));
        let mut words = self.registers(&defects);
        let mut mode = self.random.pick(&[0, 1, 2, 3, 3, 3, 4, 5, 6, 7, 7, 7]);
        let address = self.address(&mut words);
        self.bench.put_registers(&words);
        self.plant(&words, address, lending);
        if has(Defect::Mode) {
            mode = arguments::past(&mut self.random, 8);
        }
        self.bench.answer.lend(SIZE, Edge::End);
        if has(Defect::LentLength) {
            self.spoil_lent_length();
        }
        hold(&mut self.bench, self.judges, mode, address, lending)
    }

    fn lend_table(&mut self, spoiled: bool) -> Lending {
        if !spoiled {
            return Lending::Table;
        }
        let right = 65_536 << self.ones;
        let lengths = [0, 64, right / 2, right - 64, right - 1, right + 1, right + 64, 2 * right];
        let length = self.random.pick(&lengths);
        self.bench.other.lend(length.min(OTHER), Edge::End);
        Lending::Other
    }

    fn registers(&mut self, defects: &[Defect]) -> Words {
        let random = &mut self.random;
        let mut sdr1 = arguments::sdr1(random, self.ones);
        if defects.contains(&Defect::Sdr1) {
            sdr1 = arguments::spoiled_sdr1(random, sdr1);
        }
        let layout = registers::layout(random);
        let mut words = registers::well_formed(random, layout, sdr1);
        if random.once_in(2) {
            words[17..].fill(0);
        }
        for defect in defects {
            match defect {
                Defect::BlockShape => registers::spoil_block(random, &mut words),
                Defect::SharedBlocks => registers::share_blocks(random, &mut words),
                Defect::Segment => registers::spoil_segment(random, &mut words),
                _ => {}
            }
        }
        words
    }

    /// An address anywhere, at an edge of a block, or under a block of one side alone.
    fn address(&mut self, words: &mut Words) -> u32 {
        let random = &mut self.random;
        let side = random.pick(&[Side::Instruction, Side::Data]);
        let (address, _) = operands::anywhere(random, words, side);
        if random.once_in(4) {
            let pair = random.index(words.layout.pairs);
            words[17..].fill(0);
            registers::cover(random, words, pair, address);
            if random.once_in(2) {
                words.put_pair(side, pair, [0, 0]);
            }
        }
        address
    }

    /// Entries of the address's page, wherever the lent slice has its groups.
    fn plant(&mut self, words: &Words, address: u32, lending: Lending) {
        let vsid = words[1 + (address >> 28) as usize] & 0xFF_FFFF;
        let page = Page::of_address(vsid, address);
        let (random, table) = (&mut self.random, self.bench.region(lending));
        if table.length() >= 65_536 << self.ones {
            groups::plant(random, table, (1 << self.ones) - 1, page, &groups::MATCHES);
        }
    }

    fn spoil_lent_length(&mut self) {
        let random = &mut self.random;
        if random.once_in(2) {
            let length = random.pick(&[0, 4, 131, 133, 164, 195, 197]);
            self.bench.registers.lend(length, Edge::End);
        } else {
            let length = random.pick(&[0, 12, 16, 48, 144, 152, SIZE - 1, SIZE + 1, SIZE + 4]);
            self.bench.answer.lend(length, Edge::End);
        }
    }

    /// Every mode by keys and N: a page by WIMG, marks, PP and bit 29 in either group; blocks by V bits, WIMG and PP on
    /// each side alone and on both, over that page; and no match.
    fn sweep(&mut self) -> Result<(), Difference> {
        let random = &mut self.random;
        self.bench.table.fill(|bytes| bytes.fill(0));
        let address = 0x00FF_A000 | random.below(0x1000);
        for mode in 0..8 {
            for keys in 0..8 {
                for layout in Layout::BOTH {
                    let mut words = Words::zero(layout);
                    words[0] = 0x0F98_0000;
                    words[1] = keys << 28 | 0x0C_701C;
                    self.bench.put_registers(&words);
                    self.sweep_pages(mode, address, layout)?;
                    self.sweep_blocks(mode, address, words, keys)?;
                }
            }
        }
        Ok(())
    }

    /// The short page takes the primary group, the long one the secondary.
    fn sweep_pages(&mut self, mode: u32, address: u32, layout: Layout) -> Result<(), Difference> {
        let h = u32::from(layout.is_long());
        self.held(mode, address)?;
        for low in 0..0x200 {
            let entry = low as usize / 8 % 8;
            self.put_page(address, h, entry, Some(0x1234_5000 | low));
            self.held(mode, address)?;
            self.put_page(address, h, entry, None);
        }
        Ok(())
    }

    fn sweep_blocks(
        &mut self,
        mode: u32,
        address: u32,
        page: Words,
        keys: u32,
    ) -> Result<(), Difference> {
        self.put_page(address, 0, 3, Some(0x1234_5012));
        let pair = keys as usize % page.layout.pairs;
        for low in 0..0x100 {
            let block = [0x00FE_0000 | low >> 6, 0x1234_0000 | (low & 0x3C) << 1 | low & 3];
            for sides in [&[Side::Instruction][..], &[Side::Data], &[Side::Instruction, Side::Data]]
            {
                let mut words = page;
                for &side in sides {
                    words.put_pair(side, pair, block);
                }
                self.bench.put_registers(&words);
                self.held(mode, address)?;
            }
        }
        self.put_page(address, 0, 3, None);
        Ok(())
    }

    /// The page's entry in one of its groups, or zeros there.
    fn put_page(&mut self, address: u32, h: u32, entry: usize, second: Option<u32>) {
        let page = Page::of_address(0x0C_701C, address);
        let at = GROUP * group_numbers(0, page)[h as usize] + ENTRY * entry;
        let words = second.map_or([0; 2], |second| [matching_word(page, h), second]);
        self.bench.table.write(at, &words[0].to_be_bytes());
        self.bench.table.write(at + 4, &words[1].to_be_bytes());
    }

    fn held(&mut self, mode: u32, address: u32) -> Result<(), Difference> {
        self.bench.answer.lend(SIZE, Edge::End);
        hold(&mut self.bench, self.judges, mode, address, Lending::Table)
    }
}

/// Rights as lent now, held to three accesses of the same machine; of them the table is left unmarked.
pub fn hold(
    bench: &mut Bench,
    judges: Judges,
    mode: u32,
    address: u32,
    lending: Lending,
) -> Result<(), Difference> {
    let call = Call::Rights { mode, address };
    let registers = bench.registers.bytes().to_vec();
    let lengths = bench.lengths(lending);
    let number = bench.judge_lent(&call, lending, judges)?;
    let before = Before { registers, places: Vec::new(), sets: Vec::new() };
    if bench.registers.difference().is_some() || bench.region(lending).difference().is_some() {
        return Err(bench.difference(&call, lending, &before, "registers or table were written"));
    }
    if lengths.answer != SIZE || Layout::of_length(lengths.registers).is_none() {
        return match number == 11 && bench.answer.difference().is_none() {
            true => Ok(()),
            false => Err(bench.difference(&call, lending, &before, "not 11, or written at 11")),
        };
    }
    let told = bench.answer.subject_bytes().to_vec();
    let mut results = [0; 3];
    for kind in KINDS {
        let part = &told[48 * kind as usize..48 * (kind as usize + 1)];
        let access = Access { mode, kind, address, length: 1 };
        let (answer, marks) = accessed(bench, judges, access, lending, part)?;
        results[kind as usize] = word_at(&answer, 0);
        let told_marks = word_at(&told, 144 + 4 * kind as usize);
        if answer != part || told_marks != marks {
            let text = format!(
                "beside the access of kind {kind}\n  expected {answer:02X?} and marks {marks:x}\n  \
                 got      {part:02X?} and marks {told_marks:x}"
            );
            return Err(bench.difference(&call, lending, &before, &text));
        }
    }
    let shared = if (1..=9).contains(&results[FETCH as usize]) { results[0] } else { 0 };
    if number != shared {
        let text = format!("beside accesses that give {results:?}: {number}");
        return Err(bench.difference(&call, lending, &before, &text));
    }
    if number == 0 {
        bench.tally.told.note(&told);
    }
    Ok(())
}

/// The access's answer and the marks that it sets in the entry that rights told; then the table is as it was.
fn accessed(
    bench: &mut Bench,
    judges: Judges,
    access: Access,
    lending: Lending,
    told: &[u8],
) -> Result<(Vec<u8>, u32), Difference> {
    let [rule, group, entry] = [32, 40, 44].map(|at| word_at(told, at) as usize);
    let at = GROUP.saturating_mul(group).saturating_add(ENTRY * (entry % 8)) + 4;
    let table = bench.region(lending);
    let used = (rule >= 4 && at + 4 <= table.length()).then_some(at);
    let second = used.map(|at| word_at(table.subject_bytes(), at));
    bench.answer.lend(48, Edge::End);
    bench.judge_lent(&Call::Access(access), lending, judges)?;
    let answer = bench.answer.subject_bytes().to_vec();
    let table = bench.region(lending);
    let mut marks = 0;
    if let (Some(at), Some(second)) = (used, second) {
        marks = second ^ word_at(table.subject_bytes(), at);
        table.write(at, &second.to_be_bytes());
    }
    match table.difference() {
        None => Ok((answer, marks)),
        Some(_) => {
            let text = "an access changed another byte than the second word that rights told";
            let registers = bench.registers.bytes().to_vec();
            let before = Before { registers, places: Vec::new(), sets: Vec::new() };
            Err(bench.difference(&Call::Access(access), lending, &before, text))
        }
    }
}
