//! Every length of each lent slice around its right one, at both ends of guarded memory and at an
//! odd address.

use std::ops::RangeInclusive;

use model::cache::CACHE;
use model::call::{Access, Call, Page};
use model::entry::Fields;
use model::registers::{LONG_PAGE, SHORT_PAGE};

use crate::bench::{Bench, Difference, Lending};
use crate::cached::plant_set;
use crate::machine::Machine;
use crate::random::Random;
use crate::region::Edge;
use crate::scenes::groups;
use crate::tally::Tally;

const RIGHT: usize = 65_536;
/// The longest slice that is lent as a register page.
const LONGEST_PAGE: usize = 260;
const SDR1: u32 = 0x0F98_0000;
const PAGE: Page = Page { vsid: 0x0C_701C, page_index: 0x0FFA };

/// Lengths of a table: the smallest, those around the right one, and those right for other masks.
fn table_lengths() -> Vec<usize> {
    let ranges: [RangeInclusive<usize>; 4] =
        [0..=80, RIGHT - 80..=RIGHT + 80, RIGHT / 2..=RIGHT / 2, 2 * RIGHT - 1..=2 * RIGHT];
    ranges.into_iter().flatten().collect()
}

/// Calls that would be done, or would end another way, if every length were right.
fn calls() -> Vec<Call> {
    let (sdr1, page) = (SDR1, PAGE);
    let elsewhere = Page { vsid: 1, ..PAGE };
    let operand =
        |mode, kind, address, length| Call::Access(Access { mode, kind, address, length });
    let with_cache =
        |mode, kind, address, length| Call::AccessCached(Access { mode, kind, address, length });
    let access = |mode, kind| operand(mode, kind, 0x00FF_A01B, 1);
    let map = |page, pp| Call::Map { sdr1, page, rpn: 0x12345, wimg: 2, pp };
    let fields = |pp| Fields { v: 1, pp, ..Fields::default() };
    vec![
        Call::Check,
        Call::SetRegister { number: 16, word: 5 },
        Call::SetRegister { number: 32, word: 4 },
        Call::SetRegister { number: 33, word: 4 },
        Call::SetRegister { number: 48, word: 4 },
        Call::SetRegister { number: 49, word: 4 },
        Call::Clear { sdr1 },
        Call::Clear { sdr1: sdr1 | 5 },
        map(elsewhere, 2),
        map(page, 2),
        map(page, 4),
        Call::Unmap { sdr1, page },
        Call::Unmap { sdr1, page: elsewhere },
        Call::Protect { sdr1, page, pp: 3 },
        Call::Look { sdr1, page },
        Call::Look { sdr1: sdr1 | 5, page },
        access(1, 2),
        access(0, 0),
        access(7, 0),
        access(8, 0),
        operand(0, 1, 0x00FF_AFFF, 2),
        operand(1, 2, 0x00FF_AFFF, 128),
        operand(1, 1, 0x00FF_9FFF, 2),
        operand(1, 1, 0x00FF_A01B, 0),
        operand(7, 0, 0x00FF_AFFF, 129),
        with_cache(1, 1, 0x00FF_A01B, 1),
        with_cache(1, 2, 0x00FF_AFFF, 128),
        with_cache(0, 1, 0x00FF_A01B, 1),
        with_cache(8, 1, 0x00FF_A01B, 1),
        with_cache(1, 1, 0x00FF_A01B, 129),
        Call::Rights { mode: 3, address: 0x00FF_A01B },
        Call::Rights { mode: 0, address: 0x00FF_A01B },
        Call::Rights { mode: 7, address: 0x00FF_AFFF },
        Call::Rights { mode: 8, address: 0x00FF_A01B },
        Call::Invalidate { page_index: PAGE.page_index },
        Call::Invalidate { page_index: 65_536 },
        Call::Pack(fields(3)),
        Call::Pack(fields(4)),
        Call::Unpack { first: 0x8638_0E03, second: 0x1234_5012 },
    ]
}

pub fn run(subject: &dyn Machine, _factor: u32) -> Result<Tally, Difference> {
    let mut bench = Bench::new(subject, RIGHT, 2 * RIGHT + 4_096);
    let mut random = Random::new(0x1E46);
    for edge in [Edge::End, Edge::Start, Edge::Odd] {
        for call in calls() {
            let mut stage =
                Stage { random: &mut random, bench: &mut bench, call, edge, cache: CACHE };
            stage.run()?;
        }
    }
    Ok(bench.tally)
}

struct Stage<'a, 'b> {
    random: &'a mut Random,
    bench: &'a mut Bench<'b>,
    call: Call,
    edge: Edge,
    /// The bytes lent as a cache.
    cache: usize,
}

impl Stage<'_, '_> {
    fn run(&mut self) -> Result<(), Difference> {
        let answer = self.call.answer_length().unwrap_or(0);
        if self.call.is_lent_table() {
            for table in table_lengths() {
                self.one(SHORT_PAGE, table, answer)?;
                self.one(LONG_PAGE, table, answer)?;
            }
            self.one(SHORT_PAGE, 7, answer + 1)?;
        }
        if self.call.is_lent_registers() {
            for registers in 0..=LONGEST_PAGE {
                self.one(registers, RIGHT, answer)?;
                self.one(registers, 0, answer + 1)?;
            }
        }
        if self.call.answer_length().is_some() {
            for answer in 0..=answer + 16 {
                self.one(SHORT_PAGE, RIGHT, answer)?;
                self.one(LONG_PAGE, RIGHT, answer)?;
                self.one(SHORT_PAGE, 0, answer)?;
                self.one(0, 0, answer)?;
            }
        }
        if self.call.is_lent_cache() {
            for cache in 0..=CACHE + 80 {
                self.cache = cache;
                self.one(SHORT_PAGE, RIGHT, answer)?;
                if cache % 16 == 0 {
                    self.one(LONG_PAGE, 0, answer)?;
                    self.one(0, RIGHT, answer)?;
                    self.one(SHORT_PAGE, RIGHT, 0)?;
                }
            }
            self.cache = CACHE;
        }
        Ok(())
    }

    /// The call with slices of these lengths, the page's groups planted where the table has them.
    fn one(&mut self, registers: usize, table: usize, answer: usize) -> Result<(), Difference> {
        self.put_registers(registers);
        self.bench.other.lend(table, self.edge);
        if table >= RIGHT {
            groups::plant(self.random, &mut self.bench.other, SDR1, PAGE, &groups::MATCHES);
        }
        self.bench.answer.lend(answer, self.edge);
        self.bench.cache.lend(self.cache, self.edge);
        if self.cache >= CACHE {
            plant_set(self.random, &mut self.bench.cache, PAGE, None);
        }
        self.bench.compare(&self.call, Lending::Other)?;
        Ok(())
    }

    /// A page under which every access of the list is done, as far as it is lent.
    fn put_registers(&mut self, length: usize) {
        let mut words = [0; LONGEST_PAGE / 4];
        words[0] = SDR1;
        words[1] = PAGE.vsid;
        let bytes: Vec<u8> = words.iter().flat_map(|word| word.to_be_bytes()).collect();
        self.bench.registers.lend(length, self.edge);
        self.bench.registers.write(0, &bytes[..length]);
    }
}
