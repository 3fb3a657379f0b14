//! A short register page beside the same page widened by zero pairs, its data pairs moved to their place. In what
//! request 5 says of the two there is no model: the machine's two answers are compared with each other.

use model::call::{Access, Call, Page};
use model::registers::{sdr1_is_well_formed, Layout, Side};
use model::words::put_words;

use crate::bench::{Before, Bench, Difference, Judges, Lending};
use crate::machine::Machine;
use crate::random::Random;
use crate::scenes::registers::{widened_number, Words};
use crate::scenes::{arguments, groups, operands, registers};
use crate::tally::Tally;

const CALLS: u32 = 60_000;
const TABLE: usize = 65_536;

pub fn run(subject: &dyn Machine, factor: u32) -> Result<Tally, Difference> {
    run_with(subject, factor, Judges::ModelAndStatement)
}

pub fn run_with(subject: &dyn Machine, factor: u32, judges: Judges) -> Result<Tally, Difference> {
    let [short, long] = [0; 2].map(|_| Bench::new(subject, TABLE, 0));
    let mut stage = Stage { random: Random::new(0x71DE), short, long, judges };
    for _ in 0..CALLS * factor {
        stage.one_call()?;
    }
    let mut tally = stage.short.tally;
    tally.add(&stage.long.tally);
    Ok(tally)
}

struct Stage<'a> {
    random: Random,
    short: Bench<'a>,
    long: Bench<'a>,
    judges: Judges,
}

/// Whether a pair that is on has one of bits 15 to 18.
fn has_such_bits(words: &Words) -> bool {
    let has = |side| words.set().blocks(side).iter().any(|b| b.is_on() && b.upper & 0x1_E000 != 0);
    has(Side::Instruction) || has(Side::Data)
}

impl Stage<'_> {
    fn one_call(&mut self) -> Result<(), Difference> {
        let words = self.words();
        let (call, new_set) = self.call(&words);
        let such_bits = has_such_bits(&new_set);
        let call = match such_bits {
            true => call,
            false => self.perhaps_spoiled(call),
        };
        self.prepare(&words, &call);
        let on_long = match call {
            Call::SetRegister { number, word } if number < 33 => {
                let number = widened_number(number as usize) as u32;
                Call::SetRegister { number, word }
            }
            // Past the last number of either page.
            Call::SetRegister { word, .. } => Call::SetRegister { number: u32::MAX, word },
            _ => call,
        };
        let short = self.short.judge(&call, self.judges)?;
        let long = self.long.judge(&on_long, self.judges)?;
        let right = match such_bits {
            true => short == if sdr1_is_well_formed(new_set[0]) { 3 } else { 2 },
            false => short == long && self.left_alike(),
        };
        if right {
            return Ok(());
        }
        let text = format!(
            "a short page and the same widened, bits 15 to 18 in a pair that is on: {such_bits}\n  \
             short {short}, answer {:02X?}\n  long  {long}, answer {:02X?}",
            self.short.answer.subject_bytes(),
            self.long.answer.subject_bytes()
        );
        let mut registers = vec![0; words.layout.length()];
        put_words(&mut registers, &words);
        let before = Before { registers, places: Vec::new(), sets: Vec::new() };
        Err(self.short.difference(&call, Lending::Table, &before, &text))
    }

    /// A short page, which often breaks rules.
    fn words(&mut self) -> Words {
        let random = &mut self.random;
        let mut sdr1 = arguments::sdr1(random, 0);
        if random.once_in(12) {
            sdr1 = arguments::spoiled_sdr1(random, sdr1);
        }
        let mut words = registers::well_formed(random, Layout::SHORT, sdr1);
        match random.below(16) {
            0..=1 => registers::overlay(random, &mut words),
            2..=3 => registers::adjoin(random, &mut words),
            4..=5 => registers::spoil_block(random, &mut words),
            6 => registers::share_blocks(random, &mut words),
            7 => registers::spoil_segment(random, &mut words),
            8 => {
                let number =
                    words.pair(random.pick(&[Side::Instruction, Side::Data]), random.index(4));
                words[number] |= 0x2000 << random.below(4);
            }
            _ => {}
        }
        words
    }

    /// A check, a replaced word, an access or rights, and the set that it is judged by.
    fn call(&mut self, words: &Words) -> (Call, Words) {
        let random = &mut self.random;
        match random.below(4) {
            0 => (Call::Check, *words),
            1 => {
                let number = random.index(words.len());
                let sdr1 = arguments::sdr1(random, 0);
                let other = registers::well_formed(random, Layout::SHORT, sdr1);
                let any = random.word();
                let word = random.pick(&[other[number], other[number], any]);
                let mut new_set = *words;
                new_set[number] = word;
                let number = number as u32;
                (Call::SetRegister { number, word }, new_set)
            }
            _ => {
                let mode = random.pick(&[0, 1, 2, 3, 3, 4, 5, 6, 7, 7]);
                let kind = random.below(3);
                let (address, length) = operands::anywhere(random, words, Side::of_kind(kind));
                if random.once_in(4) {
                    return (Call::Rights { mode, address }, *words);
                }
                (Call::Access(Access { mode, kind, address, length }), *words)
            }
        }
    }

    /// Now and then an argument past its range, or an operand of wrong length.
    fn perhaps_spoiled(&mut self, call: Call) -> Call {
        let random = &mut self.random;
        match random.below(20) {
            0 => arguments::spoiled(random, call, Layout::SHORT.words),
            1 => arguments::with_spoiled_length(random, call),
            _ => call,
        }
    }

    /// The same table twice, with entries of the pages that an access or rights are about.
    fn prepare(&mut self, words: &Words, call: &Call) {
        self.short.put_registers(words);
        self.long.put_registers(&words.widened());
        for bench in [&mut self.short, &mut self.long] {
            bench.lend_answer(call);
            bench.table.fill(|bytes| bytes.fill(0));
        }
        if let Some(access) = call.access().or(call.asked().map(|[fetch, ..]| fetch)) {
            let last = access.address.wrapping_add(access.length.wrapping_sub(1) & 0x7F);
            for address in [access.address, last] {
                let vsid = words[1 + (address >> 28) as usize] & 0xFF_FFFF;
                let page = Page::of_address(vsid, address);
                groups::plant(&mut self.random, &mut self.short.table, 0, page, &groups::MATCHES);
            }
            let table = self.short.table.bytes().to_vec();
            self.long.table.write(0, &table);
        }
    }

    /// Whether answer and table are the same bytes, and the long page is the short one widened.
    fn left_alike(&self) -> bool {
        let page = self.short.registers.subject_bytes();
        let mut words = Words::zero(Layout::SHORT);
        for (word, bytes) in words.iter_mut().zip(page.chunks_exact(4)) {
            *word = u32::from_be_bytes([bytes[0], bytes[1], bytes[2], bytes[3]]);
        }
        let mut widened = vec![0; Layout::LONG.length()];
        put_words(&mut widened, &words.widened());
        self.short.answer.subject_bytes() == self.long.answer.subject_bytes()
            && self.short.table.subject_bytes() == self.long.table.subject_bytes()
            && widened == self.long.registers.subject_bytes()
    }
}
