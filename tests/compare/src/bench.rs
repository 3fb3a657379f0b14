//! One call on the model and on what is compared with it, and every lent byte afterwards.

use std::fmt::Write;

use model::bytes::Model;
use model::cache::{CACHE, SET};
use model::call::{Call, Lengths, Lent};
use model::registers::{Layout, Side, LONG_PAGE, SHORT_PAGE};
use model::search::{places, Place};
use model::words::word_at;

use crate::machine::Machine;
use crate::region::{Edge, Region};
use crate::tally::{pages_of, Tally};

/// The first difference met: the run ends with it.
#[derive(Debug)]
pub struct Difference {
    pub text: String,
    /// How many calls had been compared before.
    pub calls: u64,
}

impl Difference {
    pub fn new(text: impl Into<String>) -> Difference {
        let text = text.into();
        Difference { text, calls: 0 }
    }
}

/// What a report shows of the state before a call.
pub struct Before {
    pub registers: Vec<u8>,
    pub places: Vec<Place>,
    /// The words of the cache's sets of these pages.
    pub sets: Vec<(u32, Vec<u32>)>,
}

/// Which slice is lent as the table.
#[derive(Clone, Copy, Debug, PartialEq, Eq)]
pub enum Lending {
    Table,
    /// A slice of another length in the table's place.
    Other,
}

/// Whether the model is asked beside what a section says of the answers itself.
#[derive(Clone, Copy, PartialEq, Eq)]
pub enum Judges {
    ModelAndStatement,
    StatementAlone,
}

pub struct Bench<'a> {
    subject: &'a dyn Machine,
    model: Model,
    pub registers: Region,
    pub table: Region,
    pub other: Region,
    pub cache: Region,
    pub answer: Region,
    pub tally: Tally,
}

impl<'a> Bench<'a> {
    /// A table of `table` bytes, and room for a slice of up to `other` bytes in its place.
    pub fn new(subject: &'a dyn Machine, table: usize, other: usize) -> Bench<'a> {
        let mut bench = Bench {
            subject,
            model: Model::default(),
            registers: Region::new(0),
            table: Region::new(table),
            other: Region::new(other),
            cache: Region::new(CACHE),
            answer: Region::new(0),
            tally: Tally::default(),
        };
        bench.registers.lend(SHORT_PAGE, Edge::End);
        bench.cache.lend(CACHE, Edge::End);
        bench
    }

    /// Lends a register page with these words, as long as they are.
    pub fn put_registers(&mut self, words: &[u32]) {
        self.registers.lend(4 * words.len(), Edge::End);
        for (number, word) in words.iter().enumerate() {
            self.registers.write(4 * number, &word.to_be_bytes());
        }
    }

    /// Lends an answer of the length that the call asks for.
    pub fn lend_answer(&mut self, call: &Call) {
        self.answer.lend(call.answer_length().unwrap_or(0), Edge::End);
    }

    pub fn region(&mut self, lending: Lending) -> &mut Region {
        match lending {
            Lending::Table => &mut self.table,
            Lending::Other => &mut self.other,
        }
    }

    pub fn lengths(&self, lending: Lending) -> Lengths {
        Lengths {
            registers: self.registers.length(),
            table: lent_as_table(&self.table, &self.other, lending).length(),
            cache: self.cache.length(),
            answer: self.answer.length(),
        }
    }

    /// The call on the subject alone.
    pub fn perform(&mut self, call: &Call, lending: Lending) -> u32 {
        self.soil_answer();
        self.tally.calls += 1;
        self.on_subject(call, lending)
    }

    /// The call on the table, with the model or without it.
    pub fn judge(&mut self, call: &Call, judges: Judges) -> Result<u32, Difference> {
        self.judge_lent(call, Lending::Table, judges)
    }

    /// The call on what is lent as the table, with the model or without it.
    pub fn judge_lent(
        &mut self,
        call: &Call,
        lending: Lending,
        judges: Judges,
    ) -> Result<u32, Difference> {
        match judges {
            Judges::ModelAndStatement => self.compare(call, lending),
            Judges::StatementAlone => Ok(self.perform(call, lending)),
        }
    }

    /// The call on both; its number, or what differed.
    pub fn compare(&mut self, call: &Call, lending: Lending) -> Result<u32, Difference> {
        self.soil_answer();
        let before = self.before(call, lending);
        let expected = self.on_model(call, lending);
        let got = self.on_subject(call, lending);
        self.tally.count(call, expected, self.registers.length());
        if expected != got {
            let text = format!("result number\n  expected {expected}\n  got      {got}");
            return Err(self.difference(call, lending, &before, &text));
        }
        for (name, region) in [
            ("registers", &self.registers),
            ("table", lent_as_table(&self.table, &self.other, lending)),
            ("answer", &self.answer),
            ("cache", &self.cache),
        ] {
            if name == "cache" && !call.is_lent_cache() {
                continue;
            }
            if let Some(text) = byte_difference(name, region) {
                return Err(self.difference(call, lending, &before, &text));
            }
        }
        Ok(got)
    }

    /// Old bytes in the answer, other ones each time, show what a call leaves unwritten.
    fn soil_answer(&mut self) {
        let old = self.tally.calls as u8 | 1;
        self.answer.fill(|bytes| bytes.fill(old));
    }

    /// Notes what the call meets, and keeps registers and its pages' entries for a report.
    fn before(&mut self, call: &Call, lending: Lending) -> Before {
        let lengths = self.lengths(lending);
        let table = lent_as_table(&self.table, &self.other, lending).bytes();
        let registers = self.registers.bytes();
        self.tally.note(&self.model, call, registers, table, lengths);
        self.tally.hits.note(&self.model, call, registers, table, self.cache.bytes(), lengths);
        let pages = pages_of(call, registers, table.len());
        let set = |page_index: u32| {
            let bytes = self.cache.bytes().chunks_exact(SET).nth(page_index as usize % 64)?;
            Some((page_index, bytes.chunks_exact(4).map(|word| word_at(word, 0)).collect()))
        };
        let sets = match call {
            Call::AccessCached(_) => {
                pages.iter().filter_map(|(_, page)| set(page.page_index)).collect()
            }
            Call::Invalidate { page_index } => set(*page_index).into_iter().collect(),
            _ => Vec::new(),
        };
        let pages = pages.into_iter();
        let places = pages.flat_map(|(sdr1, page)| places(sdr1, page, table)).collect();
        Before { registers: registers.to_vec(), places, sets }
    }

    fn on_model(&mut self, call: &Call, lending: Lending) -> u32 {
        let table = match lending {
            Lending::Table => self.table.model(),
            Lending::Other => self.other.model(),
        };
        let (registers, cache) = (self.registers.model(), self.cache.model());
        let lent = Lent { registers, table, cache, answer: self.answer.model() };
        self.model.perform(call, lent)
    }

    fn on_subject(&mut self, call: &Call, lending: Lending) -> u32 {
        let table = match lending {
            Lending::Table => self.table.subject(),
            Lending::Other => self.other.subject(),
        };
        let (registers, cache) = (self.registers.subject(), self.cache.subject());
        let lent = Lent { registers, table, cache, answer: self.answer.subject() };
        self.subject.perform(call, lent)
    }

    /// A report of a difference: the inputs, then what was expected and what was got.
    pub fn difference(
        &self,
        call: &Call,
        lending: Lending,
        before: &Before,
        what: &str,
    ) -> Difference {
        let mut text = format!("call {call:x?}\n{:?}\n", self.lengths(lending));
        if call.is_lent_registers() {
            write_registers(&mut text, &before.registers);
        }
        for place in before.places.iter().filter(|place| (place.first, place.second) != (0, 0)) {
            let Place { group, entry, h, .. } = place;
            let words = format!("{:08X} {:08X}", place.first, place.second);
            let _ = writeln!(text, "entry before: group {group:#x} ({h}) entry {entry}: {words}");
        }
        for (page_index, words) in &before.sets {
            let _ = writeln!(text, "set of page index {page_index:04X} before: {words:08X?}");
        }
        text.push_str(what);
        let calls = self.tally.calls;
        Difference { text, calls }
    }
}

fn lent_as_table<'a>(table: &'a Region, other: &'a Region, lending: Lending) -> &'a Region {
    match lending {
        Lending::Table => table,
        Lending::Other => other,
    }
}

fn byte_difference(name: &str, region: &Region) -> Option<String> {
    let (at, expected, got) = region.difference()?;
    let mut text = format!("byte {at} of the {name}, counted from its first lent byte");
    let _ = write!(text, "\n  expected {expected:02X}\n  got      {got:02X}");
    let shown = match usize::try_from(at) {
        Ok(at) if at < region.length() && name == "table" => {
            let entry = at / 8 * 8;
            let _ = write!(text, "\ngroup {:#x} entry {}", at / 64, at / 8 % 8);
            entry..(entry + 8).min(region.length())
        }
        _ => 0..region.length().min(LONG_PAGE),
    };
    let (expected, got) = (&region.bytes()[shown.clone()], &region.subject_bytes()[shown]);
    let _ = write!(text, "\n  expected {expected:02X?}\n  got      {got:02X?}");
    Some(text)
}

fn write_registers(text: &mut String, page: &[u8]) {
    let Some(layout) = Layout::of_length(page.len()) else { return };
    let [instruction, data] =
        [Side::Instruction, Side::Data].map(|side| layout.first_register(side));
    let pairs = layout.pairs;
    for (name, words) in [
        ("SDR1", 0..1),
        ("segments", 1..17),
        ("instruction blocks", instruction..instruction + 2 * pairs),
        ("data blocks", data..data + 2 * pairs),
    ] {
        let words: Vec<_> =
            words.map(|number| format!("{:08X}", word_at(page, 4 * number))).collect();
        let _ = writeln!(text, "{name}: {}", words.join(" "));
    }
}
