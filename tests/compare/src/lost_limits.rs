//! What is not said of two runs of which one lacks a call: for each statement too strong, and for each condition, a
//! small run that breaks it, and the difference that shows. Each has to show on the library as it does here.

use std::collections::BTreeMap;

use model::call::{Access, Call, Lent, Page, STORE};
use model::words::{put_words, word_at};

use crate::bench::Difference;
use crate::machine::Machine;
use crate::scenes::groups::matching_word;
use crate::tally::Tally;

const SDR1: u32 = 0;
const FRAME: u32 = 0x12345;

type Limit = fn(&mut Setup) -> bool;

const LIMITS: [(&str, Limit); 10] = [
    ("a page of one alone", one_page),
    ("a page of each at once: two in all", one_each),
    ("another frame and protection of a common page", other_frame),
    ("other marks of a common page", other_marks),
    ("two pages after equally many calls", by_number),
    ("two pages each after two lost calls", two_lost),
    ("two pages after a lost clear", lost_clear),
    ("a refused call more makes no difference", refused_call),
    ("two pages in a table that did not begin with a clear", no_clear),
    ("two pages in a table with another writer", other_writer),
];

pub fn run(subject: &dyn Machine, _factor: u32) -> Result<Tally, Difference> {
    let mut tally = Tally::default();
    for (name, limit) in LIMITS {
        let mut setup = Setup { machine: subject, calls: 0 };
        if !limit(&mut setup) {
            return Err(Difference::new(format!("this did not show: {name}")));
        }
        tally.calls += setup.calls;
    }
    Ok(tally)
}

/// A page of groups 0 and 0x3FF, which have room for sixteen of them.
fn page(number: u32) -> Page {
    Page { vsid: 0x400 * number, page_index: 0 }
}

fn map(number: u32) -> Call {
    map_to(number, FRAME, 2)
}

fn map_to(number: u32, rpn: u32, pp: u32) -> Call {
    Call::Map { sdr1: SDR1, page: page(number), rpn, wimg: 2, pp }
}

fn unmap(number: u32) -> Call {
    Call::Unmap { sdr1: SDR1, page: page(number) }
}

fn maps(numbers: std::ops::Range<u32>) -> Vec<Call> {
    numbers.map(map).collect()
}

struct Setup<'a> {
    machine: &'a dyn Machine,
    calls: u64,
}

/// A run's results, its table, and the mapped ones among the pages, by number, with their second words.
struct Ran {
    numbers: Vec<u32>,
    table: Vec<u8>,
    mapped: BTreeMap<u32, u32>,
}

impl Ran {
    /// The numbers of the pages that the other run lacks.
    fn more_than(&self, other: &Ran) -> Vec<u32> {
        self.mapped.keys().filter(|number| !other.mapped.contains_key(number)).copied().collect()
    }
}

impl Setup<'_> {
    /// A clear and these calls, the lists in a row.
    fn run(&mut self, lists: &[&[Call]]) -> Ran {
        let mut table = vec![0xA5; 65_536];
        self.perform(Call::Clear { sdr1: SDR1 }, &mut table);
        self.run_on(table, lists)
    }

    /// These calls on the table as it is.
    fn run_on(&mut self, mut table: Vec<u8>, lists: &[&[Call]]) -> Ran {
        let calls = lists.concat().into_iter();
        let numbers = calls.map(|call| self.perform(call, &mut table)[0]).collect();
        let mut mapped = BTreeMap::new();
        for number in 0..32 {
            let look = Call::Look { sdr1: SDR1, page: page(number) };
            let answer = self.perform(look, &mut table);
            if answer[0] != 8 {
                mapped.insert(number, answer[1]);
            }
        }
        Ran { numbers, table, mapped }
    }

    /// The result, and the answer's second word; segment 0 has the VSID of page 0.
    fn perform(&mut self, call: Call, table: &mut [u8]) -> [u32; 2] {
        self.calls += 1;
        let mut registers = [0; 132];
        put_words(&mut registers, &[SDR1]);
        let mut answer = [0; 48];
        let answer = &mut answer[..call.answer_length().unwrap_or(0)];
        let lent = Lent { registers: &mut registers, table, cache: &mut [], answer };
        let number = self.machine.perform(&call, lent);
        [number, if answer.is_empty() { 0 } else { word_at(answer, 4) }]
    }
}

fn one_page(setup: &mut Setup) -> bool {
    let whole = setup.run(&[&[map(0), map(1)]]);
    let log = setup.run(&[&[map(1)]]);
    whole.more_than(&log) == [0] && log.more_than(&whole).is_empty()
}

fn one_each(setup: &mut Setup) -> bool {
    let most = maps(0..15);
    let whole = setup.run(&[&most, &[map(15), map(16)]]);
    let log = setup.run(&[&most, &[map(16)]]);
    whole.numbers[15..] == [0, 9]
        && log.numbers[15..] == [0]
        && whole.more_than(&log) == [15]
        && log.more_than(&whole) == [16]
}

fn other_frame(setup: &mut Setup) -> bool {
    let later = [map_to(0, 0x54321, 1)];
    let whole = setup.run(&[&[map(0), unmap(0)], &later]);
    let log = setup.run(&[&[map(0)], &later]);
    whole.numbers == [0, 0, 0]
        && log.numbers == [0, 7]
        && whole.mapped == BTreeMap::from([(0, 0x5432_1011)])
        && log.mapped == BTreeMap::from([(0, 0x1234_5012)])
}

fn other_marks(setup: &mut Setup) -> bool {
    let store = Call::Access(Access { mode: 1, kind: STORE, address: 0x01B, length: 1 });
    let whole = setup.run(&[&[map(0), store, unmap(0), map(0)]]);
    let log = setup.run(&[&[map(0), store, map(0)]]);
    whole.mapped == BTreeMap::from([(0, 0x1234_5012)])
        && log.mapped == BTreeMap::from([(0, 0x1234_5192)])
}

fn by_number(setup: &mut Setup) -> bool {
    let whole = setup.run(&[&[map(0), map(1)]]);
    let log = setup.run(&[&[map(1), unmap(1)]]);
    whole.more_than(&log) == [0, 1] && log.mapped.is_empty()
}

fn two_lost(setup: &mut Setup) -> bool {
    let most = maps(0..14);
    let later = maps(16..18);
    let whole = setup.run(&[&most, &maps(14..16), &later]);
    let log = setup.run(&[&most, &later]);
    whole.more_than(&log) == [14, 15] && log.more_than(&whole) == [16, 17]
}

fn lost_clear(setup: &mut Setup) -> bool {
    let whole = setup.run(&[&[map(0), map(1), Call::Clear { sdr1: SDR1 }]]);
    let log = setup.run(&[&[map(0), map(1)]]);
    whole.mapped.is_empty() && log.more_than(&whole) == [0, 1]
}

/// No limit, but the other end of it: refused 7, 8, 9, 6 or 1, the lost call leaves no byte that differs.
fn refused_call(setup: &mut Setup) -> bool {
    let full = maps(0..16);
    let later = [unmap(3), map(16)];
    let log = setup.run(&[&full, &later]);
    let too_large = Call::Unmap { sdr1: SDR1, page: Page { vsid: 0, page_index: 65_536 } };
    let of_longer = Call::Unmap { sdr1: 0x0001, page: page(3) };
    let refused = [(map(3), 7), (unmap(17), 8), (map(17), 9), (too_large, 6), (of_longer, 1)];
    refused.into_iter().all(|(call, number)| {
        let whole = setup.run(&[&full, &[call], &later]);
        whole.numbers[16..] == [number, 0, 0] && whole.table == log.table
    })
}

/// Two groups full of entries, page 0 twice: its unmap makes room for two.
fn no_clear(setup: &mut Setup) -> bool {
    let mut table = vec![0; 65_536];
    for entry in 0..16 {
        let page = page(if entry == 15 { 0 } else { entry });
        let (h, group) = if entry < 8 { (0, 0) } else { (1, 0x3FF) };
        let at = 64 * group + 8 * (entry as usize % 8);
        put_words(&mut table[at..], &[matching_word(page, h), 0x1234_5012]);
    }
    let later = maps(16..18);
    let whole = setup.run_on(table.clone(), &[&[unmap(0)], &later]);
    let log = setup.run_on(table, &[&later]);
    whole.numbers == [0, 0, 0]
        && log.numbers == [9, 9]
        && whole.more_than(&log) == [16, 17]
        && log.more_than(&whole) == [0]
}

/// The same writer in both runs: it zeroes entries 0 and 2 of group 0, where other pages stand.
fn other_writer(setup: &mut Setup) -> bool {
    let written = |ran: Ran| {
        let mut table = ran.table;
        for entry in [0, 2] {
            table[8 * entry..8 * entry + 8].fill(0);
        }
        table
    };
    let whole = written(setup.run(&[&maps(0..4)]));
    let log = written(setup.run(&[&maps(1..4)]));
    let [whole, log] = [whole, log].map(|table| setup.run_on(table, &[]));
    whole.more_than(&log) == [1, 3] && log.more_than(&whole) == [2]
}
