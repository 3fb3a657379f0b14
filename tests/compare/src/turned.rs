//! An entry matches by its whole first word (request 6): the word that a page's entry has at each of the page's
//! sixteen places, and that word with each of its 32 bits turned, by which no call may find the page. What has to
//! come of it is said here without the model; the model is asked beside it.

use std::iter::once;

use model::call::{Access, Call, Page, FETCH, LOAD, STORE};
use model::registers::{table_length, Layout};
use model::search::{group_numbers, ENTRY, GROUP};
use model::words::word_at;

use crate::bench::{Before, Bench, Difference, Judges, Lending};
use crate::machine::Machine;
use crate::scenes::groups::matching_word;
use crate::scenes::registers::Words;
use crate::tally::Tally;

/// A table, and a page by the VSID of its segment and an address in it.
struct Scene {
    sdr1: u32,
    vsid: u32,
    address: u32,
}

/// Masks of 0, 1, 3 and 5 ones. VSID and API are zeros in the second scene, ones in the third, and in the fourth and
/// the fifth every other bit of them is one.
#[rustfmt::skip]
const SCENES: [Scene; 6] = [
    Scene { sdr1: 0x0F98_0000, vsid: 0x0C_701C, address: 0x00FF_A01B },
    Scene { sdr1: 0x0000_0000, vsid: 0x00_0000, address: 0x0000_0000 },
    Scene { sdr1: 0xFFFF_0000, vsid: 0xFF_FFFF, address: 0xFFFF_FFFF },
    Scene { sdr1: 0x5554_0001, vsid: 0x55_5555, address: 0x5555_5555 },
    Scene { sdr1: 0xAAA8_0007, vsid: 0xAA_AAAA, address: 0xAAAA_AAAA },
    Scene { sdr1: 0x1220_001F, vsid: 0x80_0001, address: 0x7801_F123 },
];

/// The entry's second word: a frame, M and PP 2, so that with key 0 every kind of access is done.
const SECOND: u32 = 0x1234_5012;

pub fn run(subject: &dyn Machine, _factor: u32) -> Result<Tally, Difference> {
    run_with(subject, Judges::ModelAndStatement)
}

pub fn run_with(subject: &dyn Machine, judges: Judges) -> Result<Tally, Difference> {
    let mut tally = Tally::default();
    for scene in &SCENES {
        let mut bench = Bench::new(subject, table_length(scene.sdr1), 0);
        bench.tally = tally;
        scene.put_registers(&mut bench);
        for place in 0..16 {
            for turned in once(0).chain((0..32).map(|bit| 1 << bit)) {
                for call in scene.calls() {
                    scene.one_call(&mut bench, &call, place, turned, judges)?;
                }
            }
        }
        tally = bench.tally;
    }
    Ok(tally)
}

impl Scene {
    fn page(&self) -> Page {
        Page::of_address(self.vsid, self.address)
    }

    /// SDR1 and the segment of the page; every block is off.
    fn put_registers(&self, bench: &mut Bench) {
        let mut words = Words::zero(Layout::SHORT);
        words[0] = self.sdr1;
        words[1 + (self.address >> 28) as usize] = self.vsid;
        bench.put_registers(&words);
    }

    /// The calls that search for the page; accesses are the supervisor's, to one byte, with IR and DR on.
    fn calls(&self) -> [Call; 7] {
        let (sdr1, page) = (self.sdr1, self.page());
        let access = |kind| {
            let (mode, length) = (3, 1);
            Call::Access(Access { mode, kind, address: self.address, length })
        };
        [
            Call::Look { sdr1, page },
            access(FETCH),
            access(LOAD),
            access(STORE),
            Call::Map { sdr1, page, rpn: 0x54321, wimg: 5, pp: 1 },
            Call::Protect { sdr1, page, pp: 3 },
            Call::Unmap { sdr1, page },
        ]
    }

    /// A call with one entry in the page's groups, at a place of the search order: the page's own but for the turned
    /// bits of its first word.
    fn one_call(
        &self,
        bench: &mut Bench,
        call: &Call,
        place: usize,
        turned: u32,
        judges: Judges,
    ) -> Result<(), Difference> {
        let groups = group_numbers(self.sdr1, self.page());
        for group in groups {
            bench.table.write(GROUP * group, &[0; GROUP]);
        }
        let first = matching_word(self.page(), (place / 8) as u32) ^ turned;
        let at = GROUP * groups[place / 8] + ENTRY * (place % 8);
        bench.table.write(at, &first.to_be_bytes());
        bench.table.write(at + 4, &SECOND.to_be_bytes());
        bench.lend_answer(call);
        let number = bench.judge(call, judges)?;
        let found = (turned == 0).then_some([groups[place / 8] as u32, place as u32 % 8]);
        let (expected, words) = self.expected(call, found);
        let answer = bench.answer.subject_bytes();
        let wrong = words.into_iter().find(|&(word, value)| word_at(answer, 4 * word) != value);
        if number == expected && wrong.is_none() {
            return Ok(());
        }
        let text = format!(
            "first word {first:08X} at place {place} of the search order, turned bits {turned:08X}\n  \
             expected {expected}, word of the answer {wrong:X?}\n  got      {number}, answer {answer:02X?}"
        );
        let before = Before {
            registers: bench.registers.bytes().to_vec(),
            places: Vec::new(),
            sets: Vec::new(),
        };
        Err(bench.difference(call, Lending::Table, &before, &text))
    }

    /// The number that a call gives and words of its answer, where the page is found in this group as this entry, or
    /// is not found.
    fn expected(&self, call: &Call, found: Option<[u32; 2]>) -> (u32, Vec<(usize, u32)>) {
        let is_found = found.is_some();
        match *call {
            Call::Map { .. } => (if is_found { 7 } else { 0 }, Vec::new()),
            Call::Protect { .. } => (if is_found { 0 } else { 8 }, Vec::new()),
            Call::Access(access) => match found {
                Some([group, entry]) => {
                    let physical = SECOND & 0xFFFF_F000 | self.address & 0xFFF;
                    (0, vec![(0, 0), (1, physical), (8, 6), (9, 2), (10, group), (11, entry)])
                }
                None => {
                    let number = if access.is_fetch() { 65 } else { 64 };
                    let fault = if access.is_store() { 0x4200_0000 } else { 0x4000_0000 };
                    (number, vec![(0, number), (1, fault), (8, 3), (9, 0), (10, 0), (11, 0)])
                }
            },
            _ if is_found => (0, vec![(0, 0), (1, SECOND)]),
            _ => (8, vec![(0, 8), (1, 0)]),
        }
    }
}
