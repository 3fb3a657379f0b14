//! The twelve cases (docs/RULES.md, 9), with the values stated there.

use model::call::{Access, Call, Lent, Page, STORE};
use model::words::{put_words, word_at};

use crate::bench::Difference;
use crate::machine::Machine;

const SDR1: u32 = 0x0F98_0007;
const PAGE: Page = Page { vsid: 0x0C_701C, page_index: 0x0FFA };
const ADDRESS: u32 = 0x00FF_A01B;

/// A machine with a table and registers, all blocks off and segment 0 at the page's VSID.
struct Setup<'a> {
    machine: &'a dyn Machine,
    registers: [u32; 33],
    table: Vec<u8>,
    answer: [u8; 48],
}

pub fn run(machine: &dyn Machine) -> Result<(), Difference> {
    let cases: [fn(&dyn Machine) -> bool; 12] = [
        case_1, case_2, case_3, case_4, case_5, case_6, case_7, case_8, case_9, case_10, case_11,
        case_12,
    ];
    for (number, case) in (1..).zip(cases) {
        if !case(machine) {
            let text = format!("case {number} of the twelve does not hold");
            return Err(Difference::new(text));
        }
    }
    Ok(())
}

impl<'a> Setup<'a> {
    fn new(machine: &'a dyn Machine, sdr1: u32) -> Setup<'a> {
        let mut registers = [0; 33];
        registers[0] = sdr1;
        registers[1] = PAGE.vsid;
        let table = vec![0; 65_536 * (sdr1 as usize % 512 + 1)];
        let answer = [0; 48];
        Setup { machine, registers, table, answer }
    }

    fn perform(&mut self, call: Call) -> u32 {
        let mut registers = [0; 132];
        put_words(&mut registers, &self.registers);
        let lent = Lent {
            registers: &mut registers,
            table: &mut self.table,
            cache: &mut [],
            answer: &mut self.answer[..call.answer_length().unwrap_or(0)],
        };
        self.machine.perform(&call, lent)
    }

    fn map(&mut self, page: Page, pp: u32) -> u32 {
        let sdr1 = self.registers[0];
        let (rpn, wimg) = (0x12345, 2);
        let call = Call::Map { sdr1, page, rpn, wimg, pp };
        self.perform(call)
    }

    fn unmap(&mut self, page: Page) -> u32 {
        let sdr1 = self.registers[0];
        self.perform(Call::Unmap { sdr1, page })
    }

    /// The second word of the answer to a supervisor's access to a byte, data translation on.
    fn access(&mut self, kind: u32, address: u32) -> u32 {
        let (mode, length) = (1, 1);
        let access = Access { mode, kind, address, length };
        self.perform(Call::Access(access));
        word_at(&self.answer, 4)
    }

    fn entry(&self, at: usize) -> [u32; 2] {
        [word_at(&self.table, at), word_at(&self.table, at + 4)]
    }
}

/// Other pages of the case's VSID and groups: their hash differs in bits past the group number.
fn page_in_same_groups(number: u32) -> Page {
    let page_index = PAGE.page_index ^ number << 13;
    Page { page_index, ..PAGE }
}

fn case_1(machine: &dyn Machine) -> bool {
    let mut setup = Setup::new(machine, SDR1);
    for number in 0..8 {
        setup.map(page_in_same_groups(number), 2);
    }
    let ninth = Page { vsid: PAGE.vsid ^ 0x80_0000, ..PAGE };
    setup.map(ninth, 2);
    let primary = 0x0F9F_F980 - 0x0F98_0000;
    let secondary = 0x0F98_0640 - 0x0F98_0000;
    setup.entry(primary)[0] == 0x8638_0E03
        && setup.entry(primary + 56)[0] != 0
        && setup.entry(secondary)[0] == 0xC638_0E43
}

fn case_2(machine: &dyn Machine) -> bool {
    let mut setup = Setup::new(machine, SDR1);
    let done = setup.map(PAGE, 2) == 0 && setup.entry(0x7_F980) == [0x8638_0E03, 0x1234_5012];
    let mut setup = Setup::new(machine, SDR1);
    for entry in 0..8 {
        setup.table[0x7_F980 + 8 * entry] = 0x80;
    }
    done && setup.map(PAGE, 2) == 0 && setup.entry(0x640) == [0x8638_0E43, 0x1234_5012]
}

fn case_3(machine: &dyn Machine) -> bool {
    let mut setup = Setup::new(machine, SDR1);
    setup.map(PAGE, 2);
    let physical = setup.access(STORE, ADDRESS);
    physical == 0x1234_501B && setup.entry(0x7_F980)[1] == 0x1234_5192
}

fn case_4(machine: &dyn Machine) -> bool {
    let mut setup = Setup::new(machine, SDR1);
    setup.map(PAGE, 3);
    setup.access(STORE, ADDRESS) == 0x0A00_0000
}

fn case_5(machine: &dyn Machine) -> bool {
    Setup::new(machine, SDR1).access(STORE, ADDRESS) == 0x4200_0000
}

fn case_6(machine: &dyn Machine) -> bool {
    let mut setup = Setup::new(machine, 0x0F98_0000);
    setup.map(PAGE, 2);
    let primary = setup.entry(0x3E6 * 64) == [0x8638_0E03, 0x1234_5012];
    let mut setup = Setup::new(machine, 0x0F98_0000);
    for entry in 0..8 {
        setup.table[0x3E6 * 64 + 8 * entry] = 0x80;
    }
    setup.map(PAGE, 2);
    primary && setup.entry(0x019 * 64) == [0x8638_0E43, 0x1234_5012]
}

fn case_7(machine: &dyn Machine) -> bool {
    [0x0F98_0005, 0x0F91_0007]
        .into_iter()
        .all(|sdr1| Setup::new(machine, sdr1).perform(Call::Clear { sdr1 }) == 2)
}

/// A data block's words, then the physical address or the fault word of a load.
fn load_by_block(machine: &dyn Machine, upper: u32, lower: u32, address: u32) -> u32 {
    let mut setup = Setup::new(machine, 0x0F98_0000);
    setup.registers[25] = upper;
    setup.registers[26] = lower;
    setup.access(1, address)
}

fn case_8(machine: &dyn Machine) -> bool {
    let load = |address| load_by_block(machine, 0x8000_1FFE, 0x1000_0002, address);
    load(0x8FFF_FFFF) == 0x1FFF_FFFF && load(0x9000_0000) == 0x4000_0000
}

fn case_9(machine: &dyn Machine) -> bool {
    let load = |address| load_by_block(machine, 0x0000_0002, 0x1000_0002, address);
    load(0x0001_FFFF) == 0x1001_FFFF && load(0x0002_0000) == 0x4000_0000
}

fn case_10(machine: &dyn Machine) -> bool {
    let mut setup = Setup::new(machine, 0x0F98_0000);
    setup.registers[25] = 2 << 2 | 2;
    setup.perform(Call::Check) == 3
}

/// SDR1 0 with VSIDs 0, 0x400 .. 0x3C00 mapped at page 0.
fn sixteen_pages(machine: &dyn Machine) -> (Setup<'_>, bool) {
    let mut setup = Setup::new(machine, 0);
    let all = (0..16).all(|number| setup.map(vsid(number * 0x400), 2) == 0);
    (setup, all)
}

fn vsid(vsid: u32) -> Page {
    let page_index = 0;
    Page { vsid, page_index }
}

const SEVENTEENTH: [Page; 2] =
    [Page { vsid: 0x4000, page_index: 0 }, Page { vsid: 0, page_index: 0x3FF }];

fn case_11(machine: &dyn Machine) -> bool {
    let (mut setup, all) = sixteen_pages(machine);
    let used = |group: &[u8]| group.chunks(8).filter(|entry| entry[0] & 0x80 != 0).count();
    let eight_each = used(&setup.table[..64]) == 8 && used(&setup.table[0x3FF * 64..]) == 8;
    all && eight_each && SEVENTEENTH.into_iter().all(|page| setup.map(page, 2) == 9)
}

fn case_12(machine: &dyn Machine) -> bool {
    (0..16).all(|unmapped| {
        SEVENTEENTH.into_iter().all(|page| {
            let (mut setup, _) = sixteen_pages(machine);
            setup.unmap(vsid(unmapped * 0x400)) == 0 && setup.map(page, 2) == 0
        })
    })
}
