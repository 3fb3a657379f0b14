//! What can be compared: the library, or the model in its place.

use mmu::Mmu;
use model::bytes::Model;
use model::call::{Call, Lent, Page};

use crate::watch;

pub trait Machine {
    fn perform(&self, call: &Call, lent: Lent) -> u32;
}

impl Machine for Model {
    fn perform(&self, call: &Call, lent: Lent) -> u32 {
        Model::perform(self, call, lent)
    }
}

impl Machine for Mmu {
    fn perform(&self, call: &Call, lent: Lent) -> u32 {
        watch::during(call, lent.lengths(), || call_library(*self, call, lent))
    }
}

fn call_library(library: Mmu, call: &Call, lent: Lent) -> u32 {
    let Lent { registers, table, cache, answer } = lent;
    let numbers = |page: Page| [page.vsid, page.page_index];
    match *call {
        Call::Check => library.check(registers),
        Call::SetRegister { number, word } => library.set_register(registers, number, word),
        Call::Clear { sdr1 } => library.clear(sdr1, table),
        Call::Map { sdr1, page, rpn, wimg, pp } => {
            library.map(sdr1, numbers(page), [rpn, wimg, pp], table)
        }
        Call::Unmap { sdr1, page } => library.unmap(sdr1, numbers(page), table, answer),
        Call::Protect { sdr1, page, pp } => library.protect(sdr1, numbers(page), pp, table),
        Call::Look { sdr1, page } => library.look(sdr1, numbers(page), table, answer),
        Call::Access(access) => {
            let numbers = [access.mode, access.kind, access.address, access.length];
            library.access(registers, numbers, table, answer)
        }
        Call::AccessCached(access) => {
            let numbers = [access.mode, access.kind, access.address, access.length];
            library.access_cached(registers, numbers, table, cache, answer)
        }
        Call::Rights { mode, address } => library.rights(registers, mode, address, table, answer),
        Call::Invalidate { page_index } => library.invalidate(page_index, cache),
        Call::Pack(fields) => library.pack(fields.list(), answer),
        Call::Unpack { first, second } => library.unpack(first, second, answer),
    }
}
