//! The C interface of the library, and safe functions around it.

use std::ptr;

mod c {
    extern "C" {
        pub fn mmu_check(registers: *const u8, registers_len: usize) -> u32;
        pub fn mmu_set_register(
            registers: *mut u8,
            registers_len: usize,
            number: u32,
            word: u32,
        ) -> u32;
        pub fn mmu_clear(sdr1: u32, table: *mut u8, table_len: usize) -> u32;
        pub fn mmu_map(
            sdr1: u32,
            vsid: u32,
            page_index: u32,
            rpn: u32,
            wimg: u32,
            pp: u32,
            table: *mut u8,
            table_len: usize,
        ) -> u32;
        pub fn mmu_unmap(
            sdr1: u32,
            vsid: u32,
            page_index: u32,
            table: *mut u8,
            table_len: usize,
            answer: *mut u8,
            answer_len: usize,
        ) -> u32;
        pub fn mmu_protect(
            sdr1: u32,
            vsid: u32,
            page_index: u32,
            pp: u32,
            table: *mut u8,
            table_len: usize,
        ) -> u32;
        pub fn mmu_look(
            sdr1: u32,
            vsid: u32,
            page_index: u32,
            table: *const u8,
            table_len: usize,
            answer: *mut u8,
            answer_len: usize,
        ) -> u32;
        pub fn mmu_access(
            registers: *const u8,
            registers_len: usize,
            mode: u32,
            kind: u32,
            address: u32,
            length: u32,
            table: *mut u8,
            table_len: usize,
            answer: *mut u8,
            answer_len: usize,
        ) -> u32;
        pub fn mmu_access_cached(
            registers: *const u8,
            registers_len: usize,
            mode: u32,
            kind: u32,
            address: u32,
            length: u32,
            table: *mut u8,
            table_len: usize,
            cache: *mut u8,
            cache_len: usize,
            answer: *mut u8,
            answer_len: usize,
        ) -> u32;
        pub fn mmu_rights(
            registers: *const u8,
            registers_len: usize,
            mode: u32,
            address: u32,
            table: *const u8,
            table_len: usize,
            answer: *mut u8,
            answer_len: usize,
        ) -> u32;
        pub fn mmu_invalidate(page_index: u32, cache: *mut u8, cache_len: usize) -> u32;
        pub fn mmu_pack(
            v: u32,
            vsid: u32,
            h: u32,
            api: u32,
            rpn: u32,
            r: u32,
            c: u32,
            wimg: u32,
            pp: u32,
            entry: *mut u8,
            entry_len: usize,
        ) -> u32;
        pub fn mmu_unpack(first: u32, second: u32, fields: *mut u8, fields_len: usize) -> u32;
    }
}

/// What the library is handed for a slice of length 0.
#[derive(Clone, Copy, Debug, PartialEq, Eq)]
pub enum Empty {
    Null,
    AsLent,
}

/// The library's calls. Each is sound: a slice goes over as its pointer and its own length.
#[derive(Clone, Copy, Debug)]
pub struct Mmu {
    pub empty: Empty,
}

impl Mmu {
    fn start(self, slice: &[u8]) -> *const u8 {
        match (self.empty, slice.len()) {
            (Empty::Null, 0) => ptr::null(),
            _ => slice.as_ptr(),
        }
    }

    fn start_mut(self, slice: &mut [u8]) -> *mut u8 {
        match (self.empty, slice.len()) {
            (Empty::Null, 0) => ptr::null_mut(),
            _ => slice.as_mut_ptr(),
        }
    }

    pub fn check(self, registers: &[u8]) -> u32 {
        unsafe { c::mmu_check(self.start(registers), registers.len()) }
    }

    pub fn set_register(self, registers: &mut [u8], number: u32, word: u32) -> u32 {
        let start = self.start_mut(registers);
        unsafe { c::mmu_set_register(start, registers.len(), number, word) }
    }

    pub fn clear(self, sdr1: u32, table: &mut [u8]) -> u32 {
        unsafe { c::mmu_clear(sdr1, self.start_mut(table), table.len()) }
    }

    /// `page` is VSID and page index; `frame` is RPN, WIMG and PP.
    pub fn map(self, sdr1: u32, page: [u32; 2], frame: [u32; 3], table: &mut [u8]) -> u32 {
        let ([vsid, page_index], [rpn, wimg, pp]) = (page, frame);
        let start = self.start_mut(table);
        unsafe { c::mmu_map(sdr1, vsid, page_index, rpn, wimg, pp, start, table.len()) }
    }

    pub fn unmap(self, sdr1: u32, page: [u32; 2], table: &mut [u8], answer: &mut [u8]) -> u32 {
        let [vsid, page_index] = page;
        let (start, answer_start) = (self.start_mut(table), self.start_mut(answer));
        let (length, answer_length) = (table.len(), answer.len());
        unsafe { c::mmu_unmap(sdr1, vsid, page_index, start, length, answer_start, answer_length) }
    }

    pub fn protect(self, sdr1: u32, page: [u32; 2], pp: u32, table: &mut [u8]) -> u32 {
        let [vsid, page_index] = page;
        let start = self.start_mut(table);
        unsafe { c::mmu_protect(sdr1, vsid, page_index, pp, start, table.len()) }
    }

    pub fn look(self, sdr1: u32, page: [u32; 2], table: &[u8], answer: &mut [u8]) -> u32 {
        let [vsid, page_index] = page;
        let (start, answer_start) = (self.start(table), self.start_mut(answer));
        let (length, answer_length) = (table.len(), answer.len());
        unsafe { c::mmu_look(sdr1, vsid, page_index, start, length, answer_start, answer_length) }
    }

    /// `access` is mode, kind, effective address and length.
    pub fn access(
        self,
        registers: &[u8],
        access: [u32; 4],
        table: &mut [u8],
        answer: &mut [u8],
    ) -> u32 {
        let [mode, kind, address, length] = access;
        let (start, answer_start) = (self.start_mut(table), self.start_mut(answer));
        unsafe {
            c::mmu_access(
                self.start(registers),
                registers.len(),
                mode,
                kind,
                address,
                length,
                start,
                table.len(),
                answer_start,
                answer.len(),
            )
        }
    }

    /// The same with a translation cache.
    pub fn access_cached(
        self,
        registers: &[u8],
        access: [u32; 4],
        table: &mut [u8],
        cache: &mut [u8],
        answer: &mut [u8],
    ) -> u32 {
        let [mode, kind, address, length] = access;
        let (start, answer_start) = (self.start_mut(table), self.start_mut(answer));
        let cache_start = self.start_mut(cache);
        unsafe {
            c::mmu_access_cached(
                self.start(registers),
                registers.len(),
                mode,
                kind,
                address,
                length,
                start,
                table.len(),
                cache_start,
                cache.len(),
                answer_start,
                answer.len(),
            )
        }
    }

    pub fn rights(
        self,
        registers: &[u8],
        mode: u32,
        address: u32,
        table: &[u8],
        answer: &mut [u8],
    ) -> u32 {
        let answer_start = self.start_mut(answer);
        unsafe {
            c::mmu_rights(
                self.start(registers),
                registers.len(),
                mode,
                address,
                self.start(table),
                table.len(),
                answer_start,
                answer.len(),
            )
        }
    }

    pub fn invalidate(self, page_index: u32, cache: &mut [u8]) -> u32 {
        unsafe { c::mmu_invalidate(page_index, self.start_mut(cache), cache.len()) }
    }

    /// `fields` are V, VSID, H, API, RPN, R, C, WIMG and PP.
    pub fn pack(self, fields: [u32; 9], entry: &mut [u8]) -> u32 {
        let [v, vsid, h, api, rpn, r, c, wimg, pp] = fields;
        let (start, length) = (self.start_mut(entry), entry.len());
        unsafe { c::mmu_pack(v, vsid, h, api, rpn, r, c, wimg, pp, start, length) }
    }

    pub fn unpack(self, first: u32, second: u32, fields: &mut [u8]) -> u32 {
        unsafe { c::mmu_unpack(first, second, self.start_mut(fields), fields.len()) }
    }
}
