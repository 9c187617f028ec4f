//! The library's C interface: seven functions, each answering one number.
//!
//! A slice passes as a pointer and a length in elements.

use crate::date::Days;
use crate::packed::{unpack, Reply};
use crate::rows::Rows;
use crate::settle::Settling;
use crate::show::Shown;

mod c {
    extern "C" {
        pub fn fq_date(text: *const u8, text_len: usize) -> u64;
        pub fn fq_read(
            sheet: *const u8,
            sheet_len: usize,
            sizes: *mut u8,
            sizes_len: usize,
            days: *mut u16,
            days_len: usize,
            table: *mut u32,
            table_len: usize,
        ) -> u64;
        pub fn fq_settle(
            sizes: *const u8,
            sizes_len: usize,
            table: *mut u32,
            table_len: usize,
            scratch: *mut u32,
            scratch_len: usize,
            budget: u64,
        ) -> u64;
        pub fn fq_judge(
            sizes: *const u8,
            sizes_len: usize,
            table: *const u32,
            table_len: usize,
        ) -> u64;
        pub fn fq_kept(
            sizes: *const u8,
            sizes_len: usize,
            table: *const u32,
            table_len: usize,
            field: usize,
        ) -> u64;
        pub fn fq_choose(
            sizes: *const u8,
            sizes_len: usize,
            table: *const u32,
            table_len: usize,
            fixed: *const u8,
            fixed_len: usize,
            answer: *mut u8,
            answer_len: usize,
        ) -> u64;
        pub fn fq_show(
            sizes: *const u8,
            sizes_len: usize,
            opening: *const u32,
            opening_len: usize,
            settled: *const u32,
            settled_len: usize,
            i: usize,
            j: usize,
        ) -> u64;
    }
}

pub fn date(text: &[u8]) -> Reply<Days> {
    // SAFETY: the pointer and the length are those of one slice; so below, and
    // the borrows keep lent buffers apart.
    unpack(unsafe { c::fq_date(text.as_ptr(), text.len()) })
}

pub fn read(sheet: &[u8], sizes: &mut [u8], days: &mut [u16], table: &mut [u32]) -> Reply<usize> {
    unpack(unsafe {
        c::fq_read(
            sheet.as_ptr(),
            sheet.len(),
            sizes.as_mut_ptr(),
            sizes.len(),
            days.as_mut_ptr(),
            days.len(),
            table.as_mut_ptr(),
            table.len(),
        )
    })
}

pub fn settle(
    sizes: &[u8],
    table: &mut [u32],
    scratch: &mut [u32],
    budget: u64,
) -> Reply<Settling> {
    unpack(unsafe {
        c::fq_settle(
            sizes.as_ptr(),
            sizes.len(),
            table.as_mut_ptr(),
            table.len(),
            scratch.as_mut_ptr(),
            scratch.len(),
            budget,
        )
    })
}

pub fn judge(sizes: &[u8], table: &[u32]) -> Reply<Rows> {
    unpack(unsafe { c::fq_judge(sizes.as_ptr(), sizes.len(), table.as_ptr(), table.len()) })
}

pub fn kept(sizes: &[u8], table: &[u32], field: usize) -> Reply<usize> {
    unpack(unsafe { c::fq_kept(sizes.as_ptr(), sizes.len(), table.as_ptr(), table.len(), field) })
}

pub fn choose(sizes: &[u8], table: &[u32], fixed: &[u8], answer: &mut [u8]) -> Reply<()> {
    unpack(unsafe {
        c::fq_choose(
            sizes.as_ptr(),
            sizes.len(),
            table.as_ptr(),
            table.len(),
            fixed.as_ptr(),
            fixed.len(),
            answer.as_mut_ptr(),
            answer.len(),
        )
    })
}

pub fn show(sizes: &[u8], opening: &[u32], settled: &[u32], i: usize, j: usize) -> Reply<Shown> {
    unpack(unsafe {
        c::fq_show(
            sizes.as_ptr(),
            sizes.len(),
            opening.as_ptr(),
            opening.len(),
            settled.as_ptr(),
            settled.len(),
            i,
            j,
        )
    })
}
