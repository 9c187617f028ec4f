//! The same answers written for speed: the yardstick of the benchmarks.
//!
//! Every function takes the shortcuts a good engineer would take first: ones
//! walked by trailing zeros, a row left as soon as it is covered, empty rows
//! skipped, cells computed on and above the diagonal and mirrored, cells left
//! out of a round when none of their inputs changed in the last one.
//!
//! With `KEEN` set they go further, where that costs more thought than code:
//! mirrors compared by transposing bit matrices, a round that looks only
//! through the fields whose cells changed, gaps found by walking both lists of
//! days at once.

pub mod choose;
pub mod date;
pub mod rows;
pub mod settle;
pub mod shape;
pub mod sheet;
pub mod show;

use crate::limits::READINGS;

/// The 32 words of a cell.
pub type Cell = [u32; READINGS];

/// Cell (i, j) of a table of n fields whose length is known to be right.
#[inline(always)]
fn cell(words: &[u32], n: usize, i: usize, j: usize) -> &Cell {
    words[(i * n + j) * READINGS..][..READINGS].try_into().expect("32 words")
}

#[inline(always)]
fn cell_mut(words: &mut [u32], n: usize, i: usize, j: usize) -> &mut Cell {
    (&mut words[(i * n + j) * READINGS..][..READINGS]).try_into().expect("32 words")
}

/// Takes the lowest one out of a word that is not 0. The mask tells the
/// compiler that it indexes a cell.
#[inline(always)]
fn take_lowest(word: &mut u32) -> usize {
    let b = word.trailing_zeros() as usize & (READINGS - 1);
    *word &= *word - 1;
    b
}

#[cfg(test)]
mod tests;
