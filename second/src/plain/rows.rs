//! Judging rows, and the readings a field keeps.

use super::{cell, shape};
use crate::limits::READINGS;
use crate::refusal::Refusal;
use crate::rows::Rows;

pub fn judge<const KEEN: bool>(sizes: &[u8], words: &[u32]) -> Result<Rows, Refusal> {
    shape::check::<KEEN>(sizes, words)?;
    Ok(first_broken(sizes.len(), words))
}

pub fn first_broken(n: usize, words: &[u32]) -> Rows {
    match words.iter().position(|row| is_broken(*row)) {
        Some(w) => Rows::Broken(w / READINGS / n, w / READINGS % n, w % READINGS),
        None => Rows::Whole,
    }
}

/// A run of ones plus its lowest one carries out of the run, so nothing is left
/// of a whole row.
#[inline(always)]
fn is_broken(row: u32) -> bool {
    row.wrapping_add(row & row.wrapping_neg()) & row != 0
}

pub fn kept<const KEEN: bool>(sizes: &[u8], words: &[u32], field: usize) -> Result<usize, Refusal> {
    shape::check::<KEEN>(sizes, words)?;
    if field >= sizes.len() {
        return Err(Refusal::bare(24));
    }
    let diagonal = cell(words, sizes.len(), field, field);
    Ok(diagonal.iter().map(|row| row.count_ones() as usize).sum())
}
