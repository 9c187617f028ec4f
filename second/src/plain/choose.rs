//! Choosing without going back: document 000, theorem 1.

use super::{cell, rows, settle, shape};
use crate::limits::{FIELDS, FREE, READINGS};
use crate::refusal::Refusal;
use crate::rows::Rows;

pub fn choose<const KEEN: bool>(
    sizes: &[u8],
    words: &[u32],
    fixed: &[u8],
    answer: &mut [u8],
) -> Result<(), Refusal> {
    shape::check::<KEEN>(sizes, words)?;
    if fixed.len() != sizes.len() || answer.len() != sizes.len() {
        return Err(Refusal::bare(7));
    }
    if let Some(row) = settle::first_change(sizes, words) {
        return Err(Refusal::row(8, row));
    }
    let n = sizes.len();
    // Settled: either every cell holds a pair or none does.
    if cell(words, n, 0, 0).iter().all(|row| *row == 0) {
        return Err(Refusal::bare(9));
    }
    if let Rows::Broken(i, j, a) = rows::first_broken(n, words) {
        return Err(Refusal::row(10, (i, j, a)));
    }
    check_fixed(sizes, words, fixed)?;
    pick(n, words, fixed, answer);
    Ok(())
}

fn check_fixed(sizes: &[u8], words: &[u32], fixed: &[u8]) -> Result<(), Refusal> {
    let n = sizes.len();
    if let Some(field) = (0..n).find(|i| fixed[*i] != FREE && fixed[*i] >= sizes[*i]) {
        return Err(Refusal::at(11, field));
    }
    for i in (0..n).filter(|i| fixed[*i] != FREE) {
        for j in (i..n).filter(|j| fixed[*j] != FREE) {
            if cell(words, n, i, j)[usize::from(fixed[i])] >> fixed[j] & 1 == 0 {
                return Err(Refusal::pair(12, i, j));
            }
        }
    }
    Ok(())
}

/// The least reading of each field among those that go with all earlier
/// choices and all fixed readings.
fn pick(n: usize, words: &[u32], fixed: &[u8], answer: &mut [u8]) {
    let mut left = [u32::MAX; FIELDS];
    for i in (0..n).filter(|i| fixed[*i] != FREE) {
        keep(n, words, &mut left, i, usize::from(fixed[i]));
    }
    for i in 0..n {
        let diagonal = cell(words, n, i, i).iter().fold(0, |all, row| all | row);
        let a = (left[i] & diagonal).trailing_zeros() as usize % READINGS;
        answer[i] = a as u8;
        keep(n, words, &mut left, i, a);
    }
}

/// Leaves every field only what goes with reading `a` of field `i`; its own
/// row on the diagonal leaves field `i` that reading alone.
fn keep(n: usize, words: &[u32], left: &mut [u32; FIELDS], i: usize, a: usize) {
    for j in 0..n {
        left[j] &= cell(words, n, i, j)[a];
    }
}
