//! Rounds and settling.

use super::{cell, cell_mut, shape, take_lowest, Cell};
use crate::limits::{FIELDS, READINGS};
use crate::refusal::Refusal;
use crate::settle::Settling;

/// For each field, the fields its cells with which changed in the last round.
type Changed = [u16; FIELDS];

pub fn settle<const KEEN: bool>(
    sizes: &[u8],
    words: &mut [u32],
    scratch: &mut [u32],
    budget: u64,
) -> Result<Settling, Refusal> {
    shape::check::<KEEN>(sizes, words)?;
    if scratch.len() != words.len() {
        return Err(Refusal::bare(7));
    }
    let n = sizes.len();
    scratch.copy_from_slice(words);
    // Before the first round everything counts as changed.
    let mut changed = [u16::MAX; FIELDS];
    let mut rounds = 0;
    loop {
        // Scratch equals the table here, so a round only writes what it strikes.
        changed = round::<KEEN>(sizes, words, scratch, &changed);
        if changed == [0; FIELDS] {
            let empty = cell(words, n, 0, 0).iter().all(|row| *row == 0);
            return Ok(Settling::Settled { rounds, empty });
        }
        if rounds == budget {
            return Ok(Settling::Unfinished);
        }
        take_over(words, scratch, n, &changed);
        rounds += 1;
    }
}

/// Copies the changed cells from scratch to the table.
fn take_over(words: &mut [u32], scratch: &[u32], n: usize, changed: &Changed) {
    for i in 0..n {
        for j in (0..n).filter(|j| changed[i] >> j & 1 == 1) {
            *cell_mut(words, n, i, j) = *cell(scratch, n, i, j);
        }
    }
}

fn round<const KEEN: bool>(
    sizes: &[u8],
    words: &[u32],
    next: &mut [u32],
    before: &Changed,
) -> Changed {
    let n = sizes.len();
    let mut changed = [0; FIELDS];
    for i in 0..n {
        for j in i..n {
            // Cell (i, j) is made of cells with i and cells with j.
            let inputs = before[i] | before[j];
            if inputs == 0 {
                continue;
            }
            let through = if KEEN { inputs } else { u16::MAX };
            let rows = reduced(sizes, words, i, j, through);
            if strike(next, n, i, j, cell(words, n, i, j), &rows) {
                changed[i] |= 1 << j;
                changed[j] |= 1 << i;
            }
        }
    }
    changed
}

/// Cell (i, j) after a round, looked at through the given fields only.
fn reduced(sizes: &[u8], words: &[u32], i: usize, j: usize, through: u16) -> Cell {
    let n = sizes.len();
    let size = usize::from(sizes[i]).min(READINGS);
    let mut rows = *cell(words, n, i, j);
    for k in (0..n).filter(|k| through >> k & 1 == 1) {
        let (left, right) = (cell(words, n, i, k), cell(words, n, k, j));
        for a in 0..size {
            if rows[a] != 0 {
                rows[a] &= reached(left[a], right, rows[a]);
            }
        }
    }
    rows
}

/// What `left` leads to in `right`, left off as soon as it covers `wanted`.
#[inline(always)]
fn reached(mut left: u32, right: &Cell, wanted: u32) -> u32 {
    let mut reached = 0;
    while left != 0 {
        reached |= right[take_lowest(&mut left)];
        if wanted & !reached == 0 {
            break;
        }
    }
    reached
}

/// Writes a cell and its mirror where they changed; says whether they did.
fn strike(next: &mut [u32], n: usize, i: usize, j: usize, old: &Cell, rows: &Cell) -> bool {
    if old == rows {
        return false;
    }
    *cell_mut(next, n, i, j) = *rows;
    let mirror = cell_mut(next, n, j, i);
    for a in 0..READINGS {
        let mut struck = old[a] & !rows[a];
        while struck != 0 {
            mirror[take_lowest(&mut struck)] &= !(1 << a);
        }
    }
    true
}

/// The first row, in table order, that a round would change. A change below
/// the diagonal has its mirror above, which comes first.
pub fn first_change(sizes: &[u8], words: &[u32]) -> Option<(usize, usize, usize)> {
    let n = sizes.len();
    for i in 0..n {
        for j in i..n {
            let (old, rows) = (cell(words, n, i, j), reduced(sizes, words, i, j, u16::MAX));
            if *old != rows {
                let a = (0..READINGS).find(|a| old[*a] != rows[*a])?;
                return Some((i, j, a));
            }
        }
    }
    None
}
