//! The checks 1 to 6.

use super::{cell, take_lowest, Cell};
use crate::limits::READINGS;
use crate::refusal::Refusal;
use crate::table::{check_length, check_sizes, readings_mask};

pub fn check<const KEEN: bool>(sizes: &[u8], words: &[u32]) -> Result<(), Refusal> {
    check_sizes(sizes)?;
    check_length(sizes, words)?;
    check_strays(sizes, words)?;
    check_diagonal(sizes.len(), words)?;
    check_mirror::<KEEN>(sizes, words)
}

/// One pass that only gathers strays; the place is looked for when there is one.
fn check_strays(sizes: &[u8], words: &[u32]) -> Result<(), Refusal> {
    let n = sizes.len();
    for i in 0..n {
        let size = usize::from(sizes[i]);
        for j in 0..n {
            let cell = cell(words, n, i, j);
            let beyond = !readings_mask(usize::from(sizes[j]));
            let strays = gather(&cell[..size]) & beyond | gather(&cell[size..]);
            if strays != 0 {
                let bad =
                    |a: &usize| if *a < size { cell[*a] & beyond != 0 } else { cell[*a] != 0 };
                let a = (0..READINGS).find(bad).expect("a stray was seen");
                return Err(Refusal::row(4, (i, j, a)));
            }
        }
    }
    Ok(())
}

fn gather(rows: &[u32]) -> u32 {
    rows.iter().fold(0, |all, row| all | row)
}

fn check_diagonal(n: usize, words: &[u32]) -> Result<(), Refusal> {
    for i in 0..n {
        let cell = cell(words, n, i, i);
        if let Some(a) = (0..READINGS).find(|a| cell[*a] & !(1 << a) != 0) {
            return Err(Refusal::row(5, (i, i, a)));
        }
    }
    Ok(())
}

/// Only cells above the diagonal: a row that breaks 6 below it has a mirror
/// that breaks it above, and comes later in table order.
fn check_mirror<const KEEN: bool>(sizes: &[u8], words: &[u32]) -> Result<(), Refusal> {
    let n = sizes.len();
    for i in 0..n {
        for j in i + 1..n {
            let (upper, lower) = (cell(words, n, i, j), cell(words, n, j, i));
            let mirror = if KEEN { transposed(lower) } else { walked(lower) };
            if *upper != mirror {
                let a = (0..READINGS).find(|a| upper[*a] != mirror[*a]).expect("they differ");
                return Err(Refusal::row(6, (i, j, a)));
            }
        }
    }
    Ok(())
}

/// The mirror of a cell, one by one.
fn walked(cell: &Cell) -> Cell {
    let mut mirror = [0; READINGS];
    for (a, row) in cell.iter().enumerate() {
        let mut left = *row;
        while left != 0 {
            mirror[take_lowest(&mut left)] |= 1 << a;
        }
    }
    mirror
}

/// The mirror of a cell by swapping ever smaller blocks.
pub fn transposed(cell: &Cell) -> Cell {
    let mut rows = *cell;
    let mut width = 16;
    let mut mask = 0x0000_ffff_u32;
    while width != 0 {
        for base in (0..READINGS).step_by(2 * width) {
            for a in base..base + width {
                let swap = (rows[a] >> width ^ rows[a + width]) & mask;
                rows[a] ^= swap << width;
                rows[a + width] ^= swap;
            }
        }
        width /= 2;
        mask ^= mask << width;
    }
    rows
}
