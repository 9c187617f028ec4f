//! The cell shown on a clerk's screen.

use crate::limits::READINGS;
use crate::refusal::Refusal;
use crate::table::{check_length, check_sizes};

/// Which table a cell is shown from, and where its 32 words begin there.
#[derive(Clone, Copy, PartialEq, Eq, Debug)]
pub struct Shown {
    pub from_opening: bool,
    pub first_word: usize,
}

/// Where the words of a cell begin, after the checks 1, 2, 3 and 24; the bits
/// themselves are not judged.
pub fn first_word(
    sizes: &[u8],
    opening: &[u32],
    settled: &[u32],
    i: usize,
    j: usize,
) -> Result<usize, Refusal> {
    check_sizes(sizes)?;
    check_length(sizes, opening)?;
    check_length(sizes, settled)?;
    let n = sizes.len();
    if i >= n || j >= n {
        return Err(Refusal::bare(24));
    }
    Ok((i * n + j) * READINGS)
}

pub fn show(
    sizes: &[u8],
    opening: &[u32],
    settled: &[u32],
    i: usize,
    j: usize,
) -> Result<Shown, Refusal> {
    let first_word = first_word(sizes, opening, settled, i, j)?;
    let from_opening = settled.iter().all(|&word| word == 0);
    Ok(Shown { from_opening, first_word })
}
