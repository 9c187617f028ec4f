//! The cell shown.

use crate::limits::READINGS;
use crate::refusal::Refusal;
use crate::show::{first_word, Shown};

pub fn show(
    sizes: &[u8],
    opening: &[u32],
    settled: &[u32],
    i: usize,
    j: usize,
) -> Result<Shown, Refusal> {
    let first_word = first_word(sizes, opening, settled, i, j)?;
    // A cell at a time: its words are gathered without looking at each.
    let holds = |cell: &[u32]| cell.iter().fold(0, |all, row| all | row) != 0;
    let from_opening = !settled.chunks_exact(READINGS).any(holds);
    Ok(Shown { from_opening, first_word })
}
