//! Rounds and settling.

use crate::refusal::Refusal;
use crate::table::{ones, Table};

#[derive(Clone, Copy, PartialEq, Eq, Debug)]
pub enum Settling {
    Settled { rounds: u64, empty: bool },
    Unfinished,
}

/// Settles a table within a budget of rounds: 1 to 6, then 7 for scratch.
///
/// Afterwards scratch holds one further round of what the table holds.
pub fn settle(
    sizes: &[u8],
    words: &mut [u32],
    scratch: &mut [u32],
    budget: u64,
) -> Result<Settling, Refusal> {
    Table::checked(sizes, words)?;
    if scratch.len() != words.len() {
        return Err(Refusal::bare(7));
    }
    let mut rounds = 0;
    loop {
        round(&Table { sizes, words }, scratch);
        if scratch == words {
            let empty = words.iter().all(|&word| word == 0);
            return Ok(Settling::Settled { rounds, empty });
        }
        if rounds == budget {
            return Ok(Settling::Unfinished);
        }
        words.copy_from_slice(scratch);
        rounds += 1;
    }
}

/// One round: every cell is taken from the table as it stood before.
pub fn round(table: &Table, next: &mut [u32]) {
    for (word, (i, j, a)) in next.iter_mut().zip(table.places()) {
        *word = after_round(table, i, j, a);
    }
}

/// Row `a` of cell (i, j) after a round.
fn after_round(table: &Table, i: usize, j: usize, a: usize) -> u32 {
    let mut row = table.row(i, j, a);
    for k in 0..table.fields() {
        if row == 0 {
            break;
        }
        row &= composed(table, i, k, j, a);
    }
    row
}

/// Row `a` of cell (i, k) composed with cell (k, j): every b that some c leads to.
fn composed(table: &Table, i: usize, k: usize, j: usize, a: usize) -> u32 {
    ones(table.row(i, k, a)).fold(0, |row, c| row | table.row(k, j, c))
}

/// The first row, in table order, that a round would change.
pub fn first_change(table: &Table) -> Option<(usize, usize, usize)> {
    table.places().find(|&(i, j, a)| after_round(table, i, j, a) != table.row(i, j, a))
}
