//! Judging rows, and the readings a field keeps.

use crate::refusal::Refusal;
use crate::table::{ones, Table};

#[derive(Clone, Copy, PartialEq, Eq, Debug)]
pub enum Rows {
    Whole,
    /// The first broken row (i, j, a) in table order.
    Broken(usize, usize, usize),
}

/// Judges a table after the checks 1 to 6.
pub fn judge(sizes: &[u8], words: &[u32]) -> Result<Rows, Refusal> {
    Ok(first_broken(&Table::checked(sizes, words)?))
}

pub fn first_broken(table: &Table) -> Rows {
    match table.places().find(|&(i, j, a)| is_broken(table.row(i, j, a))) {
        Some((i, j, a)) => Rows::Broken(i, j, a),
        None => Rows::Whole,
    }
}

/// Broken: a zero stands between two ones.
fn is_broken(row: u32) -> bool {
    ones(row).zip(ones(row).skip(1)).any(|(b, next)| next != b + 1)
}

/// The number of readings a field keeps: 1 to 6, then 24.
pub fn kept(sizes: &[u8], words: &[u32], field: usize) -> Result<usize, Refusal> {
    let table = Table::checked(sizes, words)?;
    if field >= table.fields() {
        return Err(Refusal::bare(24));
    }
    Ok(kept_readings(&table, field).count())
}

/// The readings on a field's diagonal, ascending.
pub fn kept_readings<'t>(table: &Table<'t>, field: usize) -> impl Iterator<Item = usize> + 't {
    let table = *table;
    (0..table.size(field)).filter(move |&a| table.allows(field, a, field, a))
}
