//! Choosing the first full reading that keeps the fixed readings.

use crate::limits::FREE;
use crate::refusal::Refusal;
use crate::rows::{first_broken, Rows};
use crate::settle::first_change;
use crate::table::Table;

/// Writes the first full reading into `answer`: 1 to 12, in number order.
pub fn choose(sizes: &[u8], words: &[u32], fixed: &[u8], answer: &mut [u8]) -> Result<(), Refusal> {
    let table = Table::checked(sizes, words)?;
    if fixed.len() != table.fields() || answer.len() != table.fields() {
        return Err(Refusal::bare(7));
    }
    check_settled(&table)?;
    check_fixed(&table, fixed)?;
    let mut chosen = fixed.to_vec();
    // Settled, not empty and whole: document 000, theorem 1, promises that what
    // is allowed two by two can be read in full.
    assert!(search(&table, fixed, &mut chosen, 0), "document 000, theorem 1, does not hold");
    answer.copy_from_slice(&chosen);
    Ok(())
}

/// The checks 8 to 10.
fn check_settled(table: &Table) -> Result<(), Refusal> {
    if let Some(row) = first_change(table) {
        return Err(Refusal::row(8, row));
    }
    if table.is_empty() {
        return Err(Refusal::bare(9));
    }
    match first_broken(table) {
        Rows::Broken(i, j, a) => Err(Refusal::row(10, (i, j, a))),
        Rows::Whole => Ok(()),
    }
}

/// The checks 11 and 12.
fn check_fixed(table: &Table, fixed: &[u8]) -> Result<(), Refusal> {
    for field in 0..table.fields() {
        if fixed[field] != FREE && usize::from(fixed[field]) >= table.size(field) {
            return Err(Refusal::at(11, field));
        }
    }
    for i in 0..table.fields() {
        for j in i..table.fields() {
            let both = fixed[i] != FREE && fixed[j] != FREE;
            if both && !table.allows(i, fixed[i].into(), j, fixed[j].into()) {
                return Err(Refusal::pair(12, i, j));
            }
        }
    }
    Ok(())
}

/// Depth first, field by field and least reading first, so that the first full
/// reading found is the first of all. It gives up a reading as soon as it does
/// not go with an earlier field's or a fixed one, and goes back if it must.
fn search(table: &Table, fixed: &[u8], chosen: &mut [u8], field: usize) -> bool {
    if field == table.fields() {
        return true;
    }
    for a in candidates(table, fixed, field) {
        if fits(table, fixed, chosen, field, a) {
            chosen[field] = a;
            if search(table, fixed, chosen, field + 1) {
                return true;
            }
        }
    }
    false
}

fn candidates(table: &Table, fixed: &[u8], field: usize) -> std::ops::Range<u8> {
    match fixed[field] {
        FREE => 0..table.sizes[field],
        a => a..a + 1,
    }
}

fn fits(table: &Table, fixed: &[u8], chosen: &[u8], field: usize, a: u8) -> bool {
    let goes_with = |j: usize, b: u8| table.allows(field, a.into(), j, b.into());
    goes_with(field, a)
        && (0..field).all(|j| goes_with(j, chosen[j]))
        && (field + 1..table.fields()).all(|j| fixed[j] == FREE || goes_with(j, fixed[j]))
}
