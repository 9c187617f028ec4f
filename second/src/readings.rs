//! Full readings by plain enumeration: every combination, in order.

use crate::limits::FREE;
use crate::table::Table;

/// Every full reading, ascending as compared field by field from field 0.
pub fn all(table: &Table) -> Vec<Vec<u8>> {
    let mut found = Vec::new();
    let mut reading = vec![0; table.fields()];
    loop {
        if is_full(table, &reading) {
            found.push(reading.clone());
        }
        if !advance(&mut reading, table.sizes) {
            return found;
        }
    }
}

/// Whether every pair is allowed, each field with itself included.
pub fn is_full(table: &Table, reading: &[u8]) -> bool {
    let fields = 0..table.fields();
    fields
        .clone()
        .all(|i| fields.clone().all(|j| table.allows(i, reading[i].into(), j, reading[j].into())))
}

/// Whether a reading keeps the fixed readings.
pub fn keeps(reading: &[u8], fixed: &[u8]) -> bool {
    reading.iter().zip(fixed).all(|(a, f)| *f == FREE || a == f)
}

/// The next combination; false after the last.
fn advance(reading: &mut [u8], sizes: &[u8]) -> bool {
    for field in (0..sizes.len()).rev() {
        reading[field] += 1;
        if reading[field] < sizes[field] {
            return true;
        }
        reading[field] = 0;
    }
    false
}
