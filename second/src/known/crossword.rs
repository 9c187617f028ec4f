//! Document 004's crossword (figures 1 to 4).
//!
//! The pictures did not come down with the document's text, so the grid below
//! is the one that fits every word of it: eight numbered words, 1 Across and 2
//! Down meeting in the third and the first letter, the arcs 12, 13, 42, 43 up
//! to 86, and five words of each length. The text's word list has lost two of
//! the three-letter words: it gives only three, while 5 to the 8th assignments
//! need five. EEL and TIE make up the puzzle as it is known elsewhere; the
//! table is built with and without them.

use crate::table::Owned;

/// As the document's text lists them.
pub const LISTED: [&str; 13] = [
    "AFT", "ALE", "HEEL", "HIKE", "HOSES", "KEEL", "KNOT", "LASER", "LEE", "LINE", "SAILS",
    "SHEET", "STEER",
];

/// With the two lost words, in the same order.
pub const WHOLE: [&str; 15] = [
    "AFT", "ALE", "EEL", "HEEL", "HIKE", "HOSES", "KEEL", "KNOT", "LASER", "LEE", "LINE", "SAILS",
    "SHEET", "STEER", "TIE",
];

/// The only solution, from 1 Across to 8 Across.
pub const SOLUTION: [&str; 8] = ["HOSES", "SAILS", "STEER", "HIKE", "KEEL", "ALE", "LEE", "LASER"];

/// Where a word starts, which way it runs and how long it is.
struct Entry {
    row: usize,
    column: usize,
    across: bool,
    length: usize,
}

const fn across(row: usize, column: usize, length: usize) -> Entry {
    Entry { row, column, across: true, length }
}

const fn down(row: usize, column: usize, length: usize) -> Entry {
    Entry { row, column, across: false, length }
}

const GRID: [Entry; 8] = [
    across(0, 0, 5),
    down(0, 2, 5),
    down(0, 4, 5),
    across(2, 1, 4),
    down(2, 3, 4),
    down(3, 0, 3),
    across(3, 2, 3),
    across(4, 0, 5),
];

/// The words of an entry's length, in the list's order: the entry's readings.
pub fn domain(entry: usize, words: &[&'static str]) -> Vec<&'static str> {
    words.iter().copied().filter(|word| word.len() == GRID[entry].length).collect()
}

/// The letter places in which an across entry and a down entry meet.
fn crossing(a: &Entry, d: &Entry) -> Option<(usize, usize)> {
    let (in_a, in_d) = (d.column.checked_sub(a.column)?, a.row.checked_sub(d.row)?);
    (a.across && !d.across && in_a < a.length && in_d < d.length).then_some((in_a, in_d))
}

/// The crossword as a table of eight fields.
pub fn table(words: &[&'static str]) -> Owned {
    let domains: Vec<_> = (0..GRID.len()).map(|entry| domain(entry, words)).collect();
    let sizes: Vec<u8> = domains.iter().map(|domain| domain.len() as u8).collect();
    let mut table = Owned::open(&sizes);
    for i in 0..GRID.len() {
        for j in 0..GRID.len() {
            if let Some((in_i, in_j)) = crossing(&GRID[i], &GRID[j]) {
                let letter = |entry: usize, reading: usize, at: usize| {
                    domains[entry][reading].as_bytes()[at]
                };
                table.keep(i, j, |a, b| letter(i, a, in_i) == letter(j, b, in_j));
            }
        }
    }
    table
}

/// The solution as reading numbers.
pub fn solution(words: &[&'static str]) -> Vec<u8> {
    let number =
        |entry: usize| domain(entry, words).iter().position(|word| *word == SOLUTION[entry]);
    (0..GRID.len()).map(|entry| number(entry).expect("a word of the list") as u8).collect()
}
