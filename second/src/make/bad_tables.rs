//! Damage to tables, to their sizes and to lengths.

use crate::limits::{FIELDS, READINGS};
use crate::random::Random;
use crate::table::{words_for, Owned};

/// Spoils a table once. It may stay well-formed, and it may be spoilt already:
/// nothing here relies on its shape.
pub fn spoil(random: &mut Random, table: &mut Owned) {
    match random.below(12) {
        0 => stray_column(random, table),
        1 => stray_row(random, table),
        2 => off_diagonal(random, table),
        3..=5 => one_sided(random, table),
        6 => any_bit(random, table),
        7 => size(random, table),
        8 => field_count(random, table),
        9 => {
            let length = wrong_length(random, table.words.len());
            table.words.resize(length, 0);
        }
        10 => table.words.iter_mut().for_each(|word| *word ^= random.word() as u32),
        _ => {
            stray_row(random, table);
            off_diagonal(random, table);
            one_sided(random, table);
        }
    }
}

/// A length that is not `right`, often one that looks like it in fewer bits.
pub fn wrong_length(random: &mut Random, right: usize) -> usize {
    let near = [
        right.wrapping_sub(1),
        right + 1,
        right.saturating_sub(READINGS),
        right + READINGS,
        right / 2,
        right * 2,
        0,
        right + 256,
    ];
    let wrong = match random.below(40) {
        0 => right + 65_536,
        _ => random.pick(&near),
    };
    if wrong == right || wrong > right + 65_536 {
        right + 1
    } else {
        wrong
    }
}

/// A cell and its fields, if the table has one that its length covers.
fn cell(random: &mut Random, table: &Owned) -> Option<(usize, usize)> {
    let n = table.sizes.len();
    let fits = n > 0 && n <= FIELDS && table.words.len() >= words_for(n);
    fits.then(|| (random.below(n), random.below(n)))
}

fn size_of(table: &Owned, field: usize) -> usize {
    usize::from(table.sizes[field]).clamp(1, READINGS)
}

fn flip(table: &mut Owned, i: usize, j: usize, a: usize, b: usize) {
    let at = table.at(i, j, a);
    table.words[at] ^= 1 << b;
}

fn stray_column(random: &mut Random, table: &mut Owned) {
    if let Some((i, j)) = cell(random, table) {
        let (a, b) = (random.below(size_of(table, i)), size_of(table, j));
        if b < READINGS {
            let b = if random.percent(50) { b } else { b + random.below(READINGS - b) };
            flip(table, i, j, a, b);
        }
    }
}

fn stray_row(random: &mut Random, table: &mut Owned) {
    if let Some((i, j)) = cell(random, table) {
        let (a, b) = (size_of(table, i), random.below(size_of(table, j)));
        if a < READINGS {
            let a = if random.percent(50) { a } else { a + random.below(READINGS - a) };
            flip(table, i, j, a, b);
        }
    }
}

fn off_diagonal(random: &mut Random, table: &mut Owned) {
    if let Some((i, _)) = cell(random, table) {
        let (a, b) = (random.below(size_of(table, i)), random.below(size_of(table, i)));
        if a != b {
            flip(table, i, i, a, b);
        }
    }
}

/// A pair changed in its cell and not in the mirror.
fn one_sided(random: &mut Random, table: &mut Owned) {
    if let Some((i, j)) = cell(random, table) {
        if i != j {
            let (a, b) = (random.below(size_of(table, i)), random.below(size_of(table, j)));
            flip(table, i, j, a, b);
        }
    }
}

fn any_bit(random: &mut Random, table: &mut Owned) {
    if !table.words.is_empty() {
        let at = random.below(table.words.len());
        table.words[at] ^= 1 << random.below(READINGS);
    }
}

fn size(random: &mut Random, table: &mut Owned) {
    if !table.sizes.is_empty() {
        let field = random.below(table.sizes.len());
        let near = [table.sizes[field].wrapping_add(1), table.sizes[field].wrapping_sub(1)];
        let far = [0, 0, 33, 33, 64, 255, 128, 31, 32];
        table.sizes[field] =
            if random.percent(30) { random.pick(&near) } else { random.pick(&far) };
    }
}

/// Another number of fields, with the table as long as before or as long as
/// the new number asks for.
fn field_count(random: &mut Random, table: &mut Owned) {
    let n = table.sizes.len();
    let count = match random.below(40) {
        0 => 256 + n,
        1 => 65_536 + n,
        2..=9 => 0,
        10..=25 => FIELDS + 1,
        26..=30 => FIELDS + 2 + random.below(20),
        31..=35 => n + 1,
        _ => n.saturating_sub(1),
    };
    table.sizes.resize(count, 2);
    if random.percent(50) && count <= 40 {
        table.words.resize(words_for(count), 0);
    }
}
