//! The sheet lister's text.

use std::fmt::Write;

use crate::choose::choose;
use crate::limits::{BUDGET, FREE, READINGS};
use crate::refusal::Refusal;
use crate::rows::{first_broken, kept_readings, Rows};
use crate::settle::{settle, Settling};
use crate::sheet::{self, LENT_DAYS, LENT_SIZES, LENT_WORDS};
use crate::table::{words_for, Table};

/// What the lister prints for a sheet.
pub fn list(sheet: &[u8]) -> String {
    listing(sheet).unwrap_or_else(|refusal| format!("state {refusal}\n"))
}

fn listing(sheet: &[u8]) -> Result<String, Refusal> {
    let (mut sizes, mut days, mut words) = ([0; LENT_SIZES], [0; LENT_DAYS], vec![0; LENT_WORDS]);
    let n = sheet::read(sheet, &mut sizes, &mut days, &mut words)?;
    let sizes = &sizes[..n];
    let words = &mut words[..words_for(n)];
    let mut scratch = vec![0; words.len()];
    let rounds = match settle(sizes, words, &mut scratch, BUDGET)? {
        Settling::Settled { rounds, .. } => rounds,
        Settling::Unfinished => unreachable!("every round but the last strikes a pair"),
    };
    let table = Table { sizes, words };
    let mut text = format!("state 0\nrounds {rounds}\n");
    for field in 0..n {
        write_field(&mut text, &table, &days, field);
    }
    match first_broken(&table) {
        Rows::Whole => text.push_str("rows whole\n"),
        Rows::Broken(i, j, a) => writeln!(text, "rows broken {i} {j} {a}").expect("a string"),
    }
    write_first(&mut text, &table, &days);
    Ok(text)
}

fn write_field(text: &mut String, table: &Table, days: &[u16], field: usize) {
    let kept: Vec<usize> = kept_readings(table, field).collect();
    write!(text, "field {field} kept {}", kept.len()).expect("a string");
    for a in kept {
        write!(text, " {}", days[field * READINGS + a]).expect("a string");
    }
    text.push('\n');
}

/// The days chosen with nothing fixed, or none: an empty table and a broken
/// one, both of which choosing refuses.
fn write_first(text: &mut String, table: &Table, days: &[u16]) {
    let fixed = vec![FREE; table.fields()];
    let mut answer = fixed.clone();
    text.push_str("first");
    match choose(table.sizes, table.words, &fixed, &mut answer) {
        Ok(()) => {
            for (field, a) in answer.iter().enumerate() {
                write!(text, " {}", days[field * READINGS + usize::from(*a)]).expect("a string");
            }
        }
        Err(_) => text.push_str(" none"),
    }
    text.push('\n');
}
