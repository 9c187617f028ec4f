//! Holds the proved library against the second implementation.
//!
//! `compare [seed]`: every case comes from the printed seed, so a run can be
//! repeated. It ends with `compare: N cases agree`, or with the first
//! disagreement in full and exit code 1.

mod check;
mod dates;
mod full;
mod known;
mod lend;
mod sheets;
mod tables;

use std::process::ExitCode;

use check::{Checked, Run, Tally};
use second::known::{paper, short_dates};
use second::random::Random;

const DEFAULT_SEED: u64 = 20_240_502;

type Part = fn(&mut Run, &mut Random, u64) -> Checked<()>;

/// Name, number of cases (each of them several calls), what one case does.
/// What takes longest comes last.
const PARTS: [(&str, u64, Part); 24] = [
    ("the paper's date texts", paper::DATES.len() as u64, dates::papers),
    (
        "known date texts with a year of two digits, or nearly",
        short_dates::TEXTS.len() as u64,
        dates::short_ones,
    ),
    ("every date text of ten bytes", 102, dates::every_text),
    ("every date text of eight bytes", 100, dates::every_short_text),
    ("damaged date texts of ten bytes", 20, dates::damaged),
    ("damaged date texts of eight bytes", 20, dates::damaged_short),
    ("examples C1 to C6", 1, known::examples),
    ("document 000, figure 6", 1, known::figure_6),
    ("document 004, the crossword", 1, known::crossword_puzzle),
    ("document 003, hard examples", 1, known::hard_examples),
    ("every byte of a sheet", 59, sheets::every_byte),
    ("every mark", 65_536, sheets::every_mark),
    ("damaged sheets", 60_000, sheets::damaged),
    ("sheets cut at every byte", 150, sheets::cut),
    ("sheets of DS cut at every byte", 160, sheets::short_dates_cut),
    ("fields out of place", 2_000, sheets::misplaced),
    ("longest sheets", 200, sheets::longest),
    ("good sheets", 30_000, sheets::good),
    ("full readings by enumeration", 12_000, full::enumerated),
    ("damaged tables", 60_000, tables::damaged),
    ("small tables", 100_000, tables::small),
    ("tables of every size", 1_024, tables::every_size),
    ("tables slow to settle", 100, tables::slow_ones),
    ("tables of 16 fields of 32 readings", 320, tables::full_size),
];

fn main() -> ExitCode {
    let seed = match seed() {
        Ok(seed) => seed,
        Err(text) => {
            eprintln!("compare: '{text}' is no seed; give a whole number or nothing");
            return ExitCode::from(2);
        }
    };
    println!("seed {seed}");
    let mut run = Run::new(seed);
    for (number, (name, cases, part)) in PARTS.iter().enumerate() {
        for case in 0..*cases {
            let mut random = Random::for_case(seed, number as u64, case);
            if let Err(disagreement) = part(&mut run, &mut random, case) {
                println!("disagreement: seed {seed}, {name}, case {case}");
                print!("{}", disagreement.0);
                return ExitCode::from(1);
            }
        }
        println!("{name}: agree, {} calls and claims so far", run.tally.cases);
    }
    report(&run.tally)
}

fn seed() -> Result<u64, String> {
    match std::env::args().nth(1) {
        None => Ok(DEFAULT_SEED),
        Some(text) => text.parse().map_err(|_| text),
    }
}

/// The counts; a refusal that never came up means the cases are too few.
fn report(tally: &Tally) -> ExitCode {
    println!("{} tables, {} sheets, {} date texts", tally.tables, tally.sheets, tally.texts);
    println!("refusals, each with how often it was given:");
    let counts: Vec<String> =
        (1..25).map(|number| format!("{number}: {}", tally.refusals[number])).collect();
    for line in counts.chunks(8) {
        println!("  {}", line.join("  "));
    }
    println!("rounds r, each with how often it came up ({} unfinished):", tally.unfinished);
    let counts: Vec<String> =
        tally.rounds.iter().map(|(rounds, count)| format!("{rounds}: {count}")).collect();
    for line in counts.chunks(12) {
        println!("  {}", line.join("  "));
    }
    if let Some(number) = (1..25).find(|number| tally.refusals[*number] == 0) {
        println!("compare: refusal {number} never came up");
        return ExitCode::from(1);
    }
    println!("compare: {} cases agree", tally.cases);
    ExitCode::SUCCESS
}
