//! Random sheets, good and damaged.

use second::limits::{FIELDS, SHEET_BYTES};
use second::make::bad_sheets::spoil;
use second::make::sheets::{date_record, days_record, gap_record, pair_record, Draft};
use second::random::Random;
use second::refusal::Refusal;
use second::sheet::{LENT_DAYS, LENT_SIZES, LENT_WORDS};
use second::table::Owned;

use crate::check::{claim, read, Checked, Lengths, Run};
use crate::tables::exercise;

const EXACT: Lengths = (LENT_SIZES, LENT_DAYS, LENT_WORDS);

/// Good sheets; the table of some is then settled, judged and chosen from.
pub fn good(run: &mut Run, random: &mut Random, case: u64) -> Checked<()> {
    let draft = draft(random);
    let bytes = draft.bytes();
    let lengths = lengths(random);
    let answer = read(run, &bytes, lengths)?.0;
    let roomy = lengths.0 >= LENT_SIZES && lengths.1 >= LENT_DAYS && lengths.2 >= LENT_WORDS;
    claim(
        run,
        answer.is_ok() || !roomy || bytes.len() > SHEET_BYTES,
        "a good sheet is read",
        &bytes,
        &[],
    )?;
    if let (Ok(content), 0) = (answer, case % 4) {
        exercise(run, random, &Owned { sizes: content.sizes, words: content.words })?;
    }
    Ok(())
}

fn draft(random: &mut Random) -> Draft {
    let (fields, readings, rules) = match random.below(40) {
        0 => (16, 32, 60),
        1 | 2 => (16, 4, 20),
        3 | 4 => (2, 32, 4),
        5..=11 => (8, 6, 12),
        _ => (4, 4, 5),
    };
    let (fields, rules) = (1 + random.below(fields), random.below(rules + 1));
    Draft::good(random, fields, readings, rules)
}

/// Buffers as long as asked for, longer, or too short.
fn lengths(random: &mut Random) -> Lengths {
    let mut length = |least: usize| match random.below(30) {
        0 => least - 1,
        1 => random.below(least),
        2..=9 => least + 1 + random.below(40),
        _ => least,
    };
    (length(LENT_SIZES), length(LENT_DAYS), length(LENT_WORDS))
}

pub fn damaged(run: &mut Run, random: &mut Random, _: u64) -> Checked<()> {
    let draft = draft(random);
    let bytes = spoil(random, &draft);
    let lengths = if random.percent(5) { lengths(random) } else { EXACT };
    read(run, &bytes, lengths)?;
    Ok(())
}

/// A good sheet cut at every byte.
pub fn cut(run: &mut Run, random: &mut Random, case: u64) -> Checked<()> {
    let draft = if case < 2 { Draft::full(random, 16, case == 0) } else { draft(random) };
    every_start(run, &draft.bytes())
}

fn every_start(run: &mut Run, bytes: &[u8]) -> Checked<()> {
    for length in 0..=bytes.len() {
        read(run, &bytes[..length], EXACT)?;
    }
    Ok(())
}

/// A good sheet of DS fields alone and a few rules, cut at every byte.
pub fn short_dates_cut(run: &mut Run, random: &mut Random, case: u64) -> Checked<()> {
    let (fields, rules) = (1 + case as usize % FIELDS, random.below(6));
    let bytes = Draft::short_dates(random, fields, rules).bytes();
    let answer = read(run, &bytes, EXACT)?.0;
    claim(run, answer.is_ok(), "a good sheet of DS fields is read", &bytes, &[])?;
    every_start(run, &bytes)
}

/// A DT, DS or FD record, right or wrong and cut at every byte, where no field
/// may follow: after a rule, with fewer than 16 fields and with 16, and after
/// the 16th field. Its mark is all that is looked at.
pub fn misplaced(run: &mut Run, random: &mut Random, case: u64) -> Checked<()> {
    let record = random.pick(&FIELD_RECORDS);
    let number = random.pick(&[17, 17, 18]);
    let fields = if number == 18 { FIELDS } else { 2 + random.below(FIELDS - 1) };
    let mut draft = match case % 2 {
        0 => Draft::short_dates(random, fields, 0),
        _ => Draft::good(random, fields, 3, 0),
    };
    if number == 17 {
        let rules = [gap_record(0, 1, -9, 9), pair_record(0, 1, 0, 0)];
        draft.records.push(rules[random.below(rules.len())].clone());
    }
    let before = draft.records.concat();
    for length in 0..=record.len() {
        let bytes = [&before, &record[..length]].concat();
        let want = Refusal::at(if length < 2 { 15 } else { number }, before.len());
        let got = read(run, &bytes, EXACT)?.0.err();
        claim(run, got == Some(want), "a field's place is judged by its mark", &bytes, &[])?;
    }
    Ok(())
}

/// Of each mark of a field one that is right and at least one that is not.
const FIELD_RECORDS: [&[u8]; 8] = [
    b"DT02/05/2024EN",
    b"DT31/02/2030EN",
    b"DS02/03/04EN",
    b"DS31/02/30EN",
    b"DS02/03.04EN",
    b"DS02/03/2004EN",
    b"FD\x01\x00\x07EN",
    b"FD\x00EN",
];

/// Sheets of 4,096 bytes, and the same with a byte more or less, or with a few changed.
pub fn longest(run: &mut Run, random: &mut Random, case: u64) -> Checked<()> {
    let fields = random.pick(&[2, 4, 16, 16]);
    let mut bytes = Draft::full(random, fields, case % 2 == 0).bytes();
    claim(run, bytes.len() == SHEET_BYTES, "a full sheet has 4,096 bytes", &bytes, &[])?;
    let answer = read(run, &bytes, EXACT)?.0;
    claim(run, answer.is_ok(), "a full sheet is read", &bytes, &[])?;
    bytes.push(random.byte());
    read(run, &bytes, EXACT)?;
    // Too long for buffers that are too short: 13 comes before 14.
    let short = lengths(random);
    read(run, &bytes, short)?;
    bytes.truncate(SHEET_BYTES - 1);
    read(run, &bytes, EXACT)?;
    bytes.extend(b"NEN");
    read(run, &bytes, EXACT)?;
    bytes.extend(vec![0; random.pick(&[1, 4_095, 61_438])]);
    read(run, &bytes, EXACT)?;
    bytes.truncate(SHEET_BYTES);
    for _ in 0..20 {
        let at = random.below(bytes.len());
        let was = std::mem::replace(&mut bytes[at], random.byte());
        read(run, &bytes, EXACT)?;
        bytes[at] = was;
    }
    Ok(())
}

/// Every two bytes as a mark: alone, and after a field with bytes behind.
pub fn every_mark(run: &mut Run, random: &mut Random, case: u64) -> Checked<()> {
    let mark = (case as u16).to_be_bytes();
    read(run, &mark, EXACT)?;
    let behind = random.pick(&[
        &b"\0\0\0\0EN"[..],
        b"\0\x01\0\0\0\0EN",
        b"\x01\0\0EN",
        b"03/04/2005EN",
        b"03/04/05EN",
    ]);
    read(run, &[b"DT01/02/2003", &mark[..], behind].concat(), EXACT)?;
    Ok(())
}

/// A sheet with one record of each mark, every byte of it changed to every value.
pub fn every_byte(run: &mut Run, _: &mut Random, case: u64) -> Checked<()> {
    let records = [
        date_record("02-05-2024"),
        date_record("02.03.04"),
        days_record(&[255, 256, 36_524]),
        gap_record(0, 2, -8_546, 32_767),
        pair_record(2, 2, 2, 2),
        pair_record(0, 2, 1, 0),
        pair_record(1, 0, 2, 1),
        b"EN".to_vec(),
    ];
    let mut bytes = records.concat();
    let at = case as usize % bytes.len();
    for value in 0..=255 {
        bytes[at] = value;
        read(run, &bytes, EXACT)?;
    }
    Ok(())
}
