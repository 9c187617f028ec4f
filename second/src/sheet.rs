//! Reading a sheet into sizes, days and the opening table.

use crate::date;
use crate::limits::{FIELDS, LAST_DAY, READINGS, SHEET_BYTES};
use crate::refusal::Refusal;
use crate::table::{words_for, Owned};

/// What the caller lends at least.
pub const LENT_SIZES: usize = FIELDS;
pub const LENT_DAYS: usize = FIELDS * READINGS;
pub const LENT_WORDS: usize = FIELDS * FIELDS * READINGS;

/// The checks 13 and 14.
pub fn check_lengths(
    sheet: &[u8],
    sizes: &[u8],
    days: &[u16],
    words: &[u32],
) -> Result<(), Refusal> {
    if sizes.len() < LENT_SIZES || days.len() < LENT_DAYS || words.len() < LENT_WORDS {
        return Err(Refusal::bare(13));
    }
    if sheet.len() > SHEET_BYTES {
        return Err(Refusal::bare(14));
    }
    Ok(())
}

/// Reads a sheet and answers the number of fields. Nothing is written until
/// the whole sheet has been found good.
pub fn read(
    sheet: &[u8],
    sizes: &mut [u8],
    days: &mut [u16],
    words: &mut [u32],
) -> Result<usize, Refusal> {
    check_lengths(sheet, sizes, days, words)?;
    let content = Content::parse(sheet)?;
    content.write(sizes, days, words);
    Ok(content.fields.len())
}

/// What a good sheet says.
#[derive(Default)]
struct Content {
    fields: Vec<Vec<u16>>,
    rules: Vec<Rule>,
}

#[derive(Clone, Copy)]
enum Rule {
    Gap { i: usize, j: usize, lo: i32, hi: i32 },
    Strike { i: usize, j: usize, a: usize, b: usize },
}

impl Content {
    fn parse(sheet: &[u8]) -> Result<Content, Refusal> {
        let mut content = Content::default();
        let mut at = 0;
        loop {
            let record = &sheet[at..];
            // Also where nothing is left: the sheet's length is then `at`.
            let mark = record.get(..2).ok_or(Refusal::at(15, at))?;
            if mark == b"EN" {
                content.end(record, at)?;
                return Ok(content);
            }
            at += content.add(mark, record).map_err(|number| Refusal::at(number, at))?;
        }
    }

    /// Takes in one record that is not EN; answers its length, or a number.
    fn add(&mut self, mark: &[u8], record: &[u8]) -> Result<usize, u8> {
        match mark {
            b"DT" | b"DS" | b"FD" => {
                if !self.rules.is_empty() {
                    return Err(17);
                }
                if self.fields.len() == FIELDS {
                    return Err(18);
                }
                let (days, length) = match mark {
                    b"DT" => date_field(record, date::LONG)?,
                    b"DS" => date_field(record, date::SHORT)?,
                    _ => day_field(record)?,
                };
                self.fields.push(days);
                Ok(length)
            }
            b"GP" => {
                self.rules.push(self.gap(record.get(2..8).ok_or(15)?)?);
                Ok(8)
            }
            b"PR" => {
                self.rules.push(self.pair(record.get(2..6).ok_or(15)?)?);
                Ok(6)
            }
            _ => Err(16),
        }
    }

    fn gap(&self, body: &[u8]) -> Result<Rule, u8> {
        let (i, j) = (usize::from(body[0]), usize::from(body[1]));
        let signed = |at: usize| i32::from(i16::from_be_bytes([body[at], body[at + 1]]));
        let (lo, hi) = (signed(2), signed(4));
        let n = self.fields.len();
        if i >= n || j >= n || i == j || lo > hi {
            return Err(22);
        }
        Ok(Rule::Gap { i, j, lo, hi })
    }

    fn pair(&self, body: &[u8]) -> Result<Rule, u8> {
        let [i, j, a, b] = [0, 1, 2, 3].map(|at| usize::from(body[at]));
        let has = |field: usize, reading: usize| {
            self.fields.get(field).is_some_and(|days| reading < days.len())
        };
        if !has(i, a) || !has(j, b) || (i == j && a != b) {
            return Err(22);
        }
        Ok(Rule::Strike { i, j, a, b })
    }

    fn end(&self, record: &[u8], at: usize) -> Result<(), Refusal> {
        if self.fields.is_empty() {
            return Err(Refusal::bare(1));
        }
        if record.len() > 2 {
            return Err(Refusal::at(23, at));
        }
        Ok(())
    }

    fn write(&self, sizes: &mut [u8], days: &mut [u16], words: &mut [u32]) {
        let n = self.fields.len();
        for (field, own) in self.fields.iter().enumerate() {
            sizes[field] = own.len() as u8;
            let place = &mut days[field * READINGS..][..READINGS];
            place.fill(0);
            place[..own.len()].copy_from_slice(own);
        }
        let mut table = Owned::open(&sizes[..n]);
        for rule in &self.rules {
            self.apply(*rule, &mut table);
        }
        words[..words_for(n)].copy_from_slice(&table.words);
    }

    fn apply(&self, rule: Rule, table: &mut Owned) {
        match rule {
            Rule::Strike { i, j, a, b } => table.strike(i, a, j, b),
            Rule::Gap { i, j, lo, hi } => {
                // The difference of two days does not fit 16 bits with a sign.
                let day = |field: usize, reading: usize| i32::from(self.fields[field][reading]);
                table.keep(i, j, |a, b| (lo..=hi).contains(&(day(j, b) - day(i, a))));
            }
        }
    }
}

/// The days of a DT or DS record, whose text has so many bytes, and the
/// record's length.
fn date_field(record: &[u8], text: usize) -> Result<(Vec<u16>, usize), u8> {
    let length = 2 + text;
    let text = record.get(2..length).ok_or(15)?;
    let days = date::read(text).map_err(|refusal| refusal.number)?;
    Ok((days.as_slice().to_vec(), length))
}

/// The days of an FD record and the record's length. The count is judged before
/// its days are missed.
fn day_field(record: &[u8]) -> Result<(Vec<u16>, usize), u8> {
    let count = usize::from(*record.get(2).ok_or(15)?);
    if count == 0 || count > READINGS {
        return Err(21);
    }
    let bytes = record.get(3..3 + 2 * count).ok_or(15)?;
    let days: Vec<u16> = bytes.chunks(2).map(|two| u16::from_be_bytes([two[0], two[1]])).collect();
    let rising = days.windows(2).all(|two| two[0] < two[1]);
    if !rising || days[count - 1] > LAST_DAY {
        return Err(21);
    }
    Ok((days, 3 + 2 * count))
}
