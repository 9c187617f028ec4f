//! Reading a sheet: one pass that only looks, then one that writes.

use super::{cell_mut, date, take_lowest, Cell};
use crate::date::{DATES, LONG, SHORT};
use crate::limits::{FIELDS, LAST_DAY, READINGS};
use crate::refusal::Refusal;
use crate::sheet::check_lengths;
use crate::table::readings_mask;

/// The fields of a sheet and where its rules begin.
struct Fields {
    n: usize,
    sizes: [u8; FIELDS],
    days: [[u16; READINGS]; FIELDS],
    rules: usize,
}

pub fn read<const KEEN: bool>(
    sheet: &[u8],
    sizes: &mut [u8],
    days: &mut [u16],
    words: &mut [u32],
) -> Result<usize, Refusal> {
    check_lengths(sheet, sizes, days, words)?;
    let fields = look(sheet)?;
    let n = fields.n;
    sizes[..n].copy_from_slice(&fields.sizes[..n]);
    for (lent, own) in days.chunks_exact_mut(READINGS).zip(&fields.days[..n]) {
        lent.copy_from_slice(own);
    }
    open(&fields, words);
    apply::<KEEN>(&sheet[fields.rules..], &fields, words);
    Ok(n)
}

/// Finds the first fault, and the fields on the way.
fn look(sheet: &[u8]) -> Result<Fields, Refusal> {
    let mut fields = Fields { n: 0, sizes: [0; FIELDS], days: [[0; READINGS]; FIELDS], rules: 0 };
    let (mut at, mut ruled) = (0, false);
    loop {
        let record = &sheet[at..];
        if record.len() < 2 {
            return Err(Refusal::at(15, at));
        }
        let length = match &record[..2] {
            b"DT" | b"DS" | b"FD" if ruled => Err(17),
            b"DT" | b"DS" | b"FD" if fields.n == FIELDS => Err(18),
            b"DT" => fields.date::<LONG>(record),
            b"DS" => fields.date::<SHORT>(record),
            b"FD" => fields.listed(record),
            b"GP" | b"PR" => {
                fields.rules = if ruled { fields.rules } else { at };
                ruled = true;
                fields.rule(record)
            }
            b"EN" if fields.n == 0 => return Err(Refusal::bare(1)),
            b"EN" if record.len() > 2 => Err(23),
            b"EN" => {
                fields.rules = if ruled { fields.rules } else { at };
                return Ok(fields);
            }
            _ => Err(16),
        };
        at += length.map_err(|number| Refusal::at(number, at))?;
    }
}

impl Fields {
    /// A date text of so many bytes.
    fn date<const TEXT: usize>(&mut self, record: &[u8]) -> Result<usize, u8> {
        let text = record.get(2..2 + TEXT).ok_or(15)?;
        let days = date::read(text).map_err(|refusal| refusal.number)?;
        self.days[self.n][..DATES].copy_from_slice(&days.day);
        self.sizes[self.n] = days.count as u8;
        self.n += 1;
        Ok(2 + TEXT)
    }

    fn listed(&mut self, record: &[u8]) -> Result<usize, u8> {
        let count = usize::from(*record.get(2).ok_or(15)?);
        if count == 0 || count > READINGS {
            return Err(21);
        }
        let bytes = record.get(3..3 + 2 * count).ok_or(15)?;
        let own = &mut self.days[self.n];
        for (day, two) in own.iter_mut().zip(bytes.chunks_exact(2)) {
            *day = u16::from_be_bytes([two[0], two[1]]);
        }
        if own[..count].windows(2).any(|two| two[0] >= two[1]) || own[count - 1] > LAST_DAY {
            return Err(21);
        }
        self.sizes[self.n] = count as u8;
        self.n += 1;
        Ok(3 + 2 * count)
    }

    fn rule(&self, record: &[u8]) -> Result<usize, u8> {
        let length = if record[0] == b'G' { 8 } else { 6 };
        let body = record.get(2..length).ok_or(15)?;
        let (i, j) = (usize::from(body[0]), usize::from(body[1]));
        let good = i < self.n
            && j < self.n
            && match length {
                8 => i != j && signed(body, 2) <= signed(body, 4),
                _ => {
                    body[2] < self.sizes[i]
                        && body[3] < self.sizes[j]
                        && (i != j || body[2] == body[3])
                }
            };
        if good {
            Ok(length)
        } else {
            Err(22)
        }
    }
}

fn signed(body: &[u8], at: usize) -> i32 {
    i32::from(i16::from_be_bytes([body[at], body[at + 1]]))
}

/// Everything allowed, diagonals full.
fn open(fields: &Fields, words: &mut [u32]) {
    let n = fields.n;
    for i in 0..n {
        let size = usize::from(fields.sizes[i]);
        for j in 0..n {
            let cell = cell_mut(words, n, i, j);
            cell[..size].fill(readings_mask(usize::from(fields.sizes[j])));
            cell[size..].fill(0);
        }
        let diagonal = cell_mut(words, n, i, i);
        (0..size).for_each(|a| diagonal[a] = 1 << a);
    }
}

/// The rules of a sheet that has been found good, up to EN.
fn apply<const KEEN: bool>(mut rules: &[u8], fields: &Fields, words: &mut [u32]) {
    let n = fields.n;
    while rules[0] != b'E' {
        let (i, j) = (usize::from(rules[2]), usize::from(rules[3]));
        if rules[0] == b'G' {
            let (lo, hi) = (signed(rules, 4), signed(rules, 6));
            if KEEN {
                gap_walked(words, fields, i, j, lo, hi);
            } else {
                gap(words, fields, i, j, lo, hi);
            }
            rules = &rules[8..];
        } else {
            let (a, b) = (usize::from(rules[4]), usize::from(rules[5]));
            cell_mut(words, n, i, j)[a % READINGS] &= !(1 << b);
            cell_mut(words, n, j, i)[b % READINGS] &= !(1 << a);
            rules = &rules[6..];
        }
    }
}

/// Every pair looked at; what is struck is struck in the mirror too.
fn gap(words: &mut [u32], fields: &Fields, i: usize, j: usize, lo: i32, hi: i32) {
    let (n, days) = (fields.n, &fields.days[j]);
    let mut struck: Cell = [0; READINGS];
    let here = cell_mut(words, n, i, j);
    for a in 0..usize::from(fields.sizes[i]) {
        let day = i32::from(fields.days[i][a]);
        let mut kept = 0;
        for b in 0..READINGS {
            let gap = i32::from(days[b]) - day;
            kept |= u32::from(lo <= gap && gap <= hi) << b;
        }
        struck[a] = here[a] & !kept;
        here[a] &= kept;
    }
    let mirror = cell_mut(words, n, j, i);
    for (a, row) in struck.iter().enumerate() {
        let mut left = *row;
        while left != 0 {
            mirror[take_lowest(&mut left)] &= !(1 << a);
        }
    }
}

/// Both lists of days rise, so what a gap allows is a run of readings that
/// only moves up: two walks, one for the cell and one for its mirror.
fn gap_walked(words: &mut [u32], fields: &Fields, i: usize, j: usize, lo: i32, hi: i32) {
    let n = fields.n;
    narrow(cell_mut(words, n, i, j), own(fields, i), own(fields, j), lo, hi);
    narrow(cell_mut(words, n, j, i), own(fields, j), own(fields, i), -hi, -lo);
}

fn own(fields: &Fields, field: usize) -> &[u16] {
    &fields.days[field][..usize::from(fields.sizes[field])]
}

/// Keeps in each row the readings whose day lies `lo` to `hi` after the row's.
fn narrow(cell: &mut Cell, rows: &[u16], columns: &[u16], lo: i32, hi: i32) {
    let (mut first, mut end) = (0, 0);
    for (row, day) in cell.iter_mut().zip(rows) {
        let day = i32::from(*day);
        while first < columns.len() && i32::from(columns[first]) < day + lo {
            first += 1;
        }
        while end < columns.len() && i32::from(columns[end]) <= day + hi {
            end += 1;
        }
        *row &= readings_mask(end) & !readings_mask(first);
    }
}
