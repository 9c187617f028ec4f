//! Random good sheets.

use crate::date;
use crate::limits::{LAST_DAY, READINGS, SHEET_BYTES};
use crate::random::Random;

pub type Record = Vec<u8>;

/// A sheet in the making: the records before EN, and each field's days.
#[derive(Clone, Default)]
pub struct Draft {
    pub records: Vec<Record>,
    pub fields: Vec<Vec<u16>>,
}

impl Draft {
    /// A good sheet of so many fields and rules.
    pub fn good(random: &mut Random, fields: usize, readings: usize, rules: usize) -> Draft {
        let mut draft = Draft::default();
        for _ in 0..fields {
            let dated = random.percent(50);
            draft.add_field(random, readings, dated);
        }
        draft.add_rules(random, rules);
        draft
    }

    /// A good sheet of so many DS fields and rules.
    pub fn short_dates(random: &mut Random, fields: usize, rules: usize) -> Draft {
        let mut draft = Draft::default();
        for _ in 0..fields {
            let (record, days) = read_date(random, some_short_text);
            draft.push(record, days);
        }
        draft.add_rules(random, rules);
        draft
    }

    /// So many FD fields of 32 readings and no rule.
    pub fn largest_fields(random: &mut Random, fields: usize) -> Draft {
        let mut draft = Draft::default();
        for _ in 0..fields {
            let (record, days) = day_field(random, READINGS, READINGS);
            draft.push(record, days);
        }
        draft
    }

    /// A good sheet of exactly 4,096 bytes: `fields` fields (16, or any other
    /// even number) of 32 readings, then rules.
    pub fn full(random: &mut Random, fields: usize, gaps: bool) -> Draft {
        let mut draft = Draft::largest_fields(random, fields);
        // FD records have odd lengths and there are evenly many of them, so an
        // even number of bytes is left for rules of 6 and 8 bytes.
        while draft.length() < SHEET_BYTES {
            let left = SHEET_BYTES - draft.length();
            let gap = if gaps { fills(left, 8) } else { !fills(left, 6) };
            draft.add_rule_of(random, gap);
        }
        draft
    }

    fn push(&mut self, record: Record, days: Vec<u16>) {
        self.records.push(record);
        self.fields.push(days);
    }

    pub fn add_field(&mut self, random: &mut Random, readings: usize, dated: bool) {
        let (record, days) =
            if dated { date_field(random) } else { day_field(random, 1, readings) };
        self.push(record, days);
    }

    fn add_rules(&mut self, random: &mut Random, rules: usize) {
        for _ in 0..rules {
            let gap = random.percent(60);
            self.add_rule_of(random, gap);
        }
    }

    fn add_rule_of(&mut self, random: &mut Random, gap: bool) {
        let record =
            if gap && self.fields.len() > 1 { self.gap(random) } else { self.pair(random) };
        self.records.push(record);
    }

    /// GP between two different fields, mostly about a gap that is really there.
    fn gap(&self, random: &mut Random) -> Record {
        let n = self.fields.len();
        let i = random.below(n);
        let j = (i + 1 + random.below(n - 1)) % n;
        let day = |random: &mut Random, field: usize| i64::from(random.pick(&self.fields[field]));
        let gap = day(random, j) - day(random, i);
        let (lo, hi) = match random.below(8) {
            // What the gap would be if it were kept in 16 bits.
            0 => around(random, i64::from(gap as i16)),
            1 => (random.between(-32_768, 0), random.between(0, 32_767)),
            2 => (-32_768, 32_767),
            _ => around(random, gap),
        };
        gap_record(i as u8, j as u8, clamp(lo), clamp(hi))
    }

    fn pair(&self, random: &mut Random) -> Record {
        let (i, j) = (random.below(self.fields.len()), random.below(self.fields.len()));
        let a = random.below(self.fields[i].len());
        let b = if i == j { a } else { random.below(self.fields[j].len()) };
        pair_record(i as u8, j as u8, a as u8, b as u8)
    }

    /// The length of the sheet, EN included.
    pub fn length(&self) -> usize {
        self.records.iter().map(Vec::len).sum::<usize>() + 2
    }

    pub fn bytes(&self) -> Vec<u8> {
        let mut bytes = self.records.concat();
        bytes.extend(b"EN");
        bytes
    }
}

/// Whether a rule of `rule` bytes leaves an even number that rules can fill.
fn fills(left: usize, rule: usize) -> bool {
    left >= rule && ![2, 4, 10].contains(&(left - rule))
}

fn around(random: &mut Random, gap: i64) -> (i64, i64) {
    let slack = random.pick(&[0, 0, 1, 3, 30, 400, 20_000]);
    let off = if random.percent(20) { random.between(-2, 2) } else { 0 };
    (gap + off - random.between(0, slack), gap + off + random.between(0, slack))
}

fn clamp(value: i64) -> i16 {
    value.clamp(-32_768, 32_767) as i16
}

pub fn gap_record(i: u8, j: u8, lo: i16, hi: i16) -> Record {
    let mut record = vec![b'G', b'P', i, j];
    record.extend(lo.to_be_bytes());
    record.extend(hi.to_be_bytes());
    record
}

pub fn pair_record(i: u8, j: u8, a: u8, b: u8) -> Record {
    vec![b'P', b'R', i, j, a, b]
}

pub fn days_record(days: &[u16]) -> Record {
    let mut record = vec![b'F', b'D', days.len() as u8];
    record.extend(days.iter().flat_map(|day| day.to_be_bytes()));
    record
}

/// DS for a text of eight bytes, DT for any other.
pub fn date_record(text: &str) -> Record {
    let mark = if text.len() == date::SHORT { b"DS" } else { b"DT" };
    [mark, text.as_bytes()].concat()
}

fn separator(random: &mut Random) -> char {
    random.pick(&['/', '.', '-'])
}

/// A text with a year of four digits, with numbers up to these.
pub fn date_text(random: &mut Random, most_first: i64, most_second: i64) -> String {
    let separator = separator(random);
    let (first, second) = (random.between(0, most_first), random.between(0, most_second));
    let year = random.between(2000, 2099);
    format!("{first:02}{separator}{second:02}{separator}{year}")
}

/// A text with a year of two digits, with numbers up to this.
pub fn short_text(random: &mut Random, most: i64) -> String {
    let separator = separator(random);
    let [x, y, z] = [(); 3].map(|()| random.between(0, most));
    format!("{x:02}{separator}{y:02}{separator}{z:02}")
}

/// Often one whose three meanings are all real.
fn some_short_text(random: &mut Random) -> String {
    let most = random.pick(&[12, 12, 31, 99]);
    short_text(random, most)
}

/// A DT or a DS record, and the days.
fn date_field(random: &mut Random) -> (Record, Vec<u16>) {
    if random.percent(50) {
        read_date(random, some_short_text)
    } else {
        read_date(random, |random| date_text(random, 31, 13))
    }
}

/// The first of the texts made that is read.
fn read_date(random: &mut Random, made: fn(&mut Random) -> String) -> (Record, Vec<u16>) {
    loop {
        let text = made(random);
        if let Ok(days) = date::read(text.as_bytes()) {
            return (date_record(&text), days.as_slice().to_vec());
        }
    }
}

/// An FD record of `least` to `most` days, and the days.
pub fn day_field(random: &mut Random, least: usize, most: usize) -> (Record, Vec<u16>) {
    let count =
        if random.percent(15) { most } else { random.between(least as i64, most as i64) as usize };
    let span = random.pick(&[count + 2, 40 + count, 800, usize::from(LAST_DAY) + 1]);
    let latest = usize::from(LAST_DAY) + 1 - span;
    // Often at either end, where differences leave 16 bits.
    let start = match random.below(6) {
        0 => 0,
        1 => latest,
        _ => random.below(latest + 1),
    };
    let mut days = Vec::new();
    while days.len() < count {
        days.push((start + random.below(span)) as u16);
        days.sort();
        days.dedup();
    }
    (days_record(&days), days)
}
