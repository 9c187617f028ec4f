//! Date texts and the calendar.

use crate::refusal::Refusal;

/// Most days one text may mean.
pub const DATES: usize = 3;

/// Bytes of a text with a year of two digits, and of one with four.
pub const SHORT: usize = 8;
pub const LONG: usize = 10;

/// The days a date text may mean: one to three, ascending, the unused ones 0.
#[derive(Clone, Copy, PartialEq, Eq, Debug)]
pub struct Days {
    pub count: usize,
    pub day: [u16; DATES],
}

impl Days {
    pub fn as_slice(&self) -> &[u16] {
        &self.day[..self.count]
    }
}

/// Reads a text by itself: 19 for its shape or year, 20 when no reading is real.
pub fn read(text: &[u8]) -> Result<Days, Refusal> {
    let meanings = meanings(text).ok_or(Refusal::bare(19))?;
    let real = meanings.into_iter().filter_map(|(year, month, day)| day_number(year, month, day));
    ascending(real.collect()).ok_or(Refusal::bare(20))
}

/// The years, months and days that a text of the right shape names, real or not.
fn meanings(text: &[u8]) -> Option<Vec<(u32, u32, u32)>> {
    match text.len() {
        SHORT => {
            let [x, y, z] = parts(text)?;
            Some(vec![(2000 + z, y, x), (2000 + z, x, y), (2000 + x, y, z)])
        }
        LONG => {
            let [x, y, year] = parts(text)?;
            (2000..=2099).contains(&year).then(|| vec![(year, y, x), (year, x, y)])
        }
        _ => None,
    }
}

/// The three numbers of a text, the last one of all the digits that are left.
fn parts(text: &[u8]) -> Option<[u32; 3]> {
    let separator = text[2];
    if !b"/.-".contains(&separator) || text[5] != separator {
        return None;
    }
    Some([number(&text[..2])?, number(&text[3..5])?, number(&text[6..])?])
}

fn number(digits: &[u8]) -> Option<u32> {
    digits.iter().try_fold(0, |value, byte| match byte {
        b'0'..=b'9' => Some(value * 10 + u32::from(byte - b'0')),
        _ => None,
    })
}

/// The days in order, equal ones once; nothing where there is none.
fn ascending(mut days: Vec<u16>) -> Option<Days> {
    days.sort();
    days.dedup();
    let mut day = [0; DATES];
    day[..days.len()].copy_from_slice(&days);
    (!days.is_empty()).then_some(Days { count: days.len(), day })
}

fn is_leap(year: u32) -> bool {
    year % 4 == 0 && (year % 100 != 0 || year % 400 == 0)
}

fn month_length(year: u32, month: u32) -> u32 {
    match month {
        2 if is_leap(year) => 29,
        2 => 28,
        4 | 6 | 9 | 11 => 30,
        _ => 31,
    }
}

/// Days from 1 January 2000, for a real date of 2000 to 2099.
fn day_number(year: u32, month: u32, day: u32) -> Option<u16> {
    if !(1..=12).contains(&month) || day < 1 || day > month_length(year, month) {
        return None;
    }
    let years: u32 = (2000..year).map(|y| if is_leap(y) { 366 } else { 365 }).sum();
    let months: u32 = (1..month).map(|m| month_length(year, m)).sum();
    Some((years + months + day - 1) as u16)
}
