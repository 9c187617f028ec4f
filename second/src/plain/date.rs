//! Date texts, with the days before each month and year at hand.

use crate::date::{Days, DATES};
use crate::refusal::Refusal;

/// Days before each month of a year that is not a leap year, and at the end.
const BEFORE: [u16; 13] = [0, 31, 59, 90, 120, 151, 181, 212, 243, 273, 304, 334, 365];

/// More than any day: what stands in for a meaning that is not real.
const NONE: u16 = u16::MAX;

/// Eight bytes are a text with a year of two digits, ten one with four.
pub fn read(text: &[u8]) -> Result<Days, Refusal> {
    match text.try_into() {
        Ok(text) => short(text),
        Err(_) => long(text),
    }
}

fn number(tens: u8, units: u8) -> usize {
    usize::from(tens - b'0') * 10 + usize::from(units - b'0')
}

/// Six digits, and the same one of the three separators twice.
fn shaped(digits: [u8; 6], one: u8, other: u8) -> bool {
    digits.iter().all(u8::is_ascii_digit) && one == other && matches!(one, b'/' | b'.' | b'-')
}

fn long(text: &[u8]) -> Result<Days, Refusal> {
    let &[d1, d2, s1, m1, m2, s2, y1, y2, y3, y4] = text else {
        return Err(Refusal::bare(19));
    };
    if !shaped([d1, d2, m1, m2, y3, y4], s1, s2) || [y1, y2] != *b"20" {
        return Err(Refusal::bare(19));
    }
    let (first, second, year) = (number(d1, d2), number(m1, m2), number(y3, y4));
    match (day(year, second, first), day(year, first, second)) {
        (None, None) => Err(Refusal::bare(20)),
        (Some(one), None) | (None, Some(one)) => Ok(Days { count: 1, day: [one, 0, 0] }),
        (Some(one), Some(other)) if one == other => Ok(Days { count: 1, day: [one, 0, 0] }),
        (Some(one), Some(other)) => Ok(Days { count: 2, day: [one.min(other), one.max(other), 0] }),
    }
}

fn short(&[x1, x2, s1, y1, y2, s2, z1, z2]: &[u8; 8]) -> Result<Days, Refusal> {
    if !shaped([x1, x2, y1, y2, z1, z2], s1, s2) {
        return Err(Refusal::bare(19));
    }
    let (x, y, z) = (number(x1, x2), number(y1, y2), number(z1, z2));
    let meanings = [day(z, y, x), day(z, x, y), day(x, y, z)];
    ascending(meanings.map(|day| day.unwrap_or(NONE))).ok_or(Refusal::bare(20))
}

/// Those of three that are real, sorted by three comparisons, equal ones once.
fn ascending([one, two, three]: [u16; DATES]) -> Option<Days> {
    let (low, high) = (one.min(two), one.max(two));
    let sorted = [low.min(three), high.min(low.max(three)), high.max(three)];
    let (mut count, mut day, mut last) = (0, [0; DATES], NONE);
    for next in sorted {
        if next != last && next != NONE {
            day[count] = next;
            count += 1;
            last = next;
        }
    }
    (count > 0).then_some(Days { count, day })
}

/// From 2000 to 2099 every fourth year is a leap year, 2000 among them.
fn day(year: usize, month: usize, day: usize) -> Option<u16> {
    if !(1..=12).contains(&month) {
        return None;
    }
    let leap = year % 4 == 0;
    let length = BEFORE[month] - BEFORE[month - 1] + u16::from(leap && month == 2);
    if day == 0 || day > usize::from(length) {
        return None;
    }
    let years = (year * 365 + year.div_ceil(4)) as u16;
    Some(years + BEFORE[month - 1] + u16::from(leap && month > 2) + day as u16 - 1)
}
