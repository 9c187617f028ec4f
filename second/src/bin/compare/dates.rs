//! Date texts: all that have the shape, and damaged ones.

use second::known::{paper, short_dates};
use second::random::Random;
use second::refusal::Refusal;

use crate::check::{claim, date, Checked, Run};

/// Every text of ten bytes with one year from 1999 to 2100: 00 to 99 twice, each
/// separator.
pub fn every_text(run: &mut Run, _: &mut Random, case: u64) -> Checked<()> {
    let year = 1999 + case;
    for first in 0..100 {
        for second in 0..100 {
            for separator in ['/', '.', '-'] {
                let text = format!("{first:02}{separator}{second:02}{separator}{year}");
                date(run, text.as_bytes())?;
            }
        }
    }
    Ok(())
}

/// Every text of eight bytes with this first number: 00 to 99 twice, each
/// separator.
pub fn every_short_text(run: &mut Run, _: &mut Random, first: u64) -> Checked<()> {
    for number in 0..10_000 {
        let (second, third) = (number / 100, number % 100);
        for separator in ['/', '.', '-'] {
            let text = format!("{first:02}{separator}{second:02}{separator}{third:02}");
            date(run, text.as_bytes())?;
        }
    }
    Ok(())
}

pub fn damaged(run: &mut Run, random: &mut Random, _: u64) -> Checked<()> {
    let (first, second) = (random.between(1, 31), random.between(1, 12));
    let year = random.between(2000, 2099);
    spoilt(run, format!("{first:02}/{second:02}/{year}").as_bytes())
}

pub fn damaged_short(run: &mut Run, random: &mut Random, _: u64) -> Checked<()> {
    let [first, second, third] = [31, 12, 31].map(|most| random.between(1, most));
    spoilt(run, format!("{first:02}/{second:02}/{third:02}").as_bytes())
}

/// One good text with every byte changed to every value, and every pair of
/// these marks in the separators' places.
fn spoilt(run: &mut Run, good: &[u8]) -> Checked<()> {
    for at in 0..good.len() {
        for value in 0..=255 {
            let mut text = good.to_vec();
            text[at] = value;
            date(run, &text)?;
        }
    }
    let marks = *b"/.-: 0\0\xaf";
    for (one, other) in marks.iter().flat_map(|one| marks.map(|other| (*one, other))) {
        let mut text = good.to_vec();
        (text[2], text[5]) = (one, other);
        date(run, &text)?;
    }
    lengths(run, good)
}

/// Other lengths, some of which look right in fewer bits.
fn lengths(run: &mut Run, good: &[u8]) -> Checked<()> {
    for length in (0..40).chain([256, 264, 266, 65_544, 65_546]) {
        let text: Vec<u8> = good.iter().copied().cycle().take(length).collect();
        date(run, &text)?;
    }
    Ok(())
}

/// The paper's own texts.
pub fn papers(run: &mut Run, _: &mut Random, case: u64) -> Checked<()> {
    known(run, paper::DATES[case as usize])
}

/// Texts of eight bytes, and some a little longer or shorter, whose days were worked out by hand.
pub fn short_ones(run: &mut Run, _: &mut Random, case: u64) -> Checked<()> {
    known(run, short_dates::TEXTS[case as usize])
}

fn known(run: &mut Run, (text, want): (&str, Result<&[u16], u8>)) -> Checked<()> {
    let got = date(run, text.as_bytes())?.0;
    let as_told = match (got, want) {
        (Ok(days), Ok(told)) => days.as_slice() == told,
        (Err(refusal), Err(number)) => refusal == Refusal::bare(number),
        _ => false,
    };
    claim(run, as_told, "the days known beforehand", text.as_bytes(), &[])
}
