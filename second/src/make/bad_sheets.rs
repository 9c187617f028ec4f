//! Damage to sheets.

use super::sheets::{
    date_text, day_field, days_record, gap_record, pair_record, short_text, Draft, Record,
};
use crate::limits::{FIELDS, LAST_DAY, READINGS};
use crate::random::Random;

/// Spoils a good sheet once; now and then it stays good.
pub fn spoil(random: &mut Random, draft: &Draft) -> Vec<u8> {
    let mut draft = draft.clone();
    match random.below(13) {
        0 => cut(random, draft.bytes()),
        1 | 2 => change(random, draft.bytes()),
        3 => {
            random.shuffle(&mut draft.records);
            draft.bytes()
        }
        4 => {
            draft.records.push(b"EN".to_vec());
            random.shuffle(&mut draft.records);
            draft.records.concat()
        }
        5 => swap(random, draft),
        6 => double(random, draft),
        7 => drop_one(random, draft),
        8 => lengthen(random, draft.bytes()),
        9 => many_fields(random, draft),
        _ => {
            let record = bad_record(random, &draft);
            let at = random.below(draft.records.len() + 1);
            draft.records.insert(at, record);
            draft.bytes()
        }
    }
}

fn cut(random: &mut Random, mut bytes: Vec<u8>) -> Vec<u8> {
    bytes.truncate(random.below(bytes.len() + 1));
    bytes
}

fn change(random: &mut Random, mut bytes: Vec<u8>) -> Vec<u8> {
    for _ in 0..1 + random.below(3) {
        let at = random.below(bytes.len());
        bytes[at] = match random.below(4) {
            0 => random.byte(),
            1 => random.pick(b"DTSFGPRENdt/.-:0123456789"),
            2 => random.pick(&[0, 1, 2, 15, 16, 17, 31, 32, 33, 0x7f, 0x80, 0xff]),
            _ => bytes[at] ^ 1 << random.below(8),
        };
    }
    bytes
}

fn swap(random: &mut Random, mut draft: Draft) -> Vec<u8> {
    let last = draft.records.len() - 1;
    let at = random.below(last.max(1)).min(last);
    draft.records.swap(at, (at + 1).min(last));
    draft.bytes()
}

fn double(random: &mut Random, mut draft: Draft) -> Vec<u8> {
    let record = draft.records[random.below(draft.records.len())].clone();
    draft.records.insert(random.below(draft.records.len() + 1), record);
    draft.bytes()
}

fn drop_one(random: &mut Random, mut draft: Draft) -> Vec<u8> {
    draft.records.remove(random.below(draft.records.len()));
    draft.bytes()
}

/// Bytes after EN.
fn lengthen(random: &mut Random, mut bytes: Vec<u8>) -> Vec<u8> {
    match random.below(4) {
        0 => bytes.extend(b"EN"),
        1 => bytes.push(random.byte()),
        2 => bytes.extend(b"DS01/02/03"),
        _ => bytes.extend(b"DT01/02/2003"),
    }
    bytes
}

/// Sixteen to eighteen fields, then the rules there were.
fn many_fields(random: &mut Random, mut draft: Draft) -> Vec<u8> {
    let rules = draft.records.split_off(draft.fields.len());
    let wanted = FIELDS + random.below(3);
    while draft.fields.len() < wanted {
        let dated = random.percent(50);
        draft.add_field(random, 3, dated);
    }
    if random.percent(20) {
        draft.records.push(random.pick(&[b"FD", b"DS"]).to_vec());
    }
    draft.records.extend(rules);
    draft.bytes()
}

/// A record with a fault in its content, or none of the marks.
fn bad_record(random: &mut Random, draft: &Draft) -> Record {
    match random.below(4) {
        0 => bad_date(random),
        1 => bad_days(random),
        2 => bad_rule(random, draft),
        _ => {
            let mark: &[u8] = random.pick(&[
                &b"dt"[..],
                b"fd",
                b"TD",
                b"DF",
                b"ds",
                b"SD",
                b"SS",
                b"gp",
                b"EP",
                b"PN",
                b"\0\0",
                b" E",
                b"N",
            ]);
            mark.to_vec()
        }
    }
}

/// A DT or a DS record with a fault in its text, or with the other's text.
fn bad_date(random: &mut Random) -> Record {
    let short = random.percent(50);
    let text = if short { short_text(random, 99) } else { date_text(random, 99, 99) };
    let mut bytes = text.into_bytes();
    let any = random.below(bytes.len());
    match random.below(5) {
        0 => bytes[random.pick(&[2, 5])] = random.pick(b"/.- :0"),
        1 if short => bytes[6..].copy_from_slice(random.pick(&[b"x0", b"0x", b"/4", b"4 "])),
        1 => bytes[6..]
            .copy_from_slice(random.pick(&[b"1999", b"2100", b"1900", b"3000", b"0000", b"20x0"])),
        2 => bytes[any] = random.byte(),
        3 => bytes[..6].copy_from_slice(
            random.pick(&[b"30/02/", b"31.04.", b"00-00-", b"29/02/", b"12/31/", b"13/13/"]),
        ),
        _ => {}
    }
    let other = random.percent(15);
    let mark = if short != other { b"DS" } else { b"DT" };
    [mark, &bytes[..]].concat()
}

fn bad_days(random: &mut Random) -> Record {
    let (mut record, mut days) = day_field(random, 1, READINGS);
    let (x, last) = (random.below(days.len()), days.len() - 1);
    match random.below(6) {
        0 => record[2] = random.pick(&[0, 33, 255, 34, 64, 128]),
        1 => record[2] = record[2].wrapping_add(1),
        2 => record.truncate(random.below(record.len() + 1)),
        fault => {
            match fault {
                3 => days[last] = random.pick(&[LAST_DAY, LAST_DAY + 1, 40_000, 65_535]),
                4 => days[last] = days[x],
                _ => days.swap(x, last),
            }
            return days_record(&days);
        }
    }
    record
}

fn bad_rule(random: &mut Random, draft: &Draft) -> Record {
    let n = draft.fields.len();
    let number = |random: &mut Random, most: usize| match random.below(6) {
        0 => most as u8,
        1 => random.pick(&[255, 16, 32, 128]),
        _ => random.below(most) as u8,
    };
    let (i, j) = (number(random, n), number(random, n));
    if random.percent(50) {
        let (lo, other) = (random.word() as i16, random.word() as i16);
        let hi =
            random.pick(&[lo, lo.wrapping_sub(1), lo.wrapping_add(1), i16::MAX, i16::MIN, other]);
        return gap_record(i, j, lo, hi);
    }
    let size = |field: u8| draft.fields.get(usize::from(field)).map_or(2, Vec::len);
    let (a, b) = (number(random, size(i)), number(random, size(j)));
    pair_record(i, j, a, b)
}
