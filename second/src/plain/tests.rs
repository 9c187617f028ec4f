//! The fast versions answer as the reference does, keen or not.

use super::*;
use crate::known::short_dates;
use crate::make::{bad_sheets, bad_tables, sheets, slow, tables};
use crate::random::Random;
use crate::sheet::{LENT_DAYS, LENT_SIZES, LENT_WORDS};
use crate::table::Owned;

/// Every question with every answer, on a table in any state.
fn same(random: &mut Random, table: &Owned) {
    let (sizes, words) = (&table.sizes[..], &table.words[..]);
    let want = crate::rows::judge(sizes, words);
    assert_eq!(rows::judge::<false>(sizes, words), want);
    assert_eq!(rows::judge::<true>(sizes, words), want);
    let field = random.below(sizes.len() + 1);
    let want = crate::rows::kept(sizes, words, field);
    assert_eq!(rows::kept::<false>(sizes, words, field), want);
    let budget = random.pick(&[0, 1, 2, 3, u64::MAX]);
    let want = settled(crate::settle::settle, table, budget);
    assert_eq!(settled(settle::settle::<false>, table, budget), want);
    assert_eq!(settled(settle::settle::<true>, table, budget), want);

    let cell = (random.below(sizes.len() + 1), random.below(sizes.len() + 1));
    for settled in [words, &vec![0; words.len()]] {
        let want = crate::show::show(sizes, words, settled, cell.0, cell.1);
        assert_eq!(show::show(sizes, words, settled, cell.0, cell.1), want);
    }

    let fixed = tables::fixed_bytes(random, sizes);
    for words in [words, &want.1] {
        let want = chosen(crate::choose::choose, sizes, words, &fixed);
        assert_eq!(chosen(choose::choose::<false>, sizes, words, &fixed), want);
        assert_eq!(chosen(choose::choose::<true>, sizes, words, &fixed), want);
    }
}

type Settle = fn(
    &[u8],
    &mut [u32],
    &mut [u32],
    u64,
) -> Result<crate::settle::Settling, crate::refusal::Refusal>;
type Choose = fn(&[u8], &[u32], &[u8], &mut [u8]) -> Result<(), crate::refusal::Refusal>;
type Read = fn(&[u8], &mut [u8], &mut [u16], &mut [u32]) -> Result<usize, crate::refusal::Refusal>;

fn settled(settle: Settle, table: &Owned, budget: u64) -> (String, Vec<u32>, Vec<u32>) {
    let (mut words, mut scratch) = (table.words.clone(), vec![0x5a5a_5a5a; table.words.len()]);
    let answer = settle(&table.sizes, &mut words, &mut scratch, budget);
    (format!("{answer:?}"), words, scratch)
}

fn chosen(choose: Choose, sizes: &[u8], words: &[u32], fixed: &[u8]) -> (String, Vec<u8>) {
    let mut answer = vec![0x77; fixed.len()];
    let state = choose(sizes, words, fixed, &mut answer);
    (format!("{state:?}"), answer)
}

fn sheet_read(read: Read, bytes: &[u8]) -> (String, Vec<u8>, Vec<u16>, Vec<u32>) {
    let (mut sizes, mut days, mut words) =
        (vec![9; LENT_SIZES], vec![9; LENT_DAYS], vec![9; LENT_WORDS]);
    let answer = read(bytes, &mut sizes, &mut days, &mut words);
    (format!("{answer:?}"), sizes, days, words)
}

#[test]
fn tables_good_and_damaged() {
    for case in 0..4_000 {
        let mut random = Random::for_case(1, 0, case);
        let random = &mut random;
        let sizes = if case % 100 == 0 { vec![32; 16] } else { tables::sizes(random, 6, 9) };
        let kind = random.pick(&tables::KINDS);
        let mut table = tables::make(random, kind, &sizes);
        same(random, &table);
        bad_tables::spoil(random, &mut table);
        same(random, &table);
    }
    let random = &mut Random::new(5);
    let table = slow::table(random, 6, 16, 80, 60);
    same(random, &table);
}

#[test]
fn sheets_good_and_damaged() {
    for case in 0..4_000 {
        let random = &mut Random::for_case(2, 0, case);
        let (fields, readings, rules) = if case % 10 == 0 { (16, 32, 100) } else { (4, 5, 6) };
        let draft = sheets::Draft::good(random, 1 + random.clone().below(fields), readings, rules);
        for bytes in [draft.bytes(), bad_sheets::spoil(random, &draft)] {
            let want = sheet_read(crate::sheet::read, &bytes);
            assert_eq!(sheet_read(sheet::read::<false>, &bytes), want);
            assert_eq!(sheet_read(sheet::read::<true>, &bytes), want);
        }
    }
}

fn same_date(text: &str) {
    assert_eq!(date::read(text.as_bytes()), crate::date::read(text.as_bytes()), "{text}");
}

/// Every text of ten bytes from 1999 to 2100 with one of the separators, and
/// some that nearly are.
#[test]
fn date_texts() {
    for number in 0..1_020_000 {
        let (x, y, year) = (number / 10_200, number / 102 % 100, 1999 + number % 102);
        same_date(&format!("{x:02}-{y:02}-{year}"));
    }
    ["", "01/02/200", "01/02/20033", "01/02.2003", "01:02:2003", "0x/02/2003", "01/02/2oo3"]
        .into_iter()
        .for_each(same_date);
}

/// Every text of eight bytes with one of the separators, and those known by hand.
#[test]
fn short_date_texts() {
    for number in 0..1_000_000 {
        let (x, y, z) = (number / 10_000, number / 100 % 100, number % 100);
        same_date(&format!("{x:02}.{y:02}.{z:02}"));
    }
    short_dates::TEXTS.iter().for_each(|(text, _)| same_date(text));
}

#[test]
fn transposing_is_mirroring() {
    let random = &mut Random::new(3);
    let cell: Cell = std::array::from_fn(|_| random.word() as u32);
    let mirror = shape::transposed(&cell);
    for a in 0..READINGS {
        for b in 0..READINGS {
            assert_eq!(cell[a] >> b & 1, mirror[b] >> a & 1);
        }
    }
}
