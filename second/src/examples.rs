//! The paper's worked examples, and what the source documents say of theirs,
//! held against the reference. Every number here is the paper's, a document's
//! own, or worked out by hand.

use crate::choose::choose;
use crate::date;
use crate::known::{crossword, figures, hard, paper, short_dates};
use crate::limits::FREE;
use crate::listing::list;
use crate::packed::{pack, unpack, Odd};
use crate::readings;
use crate::refusal::Refusal;
use crate::rows::{judge, kept, Rows};
use crate::settle::{settle, Settling};
use crate::sheet::{self, LENT_DAYS, LENT_SIZES, LENT_WORDS};
use crate::show::{show, Shown};
use crate::table::{words_for, Owned};

/// Settles in place without a bound on the rounds: r, and whether it is empty.
fn settled(table: &mut Owned) -> (u64, bool) {
    let mut scratch = vec![0xa5a5_a5a5; table.words.len()];
    let settling = settle(&table.sizes, &mut table.words, &mut scratch, u64::MAX);
    assert_eq!(scratch, table.words);
    match settling {
        Ok(Settling::Settled { rounds, empty }) => (rounds, empty),
        other => panic!("{other:?}"),
    }
}

fn chosen(table: &Owned, fixed: &[u8]) -> Result<Vec<u8>, Refusal> {
    let mut answer = vec![0x77; fixed.len()];
    choose(&table.sizes, &table.words, fixed, &mut answer).map(|()| answer)
}

fn read_sheet(sheet: &[u8]) -> Result<(Owned, Vec<u16>), Refusal> {
    let (mut sizes, mut days, mut words) = ([9; LENT_SIZES], [9; LENT_DAYS], vec![9; LENT_WORDS]);
    let n = sheet::read(sheet, &mut sizes, &mut days, &mut words)?;
    words.truncate(words_for(n));
    Ok((Owned { sizes: sizes[..n].to_vec(), words }, days.to_vec()))
}

#[test]
fn c1_is_settled_as_it_stands() {
    assert_eq!(settled(&mut paper::c1()), (0, false));
}

#[test]
fn c2_keeps_the_last_gap() {
    let (mut table, days) = read_sheet(&paper::sheet(350, 366)).unwrap();
    assert_eq!(table, paper::c2());
    for (a, gaps) in paper::GAPS.iter().enumerate() {
        for (b, gap) in gaps.iter().enumerate() {
            assert_eq!(i32::from(days[32 + b]) - i32::from(days[a]), *gap);
        }
    }
    assert_eq!(settled(&mut table), (1, false));
    assert_eq!(kept(&table.sizes, &table.words, 0), Ok(1));
    assert_eq!(kept(&table.sizes, &table.words, 1), Ok(1));
    assert_eq!(chosen(&table, &[FREE, FREE]), Ok(vec![1, 1]));
}

#[test]
fn c2_with_a_budget() {
    for (budget, want) in [
        (0, Settling::Unfinished),
        (1, Settling::Settled { rounds: 1, empty: false }),
        (2, Settling::Settled { rounds: 1, empty: false }),
    ] {
        let mut table = paper::c2();
        let mut scratch = vec![0; table.words.len()];
        let got = settle(&table.sizes, &mut table.words, &mut scratch, budget);
        assert_eq!(got, Ok(want));
        let mut end = paper::c2();
        settled(&mut end);
        // With no round allowed the table stays and scratch shows the first.
        assert_eq!(scratch, end.words);
        assert_eq!(table.words == paper::c2().words, budget == 0);
    }
}

#[test]
fn c3_empties_in_two_rounds() {
    let mut table = paper::c3();
    assert_eq!(settled(&mut table), (2, true));
    assert!(table.view().is_empty());
}

#[test]
fn c4_is_settled_and_has_no_full_reading() {
    let mut table = paper::c4();
    assert_eq!(settled(&mut table), (0, false));
    assert_eq!(readings::all(&table.view()), Vec::<Vec<u8>>::new());
    assert_eq!(judge(&table.sizes, &table.words), Ok(Rows::Broken(0, 1, 1)));
    assert_eq!(chosen(&table, &[FREE; 4]), Err(Refusal::row(10, (0, 1, 1))));
}

#[test]
fn c5_chooses_with_a_later_field_in_mind() {
    let (mut table, _) = read_sheet(&paper::sheet(330, 366)).unwrap();
    assert_eq!(table, paper::c5());
    assert_eq!(settled(&mut table), (0, false));
    assert_eq!(chosen(&table, &[FREE, FREE]), Ok(vec![0, 0]));
    assert_eq!(chosen(&table, &[FREE, 1]), Ok(vec![1, 1]));
    assert_eq!(chosen(&table, &[0, 1]), Err(Refusal::pair(12, 0, 1)));
}

#[test]
fn c6_opens_whole_and_settles_broken() {
    let mut table = paper::c6();
    assert_eq!(judge(&table.sizes, &table.words), Ok(Rows::Whole));
    assert_eq!(settled(&mut table), (1, false));
    assert_eq!(judge(&table.sizes, &table.words), Ok(Rows::Broken(0, 1, 0)));
}

fn assert_date(text: &[u8], want: Result<&[u16], u8>) {
    match (date::read(text), want) {
        (Ok(days), Ok(want)) => assert_eq!(days.as_slice(), want, "{text:?}"),
        (got, want) => assert_eq!(got.err(), want.err().map(Refusal::bare), "{text:?}"),
    }
}

#[test]
fn date_texts() {
    for (text, want) in paper::DATES.into_iter().chain(short_dates::TEXTS) {
        assert_date(text.as_bytes(), want);
    }
}

#[test]
fn only_eight_bytes_and_ten_are_read() {
    for length in 0..=20 {
        let text: Vec<u8> = b"02/03/2004".iter().copied().cycle().take(length).collect();
        let want: Result<&[u16], u8> = match length {
            // 20 March 2002, 3 February 2020, 2 March 2020.
            8 => Ok(&[809, 7338, 7366]),
            // 3 February 2004, 2 March 2004.
            10 => Ok(&[1494, 1522]),
            _ => Err(19),
        };
        assert_date(&text, want);
    }
}

#[test]
fn three_days_in_one_number() {
    // From the low end: state 0, count 3, days 793, 1494 and 1522.
    let three = 0x05f2_05d6_0319_0300;
    assert_eq!(pack(&date::read(b"02/03/04")), three);
    assert_eq!(unpack(three), Ok(date::read(b"02/03/04")));
    // A count of 4 or 0, and a day more than the count says.
    for odd in [0x05f2_05d6_0319_0400, 0x05f2_05d6_0319_0000, 0x05f2_05d6_0319_0200] {
        assert_eq!(unpack::<date::Days>(odd), Err(Odd(odd)));
    }
}

#[test]
fn the_listers_example() {
    assert_eq!(list(&paper::sheet(350, 366)), paper::LISTING);
    assert_eq!(list(b"DT02/05/2024DT30/02/2024EN"), "state 20 at 12\n");
    assert_eq!(list(b"EN"), "state 1\n");
    assert_eq!(list(&[b'x'; 4097]), "state 14\n");
}

/// A sheet under `samples/` and the text beside it.
macro_rules! sample {
    ($name:literal) => {
        (
            &include_bytes!(concat!("../../samples/", $name, ".sheet"))[..],
            include_str!(concat!("../../samples/", $name, ".txt")),
            $name,
        )
    };
}

#[test]
fn the_samples() {
    for (sheet, text, name) in
        [sample!("c2"), sample!("c5"), sample!("c6"), sample!("short"), sample!("refused")]
    {
        assert_eq!(list(sheet), text, "{name}");
    }
}

#[test]
fn the_lister_judges_rows_after_settling() {
    let sheet = b"FD\x01\x00\x05FD\x03\x00\x01\x00\x02\x00\x03PR\x01\x01\x01\x01EN";
    assert_eq!(
        list(sheet),
        "state 0\nrounds 1\nfield 0 kept 1 5\nfield 1 kept 2 1 3\nrows broken 0 1 0\nfirst none\n"
    );
}

#[test]
fn the_lister_on_an_emptied_table() {
    let sheet = b"FD\x01\x00\x05FD\x01\x00\x06GP\x00\x01\x00\x05\x00\x09EN";
    assert_eq!(
        list(sheet),
        "state 0\nrounds 1\nfield 0 kept 0\nfield 1 kept 0\nrows whole\nfirst none\n"
    );
}

#[test]
fn faults_of_a_sheet_in_the_papers_order() {
    let refused = |sheet: &[u8]| read_sheet(sheet).unwrap_err();
    assert_eq!(refused(b""), Refusal::at(15, 0));
    assert_eq!(refused(b"D"), Refusal::at(15, 0));
    assert_eq!(refused(b"DT01/02/2003"), Refusal::at(15, 12));
    assert_eq!(refused(b"DT01/02/2003E"), Refusal::at(15, 12));
    assert_eq!(refused(b"DT01/02/200"), Refusal::at(15, 0));
    assert_eq!(refused(b"XX"), Refusal::at(16, 0));
    assert_eq!(refused(b"EN???"), Refusal::bare(1));
    assert_eq!(refused(b"DT01/02/2003EN?"), Refusal::at(23, 12));
    assert_eq!(refused(b"DT01/02/2003PR\0\0\0\0DT"), Refusal::at(17, 18));
    assert_eq!(refused(b"DT01/02/1999EN"), Refusal::at(19, 0));
    assert_eq!(refused(b"DT31/02/2003EN"), Refusal::at(20, 0));
    // The count is judged before its days are missed.
    assert_eq!(refused(b"FD"), Refusal::at(15, 0));
    assert_eq!(refused(b"FD\0"), Refusal::at(21, 0));
    assert_eq!(refused(b"FD\x21"), Refusal::at(21, 0));
    assert_eq!(refused(b"FD\x02\0\0\0"), Refusal::at(15, 0));
    assert_eq!(refused(b"FD\x02\0\x01\0\x01"), Refusal::at(21, 0));
    assert_eq!(refused(b"FD\x01\x8e\xad"), Refusal::at(21, 0));
    assert_eq!(refused(b"GP\0\x01\0\0\0\0"), Refusal::at(22, 0));
    assert_eq!(refused(b"GP\0\x01\0\0\0"), Refusal::at(15, 0));
    let sixteen = b"DT01/02/2003".repeat(16);
    assert_eq!(refused(&[&sixteen[..], b"DT"].concat()), Refusal::at(18, 192));
    assert_eq!(refused(&[&sixteen[..], b"PR\0\0\0\0FD"].concat()), Refusal::at(17, 198));
}

#[test]
fn faults_of_a_short_date() {
    let refused = |sheet: &[u8]| read_sheet(sheet).unwrap_err();
    let good = b"DS02/03/04";
    for length in 0..10 {
        assert_eq!(refused(&good[..length]), Refusal::at(15, 0));
        // Late or one too many: after the mark, before what else is wrong.
        let late = [b"DS02/03/04PR\0\0\0\0", &good[..length]].concat();
        assert_eq!(refused(&late), Refusal::at(if length < 2 { 15 } else { 17 }, 16));
        let many = [&good.repeat(16)[..], &good[..length]].concat();
        assert_eq!(refused(&many), Refusal::at(if length < 2 { 15 } else { 18 }, 160));
    }
    assert_eq!(refused(good), Refusal::at(15, 10));
    assert_eq!(refused(b"DT02/03/2004DS31/02/30EN"), Refusal::at(20, 12));
    assert_eq!(refused(b"DT02/03/2004DS02/03.04EN"), Refusal::at(19, 12));
    // The text of the other mark.
    assert_eq!(refused(b"DS02/03/2004EN"), Refusal::at(16, 10));
    assert_eq!(refused(b"DT02/03/04EN"), Refusal::at(19, 0));
    assert_eq!(refused(b"DT02/03/04E"), Refusal::at(15, 0));
    // Reading 2 is there if three dates are, and not if two of them are equal.
    assert!(read_sheet(b"DS02/03/04PR\0\0\x02\x02EN").is_ok());
    assert_eq!(refused(b"DS05/05/04PR\0\0\x02\x02EN"), Refusal::at(22, 10));
}

#[test]
fn a_short_date_is_a_field_of_up_to_three_readings() {
    let (table, days) = read_sheet(b"DS02/03/04DS01/01/01DS05/05/04EN").unwrap();
    assert_eq!(table, Owned::open(&[3, 1, 2]));
    assert_eq!(days[..4], [793, 1494, 1522, 0]);
    assert_eq!(days[32..36], [366, 0, 0, 0]);
    assert_eq!(days[64..68], [1586, 1950, 0, 0]);
    assert_eq!(days[68..96], [0; 28]);
}

#[test]
fn an_interval_narrows_a_short_date() {
    // Day 1461 is 1 January 2004: 33 and 61 days before the later two readings,
    // 668 after the first.
    for (lo, hi, kept) in [
        (-700_i16, 100_i16, "3 793 1494 1522"),
        (0, 100, "2 1494 1522"),
        (34, 100, "1 1522"),
        (-668, 0, "1 793"),
    ] {
        let mut sheet = b"FD\x01\x05\xb5DS02/03/04GP\x00\x01".to_vec();
        sheet.extend([lo.to_be_bytes(), hi.to_be_bytes()].concat());
        sheet.extend(b"EN");
        assert!(list(&sheet).contains(&format!("\nfield 1 kept {kept}\n")), "{lo} to {hi}");
    }
}

#[test]
fn a_difference_can_leave_16_bits() {
    // Days 0 and 36,524: kept by no gap of 16 bits, whatever it would wrap to.
    let sheet = b"FD\x01\0\0FD\x01\x8e\xacGP\0\x01\x80\0\x7f\xffEN";
    let (table, _) = read_sheet(sheet).unwrap();
    assert_eq!(table.view().row(0, 1, 0), 0);
}

#[test]
fn checks_1_to_6_go_in_number_order() {
    let judged = |sizes: &[u8], words: &[u32]| judge(sizes, words).unwrap_err();
    assert_eq!(judged(&[], &[]), Refusal::bare(1));
    assert_eq!(judged(&[0; 17], &[]), Refusal::bare(1));
    assert_eq!(judged(&[1, 33, 0], &[]), Refusal::at(2, 1));
    assert_eq!(judged(&[1, 1], &[0; 127]), Refusal::bare(3));

    // A fault of each kind, the later number in the earlier row.
    let mut table = Owned::open(&[2, 3]);
    let flip = |table: &mut Owned, i, j, a, b: usize| {
        let at = table.at(i, j, a);
        table.words[at] ^= 1 << b;
    };
    flip(&mut table, 0, 1, 0, 2);
    assert_eq!(judged(&table.sizes, &table.words), Refusal::row(6, (0, 1, 0)));
    flip(&mut table, 1, 1, 0, 1);
    assert_eq!(judged(&table.sizes, &table.words), Refusal::row(5, (1, 1, 0)));
    flip(&mut table, 1, 1, 31, 0);
    assert_eq!(judged(&table.sizes, &table.words), Refusal::row(4, (1, 1, 31)));
    flip(&mut table, 1, 0, 2, 2);
    assert_eq!(judged(&table.sizes, &table.words), Refusal::row(4, (1, 0, 2)));
}

#[test]
fn a_bit_that_only_the_mirror_has_is_found_in_the_row_that_lacks_it() {
    let mut table = Owned::open(&[2, 2]);
    table.strike(0, 0, 1, 1);
    let at = table.at(1, 0, 1);
    table.words[at] |= 1;
    assert_eq!(judge(&table.sizes, &table.words), Err(Refusal::row(6, (0, 1, 0))));
}

#[test]
fn checks_7_to_12_go_in_number_order() {
    let mut table = paper::c6();
    let refused = |table: &Owned, fixed: &[u8]| chosen(table, fixed).unwrap_err();
    assert_eq!(refused(&table, &[FREE; 3]), Refusal::bare(7));
    // Reading 1 of field 1 is struck, and still goes with field 0's.
    assert_eq!(refused(&table, &[9, 9]), Refusal::row(8, (0, 1, 0)));
    settled(&mut table);
    assert_eq!(refused(&table, &[9, 9]), Refusal::row(10, (0, 1, 0)));
    let mut empty = paper::c3();
    settled(&mut empty);
    assert_eq!(refused(&empty, &[9, 9, 9]), Refusal::bare(9));

    let mut open = Owned::open(&[2, 3, 2]);
    open.strike(1, 2, 1, 2);
    open.keep(0, 2, |a, b| a == b);
    settled(&mut open);
    assert_eq!(refused(&open, &[1, 2, 2]), Refusal::at(11, 2));
    assert_eq!(refused(&open, &[1, 2, 0]), Refusal::pair(12, 0, 1));
    assert_eq!(refused(&open, &[FREE, 2, 0]), Refusal::pair(12, 1, 1));
    assert_eq!(refused(&open, &[1, FREE, 0]), Refusal::pair(12, 0, 2));
    assert_eq!(chosen(&open, &[FREE, FREE, 1]), Ok(vec![1, 0, 1]));
    assert_eq!(kept(&open.sizes, &open.words, 3), Err(Refusal::bare(24)));
}

#[test]
fn a_cell_is_shown_from_the_opening_table_when_all_is_struck() {
    let (opening, mut empty) = (paper::c3(), paper::c3());
    settled(&mut empty);
    let from = |settled: &Owned, i, j| show(&opening.sizes, &opening.words, &settled.words, i, j);
    assert_eq!(from(&opening, 1, 2), Ok(Shown { from_opening: false, first_word: 160 }));
    assert_eq!(from(&empty, 1, 2), Ok(Shown { from_opening: true, first_word: 160 }));
    assert_eq!(from(&empty, 3, 0), Err(Refusal::bare(24)));
    assert_eq!(show(&[2, 0], &[], &[], 9, 9), Err(Refusal::at(2, 1)));
}

#[test]
fn figure_6_is_settled_but_never_row_convex() {
    for order in figures::ORDERS {
        let mut table = figures::figure_6_ordered(order);
        assert_eq!(settled(&mut table), (0, false));
        assert_ne!(judge(&table.sizes, &table.words), Ok(Rows::Whole));
    }
    let printed = figures::figure_6();
    assert_eq!(judge(&printed.sizes, &printed.words), Ok(Rows::Broken(0, 1, 2)));
    // In the order a, c, b only a row of cell (3, 2) is broken, so the network
    // is directionally row convex.
    let ordered = figures::figure_6_ordered([0, 2, 1]);
    assert_eq!(judge(&ordered.sizes, &ordered.words), Ok(Rows::Broken(2, 1, 0)));
}

#[test]
fn example_3_strikes_the_middle_reading() {
    let mut table = figures::example_3();
    settled(&mut table);
    for (a, row) in figures::EXAMPLE_3_IK.iter().enumerate() {
        assert_eq!(table.view().row(0, 2, a), *row);
    }
    assert_eq!(kept(&table.sizes, &table.words, 2), Ok(2));
    assert_eq!(judge(&table.sizes, &table.words), Ok(Rows::Broken(0, 2, 0)));
}

#[test]
fn the_crossword_has_one_solution() {
    for words in [&crossword::WHOLE[..], &crossword::LISTED[..]] {
        let mut table = crossword::table(words);
        let solution = crossword::solution(words);
        assert_eq!(readings::all(&table.view()), vec![solution.clone()]);
        assert!(!settled(&mut table).1);
        for field in 0..8 {
            assert_eq!(kept(&table.sizes, &table.words, field), Ok(1));
        }
        assert_eq!(chosen(&table, &[FREE; 8]), Ok(solution));
    }
}

#[test]
fn hard_examples_change_one_label_a_round() {
    for m in 1..=3 {
        let mut table = hard::table(m, 5 * m + usize::from(m == 3));
        let before = table.clone();
        assert_eq!(settled(&mut table), (hard::rounds(m), false));
        let n = table.sizes.len();
        let changed =
            |i, j| (0..32).any(|a| table.view().row(i, j, a) != before.view().row(i, j, a));
        let cells = (0..n).flat_map(|i| (i + 1..n).map(move |j| (i, j)));
        assert_eq!(cells.filter(|&(i, j)| changed(i, j)).count() as u64, hard::rounds(m));
    }
}
