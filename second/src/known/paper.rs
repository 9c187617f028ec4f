//! The paper's own examples, C1 to C6, and its date texts.

use crate::table::Owned;

/// One field, one reading.
pub fn c1() -> Owned {
    Owned::open(&[1])
}

/// 02/05/2024 and 01/05/2025 with a gap: C2 with 350 to 366, C5 with 330 to 366.
pub fn sheet(lo: i16, hi: i16) -> Vec<u8> {
    let mut sheet = b"DT02/05/2024DT01/05/2025GP\x00\x01".to_vec();
    sheet.extend(lo.to_be_bytes());
    sheet.extend(hi.to_be_bytes());
    sheet.extend(b"EN");
    sheet
}

/// The days of the two fields of C2 and C5.
pub const DAYS: [[u16; 2]; 2] = [[8801, 8888], [9136, 9252]];

/// Gaps of C2 by reading of field 0, then of field 1.
pub const GAPS: [[i32; 2]; 2] = [[335, 451], [248, 364]];

/// The opening table of C2 or C5, from the gaps above.
pub fn gap_table(lo: i32, hi: i32) -> Owned {
    let mut table = Owned::open(&[2, 2]);
    table.keep(0, 1, |a, b| (lo..=hi).contains(&GAPS[a][b]));
    table
}

pub fn c2() -> Owned {
    gap_table(350, 366)
}

/// So many fields of so many readings, each two different.
pub fn all_different(fields: usize, readings: u8) -> Owned {
    let mut table = Owned::open(&vec![readings; fields]);
    for i in 0..fields {
        for j in i + 1..fields {
            table.keep(i, j, |a, b| a != b);
        }
    }
    table
}

pub fn c3() -> Owned {
    all_different(3, 2)
}

pub fn c4() -> Owned {
    all_different(4, 3)
}

pub fn c5() -> Owned {
    gap_table(330, 366)
}

/// Sizes 1 and 3, all allowed, the middle reading of field 1 struck.
pub fn c6() -> Owned {
    let mut table = Owned::open(&[1, 3]);
    table.strike(1, 1, 1, 1);
    table
}

/// Date texts and the days they give, or the number they are refused with.
pub const DATES: [(&str, Result<&[u16], u8>); 10] = [
    ("03/07/2024", Ok(&[8832, 8950])),
    ("13/02/2024", Ok(&[8809])),
    ("05/05/2024", Ok(&[8891])),
    ("29/02/2024", Ok(&[8825])),
    ("29/02/2023", Err(20)),
    ("13/13/2024", Err(20)),
    ("01/01/2000", Ok(&[0])),
    ("31/12/2099", Ok(&[36524])),
    ("01/01/1999", Err(19)),
    ("01/01/2100", Err(19)),
];

/// What the lister prints for C2's sheet.
pub const LISTING: &str = "\
state 0
rounds 1
field 0 kept 1 8888
field 1 kept 1 9252
rows whole
first 8888 9252
";
