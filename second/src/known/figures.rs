//! Document 000: figure 6 and the matrices of its example 3.

use crate::table::Owned;

/// A matrix as the document prints it, one string a row.
type Matrix = [&'static str; 3];

const R12: Matrix = ["010", "111", "101"];
const R13: Matrix = ["010", "111", "110"];
const R23: Matrix = ["100", "111", "010"];
const R21: Matrix = ["011", "110", "011"];
const R31: Matrix = ["011", "111", "010"];
const R32: Matrix = ["110", "011", "010"];

/// Figure 6 exactly as printed, every cell from its own matrix, so that the
/// mirror is the document's and not this program's.
pub fn figure_6() -> Owned {
    figure_6_ordered([0, 1, 2])
}

/// Figure 6 with the domain of the second variable in another order: `order[m]`
/// is the printed number of the reading that comes m-th.
pub fn figure_6_ordered(order: [usize; 3]) -> Owned {
    let plain = [0, 1, 2];
    let mut table = Owned::open(&[3, 3, 3]);
    put(&mut table, 0, 1, &R12, plain, order);
    put(&mut table, 0, 2, &R13, plain, plain);
    put(&mut table, 1, 2, &R23, order, plain);
    put(&mut table, 1, 0, &R21, order, plain);
    put(&mut table, 2, 0, &R31, plain, plain);
    put(&mut table, 2, 1, &R32, plain, order);
    table
}

/// Writes one cell and leaves its mirror alone.
fn put(
    table: &mut Owned,
    i: usize,
    j: usize,
    matrix: &Matrix,
    rows: [usize; 3],
    columns: [usize; 3],
) {
    for a in 0..3 {
        let row = matrix[rows[a]].as_bytes();
        let at = table.at(i, j, a);
        table.words[at] = (0..3).fold(0, |word, b| word | u32::from(row[columns[b]] == b'1') << b);
    }
}

/// Every order of the second variable's domain.
pub const ORDERS: [[usize; 3]; 6] =
    [[0, 1, 2], [0, 2, 1], [1, 0, 2], [1, 2, 0], [2, 0, 1], [2, 1, 0]];

/// Example 3: x_i and x_j from {-1, 0}, x_k from {-1, 0, 1}, with
/// x_i + x_j < 0 and -2 x_j + x_k = 1.
pub fn example_3() -> Owned {
    let mut table = Owned::open(&[2, 2, 3]);
    let value = |reading: usize| reading as i32 - 1;
    table.keep(0, 1, |a, b| value(a) + value(b) < 0);
    table.keep(1, 2, |a, b| -2 * value(a) + value(b) == 1);
    table
}

/// Cell (i, k) of example 3 as the document gives it after composing.
pub const EXAMPLE_3_IK: [u32; 2] = [0b101, 0b001];
