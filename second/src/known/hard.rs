//! Document 003's hard examples N_k, k = 5m: one label changes in each round,
//! 2m(m+1) - 1 of them in all. The document proves that number, so it is an r
//! that no program had to be trusted for.
//!
//! The document gives its algebra by composition alone. Its atoms a, b and c
//! are represented here on the readings 0 to 31 by differences modulo 32; the
//! unit tests hold the representation to the document's composition table.

use crate::table::Owned;

/// Labels as sets of differences modulo 32, difference d at bit d.
pub const IDENTITY: u32 = 1;
pub const A: u32 = differences(&[1, 5, 6]);
pub const B: u32 = differences(&[2, 4, 7, 10, 11, 12]);
pub const C: u32 = !(IDENTITY | A | B);

/// A symmetric set: each difference and its negative.
const fn differences(half: &[u32]) -> u32 {
    let mut set = 0;
    let mut m = 0;
    while m < half.len() {
        set |= 1 << half[m] | 1 << (32 - half[m]);
        m += 1;
    }
    set
}

/// N_k for k = 5m, followed by fields that go with everything, up to `fields`.
pub fn table(m: usize, fields: usize) -> Owned {
    let mut table = Owned::open(&vec![32; fields]);
    for s in 0..5 * m {
        for t in s + 1..5 * m {
            let label = label(Node::of(s, m), Node::of(t, m), m);
            table.keep(s, t, |a, b| label >> ((b + 32 - a) % 32) & 1 == 1);
        }
    }
    table
}

/// The rounds N_k takes to settle, and the labels that change, one a round.
pub fn rounds(m: usize) -> u64 {
    (2 * m * (m + 1) - 1) as u64
}

/// A node: its type, v to z, and its number from 1 to m.
#[derive(Clone, Copy)]
struct Node(char, usize);

impl Node {
    fn of(field: usize, m: usize) -> Node {
        Node(['v', 'w', 'x', 'y', 'z'][field / m], field % m + 1)
    }
}

/// The label of the edge between two different nodes, either way round: every
/// label is its own converse.
fn label(s: Node, t: Node, m: usize) -> u32 {
    one_way(s, t, m).or(one_way(t, s, m)).unwrap_or(A | B)
}

/// The document's list of entries, for the direction in which it writes them.
fn one_way(s: Node, t: Node, m: usize) -> Option<u32> {
    match (s, t) {
        (Node('v', 1), Node('w', 1)) => Some(A),
        (Node('v', i), Node('v', j)) if j == i + 1 => Some(A),
        (Node('w', i), Node('x', j)) if i == j => Some(A),
        (Node('x', i), Node('y', j)) if i == j => Some(A),
        (Node('y', i), Node('z', j)) if i == j => Some(A),
        (Node('z', i), Node('w', j)) if j == i + 1 => Some(A),
        // v_1 and w_1 have the label a, which the document lists first.
        (Node('w', 1), Node('v', 1)) => None,
        (Node('w' | 'y', _), Node('v', _)) => Some(A | C),
        (Node('x', _), Node('v', j)) if j == m => Some(A | C),
        (Node('z', _), Node('v', 1)) => Some(A | C),
        _ => None,
    }
}

/// Composition of labels, for the tests: the sums of their differences.
#[cfg(test)]
fn compose(x: u32, y: u32) -> u32 {
    crate::table::ones(x).fold(0, |sum, d| sum | y.rotate_left(d as u32))
}

#[cfg(test)]
mod tests {
    use super::*;

    #[test]
    fn the_algebra_is_the_documents() {
        let (one, diversity) = (u32::MAX, A | B | C);
        assert_eq!(IDENTITY | A | B | C, one);
        for (x, y, sum) in [
            (A, B, diversity),
            (B, C, diversity),
            (B, B, one),
            (C, C, one),
            (A, C, B | C),
            (A, A, IDENTITY | A | B),
        ] {
            assert_eq!(compose(x, y), sum);
            assert_eq!(compose(y, x), sum);
        }
    }
}
