//! Tables that take about as many rounds to settle as one asks for.
//!
//! Most pairs are allowed at random, so that each has many supports. Through
//! them runs a path of readings v0, v1, v2, ... : the pair (v1, v2) is left
//! with v0 as its only support in v0's field, the pair (v2, v3) with v1, and so
//! on. With (v0, v1) struck, each round strikes the next pair of the path.

use std::collections::HashSet;

use crate::make::tables::scattered;
use crate::random::Random;
use crate::table::Owned;

/// A reading of a field.
type Vertex = (usize, usize);

/// A table of `fields` fields (4 or more) of `readings` readings; the path has
/// `steps` pairs. Where the path meets itself it may break off, so the rounds
/// are about `steps` at most.
pub fn table(
    random: &mut Random,
    fields: usize,
    readings: u8,
    percent: u32,
    steps: usize,
) -> Owned {
    let sizes = vec![readings; fields];
    let mut table = scattered(random, &sizes, percent);
    for (i, size) in sizes.iter().enumerate() {
        (0..usize::from(*size)).for_each(|a| table.allow(i, a, i, a));
    }
    let path = path(random, fields, usize::from(readings), steps);
    let wanted = wanted(&path);
    for &((i, a), (j, b)) in &wanted {
        table.allow(i, a, j, b);
    }
    for three in path.windows(3) {
        leave_one_support(random, &mut table, &wanted, three);
    }
    let ((i, a), (j, b)) = (path[0], path[1]);
    table.strike(i, a, j, b);
    table
}

/// Four neighbours on the path lie in four different fields, since the fourth
/// would otherwise support what only the first should. No two readings come
/// near each other twice, and no reading is thinned out twice against the same
/// field.
fn path(random: &mut Random, fields: usize, readings: usize, steps: usize) -> Vec<Vertex> {
    let mut path: Vec<Vertex> = Vec::new();
    let (mut near, mut thinned) = (HashSet::new(), HashSet::new());
    let mut tries = 0;
    while path.len() <= steps && tries < 100 * steps {
        tries += 1;
        let next = (random.below(fields), random.below(readings));
        let last = path[path.len().saturating_sub(2)..].to_vec();
        let apart = path.iter().rev().take(3).all(|vertex| vertex.0 != next.0)
            && last.iter().all(|vertex| !near.contains(&ordered(*vertex, next)));
        // Thinned out as the last of three, and then as the middle one.
        let thin: Vec<(Vertex, usize)> = last.iter().map(|vertex| (next, vertex.0)).collect();
        if apart && thin.iter().all(|pair| !thinned.contains(pair)) {
            near.extend(last.iter().map(|vertex| ordered(*vertex, next)));
            thinned.extend(thin);
            path.push(next);
        }
    }
    path
}

fn ordered(one: Vertex, other: Vertex) -> (Vertex, Vertex) {
    (one.min(other), one.max(other))
}

/// The pairs that make the path's triangles.
fn wanted(path: &[Vertex]) -> HashSet<(Vertex, Vertex)> {
    let near = path.windows(2).map(|two| ordered(two[0], two[1]));
    let far = path.windows(3).map(|three| ordered(three[0], three[2]));
    near.chain(far).collect()
}

/// Strikes what supports the pair of the last two of `three` beside the first,
/// taking from either of the two at random so that neither is left with few.
fn leave_one_support(
    random: &mut Random,
    table: &mut Owned,
    wanted: &HashSet<(Vertex, Vertex)>,
    three: &[Vertex],
) {
    let (first, mut pair) = (three[0], [three[1], three[2]]);
    for x in 0..usize::from(table.sizes[first.0]) {
        let other = (first.0, x);
        let supports = |vertex: &Vertex| table.view().allows(vertex.0, vertex.1, other.0, x);
        if other == first || !pair.iter().all(supports) {
            continue;
        }
        random.shuffle(&mut pair);
        if let Some(spare) = pair.iter().find(|vertex| !wanted.contains(&ordered(**vertex, other)))
        {
            table.strike(spare.0, spare.1, other.0, x);
        }
    }
}
