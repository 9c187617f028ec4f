//! Random well-formed tables of several kinds.

use crate::limits::{FIELDS, FREE};
use crate::random::Random;
use crate::settle::{settle, Settling};
use crate::table::Owned;

#[derive(Clone, Copy, PartialEq, Eq, Debug)]
pub enum Kind {
    /// Nearly every pair allowed.
    Dense,
    /// Few pairs allowed, from nearly none to about half.
    Sparse,
    /// Days with gaps between some fields; they agree on one reading.
    Interval,
    /// Some or all fields must differ two by two.
    Different,
    /// What settling leaves of another kind, not empty.
    Settled,
    /// The union of a few full readings: settled already, rows mostly broken.
    Union,
    /// Each pair with few supports, so that strikes set off others for a while.
    Scarce,
    /// Settles to nothing.
    Emptying,
}

pub const KINDS: [Kind; 8] = [
    Kind::Dense,
    Kind::Sparse,
    Kind::Interval,
    Kind::Different,
    Kind::Settled,
    Kind::Union,
    Kind::Scarce,
    Kind::Emptying,
];

pub fn make(random: &mut Random, kind: Kind, sizes: &[u8]) -> Owned {
    match kind {
        Kind::Dense => {
            let percent = random.between(85, 100) as u32;
            scattered(random, sizes, percent)
        }
        Kind::Sparse => {
            let percent = random.between(5, 55) as u32;
            scattered(random, sizes, percent)
        }
        Kind::Interval => interval(random, sizes),
        Kind::Different => different(random, sizes),
        Kind::Settled => settled(random, sizes),
        Kind::Union => {
            let count = 1 + random.below(6);
            union(random, sizes, count)
        }
        Kind::Scarce => scarce(random, sizes),
        Kind::Emptying => emptying(random, sizes),
    }
}

/// Sizes of 1 to `fields` fields with 1 to `readings` readings, often the most.
pub fn sizes(random: &mut Random, fields: usize, readings: usize) -> Vec<u8> {
    let n = 1 + random.below(fields);
    let mut size = || if random.percent(15) { readings } else { 1 + random.below(readings) };
    (0..n).map(|_| size() as u8).collect()
}

/// Each pair of readings of two fields allowed so many times in a hundred, and
/// now and then a struck reading.
pub fn scattered(random: &mut Random, sizes: &[u8], percent: u32) -> Owned {
    let mut table = Owned::open(sizes);
    for i in 0..sizes.len() {
        for j in i + 1..sizes.len() {
            strike_at_random(random, &mut table, i, j, percent);
        }
    }
    if random.percent(30) {
        strike_readings(random, &mut table, 5);
    }
    table
}

/// With s readings and a share p of the pairs, a pair has s·p·p supports in
/// each other field; here about two to four.
fn scarce(random: &mut Random, sizes: &[u8]) -> Owned {
    let mean = sizes.iter().map(|size| f64::from(*size)).sum::<f64>() / sizes.len() as f64;
    let supports = random.between(15, 45) as f64 / 10.0;
    let percent = (100.0 * (supports / mean).sqrt()).min(100.0) as u32;
    scattered(random, sizes, percent)
}

fn strike_at_random(random: &mut Random, table: &mut Owned, i: usize, j: usize, percent: u32) {
    for a in 0..usize::from(table.sizes[i]) {
        for b in 0..usize::from(table.sizes[j]) {
            if !random.percent(percent) {
                table.strike(i, a, j, b);
            }
        }
    }
}

/// Strikes readings on the diagonal and leaves their pairs to settling.
pub fn strike_readings(random: &mut Random, table: &mut Owned, percent: u32) {
    for i in 0..table.sizes.len() {
        for a in 0..usize::from(table.sizes[i]) {
            if random.percent(percent) {
                table.strike(i, a, i, a);
            }
        }
    }
}

/// Rising days for each field, and gaps between some pairs of fields that all
/// allow one hidden reading.
pub fn interval(random: &mut Random, sizes: &[u8]) -> Owned {
    let step = random.pick(&[2, 10, 100]);
    let days: Vec<Vec<i64>> =
        sizes.iter().map(|size| rising(random, usize::from(*size), step)).collect();
    let hidden: Vec<usize> = sizes.iter().map(|size| random.below(usize::from(*size))).collect();
    let linked = random.pick(&[20, 60, 100]);
    let mut table = Owned::open(sizes);
    for i in 0..sizes.len() {
        for j in i + 1..sizes.len() {
            if random.percent(linked) {
                let gap = days[j][hidden[j]] - days[i][hidden[i]];
                let (lo, hi) =
                    (gap - random.between(0, 5 * step), gap + random.between(0, 5 * step));
                table.keep(i, j, |a, b| (lo..=hi).contains(&(days[j][b] - days[i][a])));
            }
        }
    }
    table
}

fn rising(random: &mut Random, count: usize, step: i64) -> Vec<i64> {
    let mut day = random.between(0, 20);
    (0..count)
        .map(|_| {
            day += random.between(1, step);
            day
        })
        .collect()
}

/// Each two fields different, or only some of the pairs of fields.
pub fn different(random: &mut Random, sizes: &[u8]) -> Owned {
    let linked = random.pick(&[40, 80, 100]);
    let mut table = Owned::open(sizes);
    for i in 0..sizes.len() {
        for j in i + 1..sizes.len() {
            if random.percent(linked) {
                table.keep(i, j, |a, b| a != b);
            }
        }
    }
    table
}

fn settled(random: &mut Random, sizes: &[u8]) -> Owned {
    let kind = random.pick(&[Kind::Dense, Kind::Interval, Kind::Interval, Kind::Sparse]);
    let mut table = make(random, kind, sizes);
    let mut scratch = vec![0; table.words.len()];
    let settling = settle(&table.sizes, &mut table.words, &mut scratch, u64::MAX);
    match settling.expect("a well-formed table") {
        Settling::Settled { empty: false, .. } => table,
        _ => union(random, sizes, 2),
    }
}

/// Exactly the pairs of some random full readings.
pub fn union(random: &mut Random, sizes: &[u8], count: usize) -> Owned {
    let mut table = Owned { sizes: sizes.to_vec(), words: vec![0; Owned::open(sizes).words.len()] };
    for _ in 0..count {
        let reading: Vec<usize> =
            sizes.iter().map(|size| random.below(usize::from(*size))).collect();
        for i in 0..sizes.len() {
            for j in i..sizes.len() {
                table.allow(i, reading[i], j, reading[j]);
            }
        }
    }
    table
}

fn emptying(random: &mut Random, sizes: &[u8]) -> Owned {
    let mut table = Owned::open(sizes);
    let n = sizes.len();
    match random.below(4) {
        // One field with every reading struck.
        0 => {
            let i = random.below(n);
            (0..usize::from(sizes[i])).for_each(|a| table.strike(i, a, i, a));
        }
        // Two fields of which no pair is left.
        1 if n > 1 => {
            let i = random.below(n - 1);
            table.keep(i, i + 1, |_, _| false);
        }
        // Each field shifted against the next, all the way round.
        2 if n > 2 => {
            for i in 0..n {
                table.keep(i, (i + 1) % n, |a, b| b > a);
            }
        }
        _ => table = scattered(random, sizes, 8),
    }
    table
}

/// Fixed bytes of all kinds for fields of these sizes, which may be wrong ones:
/// none, some or all fixed, now and then at a number that is no reading.
pub fn fixed_bytes(random: &mut Random, sizes: &[u8]) -> Vec<u8> {
    let fixing = random.pick(&[0, 20, 50, 100]);
    let wild = random.percent(15);
    let mut fixed = Vec::new();
    for size in sizes.iter().take(2 * FIELDS) {
        let bad = [*size, size.saturating_add(1).min(254), 32, 254, 128];
        fixed.push(match random.below(10) {
            0 if wild => random.pick(&bad),
            _ if random.percent(fixing) => random.below(usize::from((*size).max(1))) as u8,
            _ => FREE,
        });
    }
    fixed
}
