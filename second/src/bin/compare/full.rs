//! Full readings by plain enumeration on small tables.

use second::limits::FREE;
use second::make::tables::{fixed_bytes, make, sizes, KINDS};
use second::random::Random;
use second::readings;
use second::refusal::Refusal;
use second::rows::Rows;
use second::settle::Settling;
use second::table::Owned;

use crate::check::{choose, claim, judge, settle, Checked, Run};

/// Settling leaves the full readings as they are, and what is chosen from the
/// settled table is the least of them that keeps what is fixed.
pub fn enumerated(run: &mut Run, random: &mut Random, case: u64) -> Checked<()> {
    let (fields, readings) = random.pick(&[(3, 3), (4, 3), (3, 6), (5, 2), (2, 12), (4, 4)]);
    let sizes = sizes(random, fields, readings);
    let opening = make(random, KINDS[case as usize % KINDS.len()], &sizes);
    let before = readings::all(&opening.view());
    let end = settle(run, &sizes, &opening.words, opening.words.len(), u64::MAX)?;
    let settled = Owned { sizes: sizes.clone(), words: end.words };
    let same = before == readings::all(&settled.view());
    claim(run, same, "the full readings are the same after settling", &sizes, &opening.words)?;
    let empty = matches!(end.answer, Ok(Settling::Settled { empty: true, .. }));
    claim(run, !empty || before.is_empty(), "empty means no full reading", &sizes, &opening.words)?;

    run.tally.tables += 1;
    let whole = judge(run, &sizes, &settled.words)?.0 == Ok(Rows::Whole);
    least(run, &settled, &before, whole && !empty, &vec![FREE; sizes.len()])?;
    for _ in 0..4 {
        let fixed = fixed_bytes(random, &settled.sizes);
        if fixed.iter().zip(&sizes).all(|(a, size)| *a == FREE || a < size) {
            least(run, &settled, &before, whole && !empty, &fixed)?;
        }
    }
    Ok(())
}

fn least(
    run: &mut Run,
    settled: &Owned,
    all: &[Vec<u8>],
    choosable: bool,
    fixed: &[u8],
) -> Checked<()> {
    let got = choose(run, &settled.sizes, &settled.words, fixed, fixed.len())?.0;
    // `all` ascends, so the first that keeps the fixed readings is the least.
    let want = all.iter().find(|reading| readings::keeps(reading, fixed));
    let right = match (&got, want) {
        (Ok(chosen), Some(reading)) => choosable && chosen == reading,
        (Err(Refusal { number: 12, .. }), None) => choosable,
        (Err(Refusal { number: 9 | 10, .. }), _) => !choosable,
        _ => false,
    };
    claim(
        run,
        right,
        "the least full reading that keeps the fixed ones, or 12",
        &settled.sizes,
        &settled.words,
    )
}
