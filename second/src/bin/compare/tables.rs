//! Random tables, well-formed and damaged.

use second::limits::{BUDGET, FREE};
use second::make::bad_tables::{spoil, wrong_length};
use second::make::slow;
use second::make::tables::{fixed_bytes, make, sizes, strike_readings, Kind, KINDS};
use second::random::Random;
use second::settle::Settling;
use second::table::{words_for, Owned};

use crate::check::{choose, claim, judge, kept, pairs, settle, show, Checked, Run};

/// A small table of any kind.
pub fn small(run: &mut Run, random: &mut Random, case: u64) -> Checked<()> {
    let (fields, readings) =
        random.pick(&[(3, 3), (4, 4), (4, 4), (5, 6), (5, 6), (8, 12), (3, 32)]);
    let sizes = sizes(random, fields, readings);
    well_formed(run, random, KINDS[case as usize % KINDS.len()], &sizes)
}

/// Every number of fields with every size, all fields alike or not.
pub fn every_size(run: &mut Run, random: &mut Random, case: u64) -> Checked<()> {
    let (n, size) = (1 + case as usize % 16, 1 + case as usize / 16 % 32);
    let mut sizes = vec![size as u8; n];
    if case >= 512 {
        sizes.iter_mut().skip(1).for_each(|own| *own = 1 + random.below(size) as u8);
        random.shuffle(&mut sizes);
    }
    let kind = random.pick(&KINDS);
    well_formed(run, random, kind, &sizes)
}

/// 16 fields of 32 readings, of each kind in turn.
pub fn full_size(run: &mut Run, random: &mut Random, case: u64) -> Checked<()> {
    well_formed(run, random, KINDS[case as usize % KINDS.len()], &[32; 16])
}

/// Tables that take many rounds; the first takes 299 whatever the seed, since
/// an r kept in 8 bits has to show.
pub fn slow_ones(run: &mut Run, random: &mut Random, case: u64) -> Checked<()> {
    let small = [(4, 12, 30), (6, 16, 60), (5, 32, 100), (4, 8, 12), (5, 10, 20), (7, 9, 30)];
    let table = match case {
        0 => slow::table(&mut Random::new(0), 8, 32, 75, 300),
        1 => slow::table(random, 16, 32, 75, 40),
        _ => {
            let (fields, readings, steps) = random.pick(&small);
            slow::table(random, fields, readings, 75, steps)
        }
    };
    run.tally.tables += 1;
    exercise(run, random, &table)
}

fn well_formed(run: &mut Run, random: &mut Random, kind: Kind, sizes: &[u8]) -> Checked<()> {
    let table = make(random, kind, sizes);
    run.tally.tables += 1;
    exercise(run, random, &table)
}

/// Everything that can be asked of a well-formed table.
pub fn exercise(run: &mut Run, random: &mut Random, opening: &Owned) -> Checked<()> {
    let settled = settle_it(run, random, opening)?;
    for table in [opening, &settled] {
        judge(run, &table.sizes, &table.words)?;
        let field = field_number(random, table.sizes.len());
        kept(run, &table.sizes, &table.words, field)?;
        let fixed = fixed_bytes(random, &table.sizes);
        choose(run, &table.sizes, &table.words, &fixed, fixed.len())?;
    }
    choose_around(run, random, &settled)?;
    unsettled(run, random, &settled)?;
    let cell =
        (field_number(random, opening.sizes.len()), field_number(random, opening.sizes.len()));
    show(run, &opening.sizes, &opening.words, &settled.words, cell)?;
    Ok(())
}

/// Settles with all the rounds it takes, then within a budget and on from there.
fn settle_it(run: &mut Run, random: &mut Random, opening: &Owned) -> Checked<Owned> {
    let (sizes, length) = (&opening.sizes, opening.words.len());
    let budget = random.pick(&[BUDGET, u64::MAX, 1 << 32]);
    let end = settle(run, sizes, &opening.words, length, budget)?;
    let Ok(Settling::Settled { rounds, empty }) = end.answer else {
        claim(
            run,
            false,
            "a well-formed table settles within 123,392 rounds",
            sizes,
            &opening.words,
        )?;
        unreachable!()
    };
    let settled = Owned { sizes: sizes.clone(), words: end.words };
    check_settled(run, opening, &settled, rounds, empty)?;

    let budget = random.pick(&[0, 1, rounds.saturating_sub(1), rounds, rounds + 1, rounds / 2]);
    let part = settle(run, sizes, &opening.words, length, budget)?;
    if part.answer == Ok(Settling::Unfinished) {
        let rest = settle(run, sizes, &part.words, length, rounds - budget)?;
        let going_on = rest.answer == Ok(Settling::Settled { rounds: rounds - budget, empty })
            && rest.words == settled.words;
        claim(
            run,
            going_on,
            "going on from a budget ends where all rounds do",
            sizes,
            &opening.words,
        )?;
    }
    Ok(settled)
}

/// What the paper says of every settled form.
fn check_settled(
    run: &mut Run,
    opening: &Owned,
    settled: &Owned,
    rounds: u64,
    empty: bool,
) -> Checked<()> {
    let (sizes, words) = (&opening.sizes, &opening.words);
    let within = settled.words.iter().zip(words).all(|(after, before)| after & !before == 0);
    claim(run, within, "the settled table lies within the opening one", sizes, words)?;
    let bounded = rounds <= pairs(&opening.view()) && pairs(&opening.view()) <= BUDGET;
    claim(run, bounded, "the rounds do not exceed the allowed pairs", sizes, words)?;
    let filled = settled.words.chunks(32).filter(|cell| cell.iter().any(|row| *row != 0)).count();
    let all_or_none = filled == if empty { 0 } else { sizes.len() * sizes.len() };
    claim(
        run,
        all_or_none,
        "all cells hold a pair, or none does and it is called empty",
        sizes,
        words,
    )
}

/// Fixes readings of a full reading that was chosen, and others beside them.
fn choose_around(run: &mut Run, random: &mut Random, settled: &Owned) -> Checked<()> {
    let n = settled.sizes.len();
    let Ok(first) = choose(run, &settled.sizes, &settled.words, &vec![FREE; n], n)?.0 else {
        return Ok(());
    };
    let mut fixed: Vec<u8> =
        first.iter().map(|a| if random.percent(40) { *a } else { FREE }).collect();
    choose(run, &settled.sizes, &settled.words, &fixed, n)?;
    let field = random.below(n);
    fixed[field] = random.below(usize::from(settled.sizes[field])) as u8;
    choose(run, &settled.sizes, &settled.words, &fixed, n)?;
    Ok(())
}

/// A settled table with one pair or reading struck again: mostly refusal 8.
fn unsettled(run: &mut Run, random: &mut Random, settled: &Owned) -> Checked<()> {
    let mut table = settled.clone();
    let (i, j) = (random.below(table.sizes.len()), random.below(table.sizes.len()));
    let a = random.below(usize::from(table.sizes[i]));
    let b = if i == j { a } else { random.below(usize::from(table.sizes[j])) };
    table.strike(i, a, j, b);
    let fixed = fixed_bytes(random, &table.sizes);
    choose(run, &table.sizes, &table.words, &fixed, fixed.len())?;
    Ok(())
}

/// Mostly a field; otherwise a number that looks like one in fewer bits.
fn field_number(random: &mut Random, n: usize) -> usize {
    let field = random.below(n.max(1));
    match random.below(12) {
        0 => random.pick(&[n, n + 1, 15, 16, 17, 31, 255, 256]),
        1 => random.pick(&[
            field + 256,
            field + 65_536,
            field + (1 << 32),
            usize::MAX,
            usize::MAX / 2,
            1 << 63,
        ]),
        _ => field,
    }
}

/// Damaged tables, sizes and lengths, small and now and then at full size.
pub fn damaged(run: &mut Run, random: &mut Random, case: u64) -> Checked<()> {
    let sizes = match case % 200 {
        0 => vec![32; 16],
        1..=9 => sizes(random, 16, 32),
        _ => sizes(random, 5, 8),
    };
    let kind = random.pick(&[Kind::Dense, Kind::Sparse, Kind::Interval, Kind::Settled]);
    let good = make(random, kind, &sizes);
    let mut table = good.clone();
    for _ in 0..random.pick(&[0, 1, 1, 1, 2, 3]) {
        spoil(random, &mut table);
    }
    if random.percent(10) && table.words.len() == words_for(sizes.len()) && table.sizes == sizes {
        strike_readings(random, &mut table, 20);
    }
    run.tally.tables += 1;
    ask_all(run, random, &table, &good)
}

fn ask_all(run: &mut Run, random: &mut Random, table: &Owned, good: &Owned) -> Checked<()> {
    let (sizes, words) = (&table.sizes, &table.words);
    judge(run, sizes, words)?;
    let field = field_number(random, sizes.len());
    kept(run, sizes, words, field)?;
    let scratch = sometimes_wrong(random, words.len());
    let budget = random.pick(&[0, 1, 2, u64::MAX]);
    settle(run, sizes, words, scratch, budget)?;

    let mut fixed = fixed_bytes(random, &table.sizes);
    fixed.resize(sometimes_wrong(random, sizes.len()), FREE);
    let answer = sometimes_wrong(random, sizes.len());
    choose(run, sizes, words, &fixed, answer)?;

    let cell = (field_number(random, sizes.len()), field_number(random, sizes.len()));
    let (opening, settled) = if random.percent(50) { (table, good) } else { (good, table) };
    show(run, sizes, &opening.words, &settled.words, cell)?;
    Ok(())
}

fn sometimes_wrong(random: &mut Random, right: usize) -> usize {
    if random.percent(20) {
        wrong_length(random, right)
    } else {
        right
    }
}
