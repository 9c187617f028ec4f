//! Tables whose answers are known from the paper or from a source document.

use second::known::{crossword, figures, hard, paper};
use second::limits::FREE;
use second::random::Random;
use second::readings;
use second::refusal::Refusal;
use second::rows::Rows;
use second::settle::Settling;
use second::sheet::{LENT_DAYS, LENT_SIZES, LENT_WORDS};
use second::table::Owned;

use crate::check::{choose, claim, judge, kept, read, settle, Checked, Run};
use crate::tables::exercise;

/// A table and what has to be true of it, told in one place.
struct Told<'r> {
    run: &'r mut Run,
    table: Owned,
}

impl Told<'_> {
    fn claim(&mut self, holds: bool, what: &str) -> Checked<()> {
        claim(self.run, holds, what, &self.table.sizes, &self.table.words)
    }

    /// Settles in place.
    fn settles(&mut self, rounds: u64, empty: bool, what: &str) -> Checked<()> {
        let length = self.table.words.len();
        let end = settle(self.run, &self.table.sizes, &self.table.words, length, u64::MAX)?;
        self.claim(end.answer == Ok(Settling::Settled { rounds, empty }), what)?;
        self.table.words = end.words;
        Ok(())
    }

    fn rows(&mut self, want: Rows, what: &str) -> Checked<()> {
        let got = judge(self.run, &self.table.sizes, &self.table.words)?.0;
        self.claim(got == Ok(want), what)
    }

    fn chooses(&mut self, fixed: &[u8], want: Result<&[u8], Refusal>, what: &str) -> Checked<()> {
        let got = choose(self.run, &self.table.sizes, &self.table.words, fixed, fixed.len())?.0;
        self.claim(got.as_deref() == want.as_ref().map(|answer| &answer[..]), what)
    }

    fn keeps(&mut self, field: usize, want: usize, what: &str) -> Checked<()> {
        let got = kept(self.run, &self.table.sizes, &self.table.words, field)?.0;
        self.claim(got == Ok(want), what)
    }
}

fn told(run: &mut Run, table: Owned) -> Told<'_> {
    run.tally.tables += 1;
    Told { run, table }
}

/// C1 to C6.
pub fn examples(run: &mut Run, random: &mut Random, _: u64) -> Checked<()> {
    for table in [paper::c1(), paper::c2(), paper::c3(), paper::c4(), paper::c5(), paper::c6()] {
        exercise(run, random, &table)?;
    }
    told(run, paper::c1()).settles(0, false, "C1: r = 0")?;
    c2_and_c5(run)?;
    told(run, paper::c3()).settles(2, true, "C3: r = 2, empty")?;

    let mut c4 = told(run, paper::c4());
    c4.settles(0, false, "C4: r = 0, not empty")?;
    c4.rows(Rows::Broken(0, 1, 1), "C4: the first broken row is (0,1,1)")?;
    let none = readings::all(&c4.table.view()).is_empty();
    c4.claim(none, "C4: no full reading")?;
    c4.chooses(&[FREE; 4], Err(Refusal::row(10, (0, 1, 1))), "C4: refused for its rows")?;

    let mut c6 = told(run, paper::c6());
    c6.rows(Rows::Whole, "C6: opens whole")?;
    c6.settles(1, false, "C6: r = 1")?;
    c6.rows(Rows::Broken(0, 1, 0), "C6: row (0,1,0) broken")
}

fn c2_and_c5(run: &mut Run) -> Checked<()> {
    for (lo, table) in [(350, paper::c2()), (330, paper::c5())] {
        let sheet = paper::sheet(lo, 366);
        let content = read(run, &sheet, (LENT_SIZES, LENT_DAYS, LENT_WORDS))?.0;
        let right = content
            .is_ok_and(|content| content.sizes == table.sizes && content.words == table.words);
        claim(run, right, "C2 and C5: the sheet gives this table", &table.sizes, &table.words)?;
    }
    let mut c2 = told(run, paper::c2());
    let short = settle(c2.run, &c2.table.sizes, &c2.table.words, c2.table.words.len(), 0)?;
    c2.claim(short.answer == Ok(Settling::Unfinished), "C2: budget 0 is unfinished")?;
    let enough = settle(c2.run, &c2.table.sizes, &c2.table.words, c2.table.words.len(), 1)?;
    c2.claim(
        enough.answer.is_ok_and(|answer| answer != Settling::Unfinished),
        "C2: budget 1 settles",
    )?;
    c2.settles(1, false, "C2: r = 1")?;
    c2.keeps(0, 1, "C2: one reading of field 0")?;
    c2.keeps(1, 1, "C2: one reading of field 1")?;
    c2.chooses(&[FREE, FREE], Ok(&[1, 1]), "C2: the last gap's readings")?;

    let mut c5 = told(run, paper::c5());
    c5.settles(0, false, "C5: r = 0")?;
    c5.chooses(&[FREE, FREE], Ok(&[0, 0]), "C5: free gives readings 0, 0")?;
    c5.chooses(&[FREE, 1], Ok(&[1, 1]), "C5: field 1 fixed at 1 gives 1, 1")?;
    c5.chooses(&[0, 1], Err(Refusal::pair(12, 0, 1)), "C5: 0 with 1 is refusal 12 at (0,1)")
}

/// Document 000, figure 6: path consistent, its rows broken in every order of
/// the second domain, and read in full without going back in the order 1, 2, 3.
pub fn figure_6(run: &mut Run, random: &mut Random, _: u64) -> Checked<()> {
    exercise(run, random, &figures::figure_6())?;
    for order in figures::ORDERS {
        let mut figure = told(run, figures::figure_6_ordered(order));
        figure.settles(0, false, "figure 6 is path consistent")?;
        let rows = judge(figure.run, &figure.table.sizes, &figure.table.words)?.0;
        figure.claim(matches!(rows, Ok(Rows::Broken(..))), "no order makes figure 6 row convex")?;
        minimal(&mut figure)?;
    }
    told(run, figures::figure_6())
        .rows(Rows::Broken(0, 1, 2), "figure 6 as printed breaks in R12")?;
    let mut directed = told(run, figures::figure_6_ordered([0, 2, 1]));
    directed.rows(Rows::Broken(2, 1, 0), "in the order a, c, b only R32 breaks")?;
    directed.chooses(&[FREE; 3], Err(Refusal::row(10, (2, 1, 0))), "so choosing refuses it")?;
    backtrack_free(&mut directed)?;

    let mut example = told(run, figures::example_3());
    let length = example.table.words.len();
    let end = settle(example.run, &example.table.sizes, &example.table.words, length, u64::MAX)?;
    example.table.words = end.words;
    let rows = figures::EXAMPLE_3_IK;
    let as_printed = (0..2).all(|a| example.table.view().row(0, 2, a) == rows[a]);
    example.claim(as_printed, "example 3: R_ik as printed")?;
    example.keeps(2, 2, "example 3: no solution has x_k = 0")?;
    example.rows(Rows::Broken(0, 2, 0), "example 3: R_ik is not row convex")
}

/// Footnote 2: a path consistent network of three variables is minimal.
fn minimal(told: &mut Told) -> Checked<()> {
    let all = readings::all(&told.table.view());
    let view = told.table.view();
    let used = view.places().all(|(i, j, a)| {
        (0..3).all(|b| {
            let in_a_reading = all
                .iter()
                .any(|reading| usize::from(reading[i]) == a && usize::from(reading[j]) == b);
            a >= 3 || view.allows(i, a, j, b) == in_a_reading
        })
    });
    told.claim(used, "every allowed pair of figure 6 is part of a full reading")
}

/// Theorem 3: readings of the first two that go together extend to the third.
fn backtrack_free(told: &mut Told) -> Checked<()> {
    let view = told.table.view();
    let extends = (0..9).all(|ab| {
        let (a, b) = (ab / 3, ab % 3);
        !view.allows(0, a, 1, b)
            || (0..3).any(|c| view.allows(0, a, 2, c) && view.allows(1, b, 2, c))
    });
    told.claim(extends, "no backtracking in the order x1, x2, x3")
}

/// Document 004: the crossword has one solution, and consistency finds it.
pub fn crossword_puzzle(run: &mut Run, random: &mut Random, _: u64) -> Checked<()> {
    for words in [&crossword::WHOLE[..], &crossword::LISTED[..]] {
        let opening = crossword::table(words);
        exercise(run, random, &opening)?;
        let solution = crossword::solution(words);
        let only = readings::all(&opening.view()) == vec![solution.clone()];
        let length = opening.words.len();
        let end = settle(run, &opening.sizes, &opening.words, length, u64::MAX)?;
        let mut puzzle = told(run, Owned { sizes: opening.sizes, words: end.words });
        puzzle.claim(only, "the crossword has one solution")?;
        for field in 0..8 {
            puzzle.keeps(field, 1, "each domain is reduced to one word")?;
        }
        puzzle.rows(Rows::Whole, "single words are whole rows")?;
        puzzle.chooses(&[FREE; 8], Ok(&solution), "the words of figure 4")?;
    }
    Ok(())
}

/// Document 003: N_5, N_10 and N_15 change one label in each round.
pub fn hard_examples(run: &mut Run, random: &mut Random, _: u64) -> Checked<()> {
    for m in 1..=3 {
        let table = hard::table(m, if m == 3 { 16 } else { 5 * m });
        exercise(run, random, &table)?;
        told(run, table).settles(hard::rounds(m), false, "N_k takes 2m(m+1) - 1 rounds")?;
    }
    Ok(())
}
