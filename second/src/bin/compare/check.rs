//! One call of the library beside the reference: same answer, same buffers.

use std::collections::BTreeMap;
use std::fmt::{Debug, Write};

use second::date::{self, Days};
use second::ffi;
use second::packed::Reply;
use second::random::Random;
use second::refusal::Refusal;
use second::rows::{self, Rows};
use second::settle::{self, Settling};
use second::show::{self, Shown};
use second::table::Table;
use second::{choose, sheet};

use crate::lend::{Lent, Noise, Unit};

/// A case told in full.
pub struct Disagreement(pub String);

pub type Checked<T> = Result<T, Disagreement>;

/// What both sides answered.
pub struct Both<T>(pub Result<T, Refusal>);

/// How often what came up.
#[derive(Default)]
pub struct Tally {
    pub cases: u64,
    pub refusals: [u64; 25],
    pub rounds: BTreeMap<u64, u64>,
    pub unfinished: u64,
    pub tables: u64,
    pub sheets: u64,
    pub texts: u64,
}

pub struct Run {
    pub tally: Tally,
    /// For edges and noise; what is in a lent buffer beforehand never matters.
    random: Random,
    bytes: Noise<u8>,
    days: Noise<u16>,
    words: Noise<u32>,
}

impl Run {
    pub fn new(seed: u64) -> Run {
        let mut random = Random::for_case(seed, u64::MAX, 0);
        let (bytes, days, words) =
            (Noise::new(&mut random), Noise::new(&mut random), Noise::new(&mut random));
        Run { tally: Tally::default(), random, bytes, days, words }
    }

    pub fn lend<T: Unit>(&mut self, content: &[T]) -> Lent<T> {
        Lent::of(&mut self.random, content)
    }

    pub fn noise_bytes(&mut self, length: usize) -> Vec<u8> {
        self.bytes.take(&mut self.random, length)
    }

    pub fn noise_days(&mut self, length: usize) -> Vec<u16> {
        self.days.take(&mut self.random, length)
    }

    pub fn noise_words(&mut self, length: usize) -> Vec<u32> {
        self.words.take(&mut self.random, length)
    }

    /// Counts a case, and a refusal if it is one.
    fn count<T>(&mut self, answer: &Result<T, Refusal>) {
        self.tally.cases += 1;
        if let Err(refusal) = answer {
            self.tally.refusals[usize::from(refusal.number)] += 1;
        }
    }

    /// Passes the answer on if both sides agree in it and no buffer is wrong.
    fn agree<T: PartialEq + Debug>(
        &mut self,
        want: Result<T, Refusal>,
        got: Reply<T>,
        buffers: &[(&str, Option<String>)],
        case: impl FnOnce() -> Case,
    ) -> Checked<Both<T>> {
        self.count(&want);
        let wrong = buffers
            .iter()
            .find_map(|(name, wrong)| wrong.as_ref().map(|what| format!("{name}: {what}")));
        let got = match got {
            Ok(answer) if answer == want && wrong.is_none() => return Ok(Both(answer)),
            Ok(answer) => format!("{answer:?}"),
            Err(odd) => format!("a packed number that says nothing: {:#018x}", odd.0),
        };
        let buffers = wrong.unwrap_or("as they should be".to_string());
        let text = case().0;
        Err(Disagreement(format!(
            "{text}expected: {want:?}\nanswered: {got}\nlent buffers: {buffers}\n"
        )))
    }
}

/// The reference itself must not touch a buffer when it refuses.
fn unchanged<T, B: PartialEq>(answer: &Result<T, Refusal>, before: &B, after: &B) {
    assert!(answer.is_ok() || before == after, "the reference wrote and refused");
}

/// What went into a call, told in full when it comes to that.
pub struct Case(String);

impl Case {
    fn new(function: &str) -> Case {
        Case(format!("{function}\n"))
    }

    fn with(mut self, name: &str, value: impl Debug) -> Case {
        writeln!(self.0, "{name}: {value:?}").expect("a string");
        self
    }

    fn bytes(mut self, name: &str, bytes: &[u8]) -> Case {
        writeln!(self.0, "{name}: {} bytes {bytes:02x?}", bytes.len()).expect("a string");
        self
    }

    fn words(mut self, name: &str, words: &[u32]) -> Case {
        writeln!(self.0, "{name}: {} words, 32 a line", words.len()).expect("a string");
        for (line, row) in words.chunks(32).enumerate() {
            writeln!(self.0, "  {:5}: {row:x?}", 32 * line).expect("a string");
        }
        self
    }
}

pub fn date(run: &mut Run, text: &[u8]) -> Checked<Both<Days>> {
    let want = date::read(text);
    let lent = run.lend(text);
    let got = ffi::date(lent.part());
    run.tally.texts += 1;
    run.agree(want, got, &[("text", lent.wrong(text))], || Case::new("fq_date").bytes("text", text))
}

/// What a good sheet left in the lent buffers, cut to its fields.
pub struct Content {
    pub sizes: Vec<u8>,
    pub words: Vec<u32>,
}

/// Lengths of the three buffers a reader is lent.
pub type Lengths = (usize, usize, usize);

pub fn read(run: &mut Run, bytes: &[u8], lengths: Lengths) -> Checked<Both<Content>> {
    let before =
        (run.noise_bytes(lengths.0), run.noise_days(lengths.1), run.noise_words(lengths.2));
    let mut after = before.clone();
    let want = sheet::read(bytes, &mut after.0, &mut after.1, &mut after.2);
    unchanged(&want, &before, &after);
    let lent_sheet = run.lend(bytes);
    let mut sizes = run.lend(&before.0);
    let mut days = run.lend(&before.1);
    let mut words = run.lend(&before.2);
    let got = ffi::read(lent_sheet.part(), sizes.part_mut(), days.part_mut(), words.part_mut());
    let buffers = [
        ("sheet", lent_sheet.wrong(bytes)),
        ("sizes", sizes.wrong(&after.0)),
        ("days", days.wrong(&after.1)),
        ("table", words.wrong(&after.2)),
    ];
    run.tally.sheets += 1;
    let answer = run.agree(want, got, &buffers, || {
        Case::new("fq_read").bytes("sheet", bytes).with("sizes, days and words lent", lengths)
    })?;
    Ok(Both(answer.0.map(|n| {
        let (mut sizes, _, mut words) = after;
        sizes.truncate(n);
        words.truncate(n * n * 32);
        Content { sizes, words }
    })))
}

/// An answer of settling and the table it left.
pub struct Settled {
    pub answer: Result<Settling, Refusal>,
    pub words: Vec<u32>,
}

pub fn settle(
    run: &mut Run,
    sizes: &[u8],
    words: &[u32],
    scratch: usize,
    budget: u64,
) -> Checked<Settled> {
    let noise = run.noise_words(scratch);
    let (mut table_after, mut scratch_after) = (words.to_vec(), noise.clone());
    let want = settle::settle(sizes, &mut table_after, &mut scratch_after, budget);
    unchanged(&want, &(words, &noise[..]), &(&table_after, &scratch_after));
    let lent_sizes = run.lend(sizes);
    let (mut lent_table, mut lent_scratch) = (run.lend(words), run.lend(&noise));
    let got =
        ffi::settle(lent_sizes.part(), lent_table.part_mut(), lent_scratch.part_mut(), budget);
    let buffers = [
        ("sizes", lent_sizes.wrong(sizes)),
        ("table", lent_table.wrong(&table_after)),
        ("scratch", lent_scratch.wrong(&scratch_after)),
    ];
    count_rounds(&mut run.tally, &want);
    let answer = run.agree(want, got, &buffers, || {
        Case::new("fq_settle")
            .with("sizes", sizes)
            .words("table", words)
            .with("words of scratch", scratch)
            .with("budget", budget)
    })?;
    Ok(Settled { answer: answer.0, words: table_after })
}

fn count_rounds(tally: &mut Tally, answer: &Result<Settling, Refusal>) {
    match answer {
        Ok(Settling::Settled { rounds, .. }) => *tally.rounds.entry(*rounds).or_default() += 1,
        Ok(Settling::Unfinished) => tally.unfinished += 1,
        Err(_) => {}
    }
}

pub fn judge(run: &mut Run, sizes: &[u8], words: &[u32]) -> Checked<Both<Rows>> {
    let want = rows::judge(sizes, words);
    let (lent_sizes, lent_table) = (run.lend(sizes), run.lend(words));
    let got = ffi::judge(lent_sizes.part(), lent_table.part());
    let buffers = [("sizes", lent_sizes.wrong(sizes)), ("table", lent_table.wrong(words))];
    run.agree(want, got, &buffers, || {
        Case::new("fq_judge").with("sizes", sizes).words("table", words)
    })
}

pub fn kept(run: &mut Run, sizes: &[u8], words: &[u32], field: usize) -> Checked<Both<usize>> {
    let want = rows::kept(sizes, words, field);
    let (lent_sizes, lent_table) = (run.lend(sizes), run.lend(words));
    let got = ffi::kept(lent_sizes.part(), lent_table.part(), field);
    let buffers = [("sizes", lent_sizes.wrong(sizes)), ("table", lent_table.wrong(words))];
    run.agree(want, got, &buffers, || {
        Case::new("fq_kept").with("sizes", sizes).words("table", words).with("field", field)
    })
}

/// The full reading chosen, or the refusal.
pub fn choose(
    run: &mut Run,
    sizes: &[u8],
    words: &[u32],
    fixed: &[u8],
    answer: usize,
) -> Checked<Both<Vec<u8>>> {
    let before = run.noise_bytes(answer);
    let mut after = before.clone();
    let want = choose::choose(sizes, words, fixed, &mut after);
    unchanged(&want, &before, &after);
    let (lent_sizes, lent_table, lent_fixed) = (run.lend(sizes), run.lend(words), run.lend(fixed));
    let mut lent_answer = run.lend(&before);
    let got = ffi::choose(
        lent_sizes.part(),
        lent_table.part(),
        lent_fixed.part(),
        lent_answer.part_mut(),
    );
    let buffers = [
        ("sizes", lent_sizes.wrong(sizes)),
        ("table", lent_table.wrong(words)),
        ("fixed", lent_fixed.wrong(fixed)),
        ("answer", lent_answer.wrong(&after)),
    ];
    let got = run.agree(want, got, &buffers, || {
        Case::new("fq_choose")
            .with("sizes", sizes)
            .words("table", words)
            .with("fixed", fixed)
            .with("bytes of the answer", answer)
    })?;
    Ok(Both(got.0.map(|()| after)))
}

pub fn show(
    run: &mut Run,
    sizes: &[u8],
    opening: &[u32],
    settled: &[u32],
    (i, j): (usize, usize),
) -> Checked<Both<Shown>> {
    let want = show::show(sizes, opening, settled, i, j);
    let (lent_sizes, lent_opening, lent_settled) =
        (run.lend(sizes), run.lend(opening), run.lend(settled));
    let got = ffi::show(lent_sizes.part(), lent_opening.part(), lent_settled.part(), i, j);
    let buffers = [
        ("sizes", lent_sizes.wrong(sizes)),
        ("opening table", lent_opening.wrong(opening)),
        ("settled table", lent_settled.wrong(settled)),
    ];
    run.agree(want, got, &buffers, || {
        Case::new("fq_show")
            .with("sizes", sizes)
            .words("opening table", opening)
            .words("settled table", settled)
            .with("cell", (i, j))
    })
}

/// A claim of the paper or of a document about answers both sides agreed in.
pub fn claim(run: &mut Run, holds: bool, claim: &str, sizes: &[u8], words: &[u32]) -> Checked<()> {
    run.tally.cases += 1;
    if holds {
        return Ok(());
    }
    let case = Case::new("a claim that does not hold").with("claim", claim).with("sizes", sizes);
    Err(Disagreement(case.words("table", words).0))
}

/// Allowed pairs on or above the diagonal, which the rounds never exceed.
pub fn pairs(table: &Table) -> u64 {
    table
        .places()
        .filter(|(i, j, _)| i <= j)
        .map(|(i, j, a)| u64::from(table.row(i, j, a).count_ones()))
        .sum()
}
