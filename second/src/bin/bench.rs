//! Times the library against the fast versions of this crate, in one process
//! and by turns, and prints ratios of medians as a Markdown table.
//!
//! Ratios only: a time would be this machine's, on this day.

use std::hint::black_box;
use std::time::{Duration, Instant};

use second::ffi;
use second::known::hard;
use second::limits::{FREE, SHEET_BYTES};
use second::make::sheets::Draft;
use second::make::{slow, tables};
use second::plain;
use second::random::Random;
use second::settle::{settle, Settling};
use second::sheet::{LENT_DAYS, LENT_SIZES, LENT_WORDS};
use second::table::Owned;

const SEED: u64 = 1;
const FULL: [u8; 16] = [32; 16];

/// One side of a measurement: makes a sample and gives the seconds of one call.
type Side<'s> = Box<dyn FnMut() -> f64 + 's>;

/// Time spent on one line of the table, and the repetitions it is held to.
const PER_LINE: Duration = Duration::from_millis(800);
const LEAST: usize = 9;
const MOST: usize = 301;
/// A sample shorter than this is made of several calls.
const SAMPLE: Duration = Duration::from_micros(200);

const DIFFER: &str = "the library and the plain version differ; compare tells more";

fn main() {
    println!("{INTRODUCTION}");
    println!("| function | measured on | library / plain | library / keen |");
    println!("|---|---|---|---|");
    settling();
    judging();
    choosing();
    reading();
    small_questions();
    date_texts();
}

const INTRODUCTION: &str = "\
Times of the library, called over its C interface, divided by times of the
same function in plain Rust (`second/src/plain`), as medians of 9 to 301
interleaved repetitions in one process, release build. `plain` takes the usual
shortcuts: ones walked by trailing zeros, rows left as soon as they are covered,
cells on and above the diagonal mirrored, cells left out when nothing they are
made of changed. `keen` goes further: mirrors compared by transposing, rounds
that look only through fields that changed, gaps found by two walks. Tables have
16 fields of 32 readings, sheets 4,096 bytes, unless another size is named.
";

fn settling() {
    let random = &mut Random::new(SEED);
    let lines = [
        ("everything allowed", Owned::open(&FULL)),
        ("dense: 95 in 100 pairs allowed", tables::scattered(random, &FULL, 95)),
        ("half of the pairs allowed", tables::scattered(random, &FULL, 50)),
        ("interval: gaps between all fields", linked(random)),
        ("sparse: 12 in 100, and 12 full readings", sparse(random)),
        ("sparse: 30 in 100", tables::scattered(random, &FULL, 30)),
        ("slow: document 003's N_15 and a free field", hard::table(3, 16)),
        ("slow: a path of 400 pairs", slow::table(random, 16, 32, 70, 400)),
    ];
    for (name, table) in &lines {
        let (_, rounds, empty) = settled(table);
        let end = if empty { ", emptied" } else { "" };
        let name = format!("{name} (r = {rounds}{end})");
        let library = |words: &mut [u32], scratch: &mut [u32]| {
            ffi::settle(&table.sizes, words, scratch, u64::MAX).expect("an answer")
        };
        let plain = |words: &mut [u32], scratch: &mut [u32]| {
            plain::settle::settle::<false>(&table.sizes, words, scratch, u64::MAX)
        };
        let keen = |words: &mut [u32], scratch: &mut [u32]| {
            plain::settle::settle::<true>(&table.sizes, words, scratch, u64::MAX)
        };
        let end = on_a_copy(table, library);
        assert!(end == on_a_copy(table, plain) && end == on_a_copy(table, keen), "{DIFFER}");
        line(
            "settle",
            &name,
            vec![copying(table, library), copying(table, plain), copying(table, keen)],
        );
    }
}

type Settled = Result<Settling, second::refusal::Refusal>;

fn on_a_copy(
    table: &Owned,
    settle: impl Fn(&mut [u32], &mut [u32]) -> Settled,
) -> (Settled, Vec<u32>, Vec<u32>) {
    let (mut words, mut scratch) = (table.words.clone(), vec![0; table.words.len()]);
    let answer = settle(&mut words, &mut scratch);
    (answer, words, scratch)
}

/// Settling changes its table, so each run gets a fresh copy that is not timed.
fn copying<'s>(
    table: &'s Owned,
    settle: impl Fn(&mut [u32], &mut [u32]) -> Settled + 's,
) -> Side<'s> {
    let (mut words, mut scratch) = (table.words.clone(), vec![0; table.words.len()]);
    Box::new(move || {
        words.copy_from_slice(&table.words);
        let start = Instant::now();
        black_box(settle(black_box(&mut words), black_box(&mut scratch))).expect("settled");
        start.elapsed().as_secs_f64()
    })
}

/// Days in all fields and a gap between each two that agrees on one reading.
fn linked(random: &mut Random) -> Owned {
    let days: Vec<Vec<i64>> = FULL
        .iter()
        .map(|size| {
            let mut day = random.between(0, 30);
            let mut next = || {
                day += random.between(1, 12);
                day
            };
            (0..*size).map(|_| next()).collect()
        })
        .collect();
    let hidden: Vec<usize> = FULL.iter().map(|_| 8 + random.below(16)).collect();
    let mut table = Owned::open(&FULL);
    for i in 0..16 {
        for j in i + 1..16 {
            let gap = days[j][hidden[j]] - days[i][hidden[i]];
            let (lo, hi) = (gap - random.between(20, 60), gap + random.between(20, 60));
            table.keep(i, j, |a, b| (lo..=hi).contains(&(days[j][b] - days[i][a])));
        }
    }
    table
}

/// Few pairs, among them those of some full readings, so that not all goes.
fn sparse(random: &mut Random) -> Owned {
    let mut table = tables::scattered(random, &FULL, 12);
    let readings = tables::union(random, &FULL, 12);
    table.words.iter_mut().zip(&readings.words).for_each(|(word, more)| *word |= more);
    table
}

/// Each two fields the same reading: a settled, whole table of few pairs.
fn alike() -> Owned {
    let mut table = Owned::open(&FULL);
    for i in 0..16 {
        for j in i + 1..16 {
            table.keep(i, j, |a, b| a == b);
        }
    }
    table
}

fn settled(table: &Owned) -> (Owned, u64, bool) {
    let (mut end, mut scratch) = (table.clone(), vec![0; table.words.len()]);
    match settle(&table.sizes, &mut end.words, &mut scratch, u64::MAX) {
        Ok(Settling::Settled { rounds, empty }) => (end, rounds, empty),
        other => panic!("{other:?}"),
    }
}

/// Whole and settled tables, which judging and choosing go through to the end.
fn whole_tables() -> [(&'static str, Owned); 3] {
    let interval = settled(&linked(&mut Random::new(SEED))).0;
    [
        ("everything allowed", Owned::open(&FULL)),
        ("interval, settled", interval),
        ("sparse: each two fields alike", alike()),
    ]
}

fn judging() {
    for (name, table) in &whole_tables() {
        let (sizes, words) = (&table.sizes, &table.words);
        let library = || ffi::judge(sizes, words).expect("an answer");
        let plain = || plain::rows::judge::<false>(sizes, words);
        let keen = || plain::rows::judge::<true>(sizes, words);
        assert!(library() == plain() && library() == keen(), "{DIFFER}");
        line("judge", name, sides(library, plain, keen));
    }
}

fn choosing() {
    let last_fixed: Vec<u8> = (0..16).map(|field| if field == 15 { 31 } else { FREE }).collect();
    for (name, table) in &whole_tables() {
        let (sizes, words) = (&table.sizes, &table.words);
        for (fixing, fixed) in
            [("nothing fixed", &[FREE; 16][..]), ("the last field fixed", &last_fixed)]
        {
            let library = || {
                let mut answer = [0; 16];
                (ffi::choose(sizes, words, fixed, &mut answer).expect("an answer"), answer)
            };
            let plain = || {
                let mut answer = [0; 16];
                (plain::choose::choose::<false>(sizes, words, fixed, &mut answer), answer)
            };
            let keen = || {
                let mut answer = [0; 16];
                (plain::choose::choose::<true>(sizes, words, fixed, &mut answer), answer)
            };
            assert!(library() == plain() && library() == keen(), "{DIFFER}");
            let given = match plain().0 {
                Ok(()) => String::new(),
                Err(refusal) => format!(": refusal {refusal}"),
            };
            line("choose", &format!("{name}, {fixing}{given}"), sides(library, plain, keen));
        }
    }
}

fn reading() {
    let random = &mut Random::new(SEED);
    let mut cut = Draft::full(random, 16, true).bytes();
    cut.truncate(SHEET_BYTES - 3);
    let (dates, short_dates) = (b"DT02/05/2024".repeat(16), b"DS02/03/04".repeat(16));
    let sheets = [
        ("16 FD of 32 days, then GP", Draft::full(random, 16, true).bytes()),
        ("16 FD of 32 days, then PR", Draft::full(random, 16, false).bytes()),
        ("2 FD of 32 days, then GP", Draft::full(random, 2, true).bytes()),
        (
            "16 FD of 32 days and no rule (1,074 bytes)",
            Draft::largest_fields(random, FULL.len()).bytes(),
        ),
        ("16 DT and no rule (194 bytes)", [&dates[..], b"EN"].concat()),
        ("16 DS and no rule (162 bytes)", [&short_dates[..], b"EN"].concat()),
        ("16 FD, then GP, cut three bytes before its end", cut),
    ];
    for (name, sheet) in &sheets {
        let mut lent = [Lent::new(), Lent::new(), Lent::new()];
        let [one, two, three] = &mut lent;
        let mut library =
            || ffi::read(sheet, &mut one.sizes, &mut one.days, &mut one.words).expect("an answer");
        let mut plain =
            || plain::sheet::read::<false>(sheet, &mut two.sizes, &mut two.days, &mut two.words);
        let mut keen = || {
            plain::sheet::read::<true>(sheet, &mut three.sizes, &mut three.days, &mut three.words)
        };
        let answers = (library(), plain(), keen());
        assert!(answers.0 == answers.1 && answers.0 == answers.2, "{DIFFER}");
        line("read", name, sides(library, plain, keen));
        assert!(lent[0] == lent[1] && lent[0] == lent[2], "{DIFFER}");
    }
}

#[derive(PartialEq)]
struct Lent {
    sizes: Vec<u8>,
    days: Vec<u16>,
    words: Vec<u32>,
}

impl Lent {
    fn new() -> Lent {
        Lent { sizes: vec![0; LENT_SIZES], days: vec![0; LENT_DAYS], words: vec![0; LENT_WORDS] }
    }
}

/// Questions that are cheap once the table has been checked.
fn small_questions() {
    let (open, none) = (Owned::open(&FULL), vec![0; LENT_WORDS]);
    let library = || ffi::kept(&open.sizes, &open.words, 15).expect("an answer");
    let plain = || plain::rows::kept::<false>(&open.sizes, &open.words, 15);
    let keen = || plain::rows::kept::<true>(&open.sizes, &open.words, 15);
    assert!(library() == plain() && library() == keen(), "{DIFFER}");
    line("kept", "everything allowed", sides(library, plain, keen));

    for (name, settled) in
        [("from the settled table", &open.words), ("from the opening table", &none)]
    {
        let library = || ffi::show(&open.sizes, &open.words, settled, 7, 9).expect("an answer");
        let plain = || plain::show::show(&open.sizes, &open.words, settled, 7, 9);
        assert!(library() == plain(), "{DIFFER}");
        line("show", name, vec![repeated(library), repeated(plain)]);
    }
}

/// A question that needs no table.
fn date_texts() {
    for (name, texts) in [
        (
            "four texts of ten bytes, two of them refused",
            ["03/07/2024", "13-02-2099", "29.02.2023", "01/01/1999"],
        ),
        (
            "four texts of eight bytes, two of them refused",
            ["02/03/04", "29-02-28", "31.02.30", "02/03.04"],
        ),
    ] {
        let texts = texts.map(str::as_bytes);
        let library = || texts.map(|text| ffi::date(black_box(text)).expect("an answer"));
        let plain = || texts.map(|text| plain::date::read(black_box(text)));
        assert!(library() == plain(), "{DIFFER}");
        line("date", name, vec![repeated(library), repeated(plain)]);
    }
}

/// Sides whose calls leave nothing behind and can be repeated.
fn sides<'s, A: 's, B: 's, C: 's>(
    library: impl FnMut() -> A + 's,
    plain: impl FnMut() -> B + 's,
    keen: impl FnMut() -> C + 's,
) -> Vec<Side<'s>> {
    vec![repeated(library), repeated(plain), repeated(keen)]
}

/// A side that calls as often as it takes to make a sample.
fn repeated<'s, A: 's>(mut call: impl FnMut() -> A + 's) -> Side<'s> {
    let mut calls = 1;
    while timed(&mut call, calls) < SAMPLE {
        calls *= 2;
    }
    Box::new(move || timed(&mut call, calls).as_secs_f64() / f64::from(calls))
}

fn timed<A>(call: &mut impl FnMut() -> A, calls: u32) -> Duration {
    let start = Instant::now();
    for _ in 0..calls {
        black_box(call());
    }
    start.elapsed()
}

/// Measures the sides by turns, the library first, and prints its ratio to each other.
fn line(function: &str, name: &str, mut sides: Vec<Side>) {
    let start = Instant::now();
    sides.iter_mut().for_each(|side| {
        side();
    });
    let repetitions = (PER_LINE.as_nanos() / start.elapsed().as_nanos().max(1)) as usize;
    let repetitions = repetitions.clamp(LEAST, MOST) | 1;
    let mut times = vec![Vec::new(); sides.len()];
    for turn in 0..repetitions {
        // A different side goes first each time.
        for step in 0..sides.len() {
            let side = (turn + step) % sides.len();
            times[side].push(sides[side]());
        }
    }
    let medians: Vec<f64> = times.into_iter().map(median).collect();
    let ratios: Vec<String> =
        medians[1..].iter().map(|other| format!("{:.2}", medians[0] / other)).collect();
    // Where there is no keen version the last column says so.
    let keen = ratios.get(1).map_or("as plain", String::as_str);
    println!("| {function} | {name} | {} | {keen} |", ratios[0]);
}

fn median(mut times: Vec<f64>) -> f64 {
    times.sort_by(f64::total_cmp);
    times[times.len() / 2]
}
