//! The table of allowed pairs: its layout and the checks 1 to 6.

use crate::limits::{FIELDS, READINGS};
use crate::refusal::Refusal;

/// Words of a table of `n` fields.
pub fn words_for(n: usize) -> usize {
    n * n * READINGS
}

/// A word with its lowest `size` bits set: the readings a field of that size has.
pub fn readings_mask(size: usize) -> u32 {
    if size >= READINGS {
        u32::MAX
    } else {
        (1 << size) - 1
    }
}

/// The numbers of a word's ones, lowest first.
pub fn ones(mut word: u32) -> impl Iterator<Item = usize> {
    std::iter::from_fn(move || {
        if word == 0 {
            return None;
        }
        let b = word.trailing_zeros() as usize;
        word &= word - 1;
        Some(b)
    })
}

/// Sizes and words that belong together. Only lengths that have passed the
/// checks 1 to 3 may be put here.
#[derive(Clone, Copy)]
pub struct Table<'t> {
    pub sizes: &'t [u8],
    pub words: &'t [u32],
}

impl<'t> Table<'t> {
    /// The checks 1 to 6, in number order.
    pub fn checked(sizes: &'t [u8], words: &'t [u32]) -> Result<Table<'t>, Refusal> {
        check_sizes(sizes)?;
        check_length(sizes, words)?;
        let table = Table { sizes, words };
        table.check_strays()?;
        table.check_diagonal()?;
        table.check_mirror()?;
        Ok(table)
    }

    pub fn fields(&self) -> usize {
        self.sizes.len()
    }

    pub fn size(&self, i: usize) -> usize {
        usize::from(self.sizes[i])
    }

    /// Row `a` of cell (i, j).
    pub fn row(&self, i: usize, j: usize, a: usize) -> u32 {
        self.words[(i * self.fields() + j) * READINGS + a]
    }

    /// Whether reading `a` of field `i` goes with reading `b` of field `j`.
    pub fn allows(&self, i: usize, a: usize, j: usize, b: usize) -> bool {
        self.row(i, j, a) >> b & 1 == 1
    }

    pub fn is_empty(&self) -> bool {
        self.words.iter().all(|&word| word == 0)
    }

    /// Every row's place in table order, rows beyond a field's size included.
    pub fn places(&self) -> impl Iterator<Item = (usize, usize, usize)> {
        let n = self.fields();
        let cells = (0..n).flat_map(move |i| (0..n).map(move |j| (i, j)));
        cells.flat_map(|(i, j)| (0..READINGS).map(move |a| (i, j, a)))
    }

    fn first_row(
        &self,
        bad: impl Fn(usize, usize, usize) -> bool,
    ) -> Option<(usize, usize, usize)> {
        self.places().find(|&(i, j, a)| bad(i, j, a))
    }

    fn check_strays(&self) -> Result<(), Refusal> {
        let stray = |i, j, a| {
            let room = if a < self.size(i) { readings_mask(self.size(j)) } else { 0 };
            self.row(i, j, a) & !room != 0
        };
        self.first_row(stray).map_or(Ok(()), |row| Err(Refusal::row(4, row)))
    }

    fn check_diagonal(&self) -> Result<(), Refusal> {
        let off = |i, j, a| i == j && self.row(i, i, a) & !(1 << a) != 0;
        self.first_row(off).map_or(Ok(()), |row| Err(Refusal::row(5, row)))
    }

    fn check_mirror(&self) -> Result<(), Refusal> {
        let unlike = |i, j, a| self.row(i, j, a) != self.column(j, i, a);
        self.first_row(unlike).map_or(Ok(()), |row| Err(Refusal::row(6, row)))
    }

    /// Column `b` of cell (i, j) as a word, row 0 at bit 0. Check 4 has passed,
    /// so the rows beyond field i's size have nothing to add.
    fn column(&self, i: usize, j: usize, b: usize) -> u32 {
        (0..self.size(i)).fold(0, |word, a| word | u32::from(self.allows(i, a, j, b)) << a)
    }
}

/// Checks 1 and 2.
pub fn check_sizes(sizes: &[u8]) -> Result<(), Refusal> {
    if sizes.is_empty() || sizes.len() > FIELDS {
        return Err(Refusal::bare(1));
    }
    let bad = |size: &u8| *size == 0 || usize::from(*size) > READINGS;
    match sizes.iter().position(bad) {
        Some(field) => Err(Refusal::at(2, field)),
        None => Ok(()),
    }
}

/// Check 3; the sizes have passed check 1.
pub fn check_length(sizes: &[u8], words: &[u32]) -> Result<(), Refusal> {
    if words.len() == words_for(sizes.len()) {
        Ok(())
    } else {
        Err(Refusal::bare(3))
    }
}

/// A well-formed table that owns its words, for building one.
#[derive(Clone, PartialEq, Eq, Debug)]
pub struct Owned {
    pub sizes: Vec<u8>,
    pub words: Vec<u32>,
}

impl Owned {
    /// Everything allowed, diagonals full: how a sheet's table opens.
    pub fn open(sizes: &[u8]) -> Owned {
        let mut table = Owned { sizes: sizes.to_vec(), words: vec![0; words_for(sizes.len())] };
        for i in 0..sizes.len() {
            for j in 0..sizes.len() {
                for a in 0..usize::from(sizes[i]) {
                    let word = if i == j { 1 << a } else { readings_mask(usize::from(sizes[j])) };
                    let at = table.at(i, j, a);
                    table.words[at] = word;
                }
            }
        }
        table
    }

    pub fn view(&self) -> Table<'_> {
        Table { sizes: &self.sizes, words: &self.words }
    }

    /// The word that holds row `a` of cell (i, j).
    pub fn at(&self, i: usize, j: usize, a: usize) -> usize {
        (i * self.sizes.len() + j) * READINGS + a
    }

    /// Strikes one pair in its cell and in the mirror of it.
    pub fn strike(&mut self, i: usize, a: usize, j: usize, b: usize) {
        let (here, there) = (self.at(i, j, a), self.at(j, i, b));
        self.words[here] &= !(1 << b);
        self.words[there] &= !(1 << a);
    }

    /// Allows one pair in its cell and in the mirror of it.
    pub fn allow(&mut self, i: usize, a: usize, j: usize, b: usize) {
        let (here, there) = (self.at(i, j, a), self.at(j, i, b));
        self.words[here] |= 1 << b;
        self.words[there] |= 1 << a;
    }

    /// Keeps in cell (i, j) and its mirror only the pairs (a, b) that `keep` holds of.
    pub fn keep(&mut self, i: usize, j: usize, keep: impl Fn(usize, usize) -> bool) {
        for a in 0..usize::from(self.sizes[i]) {
            for b in 0..usize::from(self.sizes[j]) {
                if !keep(a, b) {
                    self.strike(i, a, j, b);
                }
            }
        }
    }
}
